profile step {
  r /data/**,
}
