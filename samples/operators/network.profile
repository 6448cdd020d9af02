profile step {
  /data/** r,
  network inet stream,
}
