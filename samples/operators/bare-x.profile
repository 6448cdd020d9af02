profile step {
  /data/** r,
  /bin/* rx,
}
