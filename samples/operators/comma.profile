profile step {
  /data/** r
  /bin/cat ix,
}
