profile step {
  /data/** r,
}
profile step {
  /bin/cat ix,
}
