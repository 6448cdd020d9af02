profile step {
  /data/** r,
  /bin/cat ix,
  /bin/* px -> to