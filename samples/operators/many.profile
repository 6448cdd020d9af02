@{D}=1 2 3 4 5 6 7 8
profile step {
  /runs/@{D}@{D}@{D}/** r,
}
