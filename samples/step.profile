@{RUN}=/runs/a/ /runs/b/
profile step {
  @{RUN}in/* r,
  owner @{RUN}out/** rw,
  audit deny /runs/*/out/lock w,
  /bin/cat ix,
  /bin/* px -> tool,
}
