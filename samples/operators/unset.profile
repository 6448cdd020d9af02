@{RUN}=/runs/a/ /runs/b/
profile step {
  @{RUNS}in/* r,
}
