#!/usr/bin/env bash
# How long `plan 1024` takes, beside `seq` printing as many lines and `true` doing nothing: the mean of 500 runs each, in the same run.
set -eu
cd "$(dirname "$0")/.."
plan=crates/plan/out/plan
[ -x $plan ] || (cd crates/plan && rt run -- 1 > /dev/null)
runs=500
for command in "$plan 1024" "seq 2046" "/bin/true"; do
  start=$(date +%s%N)
  for ((i = 0; i < runs; i++)); do $command > /dev/null; done
  end=$(date +%s%N)
  printf '%-26s %6d us\n' "$command" $(((end - start) / runs / 1000))
done
