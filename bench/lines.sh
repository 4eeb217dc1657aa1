#!/usr/bin/env bash
# How long `plan --text FILE` takes for 1,024 huts, beside bench/lines.rs, which does the same: the median of 21 runs each, whole processes, in
# turns, after their outputs have been compared. Three lists: all lines; a random tenth of them; many lines and no square, so that the whole
# search is done. Takes another program than crates/plan/out/plan as its argument.
set -eu
export LC_ALL=C
plan=${1:+$(realpath "$1")}
cd "$(dirname "$0")/.."
if [ -z "$plan" ]; then
  plan=crates/plan/out/plan
  [ -x $plan ] || (cd crates/plan && rt run -- 1 > /dev/null)
fi
place=$(mktemp -d)
trap 'rm -rf "$place"' EXIT
rust=$place/lines
rustc -O --edition 2024 -o "$rust" bench/lines.rs
runs=21

# The microseconds that a command takes.
took() {
  local start=${EPOCHREALTIME/./}
  "$@" > /dev/null
  echo $((${EPOCHREALTIME/./} - start))
}

median() { sort -n "$1" | sed -n "$(((runs + 1) / 2))p"; }

printf '%-6s %7s %12s %12s %6s\n' input lines plan Rust ratio
for kind in all tenth hard; do
  python3 bench/lines_reference.py --make $kind 1024 1 > "$place/$kind"
  "$plan" --text "$place/$kind" > "$place/by_plan"
  "$rust" --text "$place/$kind" > "$place/by_rust"
  cmp "$place/by_plan" "$place/by_rust"
  rm -f "$place"/*.times
  for ((i = 0; i < runs; i++)); do
    took "$plan" --text "$place/$kind" >> "$place/plan.times"
    took "$rust" --text "$place/$kind" >> "$place/rust.times"
    took /bin/true >> "$place/true.times"
  done
  p=$(median "$place/plan.times")
  r=$(median "$place/rust.times")
  printf '%-6s %7d %9d us %9d us %3d.%02d\n' $kind $(($(wc -l < "$place/$kind") - 1)) "$p" "$r" $((p / r)) $((p * 100 / r % 100))
done
printf '/bin/true, which does nothing: %d us\n' "$(median "$place/true.times")"
