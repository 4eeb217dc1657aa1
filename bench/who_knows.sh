#!/usr/bin/env bash
# Builds the proved `who_knows` as a static library, links it to bench/who_knows.rs, and runs it: what it says is compared
# with two independent implementations on many lists of calls, and then how long each takes, in the same run.
set -eu
cd "$(dirname "$0")/.."
kit=$(dirname "$(rt doc)")
(cd crates/exports && rt lib > /dev/null)
place=$(mktemp -d)
trap 'rm -rf "$place"' EXIT
rustc -O --edition 2024 -o "$place/who_knows" bench/who_knows.rs -L crates/exports/out -l static=exports -L "$kit/c" -l static=libc_c
"$place/who_knows"
