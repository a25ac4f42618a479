#!/bin/sh
# Plays every run file of this folder on both benches, prints the lines of each, and compares them with the expected ones beside
# it (NAME.nv and NAME.mr). NAME.txt tells what happens in it; bench/pack_run.py makes NAME.run from that. The benches are proved
# and built first.
#
#     examples/play.sh
set -eu
here=$(dirname "$0")
"$here/../tools/build.sh" nvbench mrbench
for run in "$here"/*.run; do
  for bench in nv mr; do
    expected=${run%.run}.$bench
    echo "== $(basename "$run") on ${bench}bench"
    lines=$("$here/../crates/${bench}bench/out/${bench}bench" <"$run" && echo .)
    printf "%s" "${lines%.}"
    printf "%s" "${lines%.}" | cmp - "$expected"
  done
done
echo "all as expected"
