#!/bin/sh
# Proves programs and builds them; the program NAME then stands as crates/NAME/out/NAME.
#
#     tools/build.sh NAME..
set -eu
cd "$(dirname "$0")/../crates"
for name in "$@"; do
  log=$(mktemp)
  (cd "$name" && rt run </dev/null >"$log" 2>&1) || { tail -n 40 "$log"; exit 1; }
  rm -f "$log"
done
