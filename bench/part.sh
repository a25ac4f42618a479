#!/bin/sh
# Times the proved part beside a model of the same machine in ordinary Rust, on the same traffic, in one run: the best of
# several turns of each, in turn. First both must print the same, for several numbers of rounds.
#
#     bench/part.sh [ROUNDS [TURNS]]
set -eu
cd "$(dirname "$0")/.."
rounds=${1:-20000}
turns=${2:-15}
work=${TMPDIR:-/tmp}/part-bench
mkdir -p "$work"

tools/build.sh partload
cargo build --quiet --release --manifest-path bench/part_baseline/Cargo.toml --target-dir "$work/target"
proved=crates/partload/out/partload
baseline=$work/target/release/part_baseline

"$proved" 0 1 30 500 50000 "$rounds" >"$work/proved.out"
"$baseline" 0 1 30 500 50000 "$rounds" >"$work/baseline.out"
cmp "$work/proved.out" "$work/baseline.out"
echo "both print the same: $(tail -n 1 "$work/proved.out")"

python3 - "$proved" "$baseline" "$rounds" "$turns" <<'P'
import subprocess, sys, time

def run(program, rounds):
    start = time.perf_counter()
    subprocess.run([program, rounds], stdout=subprocess.DEVNULL, check=True)
    return time.perf_counter() - start

proved, baseline, rounds, turns = sys.argv[1], sys.argv[2], sys.argv[3], int(sys.argv[4])
times = [(run(proved, rounds), run(baseline, rounds)) for _ in range(turns)]
ours, theirs = (min(column) * 1000 for column in zip(*times))
print(f"the proved part {ours:.0f} ms, the model {theirs:.0f} ms: {ours / theirs:.2f} times as long (best of {turns})")
P
