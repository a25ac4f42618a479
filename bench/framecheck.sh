#!/bin/sh
# Times framecheck beside an ordinary Rust program that does the same job, on one file, in one run: the best of several
# turns of each, in turn. First both must print the same, for that file and for the example.
#
#     bench/framecheck.sh [FRAMES [TURNS]]
set -eu
cd "$(dirname "$0")/.."
frames=${1:-100000}
turns=${2:-15}
work=${TMPDIR:-/tmp}/framecheck-bench
mkdir -p "$work"

tools/build.sh framecheck
cargo build --quiet --release --manifest-path bench/framecheck_baseline/Cargo.toml --target-dir "$work/target"
proved=crates/framecheck/out/framecheck
baseline=$work/target/release/framecheck_baseline

python3 bench/many_frames.py "$frames" >"$work/frames.txt"
for input in examples/frames.txt "$work/frames.txt"; do
    "$proved" <"$input" >"$work/proved.out"
    "$baseline" <"$input" >"$work/baseline.out"
    cmp "$work/proved.out" "$work/baseline.out"
done
echo "both print the same: $(tail -n 1 "$work/proved.out")"

python3 - "$proved" "$baseline" "$work/frames.txt" "$turns" <<'P'
import subprocess, sys, time

def run(program, path):
    with open(path, "rb") as frames:
        start = time.perf_counter()
        subprocess.run([program], stdin=frames, stdout=subprocess.DEVNULL, check=True)
        return time.perf_counter() - start

proved, baseline, path, turns = sys.argv[1], sys.argv[2], sys.argv[3], int(sys.argv[4])
times = [(run(proved, path), run(baseline, path)) for _ in range(turns)]
ours, theirs = (min(column) * 1000 for column in zip(*times))
print(f"framecheck {ours:.0f} ms, the other program {theirs:.0f} ms: {ours / theirs:.2f} times as long (best of {turns})")
P
