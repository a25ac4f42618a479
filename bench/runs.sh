#!/bin/sh
# Compares nvbench and mrbench with bench/run_model, a model of the same machine in ordinary Rust that was written from docs/
# alone, on pseudo-random run files: mostly whole sessions, some of them damaged.
#
#     bench/runs.sh compare [COUNT [SEED]]    COUNT files (100,000), in portions of 10,000; then what they reached
#     bench/runs.sh edges                     inputs at the limits: empty, too long, endless, tables that lie
#     bench/runs.sh speed [TURNS]             a file of 65,535 bytes of dense traffic, both timed
#     bench/runs.sh gate                      writes the input and the expected output of the program manyruns
set -eu
cd "$(dirname "$0")/.."
work=${TMPDIR:-/tmp}/run-bench
mkdir -p "$work"
cargo build --quiet --release --offline --manifest-path bench/run_model/Cargo.toml --target-dir "$work/target"
model=$work/target/release/run_model
tools/build.sh nvbench mrbench
nv=crates/nvbench/out/nvbench
mr=crates/mrbench/out/mrbench

compare() {
  left=${1:-100000}
  seed=${2:-1}
  rm -rf "$work/tallies"
  mkdir -p "$work/tallies"
  while [ "$left" -gt 0 ]; do
    count=$((left < 10000 ? left : 10000))
    rm -rf "$work/files"
    "$model" make "$seed" "$count" "$work/files"
    echo "seed $seed: $("$model" compare "$work/files" "$nv" "$mr")"
    for bench in nv mr; do
      find "$work/files" -type f -print0 | sort -z | xargs -0 "$model" tally "$bench" >"$work/tallies/$bench.$seed"
    done
    left=$((left - count))
    seed=$((seed + 1))
  done
  for bench in nv mr; do
    echo "== reached on $bench"
    awk '{ n = $NF; $NF = ""; if (!($0 in sum)) order[++k] = $0; sum[$0] += n } END { for (i = 1; i <= k; i++) print order[i] sum[order[i]] }' "$work/tallies/$bench".*
  done
}

# Plays an input on both benches. Both must end with status 0, print what the model prints, and use little memory.
edge() {
  name=$1
  shift
  for bench in nv mr; do
    "$@" | /usr/bin/env python3 -c '
import resource, subprocess, sys
done = subprocess.run([sys.argv[1]], stdin=sys.stdin.buffer, capture_output=True)
most = resource.getrusage(resource.RUSAGE_CHILDREN).ru_maxrss
assert done.returncode == 0, done
open(sys.argv[2], "wb").write(done.stdout)
print(f"{sys.argv[3]} on {sys.argv[4]}bench: {done.stdout[:40]!r}, {most} kB at most")
' "crates/${bench}bench/out/${bench}bench" "$work/edge.out" "$name" "$bench"
    "$@" | "$model" "$bench" | cmp - "$work/edge.out"
  done
}

edges() {
  edge "no byte" true
  edge "one byte" printf '\0'
  edge "a count of 0" printf '\0\0'
  edge "65,535 zeros" head -c 65535 /dev/zero
  edge "65,536 zeros" head -c 65536 /dev/zero
  edge "1 GB of zeros" head -c 1000000000 /dev/zero
  edge "a count of 1,024, no table" printf '\4\0'
  edge "1,024 records" python3 -c 'import sys; sys.stdout.buffer.write((1024).to_bytes(2,"big") + b"".join((4098+i).to_bytes(2,"big") + b"\0\1" for i in range(1024)) + b"P"*1024)'
  edge "1,025 records" python3 -c 'import sys; sys.stdout.buffer.write((1025).to_bytes(2,"big") + b"".join((4102+i).to_bytes(2,"big") + b"\0\1" for i in range(1025)) + b"P"*1025)'
  edge "a record in the table" printf '\0\1\0\2\0\1'
  edge "a record past the end" printf '\0\1\0\6\0\2P'
  edge "offset and length past 65,535" printf '\0\1\377\377\377\377P'
  edge "records out of order" printf '\0\2\0\13\0\1\0\12\0\1PP'
  edge "random bytes" python3 -c 'import random, sys; random.seed(7); sys.stdout.buffer.write(random.randbytes(50000))'
}

speed() {
  python3 - "$model" "${1:-60}" <<'P'
import subprocess, sys, time

def run(command, data):
    start = time.perf_counter()
    subprocess.run(command, input=data, stdout=subprocess.DEVNULL, check=True)
    return time.perf_counter() - start

model, turns = sys.argv[1], int(sys.argv[2])
for bench in ("nv", "mr"):
    dense = subprocess.run([model, "dense", bench], stdout=subprocess.PIPE, check=True).stdout
    ours, theirs = [f"crates/{bench}bench/out/{bench}bench"], [model, bench]
    assert subprocess.run(ours, input=dense, stdout=subprocess.PIPE).stdout == subprocess.run(theirs, input=dense, stdout=subprocess.PIPE).stdout
    times = [(run(ours, dense), run(ours, b""), run(theirs, dense), run(theirs, b"")) for _ in range(turns)]
    a, a0, b, b0 = (min(column) * 1000 for column in zip(*times))
    print(f"{bench}bench, {len(dense)} bytes: {a:.2f} ms, the model {b:.2f} ms: {a / b:.2f} times as long; "
          f"without the start of the process {a - a0:.2f} ms and {b - b0:.2f} ms: {(a - a0) / (b - b0):.2f} times (best of {turns})")
P
}

gate() {
  rm -rf "$work/gate"
  "$model" make 2026 900 "$work/gate"
  files=$(find "$work/gate" -type f -size -1501c | sort | head -n 400)
  # shellcheck disable=SC2086
  "$model" pack $files examples/*.run >crates/manyruns/stdin
  # shellcheck disable=SC2086
  "$model" digest $files examples/*.run >crates/manyruns/stdout
}

command=${1:-compare}
[ $# -eq 0 ] || shift
"$command" "$@"
