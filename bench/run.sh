#!/usr/bin/env bash
# Prints what mode `run` takes beside mode `plain`, in one run: processor time and wall time by 1, 2 and 4 workers, in chunks
# of 32 and of 1,024, for a copy of a million turns (there and back), a linked list of 300,000 nodes, a Seidel sweep of 1,000
# by 1,000, a triangle of 1,400 rows, 20,000 rows of a sparse matrix (each of sixteen words that an index array names), and a
# body of fifty operations. A run is measured RUNS times (3) and the least counts; what the same file takes with no step
# allowed (start, reading, the first memory) is taken off. Takes some minutes. The program is the one that ./nestrun builds,
# or what NESTRUN names.
set -eu
cd "$(dirname "$0")/.."
program=${NESTRUN:-crates/nest_main/out/nest_main}
[ -n "${NESTRUN:-}" ] || ./nestrun plain < examples/copy.nest > /dev/null
folder=$(mktemp -d)
trap 'rm -r "$folder"' EXIT

cat > "$folder/measure" << 'PY'
import os, resource, subprocess, sys, time

program, name, path, chunk = sys.argv[1:]
RUNS = int(os.environ.get("RUNS", "3"))
MOST = 10_000_000


def run_of(mode, steps, workers):
    """The processor seconds and the wall seconds of a run, and what it wrote."""
    before, start = resource.getrusage(resource.RUSAGE_CHILDREN), time.perf_counter()
    words = [program, mode, "--steps", str(steps), "--chunk", chunk, "--workers", str(workers)]
    with open(path, "rb") as source:
        done = subprocess.run(words, stdin=source, stdout=subprocess.PIPE)
    wall, after = time.perf_counter() - start, resource.getrusage(resource.RUSAGE_CHILDREN)
    assert done.returncode in (0, 11), done.returncode
    return after.ru_utime - before.ru_utime + after.ru_stime - before.ru_stime, wall, done.stdout


def least(mode, steps, workers=1):
    runs = [run_of(mode, steps, workers) for _ in range(RUNS)]
    return min(run[0] for run in runs), min(run[1] for run in runs), runs[0][2]


idle = least("plain", 0)
plain = least("plain", MOST)
print(f"{name}, chunk {chunk}: plain {plain[0] - idle[0]:.2f} s ({plain[1] - idle[1]:.2f} s wall)", flush=True)
for workers in (1, 2, 4):
    run = least("run", MOST, workers)
    print(f"  {workers} workers: {run[0] - idle[0]:.2f} s, {(run[0] - idle[0]) / (plain[0] - idle[0]):.1f} times plain; wall {run[1] - idle[1]:.2f} s", flush=True)
lines = run[2].decode().splitlines()
at = next(place for place, line in enumerate(lines) if line.startswith("steps "))
kinds = [line.split()[0] for line in lines[at + 1 :]]
phases = sum(int(line.split()[line.split().index("phases") + 1]) for line in lines[at + 1 :] if line.startswith("commit "))
told = ", ".join(f"{kinds.count(kind)} {kind}" for kind in dict.fromkeys(kinds) if kind != "nest")
print(f"  {lines[at]}; {told}; {phases} phases committed", flush=True)
PY

measure() {
  printf '%s' "$3" > "$folder/nest"
  python3 "$folder/measure" "$program" "$1" "$folder/nest" "$2"
}
copy="nest 2 memory 1000000 ramp 0 500000 1 7 0 for i = 0 below 500000 { [500000 + i] = [i] } for i = 0 below 500000 { [i] = [500000 + i] }"
list="nest 1 scalar p = 2 memory 600004 ramp 2 300000 2 4 2 while [p] { [p + 1] = [p + 1] + 1 p = [p] }"
sweep="nest 1 memory 1000000 ramp 0 1000000 1 5 0 for i = 1 below 999 { for j = 1 below 999 { [1000 * i + j] = ([1000 * i + j - 1000] + [1000 * i + j - 1] + [1000 * i + j] + [1000 * i + j + 1] + [1000 * i + j + 1000]) / 5 } } candidate { tile 1 8; tile 2 32; wave 1 2 }"
triangle="nest 1 memory 1048576 for i = 0 below 1400 { for j = 0 below i { [700 * i + j] = 1 } } candidate { seq 1; par 2; tile 2 32 }"
rows="nest 1 memory 1000001 ramp 20000 20001 1 0 16 ramp 40001 320000 1 680001 1 ramp 360001 640000 1 1 0 for i = 0 below 20000 { for k = [20000 + i] below [20001 + i] { [i] = [i] + [360001 + k] * [[40001 + k]] } }"
value="[i]"
for k in $(seq 1 17); do value="($value * 3 + $k) % 1000003"; done
body="nest 1 memory 400000 ramp 0 200000 1 7 1 for i = 0 below 200000 { [200000 + i] = $value }"
for chunk in 32 1024; do
  measure "a copy" $chunk "$copy"
  measure "a linked list" $chunk "$list"
  measure "a Seidel sweep" $chunk "$sweep"
  measure "a triangle" $chunk "$triangle"
  measure "rows by an index array" $chunk "$rows"
  measure "a body of fifty operations" $chunk "$body"
done
