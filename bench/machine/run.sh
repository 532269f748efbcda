#!/bin/sh
# Compares the proved machine with the same machine in plain Rust, over a loop of 10^8 instructions: instructions retired a
# second of each, and the ratio. Needs rt, rustc and python3; it is no part of the gate.
set -eu
here=$(cd "$(dirname "$0")" && pwd)
top=$(cd "$here/../.." && pwd)
work=${1:-$(mktemp -d)}
mkdir -p "$work/crates"
cp "$top/HANDLES" "$work/"
for crate in rv_isa bcj_edge rv_machine; do
    mkdir -p "$work/crates/$crate"
    cp -r "$top/crates/$crate/." "$work/crates/$crate/"
done
mkdir -p "$work/crates/bench_machine/src"
cp "$here/main.rt.txt" "$work/crates/bench_machine/src/main.rt"
grep -E '^(rv_isa|bcj_edge|rv_machine):' "$top/crates.txt" > "$work/crates.txt"
echo 'bench_machine: rv_machine bcj_edge' >> "$work/crates.txt"
(cd "$work/crates/bench_machine" && rt run --jobs 1)
rustc -O -o "$work/plain" "$here/plain.rs"
python3 - "$work/crates/bench_machine/out/bench_machine" "$work/plain" <<'PYTHON'
import resource, subprocess, sys

def rate(program):
    best = None
    for _ in range(5):
        before = resource.getrusage(resource.RUSAGE_CHILDREN).ru_utime
        retired = int(subprocess.run([program], capture_output=True, check=True).stdout.split()[0])
        spent = resource.getrusage(resource.RUSAGE_CHILDREN).ru_utime - before
        best = max(best or 0, retired / spent)
    return best

proved, plain = rate(sys.argv[1]), rate(sys.argv[2])
print(f"proved {proved / 1e6:.0f} million instructions a second")
print(f"plain  {plain / 1e6:.0f} million instructions a second")
print(f"ratio  {proved / plain:.2f}")
PYTHON
