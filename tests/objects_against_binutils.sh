#!/bin/sh
# Compiles the sources of tests/objects, each against all others, and has readelf and objdump of binutils for RISC-V read the objects: readelf
# must find nothing to complain of, and each instruction that objdump prints must be that of the listing of bcj_listing, word by word. Both
# programs are built first where they are missing. It is skipped where the tools aren't installed, and ends with 1 at any difference.
set -eu
cd "$(dirname "$0")/.."
for prefix in riscv64-unknown-elf- riscv64-linux-gnu- riscv32-unknown-elf-; do
    if command -v "${prefix}objdump" > /dev/null 2>&1 && command -v "${prefix}readelf" > /dev/null 2>&1; then
        [ -x crates/bcj_listing/out/bcj_listing ] || ./build bcj_listing
        work=$(mktemp -d)
        trap 'rm -rf "$work"' EXIT
        for source in tests/objects/*.java; do
            others=
            for other in tests/objects/*.java; do
                [ "$other" = "$source" ] || others="$others $other"
            done
            # The names have no blanks.
            # shellcheck disable=SC2086
            ./bcjc "$work/$(basename "$source" .java).o" "$source" $others
        done
        exec python3 - "$prefix" "$work" crates/bcj_listing/out/bcj_listing <<'PYTHON'
import glob, os, re, subprocess, sys

prefix, folder = sys.argv[1:3]
listing = os.path.abspath(sys.argv[3])

# Where objdump prints the address that a jump or a branch goes to, or a number in another base, the listing has the distance.
def same_form(at, text):
    name, _, operands = text.partition(" ")
    operands = operands.strip()
    target = re.match(r"^(.*,|)([0-9a-f]+) <[^>]*>$", operands)
    if target and name in ("jal", "beq", "bne", "blt", "bge", "bltu", "bgeu"):
        operands = f"{target[1]}{int(target[2], 16) - at}"
    parts = [p.strip() for p in operands.split(",")] if operands else []
    return [name] + [str(int(p, 16)) if re.fullmatch(r"0x[0-9a-f]+", p) else p for p in parts]

def objdump(name):
    run = subprocess.run([prefix + "objdump", "-d", "-M", "no-aliases,numeric", name], capture_output=True, text=True, check=True)
    found = {}
    for line in run.stdout.splitlines():
        row = re.match(r"^\s*([0-9a-f]+):\t([0-9a-f]{8})\s+\t?(.*)$", line)
        if row:
            text = row[3].split("#")[0].replace("\t", " ").strip()
            found[int(row[1], 16)] = (row[2], text)
    return run.stderr, found

def complaints(name):
    run = subprocess.run([prefix + "readelf", "-W", "-a", name], capture_output=True, text=True)
    lines = [line for line in (run.stdout + run.stderr).splitlines() if "(unknown)" not in line]
    said = [line for line in lines if re.search(r"\b(warning|error|corrupt|unrecogni[sz]ed|unknown)\b", line, re.I)]
    return said + ([f"readelf ended with {run.returncode}"] if run.returncode else [])

words = wrong = 0
objects = sorted(glob.glob(os.path.join(folder, "*.o")))
for name in objects:
    own = subprocess.run([listing, os.path.basename(name)], cwd=folder, capture_output=True, text=True, check=True).stdout.splitlines()
    said, other = objdump(name)
    for line in complaints(name) + said.splitlines():
        print("complaint:", os.path.basename(name), line)
        wrong += 1
    if len(own) != len(other):
        print("differs:", os.path.basename(name), len(own), "words listed,", len(other), "by objdump")
        wrong += 1
    for line in own:
        at, word, text = line.split(" ", 2)
        words += 1
        there = other.get(int(at), ("", ""))
        if there[0] != word or same_form(int(at), text.replace(", ", ",")) != same_form(int(at), there[1]):
            print("differs:", os.path.basename(name), line, "beside", *there)
            wrong += 1
print(f"{len(objects)} objects, {words} words, {wrong} differences, by {prefix}binutils")
sys.exit(1 if wrong or not words else 0)
PYTHON
    fi
done
echo "skipped: no binutils for RISC-V are installed"
