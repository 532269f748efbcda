#!/bin/sh
# Compares the words of the rows of instructions with those that an assembler makes of the text behind each word. A row is a
# line 'word 0xWWWWWWWW TEXT' of crates/bcj_machine_rows/stdin, with TEXT in GNU as's syntax and the target of a jump or a
# branch as its distance in bytes. It takes GNU as for RISC-V, or else LLVM's llvm-mc, and is skipped where neither is
# installed. It ends with 1 where a word differs or there is no row.
set -eu
cd "$(dirname "$0")/.."
for tool in riscv64-unknown-elf-as riscv64-linux-gnu-as riscv32-unknown-elf-as llvm-mc; do
    if command -v "$tool" > /dev/null 2>&1; then
        if [ "$tool" = llvm-mc ] && ! llvm-mc --version | grep -q riscv32; then
            continue
        fi
        exec python3 - "$tool" crates/bcj_machine_rows/stdin <<'PYTHON'
import os, re, subprocess, sys, tempfile

tool, rows_name = sys.argv[1:]

def by_llvm(lines):
    run = subprocess.run([tool, "--triple=riscv32", "--mattr=+m", "--show-encoding"], input="\n".join(lines) + "\n",
                         stdout=subprocess.PIPE, text=True, check=True)
    found = re.findall(r"encoding: \[([^\]]*)\]", run.stdout)
    return [int.from_bytes(bytes(int(b, 16) for b in f.split(",")), "little") for f in found]

def by_gnu(lines):
    # GNU as takes the target of a jump or a branch as an address: '. + n' is n behind the instruction.
    fixed = [re.sub(r"^(jal|beq|bne|blt|bge|bltu|bgeu)\b(.*,) *(-?\d+)$", r"\1\2 . + \3", line) for line in lines]
    with tempfile.TemporaryDirectory() as folder:
        made, raw = os.path.join(folder, "a.o"), os.path.join(folder, "a.bin")
        text = ".option norelax\n.option norvc\n" + "\n".join(fixed) + "\n"
        subprocess.run([tool, "-march=rv32im_zifencei", "-mabi=ilp32", "-o", made], input=text, text=True, check=True)
        subprocess.run([tool[:-2] + "objcopy", "-O", "binary", "-j", ".text", made, raw], check=True)
        data = open(raw, "rb").read()
    return [int.from_bytes(data[i:i + 4], "little") for i in range(0, len(data), 4)]

rows = []
if os.path.exists(rows_name):
    for line in open(rows_name, encoding="utf-8"):
        row = re.match(r"word 0x([0-9a-f]{8}) (.*)$", line)
        if row:
            rows.append((int(row[1], 16), row[2]))
if not rows:
    sys.exit(f"no row of a word in {rows_name}")
texts = [text for _, text in rows]
made = by_llvm(texts) if tool == "llvm-mc" else by_gnu(texts)
if len(made) != len(rows):
    sys.exit(f"{tool} made {len(made)} words of {len(rows)} rows")
wrong = [(text, f"{word:08x}", f"{other:08x}") for (word, text), other in zip(rows, made) if word != other]
for row in wrong:
    print("differs:", *row)
print(f"{len(rows)} words, {len(wrong)} differ, by {tool}")
sys.exit(1 if wrong else 0)
PYTHON
    fi
done
echo "skipped: no assembler for RISC-V is installed"
