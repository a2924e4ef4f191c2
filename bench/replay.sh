#!/bin/sh
# Times `tsoc target`: steps per second of four loops at 1, 2, 5 and 10 million steps, and of the second on this
# processor under `valgrind --tool=none` where it, `as` and `ld` are there. A step is a run of a thread or a drain.
# The loops: registers alone; a load, an addition and a store; calls of a function; the same calls in a text of 64
# externals.
# Usage: sh bench/replay.sh        (KEEP=1 leaves the folder and prints its name)
set -eu
top=$(cd "$(dirname "$0")/.." && pwd)
work=$(mktemp -d)
[ "${KEEP:-0}" = 1 ] && echo "folder: $work" || trap 'rm -rf "$work"' EXIT
# The first call builds the program.
"$top/tsoc" target "$top/examples/store_buffering.s" "$top/examples/store_buffering.sched" > "$work/log"
cd "$work"
python3 - "$top/tsoc" <<'CODE'
import shutil, subprocess, sys, time

TSOC = sys.argv[1]
LOOPS = {
    "registers": "main:\n\taddl $1, %eax\n\tcmpl $0, %eax\n\tjne main\n\tret\n",
    "memory": ".data\nx:\n\t.long 0\n.text\nmain:\n\tmovl x, %eax\n\taddl $1, %eax\n\tmovl %eax, x\n\tjmp main\n",
    "calls": "main:\n\tcall f\n\tjmp main\nf:\n\tret\n",
}
LOOPS["calls, 64 externals"] = "".join("# extern e%d 1\n" % k for k in range(64)) + LOOPS["calls"]

def seconds(words):
    start = time.perf_counter()
    ran = subprocess.run(words, stdout=subprocess.PIPE, text=True)
    return time.perf_counter() - start, ran.stdout

for name, text in LOOPS.items():
    with open("loop.s", "w") as file:
        file.write(text)
    for steps in [1_000_000, 2_000_000, 5_000_000, 10_000_000]:
        with open("loop.sched", "w") as file:
            file.write("auto 0 %d\n" % steps)
        took, out = seconds([TSOC, "target", "loop.s", "loop.sched"])
        assert out == "end running\n", out
        print("%s: %d steps in %.2f s, %.0f a second" % (name, steps, took, steps / took), flush=True)

# The loop over memory so many times, as a program of this processor.
NATIVE = """.data
x:
	.long 0
.text
.globl _start
_start:
	movl $%d, %%ecx
main:
	movl x, %%eax
	addl $1, %%eax
	movl %%eax, x
	subl $1, %%ecx
	jne main
	movl $1, %%eax
	movl $0, %%ebx
	int $0x80
"""

def native(turns):
    with open("native.s", "w") as file:
        file.write(NATIVE % turns)
    subprocess.run(["as", "--32", "-o", "native.o", "native.s"], check=True)
    subprocess.run(["ld", "-m", "elf_i386", "-o", "native", "native.o"], check=True)
    return seconds(["valgrind", "-q", "--tool=none", "./native"])[0]

if all(shutil.which(command) for command in ["valgrind", "as", "ld"]):
    try:
        # The difference of two runs leaves valgrind's own beginning out.
        took = native(110_000_000) - native(10_000_000)
        print("valgrind --tool=none: 500000000 instructions in %.2f s, %.0f a second" % (took, 500_000_000 / took))
    except (OSError, subprocess.CalledProcessError) as fault:
        print("no run under valgrind: %s" % fault)
CODE
