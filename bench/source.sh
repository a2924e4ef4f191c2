#!/bin/sh
# Times `tsoc source`: steps per second of four loops at 1, 2 and 5 million steps, a step being a run of a thread or a
# drain. Then files of many nodes: it tries that a file of 80,000 nodes has a program and that one node more is
# refused, and times both, and a file of 4 MiB of comments around a short program.
# The loops: temporaries alone; globals, each a load or a store through the buffer; calls of a function; a local in
# memory, which begins and ends with each call.
# Usage: sh bench/source.sh        (KEEP=1 leaves the folder and prints its name)
set -eu
top=$(cd "$(dirname "$0")/.." && pwd)
work=$(mktemp -d)
[ "${KEEP:-0}" = 1 ] && echo "folder: $work" || trap 'rm -rf "$work"' EXIT
# The first call builds the program.
"$top/tsoc" source "$top/examples/store_buffering.c" "$top/examples/store_buffering.sched" > "$work/log"
cd "$work"
python3 - "$top/tsoc" <<'CODE'
import subprocess, sys, time

TSOC = sys.argv[1]
LOOPS = {
    "temporaries": "int main(void) { int a; a = 0; while (1) a = a + 1; return 0; }\n",
    "globals": "int x, y; int main(void) { while (1) { x = x + 1; y = x; } return 0; }\n",
    "calls": "int f(int a) { return a + 1; } int main(void) { int a; a = 0; while (1) a = f(a); return 0; }\n",
    "a local in memory": "void f(int a) { int v; int *p; p = &v; *p = a; } int main(void) { while (1) f(1); return 0; }\n",
}

def played(text, schedule):
    """The seconds, the status and the output of a replay."""
    with open("in.c", "w") as file:
        file.write(text)
    with open("in.sched", "w") as file:
        file.write(schedule)
    start = time.perf_counter()
    ran = subprocess.run([TSOC, "source", "in.c", "in.sched"], stdout=subprocess.PIPE, text=True)
    return time.perf_counter() - start, ran.returncode, ran.stdout

for name, text in LOOPS.items():
    for steps in [1_000_000, 2_000_000, 5_000_000]:
        took, status, out = played(text, "auto 0 %d\n" % steps)
        assert (status, out) == (0, "end running\n"), (status, out)
        print("%s: %d steps in %.2f s, %.0f a second" % (name, steps, took, steps / took), flush=True)

# What a function of 8,000 nodes has in its body, whose block is one of them, and how many nodes each of it has.
BODIES = {
    "empty statements": (";", 1),
    "sums": ("g = g + 1;\n", 6),
    "ifs that stand beside each other": ("if (g) ;\n", 3),
    "calls": ("f0();\n", 3),
}

def many(piece, nodes, end):
    """Ten functions of 8,000 nodes each, and what stands behind them."""
    count = 7999 // nodes
    body = piece * count + ";" * (7999 - count * nodes)
    heads = ["void f%d(void)" % k for k in range(9)] + ["int main(void)"]
    return "int g;\n" + "".join("%s {\n%s\n}\n" % (head, body) for head in heads) + end

for name, (piece, nodes) in BODIES.items():
    text = many(piece, nodes, "")
    took, status, out = played(text, "")
    assert (status, out) == (0, "end running\n"), (status, out)
    print("80,000 nodes, %s: %d bytes opened in %.2f s" % (name, len(text), took), flush=True)
    text = many(piece, nodes, "int one = 1;\n")
    took, status, out = played(text, "")
    assert (status, out) == (8, "too large: count 6, byte %d\n" % len(text)), (status, out)
    print("80,001 nodes, %s: %d bytes refused in %.2f s" % (name, len(text), took), flush=True)

short = "int main(void) { return 7; }"
text = short + "//" + "-" * (4_194_304 - len(short) - 2)
took, status, out = played(text, "auto 0 4\n")
assert (status, out) == (0, "exit 7\nend exited\n"), (status, out)
print("a comment: %d bytes played in %.2f s" % (len(text), took))
CODE
