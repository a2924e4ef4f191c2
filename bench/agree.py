#!/usr/bin/env python3
"""Compares `tsoc` with a second, independent reading of the same language and machine, on random files.

    python3 bench/agree.py compile PROGRAM SECOND TRIALS SEED [--built grammar|types|all] [--keep FOLDER]
    python3 bench/agree.py source  PROGRAM SECOND TRIALS SEED [--keep FOLDER]
    python3 bench/agree.py target  PROGRAM SECOND TRIALS SEED [--keep FOLDER]

PROGRAM is the built `tsoc`. SECOND is a folder with the second reading, which is no part of this repository: four
scripts of Python 3 that write to standard output and end with the number of a status of `tsoc`, with its line.

    csource.py check FILE             a refusal of a C file with its place, or `accepted`
    csource.py source FILE SCHED      the replay of a schedule on a C file
    xtarget.py target ASM SCHED       the replay of a schedule on an assembly text
    gen_c.py program|mutant SEED      a random C file, or a broken one; with --threads, --effects, --unsafe
    gen_c.py schedule SEED N LINES    a random schedule for N threads
    gen_asm.py text|broken SEED       a random assembly text, or a broken one

`compile` compares the answers up to what is built: of the statuses below 'built' the line has to be the same, and
where the second reading comes further the program has to say Done or `not built`. `source` and `target` compare
every line and the status. Each difference is printed with the seed of its trial, and its files are kept in FOLDER; a
trial on which the second reading takes too long is left out. The status is 1 where there was a difference.

The gate does not run this.
"""
import argparse
import collections
import pathlib
import random
import subprocess
import sys
import tempfile

# The seconds that one run of either side may take.
PATIENCE = 60

DONE, NOT_BUILT = 0, 13

# The fronts of the lines that the program has to print as they are, by what is built.
TOLD = {
    "grammar": ("too long", "syntax", "too deep"),
    "types": ("too long", "syntax", "too deep", "types", "too large"),
    "all": ("",),
}

# What may stand between two tokens, and what may not.
GAPS = [" ", "\t", "\n", "\r\n", "\x0b", "\x0c", "/**/", "/* ; */", "// {\n", "\n# 1 \"a.c\"\n", "\n  #2\n"]
ODD = ["\x00", "@", "\\", "\"", "'", "#", "/*", "*/", "//", "\x80", "\xff", "0x", "08", "4294967296", "'ab'", "..."]

# What may spoil a schedule.
SPOILERS = ["x", "-", " 7", "\n", "walk 1\n", "run 0 5\n", "\r"]

# Files that nest: what stands before, again and again before, within, again and again behind, and behind.
NESTS = [
    ("int main(void) { return ", "(", "7", ")", "; }"),
    ("int main(void) { return ", "-(", "7", ")", "; }"),
    ("int main(void) { return ", "! ", "7", "", "; }"),
    ("int main(void) { return ", "(int)", "7", "", "; }"),
    ("int main(void) { return ", "sizeof ", "7", "", "; }"),
    ("int main(void) { return ", "x ? 1 : ", "7", "", "; }"),
    ("int main(void) { x ", "= x ", "= 7", "", "; }"),
    ("int main(void) { return a", "[0]", "", "", "; }"),
    ("int main(void) { return a", "[a", "[0]", "]", "; }"),
    ("int main(void) { return f", "(f", "()", ")", "; }"),
    ("int main(void) ", "{", ";", "}", ""),
    ("int main(void) { ", "if (1) ", ";", "", "}"),
    ("int main(void) { ", "while (1) { ", ";", "}", "}"),
    ("int main(void) { ", "if (1) ; else ", ";", "", "}"),
    ("int main(void) { ", "do ", ";", " while (1);", "}"),
    ("int ", "*", "p", "", ";"),
    ("int ", "(", "p", ")", ";"),
    ("int ", "(*", "p", ")(void)", ";"),
    ("int p", "[2]", "", "", ";"),
    ("int f(", "int (", "int", ")", ");"),
    ("int x = sizeof(int ", "*", "", "", ");"),
    ("", "struct { ", "int x;", " } y;", " z;"),
    ("int x = ", "{", "7", "}", ";"),
]


class Second:
    """The second reading: its folder, and runs of its scripts."""

    def __init__(self, folder):
        self.folder = pathlib.Path(folder)

    def run(self, script, *words):
        """The status and the output of a script, or None where it takes too long."""
        return answer([sys.executable, self.folder / script, *map(str, words)])

    def text(self, script, *words):
        """What a script writes, or no bytes where it takes too long."""
        got = self.run(script, *words)
        return got[1] if got else b""


def answer(command):
    """The status and the output of a command, or None where it takes too long."""
    try:
        done = subprocess.run(command, stdout=subprocess.PIPE, timeout=PATIENCE, check=False)
    except subprocess.TimeoutExpired:
        return None
    return done.returncode, done.stdout


def form_file(chance):
    """A file of the form `int main(void) { return N; }`, with random gaps."""
    number = str(chance.choice([0, 7, 10, 2147483647, chance.getrandbits(31)]))
    apart = {"main", number}
    text = "".join(gap(chance, word in apart) + word for word in
                   ["int", "main", "(", "void", ")", "{", "return", number, ";", "}"])
    return (text + gap(chance, False)).encode("latin-1")


def gap(chance, needed):
    """A few pieces that may stand between two tokens."""
    return "".join(chance.choice(GAPS) for _ in range(chance.randrange(3) + needed))


def nested_file(chance):
    """A file that nests at about the limit of 200, perhaps cut off."""
    before, front, within, back, behind = chance.choice(NESTS)
    count = chance.choice([chance.randrange(1, 260), chance.randrange(95, 105), chance.randrange(190, 205)])
    text = (before + front * count + within + back * count + behind).encode("latin-1")
    return text[:chance.randrange(len(text))] if chance.random() < 0.3 else text


def with_pieces(chance, text, pieces):
    """The text with one to three pieces put in at random bytes of it."""
    for _ in range(chance.randrange(1, 4)):
        place = chance.randrange(len(text) + 1)
        text = text[:place] + chance.choice(pieces).encode("latin-1") + text[place:]
    return text


def c_file(second, seed):
    """A random C file, and whether it is made to be of the form."""
    chance = random.Random(seed)
    options = [word for word in ("--threads", "--effects") if chance.random() < 0.3]
    kind = chance.randrange(10)
    if kind < 2:
        return second.text("gen_c.py", "program", seed, *options), False
    if kind < 5:
        return second.text("gen_c.py", "mutant", seed, *options), False
    if kind == 5:
        return with_pieces(chance, second.text("gen_c.py", "program", seed, *options), GAPS + ODD), False
    if kind == 6:
        return form_file(chance), True
    if kind == 7:
        return with_pieces(chance, form_file(chance), GAPS + ODD + list("0;){}(")), False
    return nested_file(chance), False


def same_compile(built, is_form, mine, other):
    """Whether both answers to a C file agree, up to what is built."""
    line = other[1].decode("latin-1")
    if other[0] != DONE and line.startswith(TOLD[built]):
        return mine == other
    if built == "all" or is_form:
        return mine == (DONE, b"")
    return mine in ((DONE, b""), (NOT_BUILT, b"not built\n"))


def try_compile(options, second, folder, seed):
    """The answers of both sides to a random C file, and whether they agree."""
    source, output = folder / "in.c", folder / "out.s"
    text, is_form = c_file(second, seed)
    source.write_bytes(text)
    other = second.run("csource.py", "check", source)
    if other is None:
        return None
    mine = answer([options.program, "compile", source, output])
    agree = mine is not None and same_compile(options.built, is_form, mine, other)
    return mine, other, agree and output.exists() == (mine[0] == DONE)


def schedule_file(second, chance, seed):
    """A random schedule, perhaps a spoiled one."""
    lines = second.text("gen_c.py", "schedule", seed, chance.randrange(1, 5), chance.randrange(60))
    return with_pieces(chance, lines, SPOILERS) if chance.random() < 0.1 else lines


def played_file(second, chance, seed):
    """A random C file for a schedule: most have a program, and of these some go wrong."""
    shares = [("--threads", 0.6), ("--effects", 0.1), ("--unsafe", 0.4)]
    options = [word for word, share in shares if chance.random() < share]
    text = second.text("gen_c.py", "mutant" if chance.random() < 0.2 else "program", seed, *options)
    return with_pieces(chance, text, GAPS + ODD) if chance.random() < 0.05 else text


def try_source(options, second, folder, seed):
    """The answers of both sides to a random C file and schedule, and whether they agree."""
    chance = random.Random(seed)
    source, schedule = folder / "in.c", folder / "in.sched"
    source.write_bytes(played_file(second, chance, seed))
    schedule.write_bytes(schedule_file(second, chance, seed))
    other = second.run("csource.py", "source", source, schedule)
    if other is None:
        return None
    mine = answer([options.program, "source", source, schedule])
    return mine, other, mine == other


def try_target(options, second, folder, seed):
    """The answers of both sides to a random assembly text and schedule, and whether they agree."""
    chance = random.Random(seed)
    text, schedule = folder / "in.s", folder / "in.sched"
    text.write_bytes(second.text("gen_asm.py", chance.choice(["text", "text", "broken"]), seed))
    schedule.write_bytes(schedule_file(second, chance, seed))
    other = second.run("xtarget.py", "target", text, schedule)
    if other is None:
        return None
    mine = answer([options.program, "target", text, schedule])
    return mine, other, mine == other


# The trial of each command.
TRIALS = {"compile": try_compile, "source": try_source, "target": try_target}


def shown(got):
    """An answer in one line."""
    if got is None:
        return "no answer in time"
    lines = got[1].decode("latin-1").splitlines()
    return f"status {got[0]}, {len(lines)} lines, the last {lines[-1] if lines else None!r}"


def keep(folder, where, seed):
    """Copies the files of a trial to the folder where differences are kept."""
    for path in folder.iterdir():
        pathlib.Path(where, f"{seed}.{path.name}").write_bytes(path.read_bytes())


def campaign(options):
    """Runs the trials, prints each difference, and gives the number of them."""
    second = Second(options.second)
    trial = TRIALS[options.command]
    tally, differences, left_out = collections.Counter(), 0, 0
    for seed in range(options.seed, options.seed + options.trials):
        with tempfile.TemporaryDirectory() as name:
            folder = pathlib.Path(name)
            got = trial(options, second, folder, seed)
            if got is None:
                left_out += 1
                continue
            mine, other, agree = got
            tally[other[0]] += 1
            if not agree:
                differences += 1
                print(f"seed {seed}: the program: {shown(mine)}; the second reading: {shown(other)}", flush=True)
                if options.keep:
                    keep(folder, options.keep, seed)
    answers = ", ".join(f"{count} of status {status}" for status, count in sorted(tally.items()))
    print(f"{options.trials} trials: {differences} differ, {left_out} left out; answers of the second reading: {answers}")
    return differences


def main():
    parser = argparse.ArgumentParser(description=__doc__, formatter_class=argparse.RawDescriptionHelpFormatter)
    parser.add_argument("command", choices=list(TRIALS))
    parser.add_argument("program", type=pathlib.Path, help="the built tsoc")
    parser.add_argument("second", type=pathlib.Path, help="the folder of the second reading")
    parser.add_argument("trials", type=int)
    parser.add_argument("seed", type=int)
    parser.add_argument("--built", choices=list(TOLD), default="grammar", help="what of compile is built")
    parser.add_argument("--keep", type=pathlib.Path, help="a folder for the files of each difference")
    options = parser.parse_args()
    options.program = options.program.resolve()
    if options.keep:
        options.keep.mkdir(parents=True, exist_ok=True)
    return 1 if campaign(options) else 0


if __name__ == "__main__":
    sys.exit(main())
