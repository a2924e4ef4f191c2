#!/usr/bin/env python3
"""Runs straight-line code on this processor and on `tsoc target`, and compares what both come to.

Each trial loads the registers with random words, sets the flags by a comparison, and executes one instruction of the
73 forms. Then it keeps all registers, and of the flags what the form leaves known, as far as conditions tell it: ZF, CF
and whether SF differs from OF. All trials of a text and their memory are compared byte for byte. Divisions without a
quotient are tried one by one: they have to stop both.

The same lines are assembled by `as` and read by `tsoc`. A frame of each side's own puts the stack and the data at the
same addresses and gives out what was kept: natively by one write, in `tsoc` by calls of an external that takes 32
words. So this also tries the printed order of words and the reading of texts.

Usage: python3 bench/native.py [TEXTS] [SEED]      (TSOC=COMMAND runs another `tsoc`; KEEP=1 leaves the folder)
It needs `as` and `ld` with 32-bit output and a processor that runs it, and says so where one is not there.
"""

import os
import random
import shutil
import subprocess
import sys
import tempfile

TOP = os.path.dirname(os.path.dirname(os.path.abspath(__file__)))
TSOC = os.environ.get("TSOC", os.path.join(TOP, "tsoc")).split()

WORD = 0xFFFFFFFF
DATA = 0x20000000
STACK = 0x90000000
STACK_SIZE = 0x100000
ESP = STACK + STACK_SIZE - 8

REGISTERS = ["eax", "ebx", "ecx", "edx", "esi", "edi", "ebp", "esp"]
TARGETS = REGISTERS[:-1]  # those that a trial may set to anything
BYTES = ["al", "bl", "cl", "dl"]
HALVES = ["ax", "bx", "cx", "dx", "si", "di", "bp"]
CONDITIONS = ["e", "ne", "l", "ge", "le", "g", "b", "ae", "be", "a"]
OPERATORS = ["addl", "subl", "imull", "andl", "orl", "xorl"]
SHIFTS = ["shll", "shrl", "sarl"]
EXTENSIONS = ["movsbl", "movzbl", "movswl", "movzwl"]

TRIALS = 292  # in a text: four of each form
KEPT = 48  # bytes that a trial keeps: eight registers, three flags
ROOM = 32  # bytes of memory that a trial works on
WORDS_OUT = 32  # words that the external takes

ALL, ZERO_ONLY, NONE = "all flags", "ZF alone", "no flag"


def word(rng):
    """A random word, often one at which carries and signs turn."""
    edges = [0, 1, 2, 31, 32, 0x7FFFFFFF, 0x80000000, 0xFFFFFFFF, 0xFFFFFFFE, 0x8000, 0x7FFF, 0x80, 0x7F]
    return rng.choice(edges) if rng.random() < 0.3 else rng.getrandbits(32)


def signed(number):
    return number - (1 << 32) if number >> 31 else number


class Trial:
    """One instruction with what stands before it. `known` says which flags it leaves known."""

    def __init__(self, rng, number):
        self.rng = rng
        self.number = number
        self.registers = {name: word(rng) for name in TARGETS}
        if rng.random() < 0.2:
            self.registers["ebx"] = self.registers["eax"]
        self.before = []
        self.lines = []
        self.known = ALL

    def memory(self, size):
        """A memory operand whose address lies in the room of this trial, at a multiple of its size."""
        rng = self.rng
        place = ROOM * self.number + rng.randrange(0, ROOM, size)
        base = rng.choice([None] + TARGETS)
        index = rng.choice([None] + TARGETS)
        scale = rng.choice([1, 2, 4, 8])
        offset = place
        text = ""
        if base is not None:
            offset -= self.registers[base]
            text = "(%%%s)" % base
        if index is not None:
            offset -= self.registers[index] * scale
            text = "(%s,%%%s,%d)" % ("" if base is None else "%" + base, index, scale)
        if rng.random() < 0.5:
            return "room+%d%s" % (signed(offset & WORD), text)
        return "%d%s" % (signed((offset + DATA) & WORD), text)

    def use(self, line, known=ALL):
        self.lines.append(line)
        self.known = known

    def label(self):
        return ".L%d" % self.number

    def text(self):
        """The lines of the trial, which both sides read."""
        lines = ["movl $%d, %%%s" % (signed(value), name) for name, value in self.registers.items()]
        lines += self.before
        lines.append("cmpl %%%s, %%%s" % (self.rng.choice(TARGETS), self.rng.choice(TARGETS)))
        lines += self.lines
        kept = KEPT * self.number
        lines += ["movl %%%s, kept+%d" % (name, kept + 4 * k) for k, name in enumerate(REGISTERS)]
        if self.known is not NONE:
            lines += ["sete %al", "movb %%al, kept+%d" % (kept + 32)]
        if self.known is ALL:
            lines += ["setb %al", "movb %%al, kept+%d" % (kept + 33), "setl %al", "movb %%al, kept+%d" % (kept + 34)]
        lines.append("movl $%d, %%esp" % signed(ESP))
        return lines


# ---- the forms


def move(t, form):
    rng = t.rng
    to = rng.choice(TARGETS)
    if form == 1:
        t.use("movl $%d, %%%s" % (signed(word(rng)), to))
    elif form == 2:
        t.use("movl $room+%d, %%%s" % (rng.randrange(-64, 64), to))
    elif form == 3:
        t.use("movl %%%s, %%%s" % (rng.choice(REGISTERS), to))
    elif form == 4:
        t.use("movl %s, %%%s" % (t.memory(4), to))
    elif form == 5:
        t.use("movl %%%s, %s" % (rng.choice(REGISTERS), t.memory(4)))
    else:
        t.use("movl $%d, %s" % (signed(word(rng)), t.memory(4)))


def store_low(t, form):
    if form == 7:
        t.use("movb %%%s, %s" % (t.rng.choice(BYTES), t.memory(1)))
    else:
        t.use("movw %%%s, %s" % (t.rng.choice(HALVES), t.memory(2)))


def load_extended(t, form):
    mnemonic = EXTENSIONS[form - 9]
    t.use("%s %s, %%%s" % (mnemonic, t.memory(1 if form < 11 else 2), t.rng.choice(TARGETS)))


def extend(t, form):
    mnemonic = EXTENSIONS[form - 13]
    t.use("%s %%%s, %%%s" % (mnemonic, t.rng.choice(BYTES if form < 15 else HALVES), t.rng.choice(TARGETS)))


def address(t, form):
    t.use("leal %s, %%%s" % (t.memory(1), t.rng.choice(TARGETS)))


def combine(t, form):
    mnemonic = OPERATORS[(form - 18) % 6]
    source = "%" + t.rng.choice(REGISTERS) if form < 24 else "$%d" % signed(word(t.rng))
    t.use("%s %s, %%%s" % (mnemonic, source, t.rng.choice(TARGETS)), NONE if mnemonic == "imull" else ALL)


def turn(t, form):
    t.use("%s %%%s" % ("negl" if form == 30 else "notl", t.rng.choice(TARGETS)))


def shift(t, form):
    count = "$%d" % t.rng.randrange(32) if form < 35 else "%cl"
    t.use("%s %s, %%%s" % (SHIFTS[(form - 32) % 3], count, t.rng.choice(TARGETS)), NONE)


def sign_of_eax(t, form):
    t.use("cltd")


def quotient_fits(form, high, low, divisor):
    """Whether the quotient of high:low by the divisor is a word."""
    if divisor == 0:
        return False
    if form == 40:
        return high < divisor
    number = (high << 32) + low
    number -= (number >> 63) << 64
    quotient = abs(number) // abs(signed(divisor))
    if (number < 0) != (signed(divisor) < 0):
        quotient = -quotient
    return -(1 << 31) <= quotient < 1 << 31


def divide(t, form, fits=True):
    """A division that has a quotient, or one that has none."""
    rng = t.rng
    while True:
        divisor = rng.choice(TARGETS)
        for name in TARGETS:
            t.registers[name] = word(rng)
        if rng.random() < 0.7:
            t.registers["edx"] = rng.choice([0, WORD, rng.getrandbits(rng.randrange(1, 32))])
        if quotient_fits(form, t.registers["edx"], t.registers["eax"], t.registers[divisor]) == fits:
            break
    t.use("%s %%%s" % ("idivl" if form == 39 else "divl", divisor), NONE)


def compare(t, form):
    rng = t.rng
    if form == 42:
        t.use("cmpl $%d, %%%s" % (signed(word(rng)), rng.choice(REGISTERS)))
    else:
        t.use("%s %%%s, %%%s" % ("cmpl" if form == 41 else "testl", rng.choice(REGISTERS), rng.choice(REGISTERS)))


def set_byte(t, form):
    t.use("set%s %%%s" % (CONDITIONS[form - 44], t.rng.choice(BYTES)))


def jump(t, form):
    mnemonic = "jmp" if form == 64 else "j" + CONDITIONS[form - 54]
    t.use("%s %s" % (mnemonic, t.label()))
    t.use("movl $77, %ebx")
    t.use(t.label() + ":")


def call(t, form):
    """A call and the return from it; the function stands among the lines, and is jumped over."""
    over, function = t.label() + "o", t.label() + "f"
    if form == 66:
        t.before.append("movl $%s, %%esi" % function)
        t.registers["esi"] = 0
        t.use("call *%esi")
        t.use("movl $0, %esi")
    else:
        t.use("call " + function)
    t.use("jmp " + over)
    t.use(function + ":")
    t.use("movl %esp, %ebx")
    t.use("ret")
    t.use(over + ":")


def push(t, form):
    name = t.rng.choice(REGISTERS)
    t.use("pushl %" + name)
    if form == 69:
        t.use("popl %" + t.rng.choice(TARGETS))
    else:
        t.use("movl (%esp), %ebp")


def fence(t, form):
    t.use("mfence")


def locked(t, form):
    mnemonic = ["lock cmpxchgl", "lock xaddl", "xchgl"][form - 71]
    place = t.memory(4)
    if form == 71 and t.rng.random() < 0.5:
        t.before.append("movl room+%d, %%eax" % (ROOM * t.number))
        place = "room+%d" % (ROOM * t.number)
    t.use("%s %%%s, %s" % (mnemonic, t.rng.choice(TARGETS), place), [ZERO_ONLY, NONE, ALL][form - 71])


FORMS = [
    (range(1, 7), move),
    (range(7, 9), store_low),
    (range(9, 13), load_extended),
    (range(13, 17), extend),
    (range(17, 18), address),
    (range(18, 30), combine),
    (range(30, 32), turn),
    (range(32, 38), shift),
    (range(38, 39), sign_of_eax),
    (range(39, 41), divide),
    (range(41, 44), compare),
    (range(44, 54), set_byte),
    (range(54, 65), jump),
    (range(65, 68), call),
    (range(68, 70), push),
    (range(70, 71), fence),
    (range(71, 74), locked),
]
MAKERS = {form: maker for forms, maker in FORMS for form in forms}


def trials_of(rng):
    """The trials of a text, with each form as often as the others."""
    trials = []
    for number in range(TRIALS):
        trial = Trial(rng, number)
        trial.form = number % 73 + 1
        MAKERS[trial.form](trial, trial.form)
        trials.append(trial)
    return trials


# ---- both sides


def data_lines(rng, trials):
    """The room of each trial, filled at random, and zeros for what is kept."""
    words = ["\t.long %d" % signed(rng.getrandbits(32)) for _ in range(ROOM // 4 * len(trials))]
    size = KEPT * len(trials)
    return [".data", "room:"] + words + ["kept:", "\t.zero %d" % size, "\t.zero %d" % (-size % (4 * WORDS_OUT))]


def bytes_out(trials):
    size = (ROOM + KEPT) * len(trials)
    return size + -size % (4 * WORDS_OUT)


NATIVE_START = """.text
.globl _start
_start:
\tmovl $192, %%eax
\tmovl $%d, %%ebx
\tmovl $%d, %%ecx
\tmovl $3, %%edx
\tmovl $0x32, %%esi
\tmovl $-1, %%edi
\tmovl $0, %%ebp
\tint $0x80
\tmovl $%d, %%esp
main:
"""

NATIVE_END = """\tmovl $4, %%eax
\tmovl $1, %%ebx
\tmovl $room, %%ecx
\tmovl $%d, %%edx
\tint $0x80
\tmovl $1, %%eax
\tmovl $0, %%ebx
\tint $0x80
"""


def native(folder, data, code, size):
    """The bytes that this processor comes to; None where it stops for a division."""
    start, end = NATIVE_START % (STACK, STACK_SIZE, ESP), NATIVE_END % size
    with open(os.path.join(folder, "native.s"), "w") as file:
        file.write("\n".join(data + [start] + code + [end]))
    subprocess.run(["as", "--32", "-o", "native.o", "native.s"], cwd=folder, check=True)
    link = ["ld", "-m", "elf_i386", "-Tdata", hex(DATA), "-o", "native", "native.o"]
    subprocess.run(link, cwd=folder, check=True, stderr=subprocess.DEVNULL)
    ran = subprocess.run(["./native"], cwd=folder, stdout=subprocess.PIPE)
    if ran.returncode == -8:
        return None
    if ran.returncode != 0:
        raise RuntimeError("the native run ends with %d" % ran.returncode)
    return ran.stdout


def lines_out(size):
    """Lines that give so many bytes out, 32 words at a call, and end the program."""
    lines = ["movl $room, %esi", "movl $%d, %%edi" % (size // (4 * WORDS_OUT))]
    lines += ["subl $%d, %%esp" % (4 * WORDS_OUT), ".Lout:"]
    for k in range(WORDS_OUT):
        lines += ["movl %d(%%esi), %%eax" % (4 * k), "movl %%eax, %d(%%esp)" % (4 * k)]
    lines += ["call show", "addl $%d, %%esi" % (4 * WORDS_OUT), "subl $1, %edi", "cmpl $0, %edi", "jne .Lout"]
    lines += ["movl $0, (%esp)", "call exit"]
    return lines


def played(folder, data, code, size):
    """The bytes that `tsoc target` comes to; None where it faults."""
    calls = size // (4 * WORDS_OUT)
    text = ["# extern show %d" % WORDS_OUT] + data + [".text", "main:"] + code + lines_out(size)
    with open(os.path.join(folder, "target.s"), "w") as file:
        file.write("\n".join(text) + "\n")
    with open(os.path.join(folder, "target.sched"), "w") as file:
        file.write("auto 0 10000000\n" * (2 * calls + 2))
    ran = subprocess.run(TSOC + ["target", "target.s", "target.sched"], cwd=folder, stdout=subprocess.PIPE, text=True)
    lines = ran.stdout.splitlines()
    if lines[-1:] == ["end fault"]:
        return None
    if lines[-2:] != ["exit 0", "end exited"]:
        raise RuntimeError("tsoc ends with %d and '%s'" % (ran.returncode, "".join(lines[-1:])))
    words = [int(number) & WORD for line in lines if line.startswith("call 0 show ") for number in line.split()[3:]]
    return b"".join(number.to_bytes(4, "little") for number in words)


def differing(trials, one, other):
    """The trials at which two results differ."""
    rooms = ROOM * len(trials)
    places = [k for k in range(max(len(one), len(other))) if one[k : k + 1] != other[k : k + 1]]
    return sorted({k // ROOM if k < rooms else (k - rooms) // KEPT for k in places})


def report(trial):
    print("form %d differs:\n\t%s" % (trial.form, "\n\t".join(trial.text())))


def text_agrees(folder, rng):
    """How many trials of a text agree."""
    trials = trials_of(rng)
    data = data_lines(rng, trials)
    code = [line if line.endswith(":") else "\t" + line for trial in trials for line in trial.text()]
    size = bytes_out(trials)
    one, other = native(folder, data, code, size), played(folder, data, code, size)
    if one is None or other is None:
        raise RuntimeError("a text stops for a division")
    places = differing(trials, one, other)
    for place in places[:5]:
        report(trials[place])
    return len(trials) - len(places)


def fault_agrees(folder, rng, form):
    """Whether a division without a quotient stops both."""
    trial = Trial(rng, 0)
    trial.form = form
    divide(trial, form, fits=False)
    data = data_lines(rng, [trial])
    code = ["\t" + line for line in trial.text()]
    size = bytes_out([trial])
    agrees = native(folder, data, code, size) is None and played(folder, data, code, size) is None
    if not agrees:
        report(trial)
    return agrees


def missing(folder):
    """What is missing for a native run, if anything is."""
    for command in ["as", "ld"]:
        if shutil.which(command) is None:
            return command
    try:
        native(folder, [".data", "room:", "\t.long 0"], ["\tnop"], 4)
    except (OSError, RuntimeError, subprocess.CalledProcessError) as fault:
        return "a 32-bit run (%s)" % fault
    return None


def main():
    texts = int(sys.argv[1]) if len(sys.argv) > 1 else 31
    rng = random.Random(int(sys.argv[2]) if len(sys.argv) > 2 else 1)
    folder = tempfile.mkdtemp()
    try:
        lack = missing(folder)
        if lack is not None:
            print("skipped: no " + lack)
            return 0
        agreeing = sum(text_agrees(folder, rng) for _ in range(texts))
        faults = sum(fault_agrees(folder, rng, 39 + k % 2) for k in range(60))
        print("%d of %d trials agree, and %d of 60 divisions without a quotient" % (agreeing, texts * TRIALS, faults))
        return 0 if agreeing == texts * TRIALS and faults == 60 else 1
    finally:
        if os.environ.get("KEEP"):
            print("folder: " + folder)
        else:
            shutil.rmtree(folder)


if __name__ == "__main__":
    sys.exit(main())
