#!/bin/sh
# Times `read_asm` and `print_asm` of x86_text: a text of 40 kB, one of 4 MB of the same lines, one of a million
# lines with a name each, and one whose last line alone is bad.
# Usage: sh bench/assembly.sh        (KEEP=1 leaves the folder and prints its name)
set -eu
. "$(dirname "$0")/throwaway.sh"
begin assembly_times x86_text tso_words
cat > "$program/src/main.rt" <<'CODE'
#![tactic(auto)]

use std::rt::Files;
use std::time::Instant;
use std::{fs, io};
use x86_text::{ReadAsmRefusal, print_asm, read_asm};

fn time(rt: &HostRuntime, path: &str) -> io::Result<()> {
    let bytes = fs::read(rt, path)?;
    let size = bytes.len();
    let start = Instant::now(rt)?;
    let read = read_asm(rt.alloc(), &bytes);
    let micros = start.elapsed(rt)?.as_micros();
    match read {
        Err(ReadAsmRefusal::BadText { line }) => {
            println!(rt; "{path}: {size} bytes, bad line {line}, {micros} us")
        }
        Err(ReadAsmRefusal::NoMemory) => rt.println("no memory"),
        Ok(asm) => {
            let start = Instant::now(rt)?;
            let Ok(text) = print_asm(rt.alloc(), &asm) else {
                return rt.println("no memory");
            };
            let printing = start.elapsed(rt)?.as_micros();
            let printed = text.len();
            println!(rt; "{path}: {size} bytes read in {micros} us, {printed} bytes printed in {printing} us")
        }
    }
}

fn main(rt: HostRuntime) -> io::Result<()> {
    time(&rt, "small.s")?;
    time(&rt, "large.s")?;
    time(&rt, "names.s")?;
    time(&rt, "bad.s")
}
CODE
python3 - "$program/data" <<'CODE'
import os, sys
folder = sys.argv[1]
lines = b"""\tmovl 8(%ebp), %eax
\tcmpl $17, %eax
\tjle main
\tmovl %eax, -4(%ebp)   
\tlock xaddl %eax, counter
\taddl $-2147483648, %esp
\tcall main
"""
head = b".data\ncounter:\n\t.long 0\n.text\nmain:\n"
def put(name, data):
    open(os.path.join(folder, name), "wb").write(data)
put("small.s", head + lines * (40000 // len(lines)))
put("large.s", head + lines * (4000000 // len(lines)))
put("names.s", b"main:\n" + b"".join(b"L%d:\n\tjmp L%d\n" % (i, 499999 - i) for i in range(500000)))
put("bad.s", head + lines * (4000000 // len(lines)) + b"\tjmp out\n")
CODE
run_program
