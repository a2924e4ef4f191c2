#!/bin/sh
# Times `read_file` of c_reader on files of ordinary C, 40 kB and 4 MB of the same functions, and on files of 4 MiB
# that nest without end, under a stack of 8 MiB.
# Usage: sh bench/reading.sh        (KEEP=1 leaves the folder and prints its name)
set -eu
. "$(dirname "$0")/throwaway.sh"
begin reading_times c_reader tso_words
cat > "$program/src/main.rt" <<'CODE'
#![tactic(auto)]

use c_reader::read_file;
use std::rt::Files;
use std::time::Instant;
use std::{fs, io};

fn time(rt: &HostRuntime, path: &str) -> io::Result<()> {
    let bytes = fs::read(rt, path)?;
    let size = bytes.len();
    if size > 4_194_304 {
        return rt.println("too long");
    }
    let start = Instant::now(rt)?;
    let read = read_file(rt.alloc(), &bytes);
    let micros = start.elapsed(rt)?.as_micros();
    match read {
        Ok(file) => {
            let externals = file.externals.len();
            println!(rt; "{path}: {size} bytes, {externals} declarations, {micros} us")
        }
        Err(refusal) => println!(rt; "{path}: {size} bytes, {refusal}, {micros} us"),
    }
}

fn main(rt: HostRuntime) -> io::Result<()> {
    time(&rt, "small.c")?;
    time(&rt, "large.c")?;
    time(&rt, "parens.c")?;
    time(&rt, "braces.c")?;
    time(&rt, "stars.c")?;
    time(&rt, "minus.c")?;
    time(&rt, "brackets.c")?;
    time(&rt, "sum.c")
}
CODE
python3 - "$program/data" <<'CODE'
import os, sys
folder = sys.argv[1]
function = b"""static unsigned int next_of_%d(struct node *head, int index) {
    int i, sum = 0x1fu;   // a remark
    for (i = 0; i < index && head->next != 0; i++) { sum += head->value << 2; head = head->next; }
    if (sum >= 100) return sum - '\\n'; else return (unsigned) sum %% 17;
}
"""
def put(name, data):
    open(os.path.join(folder, name), "wb").write(data)
def functions(size):
    out, length, count = [], 0, 0
    while length < size:
        out.append(function % count)
        length += len(out[-1])
        count += 1
    return b"".join(out)
full = 4194304
put("small.c", functions(40000))
put("large.c", functions(4000000))
put("parens.c", b"int x = " + b"(" * (full - 8))
put("braces.c", b"int main(void) " + b"{" * (full - 15))
put("stars.c", b"int " + b"*" * (full - 4))
put("minus.c", b"int x = " + b"- " * ((full - 8) // 2))
put("brackets.c", b"int x" + b"[1]" * ((full - 5) // 3))
put("sum.c", b"int x = 1" + b"+1" * ((full - 10) // 2) + b";")
CODE
ulimit -s 8192
run_program
