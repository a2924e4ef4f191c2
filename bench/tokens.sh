#!/bin/sh
# Times `tokens` of c_tokens on files of ordinary C: 40 kB and 4 MB of the same lines, and 4 MB of one byte.
# Usage: sh bench/tokens.sh        (KEEP=1 leaves the folder and prints its name)
set -eu
. "$(dirname "$0")/throwaway.sh"
begin token_times c_tokens tso_words
cat > "$program/src/main.rt" <<'CODE'
#![tactic(auto)]

use c_tokens::tokens;
use std::rt::Files;
use std::time::Instant;
use std::{fs, io};

fn time(rt: &HostRuntime, path: &str) -> io::Result<()> {
    let bytes = fs::read(rt, path)?;
    let start = Instant::now(rt)?;
    if bytes.len() > 4_194_304 {
        return rt.println("too long");
    }
    let Ok(list) = tokens(rt.alloc(), &bytes) else {
        return rt.println("no memory");
    };
    let spent = start.elapsed(rt)?;
    let micros = spent.as_micros();
    let count = list.list.len();
    let size = bytes.len();
    let bad = list.bad;
    println!(rt; "{path}: {size} bytes, {count} tokens, bad {bad:?}, {micros} us")
}

fn main(rt: HostRuntime) -> io::Result<()> {
    time(&rt, "small.c")?;
    time(&rt, "large.c")?;
    time(&rt, "comment.c")?;
    time(&rt, "parens.c")?;
    time(&rt, "words.c")
}
CODE
python3 - "$program/data" <<'CODE'
import os, sys
folder = sys.argv[1]
lines = b"""/* one line of text that is a comment */
static unsigned int next_of(struct node *head, int index) {
    int i, sum = 0x1fu;   // a remark
    for (i = 0; i < index && head->next != 0; i++) { sum += head->value << 2; head = head->next; }
    if (sum >= 100) return sum - '\\n'; else return (unsigned) sum % 17;
}
"""
def put(name, data):
    open(os.path.join(folder, name), "wb").write(data)
put("small.c", (lines * 200)[:40000])
put("large.c", (lines * 20000)[:4000000])
put("comment.c", b"/*" + b"*" * 4000000)
put("parens.c", b"(" * 4000000)
put("words.c", b"while (x) {\n" * 330000)
CODE
run_program
