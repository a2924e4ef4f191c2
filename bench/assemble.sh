#!/bin/sh
# Gives GNU as every form and every shape of an operand, in the very texts of which the tests of x86_print say
# that they are read and printed, and each directive of data. Says nothing and does nothing where `as` is missing.
# Usage: sh bench/assemble.sh
set -eu
command -v as >/dev/null 2>&1 || exit 0
top=$(cd "$(dirname "$0")/.." && pwd)
work=$(mktemp -d)
trap 'rm -rf "$work"' EXIT
{
    printf '# pace 1\n# extern f 2\n.globl main\n.data\n'
    printf 'd:\n\t.byte -1\n\t.short -32768\n\t.long 2147483647\n\t.zero 5\n\t.balign 16\n'
    printf '.text\nmain:\nx.1:\n'
    sed -n 's/^        b"\(.*\)",$/\t\1/p' "$top/crates/x86_print/src/tests.rt"
    printf '\tcall f\n'
} > "$work/forms.s"
rows=$(grep -c '^	' "$work/forms.s")
as --32 -o "$work/forms.o" "$work/forms.s"
echo "as --32 takes $rows printed lines"
