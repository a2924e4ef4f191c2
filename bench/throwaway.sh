# Read by the scripts that time a crate of the repository: a throwaway program over some of its crates.
#
#   begin NAME CRATE..   makes the folder $work with these crates, all crates below them, and an empty program NAME;
#                        its main.rt goes to $program/src, and what it reads to $program/data
#   run_program          builds the program by `rt run` and runs it where its files lie
#
# The folder is removed at the end; KEEP=1 leaves it and prints its name.

top=$(cd "$(dirname "$0")/.." && pwd)

begin() {
    name=$1
    shift
    work=$(mktemp -d)
    [ "${KEEP:-0}" = 1 ] && echo "folder: $work" || trap 'rm -rf "$work"' EXIT
    program="$work/crates/$name"
    mkdir -p "$program/src" "$program/data"
    python3 - "$top" "$work" "$name" "$@" <<'CODE'
import shutil, sys
top, work, name, *wanted = sys.argv[1:]
lines = (line.partition(":") for line in open(f"{top}/crates.txt") if not line.startswith("#"))
needs = {crate.strip(): deps.split() for crate, _, deps in lines}
taken, waiting = [], list(wanted)
while waiting:
    crate = waiting.pop()
    if crate in needs and crate not in taken:
        taken.append(crate)
        waiting += needs[crate]
for crate in taken:
    shutil.copytree(f"{top}/crates/{crate}", f"{work}/crates/{crate}", symlinks=True)
with open(f"{work}/crates.txt", "w") as out:
    for crate in needs:
        if crate in taken:
            out.write(f"{crate}: {' '.join(needs[crate])}\n")
    out.write(f"{name}: {' '.join(wanted)}\n")
CODE
}

run_program() {
    cd "$program"
    # This run, in a folder without the files, ends with an error: it only builds.
    rt run "$name" > "$work/log" 2>&1 || true
    [ -x "out/$name" ] || { cat "$work/log"; exit 1; }
    cd data
    "../out/$name"
}
