#!/usr/bin/env bash
# Runs a script of commands through the batch compiler, and ends with the compiler's status:
#   ./run-script.sh FILE            without FILE it reads the script from standard input
#   ./run-script.sh --proved FILE   proves and builds the compiler first, if need be
# Where the compiler has not been proved since the last change, the first form runs it unproved, built with checks for
# that one run, and says so on standard error. Wants the kit's `rt` on the PATH.
set -eu
top=$(cd "$(dirname "$0")" && pwd)
folder=$top/crates/vortex_batch
program=$folder/out/vortex_batch

# Whether the proved compiler is there, and nothing that it is made of has changed since.
stands() {
    [ -x "$program" ] || return 1
    changed=$(find "$top/crates" "$top/crates.txt" \( -name out -o -name must-fail \) -prune -o \
        \( -name '*.rt' -o -name '*.antt' -o -name crates.txt \) -newer "$program" -print | head -n 1)
    [ -z "$changed" ]
}

proved=no
if [ "${1:-}" = --proved ]; then
    proved=yes
    shift
fi
if [ $# -gt 0 ]; then
    exec <"$1"
fi
if ! stands && [ "$proved" = yes ]; then
    log=$(mktemp)
    echo "proving and building vortex_batch: about 25 minutes of one processor the first time" >&2
    (cd "$folder" && rt run </dev/null >"$log" 2>&1) || { cat "$log" >&2; exit 1; }
    rm -f "$log"
fi
if stands; then
    exec "$program"
fi
echo "running vortex_batch unproved (./run-script.sh --proved proves it first)" >&2
log=$(mktemp)
status=0
(cd "$folder" && rt try 2>"$log") || status=$?
grep -q '^run=ended' "$log" || cat "$log" >&2
rm -f "$log"
exit "$status"
