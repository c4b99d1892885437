#!/usr/bin/env bash
# What running images costs beside CPython 3: four programs, each as an image and written for CPython (machine_programs.py).
# Three runs each, the least milliseconds, how many times as long CPython takes, and how many million instructions the machine does
# in a second. There are as many rounds as leave the machine's closures, which are never freed, below a GiB.
#
# The machine is that of the test program run_images, which rt ci or rt run builds.
set -eu
top=$(cd "$(dirname "${BASH_SOURCE[0]}")/.." && pwd)
PROGRAM=$top/crates/run_images/out/run_images
[ -x "$PROGRAM" ] || (cd "$top/crates/run_images" && rt run </dev/null >/dev/null)
. "$top/bench/measure.sh"
most=4000000000

in_machine() {
    "$program" <"$work/request" >"$work/machine"
}
in_python() {
    python3 "$top/bench/machine_programs.py" run "$name" "$rounds" >"$work/python"
}
compared() {
    name=$1
    rounds=$2
    python3 "$top/bench/machine_programs.py" image "$name" "$rounds" >"$work/image"
    printf 'run %s %s\n' "$most" "$(xxd -p "$work/image" | tr -d '\n')" >"$work/request"
    count=$(python3 "$top/bench/machine_programs.py" count "$name" "$rounds")
    machine=$(least in_machine)
    python=$(least in_python)
    if ! cmp -s "$work/machine" <(sed 's/^/> /' "$work/python"; echo '= end'); then
        echo "$name: the machine prints $(tail -n 1 "$work/machine"), CPython $(tail -n 1 "$work/python")" >&2
        exit 1
    fi
    awk -v name="$name" -v machine="$machine" -v python="$python" -v count="$count" 'BEGIN {
        printf "%s: %d ms, CPython %d ms, %.2f times as long; %d million instructions, %.0f in a second\n",
            name, machine, python, python / machine, count / 1e6, count / machine / 1e3 }'
}
compared sends 1000000
compared recursion 32
compared closures 1000000
compared fields 1000000
