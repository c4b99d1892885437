#!/usr/bin/env bash
# Whether printing takes time in proportion to the text: times scripts that add one method, of 250,000 and of 500,000
# bytes, and list it sixty-four times, three runs each. Prints the least milliseconds and their ratio, which is 2 where time
# is in proportion to length.
set -eu
. "$(dirname "$0")/measure.sh"
timed() {
    {
        long_method "$1"
        for _ in {1..64}; do printf '.\nlist\n'; done
    } >"$work/script"
    least
    wc -c <"$work/replies" >&2
}
half=$(timed 250000)
whole=$(timed 500000)
echo "64 lists of a method of 250,000 bytes: ${half} ms; of 500,000 bytes: ${whole} ms; ratio $(( whole * 100 / half ))/100"
