#!/usr/bin/env bash
# Whether reading, cutting and answering take time in proportion to the input: times a script of
# blank blocks and refused edits at 3,000,000 and at 6,000,000 bytes, three runs each, and prints
# the least milliseconds and their ratio, which is 2 where time is in proportion to length.
set -eu
. "$(dirname "$0")/measure.sh"
timed() {
    yes $'add object any\n.\n \n.' 2>/dev/null | head -c "$1" >"$work/script"
    least
}
half=$(timed 3000000)
whole=$(timed 6000000)
echo "3,000,000 bytes: ${half} ms; 6,000,000 bytes: ${whole} ms; ratio $(( whole * 100 / half ))/100"
