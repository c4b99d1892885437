#!/usr/bin/env bash
# Whether reading one long block takes time in proportion to its bytes: times scripts of sixteen blocks, each
# the addition of one method, with statements of 500,000 and of 1,000,000 bytes, three runs each, and prints the
# least milliseconds and their ratio, which is 2 where time is in proportion to length.
set -eu
. "$(dirname "$0")/measure.sh"
timed() {
    {
        long_method "$1"
        echo .
    } >"$work/block"
    for _ in {1..16}; do cat "$work/block"; done >"$work/script"
    least
    sort "$work/replies" | uniq -c >&2
}
half=$(timed 500000)
whole=$(timed 1000000)
echo "16 blocks of 500,000 bytes: ${half} ms; of 1,000,000 bytes: ${whole} ms; ratio $(( whole * 100 / half ))/100"
