#!/usr/bin/env bash
# Whether names are looked up in little more than the same time, however many there are: times scripts of four blocks,
# each the addition of one method of 250,000 and of 500,000 bytes, first with a `let` of another name on every line, and
# then with a field of another name of one constructor; three runs each. Prints the least milliseconds and their ratio,
# which is a little above 2 where looking a name up takes the logarithm of their number, and 4 where it goes over them all.
set -eu
. "$(dirname "$0")/measure.sh"
timed() {
    {
        echo 'add method main() {'
        echo "$2"
        seq -f "$3" 100000 2>/dev/null | head -c "$1" | sed '$d'
        echo "$4"
        echo '}'
        echo .
    } >"$work/block"
    for _ in {1..4}; do cat "$work/block"; done >"$work/script"
    least
    sort "$work/replies" | uniq -c >&2
}
compared() {
    half=$(timed 250000 "$2" "$3" "$4")
    whole=$(timed 500000 "$2" "$3" "$4")
    echo "$1, 4 blocks of 250,000 bytes: ${half} ms; of 500,000 bytes: ${whole} ms; ratio $(( whole * 100 / half ))/100"
}
compared lets '' 'let x%.0f := 1;' ''
compared fields 'object isa a {' 'x%.0f := 1,' 'x := 1 }'
