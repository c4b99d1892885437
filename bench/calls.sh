#!/usr/bin/env bash
# What evaluating costs beside reading: a program of a hundred methods, each calling the next, is read two hundred times
# (and refused, since it is there already), and evaluated two hundred times with an allowance of 100; then one whose
# bodies are as high as they may be, which calls itself until the allowance is used up, once: through arguments, through
# constructors and closures in one another, and through a closure that evaluates itself. Three runs each, the least milliseconds, and how
# many replies of each kind there were; for the deepest ones also the least stack, in KiB, with which they end.
set -eu
. "$(dirname "$0")/measure.sh"
measured() {
    spent=$(least)
    echo "$1: ${spent} ms"
    cut -d' ' -f1,2 "$work/replies" | sort | uniq -c >&2
}
chain() {
    echo 'add method main() { call1() }'
    seq -f '%.0f' 1 98 | while read -r i; do echo "method call$i() { call$((i + 1))() }"; done
    echo 'method call99() { 1 }'
    echo .
}
arguments() {
    echo 'add method f(x) { x }'
    printf 'method main() { '
    printf 'f(%.0s' {1..63}
    printf 'main()'
    printf ')%.0s' {1..63}
    printf ' }\n.\n'
}
constructors() {
    echo 'add object a field f(@a)'
    printf 'method main() { '
    printf 'object isa a { f := %.0s' {1..63}
    printf 'main()'
    printf ' }%.0s' {1..63}
    printf ' }\n.\n'
}
closures() {
    echo 'add method f(x) { x }'
    printf 'method main() { f('
    printf 'eval({ %.0s' {1..31}
    printf 'main()'
    printf ' })%.0s' {1..31}
    printf ') }\n.\n'
}
itself() {
    echo 'add method f(x) { x }'
    printf 'method main() { let var c := nil; c := { '
    printf 'f(%.0s' {1..61}
    printf 'eval(c)'
    printf ')%.0s' {1..61}
    printf ' }; eval(c) }\n.\n'
}
{ for _ in {1..200}; do chain; done; } >"$work/script"
measured "200 times read"
{ chain; for _ in {1..200}; do printf 'mean 100\n.\n'; done; } >"$work/script"
measured "200 times evaluated"
for kind in arguments constructors closures itself; do
    { "$kind"; echo 'mean 100'; } >"$work/script"
    measured "the deepest evaluation through $kind"
    least_stack=0
    for stack in 8192 7168 6144 5632 5120 4864 4608 4352 4096 3584 3072 2560 2048; do
        (ulimit -s "$stack" && "$program" <"$work/script" >"$work/replies") 2>/dev/null || break
        least_stack=$stack
    done
    echo "it ends with a stack of ${least_stack} KiB"
done
