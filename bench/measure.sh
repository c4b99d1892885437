# What the measures share: the program, a folder to work in, and the time of a script. Sourced, not run.
top=$(cd "$(dirname "${BASH_SOURCE[0]}")/.." && pwd)
# PROGRAM may name another build of the batch compiler; else it is the proved one.
if [ -z "${PROGRAM:-}" ]; then
    "$top/run-script.sh" --proved </dev/null
fi
program=${PROGRAM:-$top/crates/vortex_batch/out/vortex_batch}
work=$(mktemp -d)
trap 'rm -rf "$work"' EXIT

# The program answers "$work/script"; its replies stay in "$work/replies".
answer() {
    "$program" <"$work/script" >"$work/replies"
}

# The least milliseconds of three runs of a command, or of three answers.
least() {
    best=
    for _ in 1 2 3; do
        begun=$(date +%s%N)
        "${@:-answer}"
        spent=$(( ($(date +%s%N) - begun) / 1000000 ))
        if [ -z "$best" ] || [ "$spent" -lt "$best" ]; then best=$spent; fi
    done
    echo "$best"
}

# The text that adds one method, with statements of about so many bytes.
long_method() {
    echo 'add method main() {'
    yes 'f(a, "text", 1 + 2 * -3, { g(b); ^ c }, object isa d { e := x < 4 });' 2>/dev/null | head -c "$1" | sed '$d'
    echo '}'
}
