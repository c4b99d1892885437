#!/usr/bin/env bash
# What applying edits costs beside reading them: times 4,096 blocks that add an object each, and one block that adds as
# many; beside them the same texts where nothing is applied, since the object is the prelude's, or the first change is
# refused. Three runs each, the least milliseconds; and how many replies of each kind there were.
set -eu
. "$(dirname "$0")/measure.sh"
measured() {
    spent=$(least)
    echo "$1: ${spent} ms"
    cut -d' ' -f1,2 "$work/replies" | grep -v accepted | sort | uniq -c >&2 || true
}
seq -f $'add object number%.0f isa any\n.' 4096 >"$work/script"
measured "4,096 blocks that add an object"
yes $'add object int isa any\n.' 2>/dev/null | head -8192 >"$work/script"
measured "4,096 blocks that are refused"
{ seq -f 'add object number%.0f isa any' 4096; printf '.\nlist\n'; } >"$work/script"
measured "one block of 4,096 changes, and its list"
{ echo 'add object int'; seq -f 'add object number%.0f isa any' 4096; } >"$work/script"
measured "one block of 4,097 changes, refused at the first"
