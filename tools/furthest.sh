#!/bin/sh
# How far reading came in a Java file that the desk refuses for its grammar: where a part of it can't go on.
#
#   tools/furthest.sh FILE.java    prints `FILE.java:LINE:COLUMN`, columns counted in bytes from 1, or nothing where
#                                  the file is read or is at fault in another way
#
# The program desk_cases tells the offset, where `rt ci` built it; else it is built by `rt try`, unproved, in about a
# minute.
set -u
top=$(CDPATH= cd -- "$(dirname -- "$0")/.." && pwd) || exit 2
[ $# -eq 1 ] && [ -r "$1" ] || {
    sed -n '3,4s/^# \{0,3\}//p' "$0" >&2
    exit 2
}

# The offset, from a Java file behind the line that asks for it.
offset() {
    if [ -x "$top/crates/desk_cases/out/desk_cases" ]; then
        "$top/crates/desk_cases/out/desk_cases"
    else
        (cd -- "$top/crates/desk_cases" && rt try 2>/dev/null)
    fi
}

at=$({ echo furthest && cat -- "$1"; } | offset)
[ -n "$at" ] || exit 0
# what stands before it, and one byte more, which ends the last line
{ head -c "$at" -- "$1" && printf x; } | LC_ALL=C awk -v file="$1" '
    { line = NR; column = length($0) }
    END { print file ":" line ":" column }'
