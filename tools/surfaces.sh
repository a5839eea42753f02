#!/bin/sh
# What the classes of a Java file say to the others, as docs/LANGUAGE.md has it.
#
#   tools/surfaces.sh <FILE.java        prints the surfaces of the file's types
#   tools/surfaces.sh --cases FOLDER    tries each file NAME of the folder as a Java file; where NAME.stdout is
#                                       there, that is what is to be printed
#
# The program desk_cases prints them, by `rt try`: it is built, and not proved. It does so for an input that
# begins with the line `surfaces`; this stands in for a word on the command line, since the interpreter of
# `rt try` runs no program that reads its words. Where the file isn't read, nothing is printed, and the status
# is 1.
set -u
top=$(CDPATH= cd -- "$(dirname -- "$0")/.." && pwd) || exit 2

# Copies of the cases, with the line in front of each Java file.
copy_cases() {
    for file in "$1"/*; do
        name=${file##*/}
        case $name in
        *.stdout) cp -- "$file" "$work/$name" || return 1 ;;
        *) { echo surfaces && cat -- "$file"; } >"$work/$name" || return 1 ;;
        esac
    done
}

if [ $# -eq 2 ] && [ "$1" = --cases ]; then
    work=$(mktemp -d) || exit 2
    trap 'rm -rf "$work"' EXIT
    copy_cases "$2" || exit 2
    cd -- "$top/crates/desk_cases" && rt try --cases "$work"
elif [ $# -eq 0 ]; then
    { echo surfaces && cat; } | (cd -- "$top/crates/desk_cases" && rt try)
else
    sed -n '2,6s/^# \{0,1\}//p' "$0" >&2
    exit 2
fi
