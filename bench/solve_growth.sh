#!/bin/sh
# How solving grows: the verdicts on a graph of N and of 2N promises, in a chain, where one promise leaves in
# each round, and in a star, where all leave in two. It prints the least of several times in milliseconds
# and their ratio in hundredths (about 200 is linear; starting the program, measured on no graph, is taken
# off both). Then the time for a million links, and beside it that of `promise_desk check` on 16 MiB of text.
# Making the graph of keys and findings is part of each time.
. "$(dirname -- "$0")/common.sh"
need_program
desk=$program
cases=$top/crates/consistency_cases
solver=$cases/out/consistency_cases
[ -x "$solver" ] || (cd "$cases" && rt run <stdin >&2)

solve() {
    echo "$1" | "$solver"
}

# In milliseconds, of so many rounds.
milliseconds() {
    rounds=$1
    shift
    echo $(($(least "$rounds" 1 "$@") / 1000000))
}

none=$(milliseconds 9 solve 'graph 0')
for shape in 'chain 32768' 'star 32768 1'; do
    set -- $shape
    first=$(milliseconds 5 solve "$1 $2 ${3:-}")
    second=$(milliseconds 5 solve "$1 $(($2 * 2)) ${3:-}")
    echo "$1: $2 promises $first ms, $(($2 * 2)) promises $second ms, growth $(((second - none) * 100 / (first - none)))"
done

million=$(milliseconds 3 solve 'star 65536 16')
number=100000
while [ "$number" -lt 104096 ]; do
    {
        printf 'class C%d {\n' "$number"
        line=0
        while [ "$line" -lt 62 ]; do
            printf '    int m%d(int count) { return count * %d + total; } // adds %d up\n' "$line" "$line" "$line"
            line=$((line + 1))
        done
        printf '    int total;\n}\n'
    } >"$work/C.java"
    printf 'file C%d.java %d\n' "$number" "$(wc -c <"$work/C.java")"
    cat "$work/C.java"
    printf '\n'
    number=$((number + 1))
done >"$work/bundle"
printf 'end\n' >>"$work/bundle"
check() {
    "$desk" check <"$work/bundle"
}
echo "a million links $million ms, reading $(wc -c <"$work/bundle") bytes $(milliseconds 3 check) ms"
