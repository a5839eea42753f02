#!/bin/sh
# How the time of `promise_desk check` grows with a project of N and of 2N classes that call one another, each in
# a file of its own: the least of several runs of each in hundredths of a millisecond, and their ratio in
# hundredths (about 200 is linear; starting the program, measured on an empty bundle, is taken off both).
. "$(dirname -- "$0")/common.sh"
need_program

# Class number $1 of $2, which calls the next one.
class() {
    next=$((($1 + 1) % $2))
    cat <<JAVA
@RegionLock("L is this protects Instance")
class C$1 {
  private int n = 1;
  private int last;
  synchronized int step(C$next other, int by) {
    add(by);
    for (int i = 0; i < by; i++) { last += n * i; }
    synchronized (other) { other.add(last); }
    return n;
  }
  @RequiresLock("L") void add(int by) { n += by; }
  synchronized boolean isPast(int bound) { return n > bound && last > bound; }
}
JAVA
}

bundle() {
    number=0
    while [ "$number" -lt "$1" ]; do
        class "$number" "$1" >"$work/class"
        printf 'file C%d.java %d\n' "$number" "$(wc -c <"$work/class")"
        cat "$work/class"
        printf '\n'
        number=$((number + 1))
    done
    printf 'end\n'
}

check() {
    "$program" check <"$work/$1"
}

# The lesser of a number so far, if there is one, and the time of a run of a command, in hundredths of a
# millisecond.
lesser() {
    before=$1
    shift
    now=$(($(least 1 1 "$@") / 10000))
    if [ -n "$before" ] && [ "$before" -lt "$now" ]; then now=$before; fi
    echo "$now"
}

count=${1:-250}
bundle "$count" >"$work/small"
bundle $((count * 2)) >"$work/large"
printf 'end\n' >"$work/none"
for input in small large; do "$program" check <"$work/$input" >/dev/null || { echo "the $input project is refused" >&2; exit 1; }; done
none=
small=
large=
# One after another, so that a slow moment of the machine meets all of them.
round=0
while [ "$round" -lt 20 ]; do
    none=$(lesser "$none" check none)
    small=$(lesser "$small" check small)
    large=$(lesser "$large" check large)
    round=$((round + 1))
done
echo "empty $none, $count classes $small, $((count * 2)) classes $large (0.01 ms)"
echo "growth $(((large - none) * 100 / (small - none)))"
