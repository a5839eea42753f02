#!/bin/sh
# `promise_desk check` of a project of 500 classes beside `javac` on the same files, without its annotations'
# meaning: the least of several runs of each, their ratio in thousandths, and the most memory that the check
# took in bytes for each byte of text. Without `javac` only the memory is printed.
. "$(dirname -- "$0")/common.sh"
need_program

count=500
mkdir "$work/java" "$work/classes"
number=0
while [ "$number" -lt "$count" ]; do
    next=$(((number + 1) % count))
    cat >"$work/java/C$number.java" <<JAVA
@RegionLock("L is this protects Instance")
class C$number {
  private int n = 1;
  private int last;
  synchronized int step(C$next other, int by) {
    add(by);
    for (int i = 0; i < by; i++) { last += n * i; }
    synchronized (other) { other.add(last); }
    return n;
  }
  @RequiresLock("L") void add(int by) { n += by; }
  synchronized boolean isPast(int bound) { return n > bound && last > bound; }
}
JAVA
    number=$((number + 1))
done
for file in "$work"/java/*.java; do
    printf 'file %s %d\n' "$(basename "$file")" "$(wc -c <"$file")"
    cat "$file"
    printf '\n'
done >"$work/bundle"
printf 'end\n' >>"$work/bundle"
printf '@interface RegionLock { String value(); }\n' >"$work/java/RegionLock.java"
printf '@interface RequiresLock { String value(); }\n' >"$work/java/RequiresLock.java"

check() { "$program" check <"$work/bundle"; }
compile() { javac -d "$work/classes" "$work"/java/*.java; }

check >/dev/null || { echo "the project is refused" >&2; exit 1; }
bytes=$(wc -c <"$work/bundle")
if command -v python3 >/dev/null; then
    most=$(python3 -c 'import resource, subprocess, sys
subprocess.run([sys.argv[1], "check"], stdin=open(sys.argv[2]), stdout=subprocess.DEVNULL)
print(resource.getrusage(resource.RUSAGE_CHILDREN).ru_maxrss * 1024)' "$program" "$work/bundle")
    echo "memory $((most * 10 / bytes)) tenths of a byte for each byte of text"
fi
if command -v javac >/dev/null; then
    compile
    ours=$(($(least 5 1 check) / 10000))
    theirs=$(($(least 3 1 compile) / 10000))
    echo "check $ours, javac $theirs (0.01 ms)"
    echo "against javac $((ours * 1000 / theirs)) thousandths"
fi
