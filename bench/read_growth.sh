#!/bin/sh
# How reading grows: `promise_desk check` on a bundle of 4,096 files of the whole grammar with N bytes
# together and on one of 2N bytes, the larger near the limit of 16 MiB. It prints the least of several
# times in milliseconds, their ratio in hundredths (about 200 is linear; starting the program, measured on
# an empty bundle, is taken off both), the bytes a second, and the peak memory a byte of text. Where there
# is a javac, it also prints the bytes a second of `javac -proc:only -Xlint:none -Xdiags:compact`, which
# parses the same files and enters their types without looking into bodies.
. "$(dirname -- "$0")/common.sh"
need_program
files=4096

# A file with so many methods.
class() {
    printf 'package p;\n\nimport q.R;\n\n@RegionLock("L is this protects Instance")\npublic class C%d implements I {\n' "$1"
    printf '    private final int limit = 16;\n    private C%d next;\n    private int total;\n\n' "$1"
    method=0
    while [ "$method" -lt "$2" ]; do
        printf '    public synchronized int add%d(C%d other, int count) {\n' "$method" "$1"
        printf '        if (other != null && (count < this.limit || count == 0)) {\n'
        printf '            for (int i = 0; i < count; i++) { total += other.total * 3 - i; }\n'
        printf '        } else { next = new C%d(count); }\n        return total; // what was added\n    }\n\n' "$1"
        method=$((method + 1))
    done
    printf '    C%d(int total) { this.total = total; }\n}\n' "$1"
}

# The bundle of files with so many methods each, and the files.
bundle() {
    mkdir -p "$work/$1"
    number=100000
    while [ "$number" -lt $((100000 + files)) ]; do
        class "$number" "$2" >"$work/$1/C$number.java"
        number=$((number + 1))
    done
    (cd "$work/$1" && for file in *.java; do
        printf 'file %s %d\n' "$file" "$(wc -c <"$file")"
        cat "$file"
        printf '\n'
    done) >"$work/$1.bundle"
    printf 'end\n' >>"$work/$1.bundle"
    cat "$work/$1"/*.java | wc -c
}

# In milliseconds, of so many rounds.
milliseconds() {
    rounds=$1
    shift
    echo $(($(least "$rounds" 1 "$@") / 1000000))
}

check() {
    "$program" check <"$1"
}

small=$(bundle small 5)
large=$(bundle large 11)
printf 'end\n' >"$work/none"
check "$work/large.bundle" || true
none=$(milliseconds 20 check "$work/none")
first=$(milliseconds 9 check "$work/small.bundle")
second=$(milliseconds 9 check "$work/large.bundle")
echo "empty $none ms, $small bytes $first ms, $large bytes $second ms"
echo "growth $(((second - none) * small * 200 / (first - none) / large)) (hundredths, for twice the bytes)"
echo "bytes a second $((large * 1000 / (second - none)))"
peak=$(python3 - "$program" "$work/large.bundle" <<'PEAK'
import resource, subprocess, sys
subprocess.run([sys.argv[1], "check"], stdin=open(sys.argv[2]), stdout=subprocess.DEVNULL)
print(resource.getrusage(resource.RUSAGE_CHILDREN).ru_maxrss * 1024)
PEAK
)
echo "peak memory $peak bytes, hundredths of a byte a byte of text: $((peak * 100 / large))"
if command -v javac >/dev/null; then
    parse=$(milliseconds 2 javac -proc:only -Xlint:none -Xdiags:compact -d "$work" "$work"/large/*.java)
    echo "javac bytes a second $((large * 1000 / parse))"
fi
