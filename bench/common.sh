# What the benchmarks share; each reads it first, as `. "$(dirname -- "$0")/common.sh"`. It sets `top`, the
# repository, and `work`, a folder that goes when the script ends.
set -eu
top=$(CDPATH= cd -- "$(dirname -- "$0")/.." && pwd)
work=$(mktemp -d)
trap 'rm -rf "$work"' EXIT

# Sets `program` to promise_desk, which is built first where it isn't yet.
need_program() {
    program=$top/crates/promise_desk/out/promise_desk
    [ -x "$program" ] || (cd "$top/crates/promise_desk" && rt run -- check <stdin >&2)
}

# The least time of so many rounds of so many runs of a command each, in nanoseconds a run. What the
# command prints, and how it ends, is dropped.
least() {
    rounds=$1
    runs=$2
    shift 2
    best=
    while [ "$rounds" -gt 0 ]; do
        start=$(date +%s%N)
        run=0
        while [ "$run" -lt "$runs" ]; do
            "$@" >/dev/null 2>&1 || true
            run=$((run + 1))
        done
        took=$((($(date +%s%N) - start) / runs))
        if [ -z "$best" ] || [ "$took" -lt "$best" ]; then best=$took; fi
        rounds=$((rounds - 1))
    done
    echo "$best"
}

# The names of a crate of the repository and of all of its crates that it stands on.
below() {
    awk -F': *' -v names=" $1 " '
        /^[a-z]/ { uses[$1] = $2; order[++count] = $1 }
        END {
            for (at = count; at > 0; at--)
                if (index(names, " " order[at] " ")) names = names uses[order[at]] " "
            for (at = 1; at <= count; at++) if (index(names, " " order[at] " ")) print order[at]
        }' "$top/crates.txt"
}

# Makes a crate for a program over libraries of the repository: its name, then the crates that it uses,
# then `--` and those of the repository that are needed. Sets `crate` to its folder.
program_over() {
    crate=$work/crates/$1
    mkdir -p "$crate/src"
    line="$1:"
    shift
    while [ "$1" != -- ]; do
        line="$line $1"
        shift
    done
    shift
    cp "$top/HANDLES" "$work/"
    echo "$line" >"$work/crates.txt"
    for below in "$@"; do
        mkdir "$work/crates/$below"
        for part in src specs proofs; do
            if [ -d "$top/crates/$below/$part" ]; then cp -r "$top/crates/$below/$part" "$work/crates/$below/"; fi
        done
        grep "^$below:" "$top/crates.txt" >>"$work/crates.txt"
    done
}

# Adds to that program the reading of the number that its word is.
add_count_of() {
    cat >>"$crate/src/main.rt" <<'RUST'

fn count_of(rt: &HostRuntime) -> Result<Option<u32>> {
    match std::env::args(rt)?.nth(1) {
        Some(word) => Ok(Some(word.parse()?)),
        None => Ok(None),
    }
}
RUST
}

# Proves and builds that program, by a run of rt ci of its own, which takes what one in the repository proved
# on this machine, and then runs it with these words. Without a word such a program does nothing.
run_built() {
    add_count_of
    (cd "$crate" && rt fmt >/dev/null)
    (cd "$work" && rt ci) >"$work/log" 2>&1 || {
        tail -n 40 "$work/log" >&2
        exit 1
    }
    "$crate/out/$(basename -- "$crate")" "$@"
}
