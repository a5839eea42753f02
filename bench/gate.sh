#!/bin/sh
# What the gate costs: runs `rt ci` with the words given (names of crates, --anew) and prints, behind what that
# prints, the processor seconds by crate and kind: its proofs, its tests, the check that its must-fail edits begin
# with, the edits; and each crate's total by 1,000 lines of all kinds (src, specs, proofs). What an earlier run
# proved isn't proved again and costs nothing: `bench/gate.sh --anew` measures all.
#
# rt says no times, so they are read off the processes, twice a second; what ran shorter than that, and what isn't
# the prover (building, runs of programs and tests), is in the line `other`, which makes up the whole.
set -eu
top=$(CDPATH= cd -- "$(dirname -- "$0")/.." && pwd)
cd "$top"
exec python3 - "$@" <<'PYTHON'
import os, re, resource, subprocess, sys, time

TICKS = os.sysconf("SC_CLK_TCK")
KINDS = "proof", "tests", "start", "edits"


def children(parents):
    """The processes below a process, with the words and the processor seconds of each that is the prover."""
    below, order = {parents}, []
    rows = []
    for name in os.listdir("/proc"):
        if name.isdigit():
            try:
                with open(f"/proc/{name}/stat") as it:
                    fields = it.read().rpartition(")")[2].split()
                rows.append((int(name), int(fields[1]), int(fields[19]), (int(fields[11]) + int(fields[12])) / TICKS))
            except (OSError, IndexError, ValueError):
                pass
    grew = True
    while grew:
        grew = False
        for pid, parent, begun, spent in rows:
            if parent in below and pid not in below:
                below.add(pid)
                order.append((pid, begun, spent))
                grew = True
    return order


def words_of(pid):
    try:
        with open(f"/proc/{pid}/cmdline", "rb") as it:
            return it.read().decode(errors="replace").split("\0")
    except OSError:
        return []


def place_of(pid):
    try:
        return os.readlink(f"/proc/{pid}/cwd")
    except OSError:
        return ""


def kind_of(words, place):
    """The crate and the kind of work of a run of the prover in that folder, or None for any other process."""
    if len(words) < 2 or os.path.basename(words[0]) != "rattle" or words[1] not in ("check", "build"):
        return None
    crate = words[words.index("--crate-name") + 1] if "--crate-name" in words else "?"
    over = words[words.index("--incremental") + 1] if "--incremental" in words else ""
    if "rt-edits-" in over or "/rt-edit-" in place:
        return crate, "start" if over.endswith("/seed") else "edits"
    return crate, "tests" if "--test" in words or crate.endswith("_tests") else "proof"


def lines_of(crate):
    count = 0
    for part in ("src", "specs", "proofs"):
        for at, _, names in os.walk(f"crates/{crate}/{part}"):
            for name in names:
                if name.endswith((".rt", ".antt")):
                    with open(f"{at}/{name}", "rb") as it:
                        count += sum(1 for _ in it)
    return count


run = subprocess.Popen(["rt", "ci", *sys.argv[1:]], stdin=subprocess.DEVNULL)
spent, kinds = {}, {}
while run.poll() is None:
    for pid, begun, seconds in children(run.pid):
        key = pid, begun
        if kinds.get(key) is None:
            kinds[key] = kind_of(words_of(pid), place_of(pid))
        if kinds[key]:
            spent[key] = max(seconds, spent.get(key, 0))
    time.sleep(0.5)
used = resource.getrusage(resource.RUSAGE_CHILDREN)
whole = used.ru_utime + used.ru_stime
table = {}
for key, seconds in spent.items():
    crate, kind = kinds[key]
    table.setdefault(crate, dict.fromkeys(KINDS, 0))[kind] += seconds
print(f"\n{'processor seconds':20}" + "".join(f"{it:>8}" for it in KINDS) + f"{'all':>8}{'lines':>8}{'per 1,000':>11}")
for crate, row in sorted(table.items(), key=lambda it: -sum(it[1].values())):
    total, lines = sum(row.values()), lines_of(crate)
    rate = f"{1000 * total / lines:11.0f}" if lines else f"{'':11}"
    print(f"{crate:20}" + "".join(f"{row[it]:8.0f}" for it in KINDS) + f"{total:8.0f}{lines:8}{rate}")
sums = {it: sum(row[it] for row in table.values()) for it in KINDS}
lines = sum(lines_of(it) for it in table)
print(f"{'other':20}{'':32}{whole - sum(sums.values()):8.0f}")
print(f"{'whole':20}" + "".join(f"{sums[it]:8.0f}" for it in KINDS) + f"{whole:8.0f}{lines:8}" + (f"{1000 * whole / lines:11.0f}" if lines else ""))
print(f"{whole / 60:.0f} processor minutes")
sys.exit(run.returncode)
PYTHON
