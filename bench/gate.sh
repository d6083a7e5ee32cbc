#!/usr/bin/env bash
# What the merge gate costs, on a clone of the last commit: the processor seconds of one `rt ci` that takes over nothing from earlier runs, and of the wrong
# bodies that are tried after it, over those that `cap_frames` by itself takes to be proved before and after them, in the middle, since machines differ, and one
# is not as fast at all times; fails where the ratio is above 250. With `--each` also a table of what each crate takes of it: its proof, the proof of its tests,
# and its wrong bodies, as the running provers were looked at each second. `--pace` prints what `cap_frames` takes, alone.
. "$(dirname "${BASH_SOURCE[0]}")/common.sh"
most=250
git clone -q "$top" "$work/clone"
cd "$work/clone"

# runs the words, with what they print in the log: `seconds` is what they took of all processors
spend() {
  local TIMEFORMAT='%U %S'
  seconds=$({ time "$@" >>"$work/log" 2>&1; } 2>&1) || { tail -n 5 "$work/log" >&2; exit 1; }
  seconds=$(awk '{ printf "%.0f", $1 + $2 }' <<<"$seconds")
}

# looks at the provers that run below the clone or in the folders of edits, each second; when it is told to end, it prints the table
watch_each() {
  exec python3 - "$work/clone" <<'PYTHON'
import os, signal, sys, time

clone, ticks, seen = sys.argv[1], os.sysconf("SC_CLK_TCK"), {}
KINDS = ("proved", "tests", "wrong bodies")


def look(process):
    """Notes the crate that a prover works on, as what, and the processor seconds that it has taken."""
    with open(f"/proc/{process}/cmdline", encoding="utf-8") as it:
        words = it.read().split("\0")
    if not words[0].endswith("/rattle") or "--crate-name" not in words:
        return
    folder = os.readlink(f"/proc/{process}/cwd")
    if not folder.startswith((clone, "/tmp/rt-edit-", "/tmp/wrong-body-")):
        return
    with open(f"/proc/{process}/stat", encoding="utf-8") as it:
        fields = it.read().rpartition(")")[2].split()
    kind = "tests" if "--test" in words else "proved" if folder.startswith(clone) else "wrong bodies"
    crate = words[words.index("--crate-name") + 1]
    seen[process, fields[19]] = crate, kind, (int(fields[11]) + int(fields[12])) / ticks


def end(*_):
    spent = {}
    for crate, kind, seconds in seen.values():
        spent.setdefault(crate, dict.fromkeys(KINDS, 0))[kind] += seconds
    spent["all"] = {kind: sum(it[kind] for it in spent.values()) for kind in KINDS}
    print("| Crate | proved | tests | wrong bodies |", "|---|---|---|---|", sep="\n")
    for crate, row in sorted(spent.items(), key=lambda it: -sum(it[1].values())):
        print(f"| `{crate}` |", " | ".join(f"{row[it]:.0f}" if row[it] else "-" for it in KINDS), "|")
    sys.exit()


signal.signal(signal.SIGTERM, end)
while True:
    for process in filter(str.isdigit, os.listdir("/proc")):
        try:
            look(process)
        except OSError:
            pass  # it has ended
    time.sleep(1)
PYTHON
}

# what `cap_frames` by itself takes, from nothing, whatever checks have kept on this machine
measure_pace() {
  spend bash -c 'cd crates/cap_frames && rt verdict --jobs 1'
  echo "cap_frames by itself: $seconds s of a processor"
}

measure_pace
pace=$seconds
[ "${1:-}" != --pace ] || exit 0
[ "${1:-}" != --each ] || { watch_each >"$work/table" & watcher=$!; }
SECONDS=0
# (a kit whose `rt ci` keeps what earlier runs have proved has a word against that)
spend rt ci $(rt help 2>&1 | grep -o -m 1 -e --anew || true)
gate=$seconds
spend misuse/bodies.py
seconds=$((gate + seconds))
wall=$SECONDS
[ "${1:-}" != --each ] || { kill "$watcher"; wait "$watcher" || true; cat "$work/table"; }
grep ' passed, ' "$work/log" | tail -n 1
tail -n 1 "$work/log"
lines=$(git ls-files '*.rt' '*.antt' | xargs cat | wc -l)
edits=$(ls crates/*/{must-fail,wrong-bodies}/*.edit | wc -l)
echo "the gate: $seconds s of all processors, $((seconds - gate)) of them for wrong bodies, $wall s of wall; lines: $lines, edits: $edits"
whole=$seconds
measure_pace
ratio $(((pace + seconds) / 2)) "$whole" "$most"
