#!/usr/bin/env bash
# What a turn does under the cluster's lock, and before it proposes: in a cluster of 512 nodes, 64 leaf queues and 256 applications, each with an ask and two
# live containers, it copies the cluster's parts into an arena under the lock, and makes a snapshot of them once the cluster is given back. Times 20,000 of each
# beside as many copies of the bytes that the parts take there, the best of three runs, by the difference to a run of none; and counts by valgrind's callgrind
# the instructions of each, with those that clear and copy memory apart, and under the lock those that drop a copy, which is done once the cluster is given back. Fails where the copy under the lock takes more than 2.5 times as long as one of its bytes,
# or more than 120,000 instructions beside those that clear and copy, and where the snapshot takes memory. Needs valgrind, a package of most distributions.
. "$(dirname "${BASH_SOURCE[0]}")/common.sh"
need_valgrind
build_engine_runs
cluster=(512 64 256 512 0)
times=20000

# runs the program on the numbers
run() { echo "$@" | "$program" >"$work/output"; }

# taken SNAPSHOTS: how many bytes the second of two copies takes in the arena, with so many snapshots made of them
taken() { run "${cluster[@]}" 2 0 0 "$1" && sed 's/.*; \([0-9]*\) bytes a copy$/\1/' "$work/output"; }

bytes=$(taken 0)
[ "$(taken 2)" = "$bytes" ] || { echo "a snapshot takes memory beside the copy of the parts" >&2; exit 1; }
best_of_three run "${cluster[@]}" 0
none=$best
best_of_three run "${cluster[@]}" "$times"
parts=$((best - none))
best_of_three run "${cluster[@]}" "$times" 0 0 "$times"
snapshots=$((best - none))
best_of_three run "${cluster[@]}" 0 "$times" "$bytes"
copies=$((best - none))
echo "$times copies of the parts, of $bytes bytes: $parts ms; with their snapshots: $snapshots ms; as many copies of the bytes: $copies ms"

# measure SNAPSHOTS: what a copy of the parts costs by the difference of 200 and 100, with snapshots of all or of none
measure() {
  for size in 100 200; do
    echo "${cluster[*]} $size 0 0 $(($1 * size))" >"$work/script"
    count
    if [ "$size" = 100 ]; then first=("$moved" "$other" "$dropped"); fi
  done
  moved=$(((moved - first[0]) / 100)) other=$(((other - first[1]) / 100)) dropped=$(((dropped - first[2]) / 100))
}
measure 0
locked=$((other - dropped))
echo "under the lock: $locked instructions (at most 120000), and $moved that clear and copy; $dropped drop the copy"
measure 1
echo "with the snapshot: $other instructions, and $moved that clear and copy"
ratio "$copies" "$parts" 2.5
[ "$locked" -le 120000 ]
