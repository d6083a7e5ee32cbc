#!/usr/bin/env bash
# Calls on a cluster that threads share, beside the same calls on a cluster without a lock. Counts by valgrind's callgrind the instructions of a ClusterInfo and of
# an allocate of 20 asks, in one thread, from the difference of two sizes; fails where a shared ClusterInfo costs more than 1,000 instructions more than the bare one,
# or a shared allocate more than 1.3 times as many. Then prints how many of each are made a second without a lock and by 1, 2 and 4 threads, the best of three runs.
. "$(dirname "${BASH_SOURCE[0]}")/common.sh"
need_valgrind
build_engine_runs

# run KIND THREADS CALLS: fails where a call is refused
run() {
  echo "$@" | "$program" >"$work/output"
  [ "$(cat "$work/output")" = "$((($2 > 0 ? $2 : 1) * $3)) answered" ] || { echo "$*: not every call is answered with success" >&2; exit 1; }
}

# instructions KIND THREADS CALLS: `total` is what they take
instructions() {
  echo "$@" | valgrind --tool=callgrind --callgrind-out-file=/dev/null "$program" >"$work/output" 2>"$work/messages" || { tail -n 5 "$work/messages" >&2; exit 1; }
  total=$(sed -n 's/.*Collected : //p' "$work/messages")
}

# each KIND THREADS CALLS: `each` is what a call takes
each() {
  instructions "$1" "$2" "$3"
  local first=$total
  instructions "$1" "$2" $((2 * $3))
  each=$(((total - first) / $3))
}

broken=0
# compare KIND CALLS: the instructions of a call without a lock and with it: `bare` and `shared`
compare() {
  each "$1" 0 "$2"
  bare=$each
  each "$1" 1 "$2"
  shared=$each
}
compare info 2000
echo "info: $bare instructions without a lock, $shared with it (at most 1000 more)"
[ $((shared - bare)) -le 1000 ] || broken=1
compare allocate 500
echo "allocate: $bare instructions without a lock, $shared with it"
ratio "$bare" "$shared" 1.3 || broken=1

# rate KIND THREADS CALLS: calls a second
rate() {
  best_of_three run "$1" "$2" 0
  local none=$best
  best_of_three run "$1" "$2" "$3"
  local ms=$((best - none))
  awk -v n="$((($2 > 0 ? $2 : 1) * $3))" -v ms="$((ms > 0 ? ms : 1))" -v what="$1, $2 threads" 'BEGIN { printf "%s: %d a second\n", what, n * 1000 / ms }'
}
for threads in 0 1 2 4; do
  rate info "$threads" 100000
  rate allocate "$threads" 10000
done
exit "$broken"
