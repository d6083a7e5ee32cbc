#!/usr/bin/env bash
# Counts by valgrind's callgrind the instructions of a grant and of a container's end (a heartbeat that reports it): in a cluster of 2,048 nodes, 511 leaf
# queues and 5,000 applications with 30,000 grants, and in one of twice as much of each. Prints both, and fails where a grant or an end costs more than 1.2
# times as much in the larger. Needs valgrind, a package of most distributions.
. "$(dirname "${BASH_SOURCE[0]}")/common.sh"
command -v valgrind >/dev/null || { echo "valgrind is not installed: it is a package of most distributions" >&2; exit 1; }
build_engine_runs

# instructions of a run of nodes, leaves, applications, grants and ends
instructions() {
  echo "$@" >"$work/size"
  valgrind --tool=callgrind --callgrind-out-file="$work/counts" "$program" <"$work/size" >"$work/output" 2>"$work/messages" || { tail -n 5 "$work/messages" >&2; exit 1; }
  grep -q "^$4 granted, $5 ended" "$work/output" || { echo "not all grants and ends were made" >&2; exit 1; }
  total=$(awk '/^summary:/ { print $2 }' "$work/counts")
}

# a cluster of so many times the size: what a grant and an end cost, by the difference of runs
measure() {
  local size=($((2048 * $1)) $((511 * $1)) $((5000 * $1))) all=$((30000 * $1)) filled granted
  instructions "${size[@]}" 0 0
  filled=$total
  instructions "${size[@]}" "$all" 0
  granted=$total
  instructions "${size[@]}" "$all" "$all"
  grant=$(((granted - filled) / all)) end=$(((total - granted) / all))
  echo "${size[*]} nodes, leaf queues and applications: $grant instructions a grant, $end an end"
}

measure 1
grant_1=$grant end_1=$end
measure 2
awk -v g="$grant_1" -v h="$grant" -v e="$end_1" -v f="$end" 'BEGIN { printf "growth: %.2f of a grant, %.2f of an end (at most 1.20)\n", h / g, f / e; exit !(h <= 1.2 * g && f <= 1.2 * e) }'
