#!/usr/bin/env bash
# What a turn of a worker costs that follows the journal: it takes what was entered since its last turn, its own grant, makes that again on its cluster, proposes
# there and commits. Counts its instructions by valgrind's callgrind, from the difference of 1,000 turns and 2,000: with 512 nodes, 64 leaf queues and 256
# applications of one ask each, with 4,096, 512 and 10,000 of eight asks each, and with 1,023 leaf queues of one parent. Fails where it takes more than the bound
# beside each. Needs valgrind, a package of most distributions.
. "$(dirname "${BASH_SOURCE[0]}")/common.sh"
need_valgrind
build_engine_runs

broken=0
# measure BOUND NODES LEAVES APPLICATIONS ASKS
measure() {
  local first each
  for turns in 1000 2000; do
    echo "follow ${*:2} $turns" >"$work/script"
    count
    [ "$(cat "$work/output")" = "$turns granted" ] || { echo "${*:2}: not every turn grants" >&2; exit 1; }
    [ "$turns" = 2000 ] || first=$((moved + other))
  done
  each=$(((moved + other - first) / 1000))
  echo "nodes=$2 leaves=$3 applications=$4 asks=$5: $each instructions a turn (at most $1)"
  [ "$each" -le "$1" ] || broken=1
}
measure 20000 512 64 256 1
measure 30000 4096 512 10000 8
measure 30000 512 1023 2046 1
exit "$broken"
