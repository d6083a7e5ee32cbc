#!/usr/bin/env bash
# What a turn of a worker costs beside applications of which nothing can be granted: each is passed over at once, however many asks it has. Counts its instructions
# by valgrind's callgrind, from the difference of 100 turns and 200, with 512 nodes. A first part is beside 100 applications of 256 asks each that are all over their
# users' limit, in one leaf queue. A second is where nothing can be granted, with 256 users at their limits in 64 leaf queues. A third is beside asks that are more than
# any node has, or that are for hosts or racks that are not there, against the same without them. Last it counts a RegisterNode of a host for which applications wait.
# Fails where it takes more than the bound beside each. Needs valgrind, a package of most distributions.
. "$(dirname "${BASH_SOURCE[0]}")/common.sh"
need_valgrind
build_engine_runs

broken=0
# a_turn GRANTS NODES LEAVES APPLICATIONS ASKS NODE GUARANTEE SIZE USERS BESIDE [PLACE]: the instructions of one turn, of which each grants so many
a_turn() {
  local turns first
  for turns in 100 200; do
    echo "pass $2 $3 $4 $5 $turns ${*:6}" >"$work/script"
    count
    [ "$(cat "$work/output")" = "$(($1 * turns)) granted" ] || { echo "${*:2}: not $1 granted a turn" >&2; exit 1; }
    [ "$turns" = 200 ] || first=$((moved + other))
  done
  each=$(((moved + other - first) / 100))
}
# at_most BOUND WORDS..: prints it, and notes where it is more
at_most() {
  echo "${*:2}: $each instructions a turn (at most $1)"
  [ "$each" -le "$1" ] || broken=1
}
a_turn 1 512 1 100 256 999999 1024 2048 100 1
at_most 100000 100 applications of 256 asks over their users\' limit
a_turn 0 512 64 256 256 999999 1024 2048 256 0
at_most 150000 256 users at their limits, nothing granted
a_turn 1 512 1 0 1 4096 999999 8192 1 1
without=$each
# beside APPLICATIONS ASKS SIZE PLACE BOUND WORDS..: a turn beside so many applications with so many such asks each, against the same without them
beside() {
  # shellcheck disable=SC2086
  a_turn 1 512 1 "$1" "$2" 4096 999999 "$3" 1 1 $4
  echo "${*:6}: $each instructions a turn, $without without them"
  # shellcheck disable=SC2086
  ratio "$without" "$each" $5 || broken=1
}
beside 1 256 8192 "" 1.2 256 asks larger than any node
beside 100 256 1024 host 1.2 100 applications of 256 asks for hosts that are not there
beside 100 256 1024 rack 1.2 100 applications of 256 asks for racks that are not there
beside 10000 16 1024 host 1.2 10,000 applications of 16 asks for hosts that are not there
beside 10000 16 1024 rack 1.2 10,000 applications of 16 asks for racks that are not there

# without a turn no worker follows, so that the host comes once
for place in host late; do
  echo "pass 1 1 10000 16 0 4096 999999 1024 1 0 $place" >"$work/script"
  count
  [ "$place" = late ] || first=$((moved + other))
done
each=$((moved + other - first))
echo "a RegisterNode of a host for which 10,000 applications of 16 asks wait: $each instructions (at most 20000000)"
[ "$each" -le 20000000 ] || broken=1
exit "$broken"
