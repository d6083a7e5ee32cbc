#!/usr/bin/env bash
# What a replica costs that follows the journal. Counts by valgrind's callgrind the instructions of a hold in which it takes what is new, of 0, 1, 16 and 256
# Allocates of 20 asks, with 512 nodes and with 4,096; and of an Allocate of 20 asks, a Heartbeat, a RegisterNode and a Refresh of 512 leaf queues that it makes
# again, beside the same call of a cluster alone. Each is the difference of two sizes, within the function that stands apart for it. Fails where a
# hold takes more than 1,500 instructions and 100 for each entry, or a call made again takes more than 1.2 times those of the call. Needs valgrind, a package of
# most distributions.
. "$(dirname "${BASH_SOURCE[0]}")/common.sh"
need_valgrind
build_engine_runs

# within FUNCTION WORDS..: `total` is what that function takes where the program does this
within() {
  echo "${*:2}" | valgrind --tool=callgrind --toggle-collect="$1*" --callgrind-out-file=/dev/null "$program" >"$work/output" 2>"$work/messages" || { tail -n 5 "$work/messages" >&2; exit 1; }
  total=$(sed -n 's/.*Collected : //p' "$work/messages")
  [ "$total" -gt 0 ] || { echo "no function is named $1" >&2; exit 1; }
}

# each FUNCTION TIMES SIZE WORDS..: `each` is what it takes for one of so many times the size, with the words and the size; `made` is what the program says
each() {
  within "$1" "${@:4}" "$3"
  local first=$total
  within "$1" "${@:4}" $((2 * $3))
  each=$(((total - first) / ($2 * $3)))
  made=$(cat "$work/output")
}

broken=0
# a_hold NODES ENTRIES
a_hold() {
  local most=$((1500 + 100 * $2))
  each cap_testing::looker::take_news 1 100 news "$1" "$2"
  [ "$made" = "$((200 * $2)) taken" ] || { echo "not all entries are taken: $made" >&2; exit 1; }
  echo "a hold that takes $2 entries, with $1 nodes: $each instructions (at most $most)"
  [ "$each" -le "$most" ] || broken=1
}
for nodes in 512 4096; do
  for entries in 0 1 16 256; do a_hold "$nodes" "$entries"; done
done

# again KIND LEAVES ROUNDS
again() {
  each engine_runs::following::alone::is_made 16 "$3" again "$1" alone "$2"
  local alone=$each
  each cap_testing::looker::make_again 16 "$3" again "$1" replica "$2"
  [ "$made" = "$((32 * $3)) made" ] || { echo "not every call is made: $made" >&2; exit 1; }
  echo "$1: $alone instructions alone, $each made again"
  ratio "$alone" "$each" 1.2 || broken=1
}
again allocate 64 64
again heartbeat 64 64
again node 64 64
again refresh 512 2
exit "$broken"
