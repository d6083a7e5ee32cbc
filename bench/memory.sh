#!/usr/bin/env bash
# What an entry of the journal holds with its receipt: the slots of both, what its request lists, and the reply. Counts by valgrind's dhat how many more bytes are
# allocated at once where twice as many calls are entered: Allocates of 256 asks and 1,024 releases, and Refreshes of 65,526 bytes. Fails where one of the first
# holds more than 55,000 bytes, or one of the second more than 70,000. Needs valgrind, a package of most distributions.
. "$(dirname "${BASH_SOURCE[0]}")/common.sh"
need_valgrind
build_engine_runs

# held KIND CALLS: `bytes` is how many are allocated at once at most where one thread makes so many calls
held() {
  echo "$1 1 $2" | valgrind --tool=dhat --dhat-out-file=/dev/null "$program" >"$work/output" 2>"$work/messages" || { tail -n 5 "$work/messages" >&2; exit 1; }
  [ "$(cat "$work/output")" = "$2 answered" ] || { echo "$1: not every call is answered with success" >&2; exit 1; }
  bytes=$(sed -n 's/.*At t-gmax: *\([0-9,]*\) bytes.*/\1/p' "$work/messages" | tr -d ,)
}

broken=0
# an_entry KIND MOST WORDS..
an_entry() {
  held "$1" 50
  local first=$bytes
  held "$1" 100
  local each=$(((bytes - first) / 50))
  echo "${*:3}: $each bytes (at most $2)"
  [ "$each" -le "$2" ] || broken=1
}
an_entry lists 55000 an Allocate of 256 asks and 1,024 releases
an_entry refresh 70000 a Refresh of 65,526 bytes
exit "$broken"
