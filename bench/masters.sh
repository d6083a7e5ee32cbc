#!/usr/bin/env bash
# Counts the instructions of the replay of N application masters by valgrind's callgrind, for N = 500 and 1,000: each is submitted, registers, asks under 50
# keys in its first allocate, and makes 19 more allocates, in turn with the others. Prints the counts and the ratio of the two, which is at most 2.1 where an
# allocate does not grow with the other applications. Needs valgrind, a package of most distributions.
. "$(dirname "${BASH_SOURCE[0]}")/common.sh"
need_valgrind
build_capsched

script() {
  awk -v n="$1" 'BEGIN {
    print "conf yarn.scheduler.capacity.root.queues=a"
    print "open 1"
    for (i = 1; i <= n; i++) {
      printf "bytes 1 00000010" "0101%08x" "06726f6f742e61" "027531\n", i
      printf "bytes 1 0000000e" "0102%08x" "%016x\n", i, i
    }
    asks = ""
    for (k = 1; k <= 50; k++) asks = asks sprintf("%08x%016x%08x%016x%016x%s", 1, k, 2, 1024, 1, "012a")
    for (round = 0; round < 20; round++)
      for (i = 1; i <= n; i++)
        if (round == 0) printf "bytes 1 000006ba" "0103%08x" "%016x" "%08x" "0032" "%s" "0000\n", i, i, round, asks
        else printf "bytes 1 00000016" "0103%08x" "%016x" "%08x" "0000" "0000\n", i, i, round
    print "end 1"
  }'
}

counts=()
for n in 500 1000; do
  script "$n" >"$work/script"
  count replay
  [ "$(grep -c '^out 1 0000000f0103[0-9a-f]\{8\}00' "$work/output")" = "$((20 * n))" ] || { echo "an allocate is not answered with success" >&2; exit 1; }
  echo "N=$n: $other instructions, and $moved that clear and copy"
  counts+=($((moved + other)))
done
ratio "${counts[@]}" 2.1
