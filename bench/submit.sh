#!/usr/bin/env bash
# Times the replay of N submits to one leaf queue by N different users, for N = 10,000 and 20,000: the time and the ratio of the two, which is at
# most 2.5 where a submit does not grow with the users of its queue. Each time is the best of three runs.
. "$(dirname "${BASH_SOURCE[0]}")/common.sh"
build_capsched

# submits to root.a by u0000001, u0000002, and so on
script() {
  awk -v n="$1" 'BEGIN {
    print "conf yarn.scheduler.capacity.root.queues=a"
    print "conf yarn.scheduler.capacity.maximum-applications=1000000"
    print "open 1"
    for (i = 1; i <= n; i++) {
      digits = sprintf("%07d", i)
      user = "75"
      for (k = 1; k <= 7; k++) user = user "3" substr(digits, k, 1)
      printf "bytes 1 000000160101%08x06726f6f742e6108%s\n", i, user
    }
    print "end 1"
  }'
}

times=()
for n in 10000 20000; do
  script "$n" >"$work/script"
  best_of_three play
  [ "$(grep -c '^out 1 0000000f0101.*00[0-9a-f]\{16\}$' "$work/output")" = "$n" ] || { echo "a submit is not answered with a number" >&2; exit 1; }
  echo "N=$n: $best ms"
  times+=("$best")
done
ratio "${times[@]}" 2.5
