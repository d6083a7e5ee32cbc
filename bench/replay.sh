#!/usr/bin/env bash
# Times the replay of N ClusterInfo frames over 16 connections, for N = 250,000 and 500,000: lines a second, peak memory in KiB, and the
# ratio of the two times, which is at most 2.2 where the work is in proportion to the bytes. Each time is the best of three runs.
. "$(dirname "${BASH_SOURCE[0]}")/common.sh"
build_capsched

script() {
  awk -v n="$1" 'BEGIN {
    for (c = 1; c <= 16; c++) print "open " c
    for (i = 0; i < n; i++) printf "bytes %d 00000006010a%08x\n", i % 16 + 1, i
    for (c = 1; c <= 16; c++) print "end " c
  }'
}

# plays the script, and looks at its peak memory in KiB
play_and_look() {
  "$program" replay <"$work/script" >"$work/output" &
  pid=$!
  peak=0
  while kill -0 "$pid" 2>/dev/null; do
    now=$(awk '/VmHWM/ {print $2}' "/proc/$pid/status" 2>/dev/null || true)
    [ -n "$now" ] && peak=$now
    sleep 0.01
  done
  wait "$pid"
}

times=()
for n in 250000 500000; do
  script "$n" >"$work/script"
  best_of_three play_and_look
  lines=$(wc -l <"$work/script")
  [ "$(wc -l <"$work/output")" = "$lines" ] || { echo "a line is not answered" >&2; exit 1; }
  echo "N=$n: $best ms, $((lines * 1000 / best)) lines a second, peak memory $peak KiB"
  times+=("$best")
done
ratio "${times[@]}" 2.2
