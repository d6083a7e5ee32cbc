#!/usr/bin/env bash
# Times `capsched check` on property lines, each text beside one of twice its length: 100,000 lines (the keys of 1,024 queues, and comments), 100,000 lines
# that set properties, one line of 10 MB, and one list of 10 MB with two million names. Each time is the best of three runs. The first text of each kind
# answers within a second, and the ratio of the two times is at most 2.4.
. "$(dirname "${BASH_SOURCE[0]}")/common.sh"
build_capsched

# n lines: every property of 1,024 queues, and comments
queues() {
  awk -v n="$1" '
    function line(text) { print text; lines++ }
    function names(letter, count,  list, i) {
      list = letter 0
      for (i = 1; i < count; i++) list = list "," letter i
      return list
    }
    function queue(path, memory, vcores) {
      line(path ".capacity=[memory=" memory ",vcores=" vcores "]")
      line(path ".maximum-capacity=[memory=" 2 * memory ",vcores=" 2 * vcores "]")
      line(path ".user-limit-factor=2")
      line(path ".state=RUNNING")
    }
    BEGIN {
      root = "yarn.scheduler.capacity.root"
      line(root ".queues=" names("a", 31))
      for (a = 0; a < 31; a++) {
        path = root ".a" a
        line(path ".queues=" names("b", 32))
        queue(path, 32000, 320)
        for (b = 0; b < 32; b++) queue(path ".b" b, 1000, 10)
      }
      while (lines < n) line("# comment " lines)
    }'
}

# n lines: root has one queue, and the others are for queues that it does not list
properties() {
  awk -v n="$1" 'BEGIN {
    root = "yarn.scheduler.capacity.root"
    print root ".queues=a"
    for (i = 1; i < n; i++) print root ".a" i ".capacity=[memory=1024,vcores=1]"
  }'
}

# one comment of n bytes
comment() { printf '#'; head -c "$(($1 - 2))" /dev/zero | tr '\0' x; echo; }

# one list of n bytes: distinct names of four letters, in no order
list() {
  awk -v n="$1" 'BEGIN {
    letters = "abcdefghijklmnopqrstuvwxyzABCDEFGHIJKLMNOPQRSTUVWXYZ0123456789_-"
    for (i = 0; i < 64; i++) at[i] = substr(letters, i + 1, 1)
    text = "yarn.scheduler.capacity.root.queues="
    printf "%s", text
    for (size = length(text); size < n; size += 5) {
      k = (i++ * 7919) % 16777216
      printf "%s%s", (size > length(text) ? "," : ""), at[k % 64] at[int(k / 64) % 64] at[int(k / 4096) % 64] at[int(k / 262144)]
    }
    print ""
  }'
}

# checks the text, and the first line of the answer begins as it must
check_text() {
  "$program" check <"$work/text" >"$work/answer" 2>&1 || true
  answer=$(head -n 1 "$work/answer")
  [[ $answer == "$1"* ]] || { echo "answered $answer, not $1" >&2; exit 1; }
}

broken=0
# compare KIND SIZE UNIT ANSWER BOUND RATIO: a text of a size and one of twice the size
compare() {
  times=()
  for size in "$2" $((2 * $2)); do
    "$1" "$size" >"$work/text"
    best_of_three check_text "$4"
    echo "$1 of $size $3: $best ms"
    times+=("$best")
  done
  ratio "${times[@]}" "$6" || broken=1
  [ "${times[0]}" -le "$5" ] || { echo "the first took more than $5 ms"; broken=1; }
}

compare queues 100000 lines "queue " 1000 2.4
compare properties 100000 lines "line 2: yarn.scheduler.capacity.root.a1.capacity: root.a1 is not listed" 1000 2.4
compare comment 10000000 bytes "root needs a .queues line" 1000 2.4
compare list 10000000 bytes "line 1: yarn.scheduler.capacity.root.queues: " 1000 2.4
exit "$broken"
