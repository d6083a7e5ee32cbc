# What the scripts beside it share: a folder for their files, the best of three runs, runs that nobody disturbs, a count of instructions, and the ratio of
# two times or counts.
set -euo pipefail
top=$(cd "$(dirname "${BASH_SOURCE[0]}")/.." && pwd)
work=$(mktemp -d)
trap 'rm -rf "$work"' EXIT

# builds capsched where it isn't built
build_capsched() {
  "$top/capsched" --version >/dev/null
  program=$top/crates/capsched/out/capsched
}

# builds engine_runs where it isn't built or the sources that it stands on are newer
build_engine_runs() {
  program=$top/crates/engine_runs/out/engine_runs
  local sources
  sources=$(awk -F: -v top="$top" '
    { needs[$1] = $2 }
    END {
      queue[count = 1] = "engine_runs"
      for (i = 1; i <= count; i++) {
        if (seen[queue[i]]++ || !(queue[i] in needs)) continue
        print top "/crates/" queue[i] "/src"
        more = split(needs[queue[i]], names, " ")
        for (j = 1; j <= more; j++) queue[++count] = names[j]
      }
    }' "$top/crates.txt")
  # shellcheck disable=SC2086
  [ ! -x "$program" ] || [ -n "$(find $sources -name '*.rt' -newer "$program" -print -quit)" ] || return 0
  (cd "$top/crates/engine_runs" && rt run <stdin >"$work/log" 2>&1) || { tail -n 5 "$work/log" >&2; exit 1; }
}

# runs a command three times: `best` is the least time in milliseconds
best_of_three() {
  best=
  for _ in 1 2 3; do
    begin=$(date +%s%N)
    "$@"
    ms=$((($(date +%s%N) - begin) / 1000000))
    if [ -z "$best" ] || [ "$ms" -lt "$best" ]; then best=$ms; fi
  done
}

# ticks: the processors' time that others on the same host took from this machine until now, and all of it
ticks() { awk '/^cpu / { for (i = 2; i <= 9; i++) all += $i; print $9, all; exit }' /proc/stat; }

# undisturbed WORDS..: runs them, and again, up to five times in all, where others took more than 1 % of the processors' time meanwhile. The last run counts.
undisturbed() {
  local before try
  for try in 1 2 3 4 5; do
    before=$(ticks)
    "$@"
    awk -v before="$before" -v after="$(ticks)" 'BEGIN {
      split(before, b); split(after, a)
      exit (a[1] - b[1]) * 100 > a[2] - b[2]
    }' && return
  done
  echo "in each of $try runs of '$*' others took more than 1 % of the processors' time; the last counts"
}

# plays the script
play() { "$program" replay <"$work/script" >"$work/output"; }

# stops where valgrind is missing
need_valgrind() {
  command -v valgrind >/dev/null || { echo "valgrind is not installed: it is a package of most distributions" >&2; exit 1; }
}

# count WORDS..: runs the program with these words on the script under callgrind: the instructions that clear and copy memory, of which it counts about one a
# byte, and all others: `moved` and `other`; and how many of the latter are in functions of their own that drop values: `dropped`
count() {
  valgrind --tool=callgrind --callgrind-out-file="$work/counts" "$program" "$@" <"$work/script" >"$work/output" 2>"$work/messages" || { tail -n 5 "$work/messages" >&2; exit 1; }
  read -r moved other dropped < <(callgrind_annotate --threshold=100 "$work/counts" | awk '
    /^ *[0-9,]+ \(.*\)/ { n = $1; gsub(",", "", n); if (/PROGRAM TOTALS/) total = n; else if (/mem(set|move|cpy)/) moved += n; else if (/Destruct::drop/) dropped += n }
    END { print moved + 0, total - moved, dropped + 0 }')
}

# ratio FIRST SECOND [MOST]: prints the ratio of two times or counts, and fails where it is greater than a most that is given
ratio() {
  awk -v a="$1" -v b="$2" -v most="${3-}" 'BEGIN {
    r = b / (a > 0 ? a : 1)
    printf "ratio of the two: %.2f%s\n", r, most == "" ? "" : " (at most " most ")"
    exit most != "" && r > most + 0
  }'
}
