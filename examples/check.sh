#!/usr/bin/env bash
# Looks whether each example is among the scripts that the gate plays, with what it prints, word for word; then plays it,
# checks the types of the package in Python where mypy is installed, and runs its tests, against the program and daemons
# on 127.0.0.1. The program is built first where it isn't. With `--built` nothing is built: what the gate has left is run;
# where there is nothing, the first example is played unproved, and what needs the program is left out, as it says.
set -euo pipefail
cd "$(dirname "${BASH_SOURCE[0]}")"
export PYTHONDONTWRITEBYTECODE=1
program=../crates/capsched/out/capsched

# the example's text in a file of the cases: what follows the line with its name, up to the next such line
stored() { awk -v name="== the example $1" '/^== / { inside = $0 == name; next } inside' "../runs/replay/$2"; }

complain() { echo "examples/$1" >&2; exit 1; }

# run_tests WORDS..: runs the tests of the package in Python that the words choose, which end within ten minutes; fails
# where none ran
run_tests() {
  local said
  said=$(timeout 600 python3 -m unittest discover -s ../clients/python/tests "$@" 2>&1 | tee >(cat >&2)) || complain "check.sh: tests of $* fail"
  grep -q '^Ran [1-9]' <<<"$said" || complain "check.sh: no test of $* ran"
}

if [ "${1:-}" != --built ]; then
  ../capsched --version >/dev/null
elif [ ! -x "$program" ]; then
  echo "the program is not built: the first example is played unproved, and nothing else"
  program=
fi
for script in *.script; do
  name=${script%.script}
  [ "$(stored "$name" cases)" = "$(cat "$script")" ] || complain "$script is not what runs/replay/cases has of it"
  [ "$(stored "$name" answers)" = "$(cat "$name.out" && echo status 0)" ] || complain "$name.out is not what runs/replay/answers has of it"
  if [ -n "$program" ]; then
    "$program" replay <"$script" | diff "$name.out" - || complain "$script does not print what $name.out has"
  elif [ "$name" = first_cluster ]; then
    ../capsched --unproved replay <"$script" | diff "$name.out" - || complain "$script does not print what $name.out has"
  else
    continue
  fi
  echo "examples/$script prints what examples/$name.out has"
done
if command -v mypy >/dev/null; then
  echo "the types of the package in Python, by $(mypy --version):"
  (cd ../clients/python && mypy --cache-dir /dev/null)
else
  echo "mypy is not installed: the types of the package in Python are not checked"
fi
if grep -rnE '^.{121,}' ../clients/python/{src,tests} --include='*.py' --include='*.html'; then
  complain "check.sh: these lines are longer than 120"
fi
PYTHONPATH=$(realpath ../clients/python/src)
export PYTHONPATH
if [ -z "$program" ]; then
  for name in Bytes Formats Histories StatsFiles; do run_tests -k "$name"; done
  exit
fi
CAPSCHED=$(realpath "$program")
export CAPSCHED
for file in ../clients/python/tests/test_*.py; do run_tests -p "$(basename "$file")"; done
