#!/usr/bin/env bash
# The longest chain of crates that stand on each other below `capsched`, by their lines of `src`, `specs` and `proofs`: what a first command waits for, since a
# crate is proved after those that it stands on. Prints each crate of the chain, the lowest first, with its lines; their sum; and the lines of all crates that
# `capsched` stands on, itself among them. With a number it fails where the chain has more lines. It counts files alone: nothing is built.
. "$(dirname "${BASH_SOURCE[0]}")/common.sh"

# lines CRATE PART: how many lines the crate has in the part
lines() { find "$top/crates/$1/$2" -type f -exec cat {} + 2>/dev/null | wc -l; }

grep -v '^#' "$top/crates.txt" | while IFS=: read -r crate below; do
  echo "$crate $(lines "$crate" src) $(lines "$crate" specs) $(lines "$crate" proofs) $below"
done >"$work/crates"

awk -v most="${1:-}" '
  function is_below(crate, i, n, names) {
    if (crate in met || !(crate in own)) return
    met[crate] = 1; all += own[crate]
    n = split(below[crate], names, " ")
    for (i = 1; i <= n; i++) is_below(names[i])
  }
  # the lines of the longest chain that ends with the crate, whatever the order of the lines that name crates
  function longest(crate, i, n, names, lines, most) {
    if (!(crate in own)) return 0
    if (crate in known) return known[crate]
    n = split(below[crate], names, " ")
    for (i = 1; i <= n; i++) {
      lines = longest(names[i])
      if (lines > most) { most = lines; under[crate] = names[i] }
    }
    return known[crate] = own[crate] + most
  }
  function print_chain(crate) {
    if (crate in under) print_chain(under[crate])
    printf "| `%s` | %d | %d | %d | %d |\n", crate, src[crate], specs[crate], proofs[crate], own[crate]
  }
  {
    src[$1] = $2; specs[$1] = $3; proofs[$1] = $4; own[$1] = $2 + $3 + $4
    for (i = 5; i <= NF; i++) below[$1] = below[$1] " " $i
    if (!$2) { print $1 " has no sources" >"/dev/stderr"; broken = 1 }
  }
  END {
    if (!("capsched" in own)) { print "crates.txt names no capsched" >"/dev/stderr"; exit 1 }
    chain = longest("capsched")
    print "| Crate | src | specs | proofs | all |\n|---|---|---|---|---|"
    print_chain("capsched")
    is_below("capsched")
    printf "the longest chain: %d of %d lines%s\n", chain, all, most == "" ? "" : " (at most " most ")"
    if (most != "" && chain > most + 0) { printf "the longest chain has %d lines, and at most %d are wanted\n", chain, most >"/dev/stderr"; broken = 1 }
    exit broken
  }' "$work/crates"
