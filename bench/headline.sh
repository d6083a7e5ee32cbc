#!/usr/bin/env bash
# The definitions that whoever reads the headline has to believe: all that the clauses `headline`, `bounded` and `once` of `World::run` speak of, and the opening
# of settings, in an order in which they can be read, each after those that it speaks of. Prints each file with the definitions and the Rust types that are
# reached in it and their lines, with the comments above them, and the sums. With a number it fails where the definitions have more lines. It reads files alone:
# nothing is built. A name is looked up where it stands, so a variable that has the name of a definition counts for it.
. "$(dirname "${BASH_SOURCE[0]}")/common.sh"

cd "$top/crates"
grep -v '^#' ../crates.txt | cut -d: -f1 | awk -v most="${1:-}" '
  # the file of an imported module, or nothing where it is of no crate of ours
  function file_of(module, parts, n, i, file) {
    n = split(module, parts, ".")
    if (!(parts[1] in is_crate)) return ""
    if (parts[3] == "declared") {
      file = parts[1] "/src"
      for (i = 4; i <= n && parts[i] ~ /^[a-z]/; i++) file = file "/" parts[i]
      return file ".rt"
    }
    file = parts[1] "/" parts[2] "/" parts[3]
    if (parts[3] ~ /^[a-z]/ && parts[4] != "") file = file "/" parts[4]
    return file ".antt"
  }
  # what a line `use MODULE.{A, B as C}` or `use MODULE as D` brings into a file: of variants the type that has them
  function import(file, line, module, from, of, n, i, names, words) {
    sub(/^ *use (pub )?Rattle\./, "", line)
    module = line
    sub(/\.\{.*| as .*/, "", module)
    if ((from = file_of(module)) == "") return
    of = ""
    if (sub(/\.TheVariants$/, "", module)) { of = module; sub(/.*\./, "", of) }
    if (line ~ /\{/) { sub(/.*\{/, "", line); sub(/\}.*/, "", line) }
    else { sub(/.* as /, "", line) }
    n = split(line, names, /, */)
    for (i = 1; i <= n; i++) {
      if (split(names[i], words, / as /) < 2) words[2] = words[1]
      imported[file, words[2]] = from
      original[file, words[2]] = of != "" ? of : words[1]
    }
  }
  # cuts a file into paragraphs, each a definition with the comment above it, and notes which names stand in which
  function cut(file, line, name, kind, found) {
    if (file in paragraphs) return
    paragraphs[file] = 1
    kind = ""
    while ((getline line < file) > 0) {
      if (line ~ /^ *use /) { if (line ~ /^ *use (pub )?Rattle\./ && file ~ /antt$/) import(file, line); continue }
      if (line ~ /^ *$/) { if (size[file, paragraphs[file]]) paragraphs[file]++; kind = ""; continue }
      size[file, paragraphs[file]]++
      text[file, paragraphs[file]] = text[file, paragraphs[file]] "\n" (line ~ /^ *(--|\/\/)/ ? "" : line)
      name = line
      if (file ~ /rt$/) found = sub(/^pub (enum|struct) /, "", name)
      else if (line ~ /^ *(pub )?(record|data) /) { found = sub(/^ *(pub )?(record|data) /, "", name); kind = line ~ /data / ? "data" : "record" }
      else found = kind != "record" && line ~ /^ *(unfoldable |abbrev |pub )*[A-Za-z_][A-Za-z0-9_-]* :/ && sub(/^ *(unfoldable |abbrev |pub )*/, "", name)
      if (!found) continue
      sub(/[^A-Za-z0-9_-].*/, "", name)
      at[file, name] = paragraphs[file]
      if (!((file, paragraphs[file]) in title)) title[file, paragraphs[file]] = name
    }
    close(file)
  }
  # lists a definition after those that it speaks of
  function reach(file, name, place, names, n, i) {
    cut(file)
    if (!((file, name) in at)) { print "there is no " name " in " file >"/dev/stderr"; exit failed = 1 }
    place = file SUBSEP at[file, name]
    if (place in reached) return
    reached[place] = 1
    if (file ~ /antt$/) {
      n = split(text[place], names, /[^A-Za-z0-9_-]+/)
      for (i = 1; i <= n; i++) {
        if ((file, names[i]) in at) reach(file, names[i])
        else if ((file, names[i]) in imported) reach(imported[file, names[i]], original[file, names[i]])
      }
    }
    if (!(file in lines)) files[++count] = file
    lines[file] += size[place]
    list[file] = list[file] " `" title[place] "`"
    number[file ~ /antt$/ ? "definitions" : "types"]++
    all[file ~ /antt$/ ? "definitions" : "types"] += size[place]
  }
  { is_crate[$1] = 1 }
  END {
    reach("cap_base/specs/Settings.antt", "Settings")
    reach("cap_model/specs/Flat.antt", "opened_cluster")
    reach("cap_world/specs/Hearing.antt", "attempts_of")
    reach("cap_world/specs/Hearing.antt", "IsHeadline")
    reach("cap_model/specs/Bounds.antt", "IsBounded")
    reach("cap_world/specs/Once.antt", "StaysBounded")
    reach("cap_world/specs/Once.antt", "HappensOnce")
    if (failed) exit 1
    print "| File | Definitions | lines |\n|---|---|---|"
    for (i = 1; i <= count; i++) printf "| `%s` |%s | %d |\n", files[i], list[files[i]], lines[files[i]]
    printf "definitions: %d, of %d lines%s\n", number["definitions"], all["definitions"], most == "" ? "" : " (at most " most ")"
    printf "types: %d, of %d lines\n", number["types"], all["types"]
    if (most == "" || all["definitions"] <= most + 0) exit 0
    printf "the headline speaks of %d lines of definitions, and at most %d are wanted\n", all["definitions"], most >"/dev/stderr"
    exit 1
  }'
