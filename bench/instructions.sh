#!/usr/bin/env bash
# Counts the instructions of works by valgrind's callgrind, from the difference of two sizes: a ClusterInfo on one of 16 connections, a heartbeat, an allocate
# of 20 asks among 256 applications, one of 256 that is refused, a queue that is opened from its lines and shown, a Refresh of 1,024 queues under 31 parents and
# under one, in another order; a turn of a worker (it copies, proposes and commits) in a farm of 512 nodes, 64 leaf queues and 256 applications, one of 32
# workers that all copy the same state first, one beside 10,000 masters that ask for nothing, one that begins at a node that holds a reservation, one with 1,023
# applications in 64 leaf queues and one in as many, one where each leaf queue's user is at the limit, in the farm and with 1,023 leaf queues, and one where
# each node holds a reservation and 2,048 asks are open (nothing is admissible in the last three: it copies and proposes); an application of 10,000 that ends,
# and one with 256 asks; a commit that is rejected beside 1,024 reservations of its application; and a node that registers, among the first 128 and after 4,032
# others. Prints them a request, with those that clear and copy memory apart, of which callgrind counts about one a byte; fails where both together are past the
# bound beside each, or more than so many times another work. Needs valgrind, a package of most distributions. Counts depend a little on the C library and the
# processor.
. "$(dirname "${BASH_SOURCE[0]}")/common.sh"
need_valgrind
build_capsched

# n ClusterInfos over 16 connections. Outputs are kept for good, and callgrind counts one a byte as they grow: between the two sizes that are measured none grows
cluster_info() {
  awk -v n="$1" 'BEGIN {
    for (c = 1; c <= 16; c++) print "open " c
    for (i = 0; i < n; i++) printf "bytes %d 00000006010a%08x\n", i % 16 + 1, i
  }'
}

# n heartbeats of one node
heartbeat() {
  awk -v n="$1" 'BEGIN {
    print "open 1"
    print "bytes 1 0000001d0105%08x" "026e31" "032f7231" "0000000000002000" "0000000000000008"
    for (i = 0; i < n; i++) printf "bytes 1 00000014" "0106%08x" "%016x" "%08x" "0000\n", i, 1, i
  }' | sed 's/%08x/00000001/'
}

# n allocates of 20 asks, in turn of 256 applications, and where they are registered before them
allocate() {
  awk -v n="$1" 'BEGIN {
    print "conf yarn.scheduler.capacity.root.queues=a"
    print "open 1"
    for (i = 1; i <= 256; i++) {
      printf "bytes 1 00000010" "0101%08x" "06726f6f742e61" "027531\n", i
      printf "bytes 1 0000000e" "0102%08x" "%016x\n", i, i
    }
    asks = ""
    for (k = 1; k <= 20; k++) asks = asks sprintf("%08x%016x%08x%016x%016x%s", 1, k, 2, 1024, 1, "012a")
    for (i = 0; i < n; i++) printf "bytes 1 000002be" "0103%08x" "%016x" "%08x" "0014" "%s" "0000\n", i, i % 256 + 1, int(i / 256), asks
  }'
}

# n allocates of 256 asks by an application that has as many: for other keys, the greatest first, so that they are refused
refused_allocate() {
  awk -v n="$1" '
    function request(body) { printf "bytes 1 %08x%s\n", length(body) / 2, body }
    function allocate(response, first, step,  body, k) {
      body = sprintf("0103%08x%016x%08x0100", 1, 1, response)
      for (k = 0; k < 256; k++) body = body sprintf("%08x%016x%08x%016x%016x%s", 1, first + step * k, 2, 1024, 1, "012a")
      request(body "0000")
    }
    BEGIN {
      print "conf yarn.scheduler.capacity.root.queues=a"
      print "open 1"
      request("010100000001" "06726f6f742e61" "027531")
      request("010200000001" "0000000000000001")
      allocate(0, 1, 1)
      for (i = 0; i < n; i++) allocate(1, 512, -1)
    }'
}

# n queues, in parents of 31 leaf queues, each with its capacity, and a QueueInfo for each
queue() {
  awk -v n="$1" '
    function text(path,  i, hex) {
      for (i = 1; i <= length(path); i++) hex = hex sprintf("%02x", index(ascii, substr(path, i, 1)) + 31)
      return sprintf("%02x", length(path)) hex
    }
    function names(letter, count,  list, i) {
      for (i = 1; i <= count; i++) list = list (i > 1 ? "," : "") letter i
      return list
    }
    function show(path) { shown[++requests] = text(path) }
    BEGIN {
      for (i = 32; i < 127; i++) ascii = ascii sprintf("%c", i)
      print "conf yarn.scheduler.capacity.root.queues=" names("a", n / 32)
      for (a = 1; a <= n / 32; a++) {
        parent = "root.a" a
        print "conf yarn.scheduler.capacity." parent ".queues=" names("b", 31)
        print "conf yarn.scheduler.capacity." parent ".capacity=[memory=32768,vcores=32]"
        show(parent)
        for (b = 1; b <= 31; b++) {
          print "conf yarn.scheduler.capacity." parent ".b" b ".capacity=[memory=1024,vcores=1]"
          show(parent ".b" b)
        }
      }
      print "open 1"
      for (i = 1; i <= requests; i++) printf "bytes 1 %08x" "0108%08x" "%s\n", 6 + length(shown[i]) / 2, i, shown[i]
    }'
}

# 1,024 queues, of 31 parents with 32 leaf queues each or flat: 1,023 leaf queues of one parent; and n Refreshes of some 63 KB. Those of the flat tree name its
# queues in the reverse order
refresh_of() {
  awk -v flat="$1" -v n="$2" '
    function opens(line) { print "conf " line; lines = lines line "\n" }
    function names(letter, count,  list, i) {
      for (i = 1; i <= count; i++) list = list (i > 1 ? "," : "") letter i
      return list
    }
    function turned(letter, count,  list, i) {
      for (i = count; i >= 1; i--) list = list letter i (i > 1 ? "," : "")
      return list
    }
    BEGIN {
      for (i = 32; i < 127; i++) hex[sprintf("%c", i)] = sprintf("%02x", i)
      hex["\n"] = "0a"
      key = "yarn.scheduler.capacity.root"
      if (flat) {
        print "conf " key ".queues=" names("q", 1023)
        lines = key ".queues=" turned("q", 1023) "\n"
        for (i = 1; i <= 850; i++) opens(key ".q" i ".capacity=[memory=1024,vcores=1]")
      } else {
        opens(key ".queues=" names("a", 31))
        for (a = 1; a <= 31; a++) {
          opens(key ".a" a ".queues=" names("b", 32))
          opens(key ".a" a ".capacity=[memory=32768,vcores=32]")
          for (b = 1; b <= 26; b++) opens(key ".a" a ".b" b ".capacity=[memory=1024,vcores=1]")
        }
      }
      print "open 1"
      size = length(lines)
      for (i = 1; i <= size; i++) text = text hex[substr(lines, i, 1)]
      for (i = 1; i <= n; i++) printf "bytes 1 %08x" "010b%08x" "%08x" "%s\n", 10 + size, i, size, text
    }'
}
refresh() { refresh_of 0 "$1"; }
refresh_of_flat_tree() { refresh_of 1 "$1"; }

# 512 applications with 256 asks each, of which n end
finish_master_of_256_asks() {
  awk -v n="$1" '
    function request(body) { printf "bytes 1 %08x%s\n", length(body) / 2, body }
    BEGIN {
      for (k = 0; k < 256; k++) asks = asks sprintf("%08x%016x%08x%016x%016x%s", 1, k, 2, 1024, 1, "012a")
      print "conf yarn.scheduler.capacity.root.queues=a"
      print "open 1"
      for (i = 1; i <= 512; i++) {
        request(sprintf("0101%08x", i) "06726f6f742e61" "027531")
        request(sprintf("0102%08x%016x", i, i))
        request(sprintf("0103%08x%016x%08x0100", i, i, 0) asks "0000")
      }
      for (i = 1; i <= n; i++) request(sprintf("0104%08x%016x", i, i))
    }'
}

# 1,024 nodes that hold a container and a reservation of one application, and one node more, for which 32 workers propose the same container; n commits of
# them after the first are rejected
commit_beside_reservations() {
  awk -v n="$1" '
    function request(body) { printf "bytes 1 %08x%s\n", length(body) / 2, body }
    function host(i,  name, k, hex) {
      name = "n" i
      for (k = 1; k <= length(name); k++) hex = hex sprintf("%02x", index(ascii, substr(name, k, 1)) + 31)
      return sprintf("%02x", length(name)) hex
    }
    function register(i) { request(sprintf("0105%08x", i) host(i) "032f7231" sprintf("%016x%016x", 2048, 2)) }
    function ask(response, id, count, mb, vcores) { request(sprintf("0103%08x%016x%08x0001%08x%016x%08x%016x%016x", 1, 1, response, 1, id, count, mb, vcores) "012a0000") }
    function turns(  i) { for (i = 0; i < 1024; i++) print "copy 0\npropose 0 " i "\ncommit 0" }
    BEGIN {
      for (i = 32; i < 127; i++) ascii = ascii sprintf("%c", i)
      print "conf yarn.scheduler.capacity.root.queues=a"
      print "conf yarn.scheduler.capacity.root.a.capacity=[memory=65536,vcores=64]"
      print "conf yarn.scheduler.capacity.root.a.user-limit-factor=1000"
      print "open 1"
      for (i = 1; i <= 1024; i++) register(i)
      request(sprintf("0101%08x", 1) "06726f6f742e61" "027531")
      request(sprintf("0102%08x%016x", 1, 1))
      ask(0, 9, 1024, 1024, 1)
      turns()
      ask(1, 1, 9999, 2048, 2)
      turns()
      register(1025)
      for (w = 0; w < 32; w++) print "copy " w
      for (w = 0; w < 32; w++) print "propose " w " 1024"
      for (w = 0; w <= n; w++) print "commit " w
    }'
}

# The lines of a farm: so many nodes; so many applications with an ask each that stays wanted, one after the other in so many leaf queues; and so many registered
# ones without asks beside them in a queue of their own. Then what a work adds.
farm() {
  awk -v nodes="$1" -v apps="$2" -v queues="$3" -v idle="$4" -v n="${5:-0}" -v workers="${6:-0}" -v work="${7:-}" '
    function text(path,  i, hex) {
      for (i = 1; i <= length(path); i++) hex = hex sprintf("%02x", index(ascii, substr(path, i, 1)) + 31)
      return sprintf("%02x", length(path)) hex
    }
    function request(body) { printf "bytes 1 %08x%s\n", length(body) / 2, body }
    function node(i) { request(sprintf("0105%08x", i) text("n" i) text("/r1") sprintf("%016x%016x", 65536, 64)) }
    function master(i, leaf) {
      request(sprintf("0101%08x", i) text(leaf) text("u1"))
      request(sprintf("0102%08x%016x", i, i))
    }
    function ask(i, response, id, count, mb, vcores) {
      request(sprintf("0103%08x%016x%08x0001%08x%016x%08x%016x%016x", i, i, response, 1, id, count, mb, vcores) "012a0000")
    }
    # the first node has a container of the first application, and then keeps all of its room for another
    function reserve() {
      ask(1, 0, 1, 1, 1024, 1)
      print "copy 0\npropose 0 0\ncommit 0"
      ask(1, 1, 1, 1, 65536, 64)
      print "copy 0\npropose 0 0\ncommit 0"
    }
    BEGIN {
      for (i = 32; i < 127; i++) ascii = ascii sprintf("%c", i)
      for (i = 1; i <= queues; i++) leaves = leaves (i > 1 ? "," : "") "q" i
      if (idle) leaves = leaves ",idle"
      print "conf yarn.scheduler.capacity.root.queues=" leaves
      print "conf yarn.scheduler.capacity.maximum-applications=20000"
      for (i = 1; i <= queues; i++) {
        print "conf yarn.scheduler.capacity.root.q" i ".capacity=[memory=65536,vcores=64]"
        print "conf yarn.scheduler.capacity.root.q" i ".user-limit-factor=16"
      }
      print "open 1"
      for (i = 1; i <= nodes; i++) node(i)
      for (i = 1; i <= apps; i++) {
        master(i, "root.q" ((i - 1) % queues + 1))
        if (i == 1 && work == "reserve") reserve()
        ask(i, i == 1 && work == "reserve" ? 2 : 0, 0, 9999, 1024, 1)
      }
      for (i = 1; i <= idle; i++) master(apps + i, "root.idle")
      for (i = 0; i < n; i++) {
        if (work == "finish") request(sprintf("0104%08x%016x", i, apps + i + 1))
        if (work == "register") node(nodes + i + 1)
        for (w = 0; w < workers; w++) print "copy " w
        for (w = 0; w < workers; w++) print "propose " w " " (work == "reserve" ? 0 : i + w)
        for (w = 0; w < workers; w++) print "commit " w
      }
    }'
}
# n turns of the first worker in a farm of 512 nodes, 64 leaf queues and 256 applications
turn() { farm 512 256 64 0 "$1" 1; }
# n turns of 32 workers that all copy the same state
turn_of_32() { farm 512 256 64 0 $(($1 / 32)) 32; }
# n turns beside 10,000 masters that ask for nothing
turn_beside_idle_masters() { farm 512 256 64 10000 "$1" 1; }
# n turns with 1,023 applications, in 64 leaf queues and in as many as there are applications
turn_of_1023_applications() { farm 512 1023 64 0 "$1" 1; }
turn_of_flat_tree() { farm 512 1023 1023 0 "$1" 1; }
# so many applications in so many leaf queues, of each of which the user may have so many containers, and has them; then n turns that find nothing
at_limits() {
  farm 512 "$1" "$2" 0 $(($3 * $2)) 1 | sed "s/capacity=\[memory=65536,vcores=64\]/capacity=[memory=1024,vcores=1]/; s/user-limit-factor=16/user-limit-factor=$3/"
  for ((i = 0; i < $4; i++)); do printf 'copy 0\npropose 0 %d\n' "$i"; done
}
# n turns that find nothing in the farm, and in a flat tree of 1,023 leaf queues
turn_at_limits() { at_limits 256 64 3 "$1"; }
turn_of_flat_tree_at_limits() { at_limits 1023 1023 1 "$1"; }
# n turns of the farm that begin at its first node, which holds a reservation
turn_at_a_reservation() { farm 512 256 64 0 "$1" 1 reserve; }
# n applications of 10,000 that end
finish_master() { farm 0 0 1 10000 "$1" 0 finish; }
# n nodes, the first ones and after 4,032 others
register_first_nodes() { farm 0 0 1 0 "$1" 0 register; }
register_last_nodes() { farm 3968 0 1 0 "$1" 0 register; }

# 512 nodes, each with a container and a reservation, and 256 applications in 64 leaf queues with 8 asks each, of which no node has room for one; then n turns
turn_of_full_farm() {
  awk -v n="$1" '
    function text(path,  i, hex) {
      for (i = 1; i <= length(path); i++) hex = hex sprintf("%02x", index(ascii, substr(path, i, 1)) + 31)
      return sprintf("%02x", length(path)) hex
    }
    function request(body) { printf "bytes 1 %08x%s\n", length(body) / 2, body }
    function ask(id, count, mb, vcores) { return sprintf("%08x%016x%08x%016x%016x", 1, id, count, mb, vcores) "012a" }
    function commits(  i) { for (i = 0; i < 512; i++) print "copy 0\npropose 0 " i "\ncommit 0" }
    BEGIN {
      for (i = 32; i < 127; i++) ascii = ascii sprintf("%c", i)
      for (i = 1; i <= 64; i++) leaves = leaves (i > 1 ? "," : "") "q" i
      print "conf yarn.scheduler.capacity.root.queues=" leaves
      for (i = 1; i <= 64; i++) {
        print "conf yarn.scheduler.capacity.root.q" i ".capacity=[memory=65536,vcores=64]"
        print "conf yarn.scheduler.capacity.root.q" i ".user-limit-factor=64"
      }
      print "open 1"
      for (i = 1; i <= 512; i++) request(sprintf("0105%08x", i) text("n" i) text("/r1") sprintf("%016x%016x", 2048, 2))
      for (i = 1; i <= 256; i++) {
        request(sprintf("0101%08x", i) text("root.q" ((i - 1) % 64 + 1)) text("u1"))
        request(sprintf("0102%08x%016x", i, i))
      }
      request(sprintf("0103%08x%016x%08x0001", 1, 1, 0) ask(9, 512, 1024, 1) "0000")
      commits()
      for (i = 1; i <= 256; i++) {
        asks = ""
        for (k = 1; k <= 8; k++) asks = asks ask(k, 9999, 2048, 2)
        request(sprintf("0103%08x%016x%08x0008", i, i, i == 1) asks "0000")
      }
      commits()
      for (i = 0; i < n; i++) print "copy 0\npropose 0 " i
    }'
}

broken=0
declare -A cost
# measure WORK SIZE BOUND ANSWERS: of a work at a size and at twice the size, where so many lines of output match
measure() {
  for size in "$2" $((2 * $2)); do
    "$1" "$size" >"$work/script"
    count replay
    [ "$(grep -c "$4" "$work/output")" = "$((size + ${5:-0}))" ] || { echo "$1: not every request is answered with success" >&2; exit 1; }
    if [ "$size" = "$2" ]; then first=("$moved" "$other"); fi
  done
  moved=$(((moved - first[0]) / $2)) other=$(((other - first[1]) / $2))
  cost[$1]=$((moved + other))
  echo "$1: $other instructions, and $moved that clear and copy (together at most $3)"
  [ "${cost[$1]}" -le "$3" ] || broken=1
}
# compare WORK OTHER MOST: a work is at most so many times another
compare() {
  printf '%s beside %s: ' "$1" "$2"
  ratio "${cost[$2]}" "${cost[$1]}" "$3" || broken=1
}

measure cluster_info 3000 3300 '^out [0-9]* 00000033010a'
measure heartbeat 2000 4000 '^out 1 000000110106[0-9a-f]\{8\}00'
measure allocate 1024 45000 '^out 1 0000000f0103[0-9a-f]\{8\}00'
measure refused_allocate 128 350000 '^out 1 000000070103[0-9a-f]\{8\}0a'
measure queue 480 40000 '^out 1 000000[0-9a-f]\{2\}0108[0-9a-f]\{8\}00'
measure refresh 8 30000000 '^out 1 00000007010b[0-9a-f]\{8\}00'
measure refresh_of_flat_tree 8 30000000 '^out 1 00000007010b[0-9a-f]\{8\}00'
compare refresh_of_flat_tree refresh 1.3
measure turn 512 220000 '^done 0 grant'
measure turn_of_32 512 220000 '^done [0-9]* grant'
measure turn_of_full_farm 64 550000 '^proposed 0 none'
compare turn_of_full_farm turn 3
measure turn_beside_idle_masters 64 250000 '^done 0 grant'
compare turn_beside_idle_masters turn 1.1
measure turn_of_1023_applications 64 700000 '^done 0 grant'
measure turn_of_flat_tree 64 1700000 '^done 0 grant'
compare turn_of_flat_tree turn_of_1023_applications 3
measure turn_at_limits 16 400000 '^proposed 0 none'
measure turn_of_flat_tree_at_limits 8 3000000 '^proposed 0 none'
measure turn_at_a_reservation 16 250000 '^done 0 grant' 1
measure finish_master 256 10000 '^out 1 0000000b0104[0-9a-f]\{8\}00'
measure finish_master_of_256_asks 128 100000 '^out 1 0000000b0104[0-9a-f]\{8\}00'
measure commit_beside_reservations 15 10000 '^rejected'
measure register_first_nodes 64 10000 '^out 1 0000000f0105[0-9a-f]\{8\}00'
measure register_last_nodes 64 10000 '^out 1 0000000f0105[0-9a-f]\{8\}00' 3968
compare register_last_nodes register_first_nodes 1.5
exit "$broken"
