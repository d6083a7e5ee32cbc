#!/usr/bin/env bash
# The daemon on the loopback. First ClusterInfos over 1, 16 and 128 connections with 16 in flight on each: how many a second `capsched serve` answers, beside
# how many frames a second `engine_runs` writes back as they came, the median of five runs of each, in turn, with epochs of 4,096 entries and of 131,072, and
# the number and the longest time of changes of epochs in the last run, and those of a daemon with 127 connections that say nothing and one that calls; fails
# where the daemon makes less than half of what engine_runs makes, where it makes with 4,096 less than 0.8 of what it makes with 131,072, or where a change
# takes 5 ms or more. Then a cluster of 512 nodes, 64 leaf queues and 256 applications, in which masters ask and nodes end all that runs on them every 100
# ms: grants a second by 1, 2 and 4 workers, without a committer (lanes=0) and with lanes of so many places to one, and how long a ClusterInfo takes
# meanwhile; fails where its 99th percentile with 4 workers and 64 places is above 60 ms, or where more workers make fewer grants than 1. Then an empty
# cluster that fills once all nodes register, in four sizes: containers a second by 1 and 2 workers. Then a master that asks, releases and asks again in 512
# nodes, alone and beside applications whose asks no node can take: containers a second. Then a busy cluster: 60 node managers that heartbeat, 60
# masters that ask, release and ask again, in queues at their maxima, and an operator, each as fast as it is answered, and all answers are held against each
# other: grants a second and how many proposals are rejected for each that is made, by 1, 2 and 4 workers, directly and through 64 places, the run in the
# middle of five, in turn; fails where 4 workers make fewer than 5,000 grants a second or fewer than 1 worker, where they make less than 0.9 of that through
# lanes, or where more than 0.2 proposals are rejected for each that is made. Last how much of a core the daemon takes while nobody says anything, with 512
# nodes: fails where one worker with 16 connections takes 1 % or more, or 8 workers with 128 take 5 % or more. And whether all connections are still answered
# after the daemon was stopped and continued. A number as the argument is for how many seconds each cluster is measured, 10 without. Figures depend on the
# machine, and on what else runs there: a run in which others on the host took more than 1 % of the processors' time is made again, up to five times in all.
# Needs rustc for the load.
. "$(dirname "${BASH_SOURCE[0]}")/common.sh"
seconds=${1:-10}
requests=1920000
runs=5
server=
trap '[ -z "$server" ] || kill "$server" 2>/dev/null || true; rm -rf "$work"' EXIT
build_engine_runs
build_capsched
rustc --edition 2021 -O -o "$work/load" "$top/bench/load.rs"

# serve WORKERS CONNECTIONS LANES [JOURNAL], echo_back CONNECTIONS: begins a server on a free port
serve() { begin "$program" serve --port "$port" --workers "$1" --config "$work/config" --connections "$2" --lanes "$3" --journal "${4:-4096}"; }
echo_back() {
  echo "echo $port $1" >"$work/lines"
  begin "$top/crates/engine_runs/out/engine_runs" <"$work/lines"
}

# begins a server, which reads what this does, and waits until it listens
begin() {
  : >"$work/said"
  "$@" <&0 >"$work/said" 2>"$work/messages" &
  server=$!
  until grep -q '^listening' "$work/said"; do
    kill -0 "$server" 2>/dev/null || { cat "$work/messages" >&2; exit 1; }
    sleep 0.02
  done
}

# load WORDS..: the load, until the server has ended too; what it printed is in `$work/loaded`
load() {
  "$work/load" "$@" >"$work/loaded"
  wait "$server" || { cat "$work/messages" >&2; exit 1; }
  server=
}

# figure WORDS: the number before these words
figure() { sed -n "s/^\([0-9]*\) $1.*/\1/p" "$work/loaded"; }

# run_infos CONNECTIONS SERVER..: one run of ClusterInfos
run_infos() {
  port=$("$work/load" port)
  "${@:2}"
  load info "$port" "$1" 16 $((requests / $1))
}

# run_once FILE CONNECTIONS SERVER..: adds how many requests a second were answered in a run to the file, and the 99th percentile, in microseconds
run_once() {
  undisturbed run_infos "${@:2}"
  echo "$(figure 'requests a second') $(figure 'microseconds at the 99th')" >>"$1"
}

# changes_of JOURNAL: keeps how many changes of epochs the last server made, and the longest, in microseconds
changes_of() { sed -n 's/^epochs: \([0-9]*\) changes, at most \([0-9]*\) microseconds$/\1 \2/p' "$work/messages" >"$work/changes_$1"; }

# median NAME: `rate` and `slowest` of the run in the middle, which it prints with that name
median() {
  read -r rate slowest < <(sort -n "$work/$1" | sed -n "$(((runs + 1) / 2))p")
  echo "connections=$connections $1: $rate requests a second"
  echo "connections=$connections $1: $slowest us at the 99th percentile"
}

# changed NAME JOURNAL: how many changes `changes_of` has kept, and the longest, which is to be under 5 ms
changed() {
  read -r changes longest <"$work/changes_$2"
  echo "$1 journal=$2: $changes changes of epochs, at most $longest us"
  [ "$longest" -lt 5000 ] || { echo "that is not under 5000 us" >&2; broken=1; }
}

broken=0
cp "$top/examples/serve.conf" "$work/config"
for connections in 1 16 128; do
  rm -f "$work/echo" "$work/capsched" "$work/capsched_131072"
  for _ in $(seq "$runs"); do
    run_once "$work/echo" "$connections" echo_back "$connections"
    run_once "$work/capsched_131072" "$connections" serve 1 "$connections" 64 131072
    changes_of 131072
    run_once "$work/capsched" "$connections" serve 1 "$connections" 64
    changes_of 4096
  done
  median echo
  peer=$rate
  median capsched_131072
  long=$rate
  median capsched
  ratio "$rate" "$peer" 2 || broken=1
  ratio "$rate" "$long" 1.25 || broken=1
  for journal in 131072 4096; do
    changed "connections=$connections" "$journal"
  done
done
# one that calls beside 127 that are quiet
run_quiet_beside() {
  port=$("$work/load" port)
  serve 1 128 64
  load info "$port" 1 16 "$requests" 127
}
undisturbed run_quiet_beside
changes_of 4096
changed "connections=128, 127 of them quiet" 4096

awk 'BEGIN {
  for (i = 1; i <= 64; i++) leaves = leaves (i > 1 ? "," : "") "q" i
  print "yarn.scheduler.capacity.root.queues=" leaves
  for (i = 1; i <= 64; i++) {
    print "yarn.scheduler.capacity.root.q" i ".capacity=[memory=524288,vcores=512]"
    print "yarn.scheduler.capacity.root.q" i ".user-limit-factor=16"
  }
}' >"$work/config"
# run_cluster WORKERS LANES: how such a cluster is scheduled
run_cluster() {
  port=$("$work/load" port)
  serve "$1" 9 "$2"
  load cluster "$port" 512 256 64 "$seconds"
}

for run in '1 0' '2 0' '4 0' '1 64' '2 64' '4 8' '4 64'; do
  read -r workers lanes <<<"$run"
  undisturbed run_cluster "$workers" "$lanes"
  slowest=$(figure 'microseconds at the 99th')
  grants=$(figure 'grants a second were')
  echo "workers=$workers lanes=$lanes: $grants grants a second, as masters were told"
  [ "$workers" -ne 1 ] || one=$grants
  [ "$grants" -ge "$one" ] || { echo "that is fewer than those of 1 worker" >&2; broken=1; }
  echo "workers=$workers lanes=$lanes: $(figure 'grants a second, by') grants a second, by the containers that ended and live"
  echo "workers=$workers lanes=$lanes: $slowest us at the 99th percentile of a ClusterInfo"
  echo "workers=$workers lanes=$lanes: $(tail -n 1 "$work/said")"
  echo "workers=$workers lanes=$lanes: $(tail -n 1 "$work/messages")"
done
[ "$slowest" -le 60000 ] || { echo "with 4 workers a ClusterInfo takes more than 60000 us at the 99th percentile" >&2; broken=1; }

# run_busy WORKERS LANES: one run of a busy cluster
run_busy() {
  port=$("$work/load" port)
  serve "$1" 121 "$2"
  load busy "$port" 60 60 5 "$seconds"
}

# run_busy_once WORKERS LANES: adds to the file of these how many grants a second a run makes, how many requests are answered a second, and how many
# proposals were made and rejected
run_busy_once() {
  undisturbed run_busy "$1" "$2"
  read -r made rejected < <(sed -n 's/^proposals: \([0-9]*\) made, \([0-9]*\) rejected$/\1 \2/p' "$work/messages")
  echo "$(figure 'grants a second') $(figure 'requests a second') $made $rejected $(sed -n 's/^epochs: //p' "$work/messages")" >>"$work/busy_$1_$2"
}

# busy WORKERS LANES: how a busy cluster was scheduled in the run in the middle: `grants` a second, and `rejected` for each proposal that was made
busy() {
  local requests epochs
  read -r grants requests made rejected epochs < <(sort -n "$work/busy_$1_$2" | sed -n "$(((runs + 1) / 2))p")
  rejected=$(awk -v made="$made" -v rejected="$rejected" 'BEGIN { printf "%.3f", rejected / (made > 0 ? made : 1) }')
  echo "busy, workers=$1 lanes=$2: $requests requests and $grants grants a second ($(cut -d ' ' -f 1 "$work/busy_$1_$2" | paste -sd ' ')), $rejected rejected for each made; $epochs"
  awk -v r="$rejected" 'BEGIN { exit r > 0.2 }' || { echo "that is more than 0.2" >&2; broken=1; }
}

# run_fill WORKERS NODES APPS: how fast 60,000 containers are granted in an empty cluster
run_fill() {
  port=$("$work/load" port)
  serve "$1" 2 0
  load fill "$port" "$2" "$3" 64 60000
}
for size in '64 64' '512 256' '4096 2048' '4096 10000'; do
  read -r nodes apps <<<"$size"
  for workers in 1 2; do
    undisturbed run_fill "$workers" "$nodes" "$apps"
    echo "fill, nodes=$nodes applications=$apps workers=$workers: $(cat "$work/loaded"); $(tail -n 1 "$work/messages")"
  done
done

awk 'BEGIN {
  print "yarn.scheduler.capacity.root.queues=q1,q2"
  for (i = 1; i <= 2; i++) print "yarn.scheduler.capacity.root.q" i ".capacity=[memory=16777216,vcores=16384]"
  print "yarn.scheduler.maximum-allocation-mb=2097152"
}' >"$work/config"
# run_beside APPS: how fast a master is granted containers in 512 nodes, beside so many applications whose 256 asks no node can take
run_beside() {
  port=$("$work/load" port)
  serve 1 4 0
  load beside "$port" 512 "$1" 256 "$seconds"
}
for apps in 0 1 10 100; do
  undisturbed run_beside "$apps"
  echo "beside $apps applications whose asks no node can take: $(figure 'containers a second were') containers a second; $(figure 'microseconds at the 99th') us at the 99th percentile of a ClusterInfo"
done

awk 'BEGIN {
  print "yarn.scheduler.capacity.root.queues=q1,q2,q3,q4,q5"
  for (i = 1; i <= 5; i++) {
    print "yarn.scheduler.capacity.root.q" i ".capacity=[memory=16384,vcores=16]"
    print "yarn.scheduler.capacity.root.q" i ".maximum-capacity=[memory=32768,vcores=32]"
    print "yarn.scheduler.capacity.root.q" i ".user-limit-factor=2"
  }
}' >"$work/config"
for _ in $(seq "$runs"); do
  for run in '1 0' '2 0' '4 0' '1 64' '2 64' '4 64'; do
    read -r workers lanes <<<"$run"
    run_busy_once "$workers" "$lanes"
  done
done
for lanes in 0 64; do
  busy 1 "$lanes"
  one=$grants
  busy 2 "$lanes"
  busy 4 "$lanes"
  [ "$grants" -ge 5000 ] || { echo "4 workers make fewer than 5000 grants a second" >&2; broken=1; }
  [ "$grants" -ge "$one" ] || { echo "4 workers make fewer grants than 1" >&2; broken=1; }
  [ "$lanes" -ne 0 ] || directly=$grants
done
echo "busy: through 64 places 4 workers make $grants grants a second, directly $directly"
[ $((grants * 10)) -ge $((directly * 9)) ] || { echo "that is less than 0.9 of it" >&2; broken=1; }

for run in '1 16 10' '8 128 50'; do
  read -r workers connections most <<<"$run"
  port=$("$work/load" port)
  serve "$workers" "$connections" 64
  load quiet "$port" "$connections" 512 "$seconds" "$server"
  taken=$(figure 'thousandths of a core')
  echo "workers=$workers connections=$connections: $taken thousandths of a core while nobody says anything"
  [ "$taken" -lt "$most" ] || { echo "that is not under $most thousandths" >&2; broken=1; }
done
port=$("$work/load" port)
cp "$top/examples/serve.conf" "$work/config"
serve 1 16 64
load stopped "$port" 16 "$server"
cat "$work/loaded"
exit "$broken"
