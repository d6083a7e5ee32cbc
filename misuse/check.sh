#!/usr/bin/env bash
# Looks whether the compiler refuses two misuses of a snapshot in an arena: a reset of the arena while the snapshot lives, and its move to another thread. Each
# text stands in a crate of its own in a fresh folder, beside copies of the engine's crates, and must be refused in the words given here; the same text without
# the misuse must compile and run.
set -euo pipefail
top=$(cd "$(dirname "${BASH_SOURCE[0]}")/.." && pwd)
work=$(mktemp -d)
trap 'rm -rf "$work"' EXIT

cp "$top/HANDLES" "$work"
mkdir "$work/crates"
stood=$(cat "$top/crates.txt")
for crate in cap_vector cap_base cap_model cap_laws cap_farm cap_text cap_config cap_tree cap_asks cap_nodes cap_copy cap_commit; do
  mkdir "$work/crates/$crate"
  cp -r "$top/crates/$crate/src" "$top/crates/$crate/specs" "$work/crates/$crate/"
  [ ! -d "$top/crates/$crate/proofs" ] || cp -r "$top/crates/$crate/proofs" "$work/crates/$crate/"
  grep "^$crate:" <<<"$stood" >>"$work/crates.txt"
done

# crate NAME: puts standard input after what all three texts begin with into a crate
crate() {
  mkdir -p "$work/crates/$1/src"
  echo "$1: cap_commit cap_copy cap_config bumpalo" >>"$work/crates.txt"
  {
    cat <<'TEXT'
//! A snapshot in an arena.
#![tactic(auto)]

use bumpalo::Bump;
use cap_commit::Cluster;
use cap_config::read_config;
use cap_copy::Snapshot;
use std::alloc::Global;
use std::thread::{Threads, join};

fn cluster(alloc: Global) -> Option<Cluster<3>> {
    let config = read_config(alloc, b"yarn.scheduler.capacity.root.queues=a").ok()?;
    Cluster::from_config(alloc, &config).ok()
}
TEXT
    cat
    cat <<'TEXT'

#[test]
fn the_first_container_is_number_1(rt: HostRuntime) {
    assert!(rt; next_container(&rt, rt.alloc()) == Some(1));
}
TEXT
  } >"$work/crates/$1/src/lib.rt"
}

# tried NAME: what the compiler says of a crate, and what its test does
tried() { (cd "$work/crates/$1" && rt try --test 2>&1) || true; }

# refused NAME WORDS: fails where the crate is not refused in these words
refused() {
  tried "$1" >"$work/said"
  grep -qF "$2" "$work/said" || { echo "$1 is not refused in the words '$2':" >&2; tail -n 5 "$work/said" >&2; exit 1; }
  echo "$1: $2"
}

crate arena_kept <<'TEXT'

fn next_container<R: Threads + Sync>(_rt: &R, alloc: Global) -> Option<u64> {
    let cluster = cluster(alloc)?;
    let mut arena = Bump::new(alloc);
    let next = {
        let snapshot =
            Snapshot::take(&arena, cluster.tree(), cluster.apps(), cluster.nodes()).ok()?;
        snapshot.next_container()
    };
    arena.reset().ok()?;
    Some(next)
}
TEXT
crate arena_reset <<'TEXT'

fn next_container<R: Threads + Sync>(_rt: &R, alloc: Global) -> Option<u64> {
    let cluster = cluster(alloc)?;
    let mut arena = Bump::new(alloc);
    let snapshot =
        Snapshot::take(&arena, cluster.tree(), cluster.apps(), cluster.nodes()).ok()?;
    arena.reset().ok()?;
    Some(snapshot.next_container())
}
TEXT
crate snapshot_moved <<'TEXT'

fn next_container<R: Threads + Sync>(rt: &R, alloc: Global) -> Option<u64> {
    let cluster = cluster(alloc)?;
    let arena = Bump::new(alloc);
    let snapshot =
        Snapshot::take(&arena, cluster.tree(), cluster.apps(), cluster.nodes()).ok()?;
    let (next, _) = join(
        rt,
        move || -> u64 { snapshot.next_container() },
        || -> u64 { 0 },
    );
    Some(next)
}
TEXT

tried arena_kept >"$work/said"
grep -q '^test result: ok. 1 passed' "$work/said" || { echo "arena_kept does not run:" >&2; tail -n 5 "$work/said" >&2; exit 1; }
echo "arena_kept: compiles"
refused arena_reset 'cannot borrow `arena` as mutable because it is also borrowed as immutable'
refused snapshot_moved 'the trait bound `Current<Global>: Sync` is not satisfied'
