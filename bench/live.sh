#!/usr/bin/env bash
# Measures an edit of the kept graph among many live nodes, and the reader of words: runs the program below, unproved and
# by the interpreter of `rt try`, over the crates that it calls. Run by hand. The times are for comparison with each other: built,
# the calls are many times faster. Large graphs, built, are measured by tests of checks_live, as in
#   /usr/bin/time crates/checks_live/out/checks_live_tests trial::large_rings_die
set -eu
top="$(cd "$(dirname "$0")/.." && pwd)"
work="$(mktemp -d)"
trap 'rm -rf "$work"' EXIT
mkdir -p "$work/crates/bench_live/src" "$work/crates/bench_live/specs" "$work/crates/bench_live/proofs"
: >"$work/crates/bench_live/specs/Lib.antt"
: >"$work/crates/bench_live/proofs/Lib.antt"
cp "$top/HANDLES" "$work/"
for crate in mt_chars mt_containers mt_path mt_refs mt_tokens mt_trial mt_words; do
  mkdir -p "$work/crates/$crate"
  cp -r "$top/crates/$crate/src" "$top/crates/$crate/specs" "$top/crates/$crate/proofs" "$work/crates/$crate/"
  grep "^$crate:" "$top/crates.txt" >>"$work/crates.txt"
done
echo "bench_live: mt_containers mt_refs mt_tokens mt_trial mt_words" >>"$work/crates.txt"
cat >"$work/crates/bench_live/src/main.rt" <<'RATTLE'
//! How long the calls of an edit of the kept graph take where many nodes are live, and the reader of words where there are
//! many.
#![tactic(auto)]

use mt_containers::List;
use mt_refs::{EdgeList, Patch, RefGraph, Settled, Steps};
use mt_tokens::Text;
use mt_trial::dead;
use mt_words::{CommandSet, read_words};
use std::alloc::Global;
use std::marker::Brand;
use std::sync::ledger::Blank;
use std::test::Fail;
use std::time::Instant;

/// No step yet.
fn steps() -> Steps<Brand> {
    Steps::new(Blank::new(1))
}

/// Microseconds since then.
fn micros(rt: &HostRuntime, start: Instant) -> Result<u64, Fail> {
    let Ok(elapsed) = start.elapsed(rt) else {
        return Ok(0);
    };
    Ok(elapsed.as_micros() as u64)
}

fn now(rt: &HostRuntime) -> Result<Instant, Fail> {
    Ok(Instant::now(rt).ok().ok_or("a clock")?)
}

/// A list of one number.
fn one(alloc: Global, number: u32) -> Result<EdgeList, Fail> {
    Ok(List::from_slice(alloc, &[number])?)
}

/// The lists that change.
fn changed(alloc: Global) -> Result<List<(u32, EdgeList)>, Fail> {
    let mut set = List::new(alloc);
    set.push((1, one(alloc, 2)?))?;
    Ok(set)
}

/// A ring of this many nodes, of which 0 is pinned, and a node beside it that leads to itself, to which node 1 leads too.
fn ring(alloc: Global, nodes: u32) -> Result<RefGraph, Fail> {
    let mut set = List::new(alloc);
    for node in 0..nodes {
        let next = if node + 1 < nodes { node + 1 } else { 0 };
        let mut targets = one(alloc, next)?;
        if node == 1 {
            targets.push(nodes)?;
        }
        set.push((node, targets))?;
    }
    set.push((nodes, one(alloc, nodes)?))?;
    let settled = Settled {
        set,
        pins: one(alloc, 0)?,
        dead: List::new(alloc),
    };
    let mut graph = RefGraph::new(alloc);
    graph.reserve(&settled)?;
    graph.commit(settled);
    Ok(graph)
}

/// Node 1 of a ring of this many nodes loses its edge to the node beside the ring, which dies.
fn edit(rt: &HostRuntime, nodes: u32) -> Result<(), Fail> {
    let alloc = rt.alloc();
    let mut graph = ring(alloc, nodes)?;
    let mut steps = steps();
    let patch = Patch {
        set: changed(alloc)?,
        pins: one(alloc, 0)?,
    };
    let start = now(rt)?;
    let overlay = graph.overlay(alloc, patch, &mut steps)?;
    let dead = dead(alloc, &overlay, &[nodes], &mut steps)?;
    let found = micros(rt, start)?;
    drop(overlay);
    let count = dead.len();
    let settled = Settled {
        set: changed(alloc)?,
        pins: one(alloc, 0)?,
        dead,
    };
    let start = now(rt)?;
    graph.reserve(&settled)?;
    graph.commit(settled);
    let done = micros(rt, start)?;
    println!(rt; "{nodes} live nodes, {count} dies: overlay and dead {found} us, reserve and commit {done} us")?;
    Ok(())
}

/// A line of `bundle` with this many entries: the seventeenth is bad, and no word after it is read.
fn words(rt: &HostRuntime, count: u32) -> Result<(), Fail> {
    let alloc = rt.alloc();
    let mut words = Vec::new(alloc);
    words.push(Text::from_str(alloc, "bundle")?)?;
    for number in 0..count {
        words.push(Text::from_string(format!(in alloc; "m{number}.js")?))?;
    }
    let start = now(rt)?;
    let read = read_words(alloc, words.as_slice(), CommandSet::Still);
    let took = micros(rt, start)?;
    println!(rt; "{count} words in {took} us, {}", read.is_ok())?;
    Ok(())
}

fn run(rt: &HostRuntime) -> Result<(), Fail> {
    for nodes in [1_000, 10_000, 100_000] {
        edit(rt, nodes)?;
    }
    for count in [1_000, 10_000, 100_000] {
        words(rt, count)?;
    }
    Ok(())
}

fn main(rt: HostRuntime) -> Result<(), Fail> {
    run(&rt)
}
RATTLE
cd "$work/crates/bench_live"
rt try --seconds 120
