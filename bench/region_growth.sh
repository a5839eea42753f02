#!/bin/sh
# How the time for the regions of a class grows: to build a chain of regions; to set faulty ones aside,
# where parents aren't there, where a chain leads to nothing, and where parents are faulty that are
# declared behind those below them; and to add regions side by side, and all of a chain, to those of which
# none is under another. For each it prints the least of several times for N and 2N regions, and their
# ratio in hundredths: about 200 to 230 where the time is linear up to a logarithm, 400 where it is the
# square.
. "$(dirname -- "$0")/common.sh"
program_over region_growth desk_base region_tree region_scrub anyhow -- desk_base region_tree region_scrub
cat > "$crate/src/main.rt" <<'PROGRAM'
#![tactic(auto)]

use anyhow::Result;
use desk_base::Name;
use region_scrub::set_faulty_aside;
use region_tree::{DisjointRegions, RegionDecl, build};
use std::alloc::Global;
use std::time::Instant;

#[derive(Clone, Copy)]
enum Shape {
    SideBySide,
    Chain,
    UnknownParents,
    ChainIntoNothing,
    FaultyParents,
}

fn name(alloc: Global, letter: &str, number: u32) -> Result<Name> {
    let text = format!(in alloc; "{letter}{number}")?;
    Ok(Name::from_slice(alloc, text.as_bytes())?)
}

fn region(alloc: Global, letter: &str, number: u32, parent: Option<Name>) -> Result<RegionDecl> {
    Ok(RegionDecl { name: name(alloc, letter, number)?, parent, is_static: false })
}

fn parent(alloc: Global, shape: Shape, number: u32, count: u32) -> Result<Option<Name>> {
    let next = number.saturating_add(1);
    match shape {
        Shape::SideBySide => Ok(None),
        Shape::Chain if next >= count => Ok(None),
        Shape::Chain | Shape::ChainIntoNothing => Ok(Some(name(alloc, "R", next)?)),
        Shape::UnknownParents => Ok(Some(name(alloc, "Q", number)?)),
        Shape::FaultyParents => Ok(Some(name(alloc, "S", number)?)),
    }
}

fn regions(alloc: Global, shape: Shape, count: u32) -> Result<Vec<RegionDecl>> {
    let mut declared = Vec::new(alloc);
    for number in 0..count {
        let above = parent(alloc, shape, number, count)?;
        declared.push(region(alloc, "R", number, above)?)?;
        if let Shape::FaultyParents = shape {
            let above = Name::from_slice(alloc, b"Static")?;
            declared.push(region(alloc, "S", number, Some(above))?)?;
        }
    }
    Ok(declared)
}

#[derive(Clone, Copy)]
enum Work {
    Build,
    SetAside,
    Add,
}

fn add_all(alloc: Global, declared: &[RegionDecl]) -> Result<()> {
    let tree = build(alloc, declared, &[])?;
    let mut held = DisjointRegions::new(alloc, &tree)?;
    for decl in declared {
        if let Some(region) = tree.region(&decl.name) {
            let _ = held.add(&tree, region);
        }
    }
    Ok(())
}

fn done(alloc: Global, work: Work, declared: &[RegionDecl]) -> Result<()> {
    match work {
        Work::Build => {
            let _ = build(alloc, declared, &[])?;
        }
        Work::SetAside => {
            let _ = set_faulty_aside(alloc, declared)?;
        }
        Work::Add => add_all(alloc, declared)?,
    }
    Ok(())
}

fn measured(rt: &HostRuntime, work: Work, shape: Shape, count: u32) -> Result<u64> {
    let declared = regions(rt.alloc(), shape, count)?;
    let mut least = u64::MAX;
    for _round in 0..5 {
        let start = Instant::now(rt)?;
        done(rt.alloc(), work, &declared)?;
        let took = u64::try_from(start.elapsed(rt)?.as_micros()).unwrap_or(u64::MAX);
        least = least.min(took);
    }
    Ok(least)
}

fn told(rt: &HostRuntime, what: &str, work: Work, shape: Shape, count: u32) -> Result<()> {
    let once = measured(rt, work, shape, count)?;
    let twice = measured(rt, work, shape, count.saturating_mul(2))?;
    let ratio = twice.saturating_mul(100) / once.max(1);
    println!(rt; "{what}: microseconds {once} and {twice}, ratio in hundredths {ratio}")?;
    Ok(())
}

const SORTS: [(&str, Work, Shape); 7] = [
    ("a chain is built", Work::Build, Shape::Chain),
    ("none is faulty", Work::SetAside, Shape::Chain),
    ("unknown parents", Work::SetAside, Shape::UnknownParents),
    ("a chain into nothing", Work::SetAside, Shape::ChainIntoNothing),
    ("faulty parents", Work::SetAside, Shape::FaultyParents),
    ("added side by side", Work::Add, Shape::SideBySide),
    ("added along a chain", Work::Add, Shape::Chain),
];

fn main(rt: HostRuntime) -> Result<()> {
    let Some(count) = count_of(&rt)? else {
        return Ok(());
    };
    for (what, work, shape) in SORTS {
        told(&rt, what, work, shape, count)?;
    }
    Ok(())
}
PROGRAM
mkdir -p "$crate/proofs/add_all"
cat > "$crate/proofs/add_all/Invariants.antt" <<'PROOF'
use Rattle.region_tree.specs.Disjoint.{AreOf}
use Rattle.region_tree.specs.Tree.{parents_in}
use Rattle.region_growth.proofs.add_all.Given as goal

abbrev pub invariant-loop-decl : goal.invariant-loop-decl
invariant-loop-decl l = AreOf (parents_in l.tree) l.held
PROOF
run_built "${1:-10000}"
