#!/bin/sh
# How the time to scrub a class grows with its annotations: a class of N regions, N fields in them and
# N methods with three promises each, and one of 2N; and a class with one list of N locks, and one of
# 2N. It prints the least of several times for each, and their ratios in hundredths: about 200 to 230
# where the time is linear up to a logarithm, 400 where it is the square.
. "$(dirname -- "$0")/common.sh"
program_over scrub_growth desk_base java_tree java_reader promise_scrub sqlite_items anyhow -- \
    desk_base java_tree java_lexer java_phrases java_heads java_expressions java_statements java_members java_reader \
    promise_grammar result_records region_tree region_scrub class_faces promise_marks scrub_rules header_scrub promise_scrub
cat > "$crate/src/main.rt" <<'PROGRAM'
#![tactic(auto)]

use anyhow::{Result, anyhow};
use java_reader::read_file;
use java_tree::FileTree;
use promise_scrub::surface_of;
use std::alloc::Global;
use std::time::Instant;

// A class of so many regions, fields and methods.
fn class_text(alloc: Global, count: u32) -> Result<String> {
    let mut text = String::new(alloc);
    for i in 0..count {
        text.push_str(format!(in alloc; "@Region(\"R{i}\")\n")?.as_str())?;
    }
    text.push_str("class C {\n")?;
    for i in 0..count {
        text.push_str(format!(in alloc; "@InRegion(\"R{i}\") int f{i};\n")?.as_str())?;
    }
    for i in 0..count {
        text.push_str("@Starts(\"nothing\") @Borrowed(\"this\") ")?;
        text.push_str(format!(in alloc; "@RegionEffects(\"reads R{i}\") void m{i}() {{ }}\n")?.as_str())?;
    }
    text.push_str("}\n")?;
    Ok(text)
}

// A class with one list of so many locks of another class.
fn list_text(alloc: Global, count: u32) -> Result<String> {
    let mut text = String::new(alloc);
    text.push_str("class C {\n@RequiresLock(\"D:L")?;
    for i in 1..count {
        text.push_str(format!(in alloc; "{i},D:L")?.as_str())?;
    }
    text.push_str("0\") void m() { }\n}\n")?;
    Ok(text)
}

fn file_tree(alloc: Global, lists: bool, count: u32) -> Result<FileTree> {
    let text = if lists { list_text(alloc, count)? } else { class_text(alloc, count)? };
    Ok(read_file(alloc, text.as_bytes())?)
}

fn measured(rt: &HostRuntime, lists: bool, count: u32) -> Result<u64> {
    let file = file_tree(rt.alloc(), lists, count)?;
    let Some(class) = file.types.as_slice().first() else {
        return Err(anyhow!("there is no class"));
    };
    let mut least = u64::MAX;
    for _round in 0..40 {
        let start = Instant::now(rt)?;
        let surface = surface_of(rt.alloc(), class)?;
        let took = u64::try_from(start.elapsed(rt)?.as_micros()).unwrap_or(u64::MAX);
        if !surface.aside.is_empty() {
            println!(rt; "a promise is set aside")?;
        }
        least = least.min(took);
    }
    Ok(least)
}

fn compared(rt: &HostRuntime, lists: bool, what: &str, count: u32) -> Result<()> {
    let double = count.saturating_mul(2);
    let once = measured(rt, lists, count)?;
    let twice = measured(rt, lists, double)?;
    println!(rt; "{what} {count} microseconds {once}")?;
    println!(rt; "{what} {double} microseconds {twice}")?;
    println!(rt; "ratio in hundredths {}", twice.saturating_mul(100) / once.max(1))?;
    Ok(())
}

fn main(rt: HostRuntime) -> Result<()> {
    let Some(count) = count_of(&rt)? else {
        return Ok(());
    };
    compared(&rt, false, "members", count)?;
    compared(&rt, true, "items", count.saturating_mul(8))
}
PROGRAM
# A file of more than 900 wouldn't be read twice as large.
run_built "${1:-900}"
