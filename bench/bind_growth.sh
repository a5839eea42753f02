#!/bin/sh
# How the time to bind all units of a project grows: N classes that use one another, and 2N. It prints the
# least of several times for each and their ratio in hundredths, about 200 to 230 where the time is linear up
# to a logarithm; and, in hundredths, the time beside that of reading the same file.
. "$(dirname -- "$0")/common.sh"
program_over bind_growth desk_base java_tree java_reader class_faces promise_scrub views bound_unit binder anyhow -- \
    $(below binder)
cat > "$crate/src/main.rt" <<'PROGRAM'
#![tactic(auto)]

use anyhow::{Result, anyhow};
use binder::bind_keyed;
use class_faces::{member_keys, text_of};
use desk_base::Text;
use java_reader::read_file;
use java_tree::{ClassTree, MemberTree};
use promise_scrub::surface_of;
use std::alloc::Global;
use std::time::Instant;
use views::{Surfaces, View, surface_regions_stand, view_of};

// A class that uses the one before it.
fn put_class(text: &mut String, number: u32, before: u32) -> Result<()> {
    write!(text, "@RegionLock(\"L is this protects Instance\") class C{number} {{\n")?;
    write!(text, "  private int n; private C{before} other;\n")?;
    write!(text, "  C{number}(C{before} o) {{ other = o; n = 1; }}\n")?;
    write!(text, "  synchronized int add(int k) {{ int sum = 0;")?;
    write!(text, " for (int i = 0; i < k; i++) {{ sum += n * i; }} n = sum + other.get(other); return n; }}\n")?;
    write!(text, "  int get(C{number} o) {{ if (o != null && o != this) {{ return o.n; }} return n; }}\n}}\n")?;
    Ok(())
}

fn file_text(alloc: Global, count: u32) -> Result<String> {
    let mut text = String::new(alloc);
    for number in 0..count {
        let before = if number == 0 { count.saturating_sub(1) } else { number.saturating_sub(1) };
        put_class(&mut text, number, before)?;
    }
    Ok(text)
}

fn surfaces_of(alloc: Global, classes: &[ClassTree]) -> Result<Surfaces> {
    surface_regions_stand();
    let mut surfaces = Surfaces::new(alloc)?;
    for class in classes {
        surfaces.add(surface_of(alloc, class)?)?;
    }
    Ok(surfaces)
}

// How many bind findings a unit has.
fn found_in(alloc: Global, class: &ClassTree, member: Option<&MemberTree>, key: Text, view: &View<'_>) -> Result<usize> {
    let unit = bind_keyed(alloc, class, member, key, view)?;
    Ok(unit.bind_findings().len())
}

// Binds the units of a class, and counts their bind findings.
fn bind_class(alloc: Global, class: &ClassTree, view: &View<'_>) -> Result<usize> {
    let header = text_of(alloc, class.name.text.as_slice())?;
    let mut found = found_in(alloc, class, None, header, view)?;
    let keys = member_keys(alloc, class)?;
    for (member, key) in class.members.as_slice().iter().zip(keys.as_slice()) {
        found = found.saturating_add(found_in(alloc, class, Some(member), key.clone()?, view)?);
    }
    Ok(found)
}

fn bind_all(alloc: Global, surfaces: &Surfaces, classes: &[ClassTree]) -> Result<usize> {
    let mut found = 0usize;
    for class in classes {
        if surfaces.has(&class.name.text) {
            let view = view_of(surfaces, &class.name.text);
            found = found.saturating_add(bind_class(alloc, class, &view)?);
        }
    }
    Ok(found)
}

fn micros(rt: &HostRuntime, start: &Instant) -> Result<u64> {
    Ok(u64::try_from(start.elapsed(rt)?.as_micros()).unwrap_or(u64::MAX))
}

// Trees and surfaces are each owned by one function, and lent to the others.
fn read_once(rt: &HostRuntime, text: &str) -> Result<u64> {
    let start = Instant::now(rt)?;
    let file = read_file(rt.alloc(), text.as_bytes())?;
    let took = micros(rt, &start);
    if file.types.is_empty() { Err(anyhow!("there is no class")) } else { took }
}

fn reading(rt: &HostRuntime, text: &str) -> Result<u64> {
    let mut least = u64::MAX;
    for _round in 0..20 {
        least = least.min(read_once(rt, text)?);
    }
    Ok(least)
}

fn bind_once(rt: &HostRuntime, surfaces: &Surfaces, classes: &[ClassTree]) -> Result<u64> {
    let start = Instant::now(rt)?;
    let found = bind_all(rt.alloc(), surfaces, classes)?;
    let took = micros(rt, &start)?;
    if found > 0 { Err(anyhow!("something is found")) } else { Ok(took) }
}

fn bind_times(rt: &HostRuntime, surfaces: &Surfaces, classes: &[ClassTree]) -> Result<u64> {
    let mut least = u64::MAX;
    for _round in 0..20 {
        least = least.min(bind_once(rt, surfaces, classes)?);
    }
    Ok(least)
}

fn bind_classes(rt: &HostRuntime, classes: &[ClassTree]) -> Result<u64> {
    let surfaces = surfaces_of(rt.alloc(), classes)?;
    bind_times(rt, &surfaces, classes)
}

fn binding(rt: &HostRuntime, text: &str) -> Result<u64> {
    let file = read_file(rt.alloc(), text.as_bytes())?;
    bind_classes(rt, file.types.as_slice())
}

// The times to read and to bind so many classes.
fn measured(rt: &HostRuntime, count: u32) -> Result<(u64, u64)> {
    let text = file_text(rt.alloc(), count)?;
    let read = reading(rt, text.as_str())?;
    let bound = binding(rt, text.as_str())?;
    Ok((read, bound))
}

fn main(rt: HostRuntime) -> Result<()> {
    let Some(count) = count_of(&rt)? else {
        return Ok(());
    };
    let double = count.saturating_mul(2);
    let (read, bound) = measured(&rt, count)?;
    let (read_twice, bound_twice) = measured(&rt, double)?;
    println!(rt; "{count} classes: microseconds to read {read}, to bind {bound}")?;
    println!(rt; "{double} classes: microseconds to read {read_twice}, to bind {bound_twice}")?;
    println!(rt; "growth in hundredths {}", bound_twice.saturating_mul(100) / bound.max(1))?;
    println!(rt; "against reading in hundredths {}", bound_twice.saturating_mul(100) / read_twice.max(1))?;
    Ok(())
}
PROGRAM
# A file of more than 300 couldn't be read twice as large.
run_built "${1:-300}"
