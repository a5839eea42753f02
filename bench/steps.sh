#!/bin/sh
# How the time of a run grows: a program of one loop, by `advance`, which makes each step on the
# configuration itself. It prints the least of several times of N and of 2N steps and their ratio in hundredths (about
# 200 where a step costs the same throughout), and the ratio of N steps with 10,000 and with 10 objects in
# the configuration (about 100 where a step costs nothing for objects that it doesn't touch).
. "$(dirname -- "$0")/common.sh"
program_over loop_steps core_model desk_base sqlite_items anyhow -- desk_base core_model
cat > "$crate/src/main.rt" <<'PROGRAM'
#![tactic(auto)]

use anyhow::Result;
use core_model::{
    Body, ClassInfo, Instr, Known, MAIN, Note, Obj, ObjKind, Op, Plain, Program, UnitCode, UnitName, Value, advance,
    begin,
};
use desk_base::{Name, Text};
use sqlite_items::Items;
use std::alloc::Global;
use std::time::Instant;

const NOTE: Note = Note { place: 1, known: Known::Nothing };

fn code(alloc: Global, plains: &[Plain]) -> Result<Body> {
    let mut body = Body::new(alloc);
    for plain in plains.iter().rev() {
        body.push(Instr::Do(NOTE, *plain))?;
    }
    Ok(body)
}

/// `int i = 0; while (i < 2147483647) { i = i + 1; }`, with a null local beside it.
fn main_code(alloc: Global) -> Result<Body> {
    let condition = [Plain::Get(1), Plain::Const(Value::Int(2_147_483_647)), Plain::Op(Op::Less)];
    let turn = [Plain::Get(1), Plain::Const(Value::Int(1)), Plain::Op(Op::Add), Plain::Set(1)];
    let mut body = Body::new(alloc);
    body.push(Instr::While(NOTE, code(alloc, &condition)?, code(alloc, &turn)?))?;
    body.prepend(code(alloc, &[Plain::Const(Value::Int(0)), Plain::Set(1)])?)?;
    Ok(body)
}

fn program(alloc: Global) -> Result<Program> {
    let mut units = Items::new(alloc);
    units.push(UnitName { name: MAIN, params: 1, unit: 0 })?;
    let mut classes = Items::new(alloc);
    classes.push(ClassInfo { name: Name::from_slice(alloc, b"M")?, fields: Items::new(alloc), units })?;
    let mut codes = Items::new(alloc);
    codes.push(UnitCode {
        key: Text::from_text(alloc, "M.main/1")?,
        class: 0,
        is_static: true,
        locals: 2,
        code: main_code(alloc)?,
    })?;
    let mut mains = Items::new(alloc);
    mains.push(0)?;
    Ok(Program { classes, units: codes, mains, members: Items::new(alloc) })
}

fn measured(rt: &HostRuntime, steps: u32, objects: u32) -> Result<u64> {
    let alloc = rt.alloc();
    let program = program(alloc)?;
    let mut least = u64::MAX;
    for _round in 0..6 {
        let mut config = begin(alloc, &program, &[0])?;
        for _object in 0..objects {
            config.objects.push(Obj::new(ObjKind::Plain, Items::new(alloc)))?;
        }
        let start = Instant::now(rt)?;
        for _step in 0..steps {
            config = advance(alloc, &program, config, 0)?;
        }
        let took = u64::try_from(start.elapsed(rt)?.as_micros()).unwrap_or(u64::MAX);
        least = least.min(took);
    }
    Ok(least)
}

fn main(rt: HostRuntime) -> Result<()> {
    let Some(count) = count_of(&rt)? else {
        return Ok(());
    };
    let double = count.saturating_mul(2);
    let once = measured(&rt, count, 10)?;
    let twice = measured(&rt, double, 10)?;
    let many = measured(&rt, count, 10_000)?;
    println!(rt; "steps {count} microseconds {once}")?;
    println!(rt; "steps {double} microseconds {twice}")?;
    println!(rt; "ratio in hundredths {}", twice.saturating_mul(100) / once.max(1))?;
    println!(rt; "steps {count} with 10000 objects microseconds {many}")?;
    println!(rt; "ratio in hundredths {}", many.saturating_mul(100) / once.max(1))?;
    Ok(())
}
PROGRAM
run_built "${1:-100000}"
