//! Twins: a case with calls put in that must leave everything below the top as it was.

use super::calls::bad_call;
use crate::case::{Call, Case};
use crate::memory::Memory;
use crate::play::{build, make};
use crate::random::Random;

/// The name of a twin ends so.
pub const TWIN: &str = ".twin";

/// The twin of a case; nothing where its stack cannot be set up, or nothing can be put in. What is put in is refused
/// with cause 1 or 2, or is a call that was made before and that, made again, leaves the memory below the very value that it was.
pub fn twin(case: &Case, seed: u64, index: u64) -> Option<Case> {
    let mut random = Random::new(seed ^ 0x7717, index);
    let (mut memory, _, is_whole) = build(case);
    if !is_whole || case.calls.is_empty() || case.layers.is_empty() {
        return None;
    }
    let mut calls = Vec::new();
    for (made, call) in case.calls.iter().enumerate() {
        make(&mut memory, call);
        calls.push(call.clone());
        if random.percent(20) {
            let bad = bad_call(&mut random, memory.size());
            make(&mut memory, &bad);
            calls.push(bad);
        }
        if random.percent(40) {
            let again = case.calls
                [random.range(made.saturating_sub(4) as u64, made as u64) as usize]
                .clone();
            if leaves_below(&memory, &again) {
                make(&mut memory, &again);
                calls.push(again);
            }
        }
    }
    (calls.len() > case.calls.len()).then(|| Case {
        name: format!("{}{TWIN}", case.name),
        calls,
        ..case.clone()
    })
}

/// Whether a read leaves the memory below as it was: a quiet hit of a cache, or a read of a window that marks nothing anew over
/// a memory without counts.
fn leaves_below(memory: &Memory, call: &Call) -> bool {
    let Call::Read(..) = call else {
        return false;
    };
    let mut after = memory.clone();
    make(&mut after, call);
    is_settled(memory, &after) && memory.below() == after.below()
}

/// Whether what the top has of its own beyond counts is as before, so that later calls go on alike.
fn is_settled(before: &Memory, after: &Memory) -> bool {
    match (before, after) {
        (Memory::Window(before), Memory::Window(after)) => before.tlb.holds_like(&after.tlb),
        (Memory::Cache(before), Memory::Cache(after)) => before.holds_like(after),
        _ => true,
    }
}

/// The lines that say what the layers below the top and the bottom were at the end.
fn below(answers: &str) -> Vec<&str> {
    let is_end = |line: &&str| line.starts_with("report ") || line.starts_with("closed ");
    answers.lines().filter(is_end).skip(1).collect()
}

/// Where a twin's answers say something else of what is below the top.
pub fn differs(case: &str, twin: &str) -> Option<String> {
    let (case, twin) = (below(case), below(twin));
    let differs = case.iter().zip(&twin).find(|(a, b)| a != b);
    differs.map(|(a, b)| format!("{a:?} and {b:?}"))
}
