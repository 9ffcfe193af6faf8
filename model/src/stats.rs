//! What occurs in cases: how often each refusal, cause, depth and order of layers does.

use std::cmp::Reverse;
use std::collections::BTreeMap;

use crate::case::{Case, kind_word, letters};
use crate::fault::Fault;
use crate::generate::TWIN;
use crate::mapping::Kind;
use crate::play::{Event, SetUpRefusal, events};

/// How often each thing occurs, by its words.
pub type Counts = BTreeMap<String, u64>;

/// Adds what occurs in a case.
pub fn count(counts: &mut Counts, case: &Case) {
    let mut add = |thing: String| *counts.entry(thing).or_default() += 1;
    add("cases".to_string());
    if case.name.ends_with(TWIN) {
        add("twins".to_string());
    }
    let stack = letters(&case.layers);
    let kind = kind_word(case.kind);
    let events = events(case);
    let accepted = |e: &&Event| matches!(e, Event::Read(Ok(_)) | Event::Written(Ok(())));
    let height = stack.len();
    match events.iter().any(|e| accepted(&e)) {
        true => stack_things(kind, &stack).into_iter().for_each(&mut add),
        false => add(format!("no call accepted, {kind} under {height} layers")),
    }
    for event in &events {
        for thing in things(event, &stack) {
            add(thing);
        }
    }
}

/// The order of windows, `w`, and caches over the bottom, and which layer stands right over which.
fn stack_things(kind: &str, stack: &str) -> Vec<String> {
    let order: String = stack
        .chars()
        .map(|c| if c == 'c' { 'c' } else { 'w' })
        .collect();
    let mut things = vec![format!("stack {kind} {order}").trim_end().to_string()];
    let mut below = kind.to_string();
    for letter in stack.chars() {
        things.push(format!("stack has {letter} over {below}"));
        below = letter.to_string();
    }
    things.sort();
    things.dedup();
    things
}

/// What an event shows, in words that are counted.
fn things(event: &Event, stack: &str) -> Vec<String> {
    match event {
        Event::Refused { kind, refusal, .. } => refusal_things(*kind, refusal),
        Event::Opened {
            kind,
            reason,
            entry,
            table,
            pages,
            ..
        } => {
            let entry = match entry {
                0 => "0",
                1..32 => "1 to 31",
                _ => "from 32",
            };
            let is_outside = table.page + table.pages() > *pages;
            let place = match is_outside {
                true => "outside",
                false if table.page + table.pages() == *pages => "at the end",
                false => "inside",
            };
            let length = match (table.entries % 1024, table.entries) {
                (0, _) => "whole pages",
                (_, 1025..) => "more than a page",
                _ => "less than a page",
            };
            vec![
                format!("reason {reason} entry {entry}"),
                format!("reason {reason} {kind:?}"),
                format!("reason {reason} table {place}, {length}"),
            ]
        }
        Event::Read(Ok(_)) => vec!["read accepted".to_string()],
        Event::Written(Ok(())) => vec!["write accepted".to_string()],
        Event::Read(Err((fault, _))) => fault_things(fault, "read", stack),
        Event::Written(Err(fault)) => fault_things(fault, "write", stack),
        Event::WindowReport([_, _, _, lookups, fills]) => {
            let many = match (lookups, fills) {
                (0, _) => "none",
                (_, 0) => "no fill",
                (_, 1..33) => "up to 32 fills",
                _ => "more fills than places",
            };
            vec![format!("lookups {many}")]
        }
        Event::CacheReport([reads, hits, prefetches, _]) => {
            let many = match (reads, hits, prefetches) {
                (0, ..) => "no read",
                (_, 0, _) => "no hit",
                (_, _, 0) => "hits without prefetches",
                (_, _, 1..17) => "up to 16 prefetches",
                _ => "more prefetches than ways",
            };
            vec![format!("cache {many}")]
        }
        _ => Vec::new(),
    }
}

/// Which register was refused, or which clause failed, if it was one alone; and whether a value is just too wide.
fn refusal_things(kind: Kind, refusal: &SetUpRefusal) -> Vec<String> {
    let number = refusal.number;
    let mut things = vec![format!("refusal {number} {kind:?}")];
    if let Some((register, value)) = refusal.write {
        let edge = match kind.widths().get(register as usize) {
            Some(width) if value == 1 << width => "just too wide",
            Some(_) => "too wide",
            None if register == kind.widths().len() as u64 => "just none",
            None => "none",
        };
        let register = register.min(5);
        things.push(format!(
            "refusal {number} {kind:?} register {register} {edge}"
        ));
    }
    if let [clause] = refusal.failed[..] {
        things.push(format!("refusal {number} {kind:?} only: {clause}"));
    }
    things
}

fn fault_things(fault: &Fault, call: &str, stack: &str) -> Vec<String> {
    let cause = fault.cause as u8;
    let (depth, height) = (fault.depth, stack.len());
    vec![
        format!("cause {cause} depth {depth} {call}"),
        format!("cause {cause} depth {depth} under {height} layers"),
    ]
}

/// Chooses groups of cases so that everything that occurs in any of them occurs in one that is chosen, and then the first
/// others, up to so many cases. Long groups are chosen less. Their order stays.
pub fn choose(groups: &[Vec<Case>], most: usize) -> Vec<Case> {
    let things: Vec<Counts> = groups.iter().map(|group| things_of(group)).collect();
    let lengths: Vec<usize> = groups.iter().map(|group| length(group)).collect();
    let mut wanted = wanted(&things);
    let mut chosen = vec![false; groups.len()];
    let mut left = most;
    loop {
        let worth = |i: &usize| {
            let shown = things[*i].keys().filter(|thing| wanted[*thing] > 0);
            let shown: usize = shown.map(|thing| weight(thing)).sum();
            (shown * 1_000_000 / (lengths[*i] + 8_000), Reverse(*i))
        };
        let free = (0..groups.len()).filter(|i| !chosen[*i] && groups[*i].len() <= left);
        let Some(best) = free.max_by_key(worth) else {
            break;
        };
        chosen[best] = true;
        left -= groups[best].len();
        for thing in things[best].keys() {
            let count = wanted.entry(thing.clone()).or_default();
            *count = count.saturating_sub(1);
        }
    }
    let kept = groups
        .iter()
        .zip(chosen)
        .filter(|(_, is_chosen)| *is_chosen);
    kept.flat_map(|(group, _)| group.clone()).collect()
}

/// A stack takes a longer case than a refusal, and is to be shown all the same.
fn weight(thing: &str) -> usize {
    if thing.starts_with("stack") { 8 } else { 1 }
}

/// How often each thing is to be shown: as often as it occurs, and at most twice, a stack or a refusal once.
fn wanted(things: &[Counts]) -> Counts {
    let mut wanted = Counts::new();
    for thing in things.iter().flat_map(|counts| counts.keys()) {
        let count = wanted.entry(thing.clone()).or_default();
        let is_once = thing.starts_with("stack") || thing.starts_with("refusal");
        let most = if is_once { 1 } else { 2 };
        *count = (*count + 1).min(most);
    }
    wanted
}

fn things_of(group: &[Case]) -> Counts {
    let mut counts = Counts::new();
    group.iter().for_each(|case| count(&mut counts, case));
    counts
}

fn length(group: &[Case]) -> usize {
    group.iter().map(|case| case.to_string().len()).sum()
}
