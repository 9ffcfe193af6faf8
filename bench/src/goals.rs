//! The goals, each in one line: whether it is met, what it says, and what was measured.

use crate::experiments::{
    CHECKED, FEW, GATHER, Layers, MANY, Openings, PLAIN, READ, SCATTER, SIMPLE_READ, SIMPLE_WRITE, Size, WRITE,
};

/// Figures that are to be at most a bound.
struct Goal {
    what: &'static str,
    found: Vec<f64>,
    most: f64,
}

impl Goal {
    fn is_met(&self) -> bool {
        self.found.iter().all(|&found| found <= self.most)
    }
}

pub fn print(sizes: &[Size], layers: &Layers, openings: &Openings) {
    let goals = goals(sizes, layers, openings);
    println!("Goals, in order and shuffled where there are two figures:\n");
    for goal in &goals {
        let verdict = if goal.is_met() { "met" } else { "missed" };
        let found: Vec<String> = goal.found.iter().map(|found| format!("{found:.2}")).collect();
        println!("- {verdict}: {}, at most {}: {}", goal.what, goal.most, found.join(" and "));
    }
    let met = goals.iter().filter(|goal| goal.is_met()).count();
    println!("\n{met} of {} goals met", goals.len());
}

fn goals(sizes: &[Size], layers: &Layers, openings: &Openings) -> Vec<Goal> {
    let to = |records, this, that| ratios(sizes, records, this, that);
    let goal = |what, found, most| Goal { what, found, most };
    vec![
        goal("a read in cache, to the simple window's", to(FEW, READ, SIMPLE_READ), 0.4),
        goal("a read in cache, to the strided copy's", to(FEW, READ, GATHER), 4.0),
        goal("a read at 2,097,152 records, to the simple window's", to(MANY, READ, SIMPLE_READ), 0.9),
        goal("a read at 2,097,152 records, to the strided copy's", to(MANY, READ, GATHER), 1.4),
        goal("a write in cache, to the simple window's", to(FEW, WRITE, SIMPLE_WRITE), 0.6),
        goal("a read over checked memory, to one over plain memory", vec![layers.figures.ratio(CHECKED, PLAIN)], 3.0),
        goal(
            "growth of a read from 4,096 to 2,097,152 records, to the strided copy's",
            growth(sizes, READ, GATHER),
            1.0,
        ),
        goal(
            "growth of a write from 4,096 to 2,097,152 records, to the strided copy's",
            growth(sizes, WRITE, SCATTER),
            1.0,
        ),
        goal("an entry of an opening of 65,536 entries, to one of 256", vec![for_an_entry(openings)], 1.5),
    ]
}

/// In each order of the table, by repetition.
fn ratios(sizes: &[Size], records: usize, this: usize, that: usize) -> Vec<f64> {
    let sizes = sizes.iter().filter(|size| size.records == records);
    sizes.map(|size| size.figures.ratio(this, that)).collect()
}

/// By which factor one grows, to the factor of the other.
fn growth(sizes: &[Size], this: usize, that: usize) -> Vec<f64> {
    let most = ratios(sizes, MANY, this, that);
    let least = ratios(sizes, FEW, this, that);
    most.iter().zip(&least).map(|(most, least)| most / least).collect()
}

/// What an entry costs in the largest opening, to the smallest.
fn for_an_entry(openings: &Openings) -> f64 {
    let [least, _, most] = openings.entries;
    openings.figures.ratio(2, 0) * least as f64 / most as f64
}
