//! Repetitions, and their medians. In each repetition every contender runs in turn, so that what slows the machine slows all alike.

use crate::clock::nanoseconds;
use crate::contenders::Call;
use crate::scene::Scene;

pub struct Contender {
    pub name: &'static str,
    /// which scene it runs on
    pub scene: usize,
    pub call: Call,
    /// lines of one call; 0 to time a call for none, which opens and closes
    pub lines: u32,
    /// calls of one repetition
    pub rounds: u32,
}

/// Nanoseconds for a line, or for a call for none: of each contender, in each repetition.
pub struct Figures(Vec<Vec<f64>>);

impl Figures {
    pub fn median(&self, contender: usize) -> f64 {
        median(self.0[contender].clone())
    }

    /// The median of the ratios of two contenders, each of one repetition.
    pub fn ratio(&self, contender: usize, other: usize) -> f64 {
        let pairs = self.0[contender].iter().zip(&self.0[other]);
        median(pairs.map(|(this, that)| this / that).collect())
    }
}

fn median(mut figures: Vec<f64>) -> f64 {
    figures.sort_by(f64::total_cmp);
    figures[figures.len() / 2]
}

pub fn measure(scenes: &mut [Scene], contenders: &[Contender], repetitions: u32) -> Figures {
    let mut figures = vec![Vec::new(); contenders.len()];
    for _ in 0..repetitions {
        for (contender, figures) in contenders.iter().zip(&mut figures) {
            figures.push(contender.cost(&mut scenes[contender.scene]));
        }
    }
    Figures(figures)
}

impl Contender {
    /// A line costs what a call for many lines takes longer than a call for none, which makes and opens all layers too.
    fn cost(&self, scene: &mut Scene) -> f64 {
        // So that the scene is in the caches as this contender leaves it, and no page of it is touched for the first time.
        self.run(scene, self.lines);
        let opening = self.time(scene, 0);
        if self.lines == 0 {
            return opening;
        }
        (self.time(scene, self.lines) - opening) / f64::from(self.lines)
    }

    /// Nanoseconds of one call.
    fn time(&self, scene: &mut Scene, lines: u32) -> f64 {
        let work = || (0..self.rounds).for_each(|_| self.run(scene, lines));
        nanoseconds(work) / f64::from(self.rounds)
    }

    fn run(&self, scene: &mut Scene, lines: u32) {
        assert!((self.call)(scene, lines), "{}: a line was refused", self.name);
    }
}
