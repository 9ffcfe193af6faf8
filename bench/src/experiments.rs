//! What is measured on which scenes.

use crate::contenders::{self, Call};
use crate::measure::{Contender, Figures, measure};
use crate::raw;
use crate::scene::{LINE, Order, PAGE_RECORDS, PRICE, RECORD, Scene};

/// Records of the smallest image, which lies in the cache with all that it needs.
pub const FEW: usize = 4096;
pub const MANY: usize = 2_097_152;

const SIZES: [usize; 6] = [FEW, 16_384, 65_536, 262_144, 1_048_576, MANY];

const REPETITIONS: u32 = 21;

/// A repetition reads at least so many lines.
const REPETITION_LINES: u32 = 8192;

/// One size of image in one order of the table.
pub struct Size {
    pub records: usize,
    pub order: Order,
    pub figures: Figures,
}

/// Contenders of a size, by their place in its figures.
pub const READ: usize = 0;
pub const SIMPLE_READ: usize = 1;
pub const GATHER: usize = 2;
pub const WRITE: usize = 3;
pub const SIMPLE_WRITE: usize = 4;
pub const SCATTER: usize = 5;
pub const COPY: usize = 6;

const SIZE_CALLS: [(&str, Call); 7] = [
    ("window read", contenders::stride),
    ("simple read", contenders::simple_read),
    ("strided gather", raw::gather),
    ("window write", contenders::stride_write),
    ("simple write", contenders::simple_write),
    ("strided scatter", raw::scatter),
    ("copy", raw::copy),
];

pub fn sizes() -> Vec<Size> {
    let mut sizes = Vec::new();
    for records in SIZES {
        for order in Order::ALL {
            let lines = (records / PAGE_RECORDS) as u32;
            let calls = SIZE_CALLS.map(|(name, call)| contender(name, 0, call, lines));
            let figures = measure(&mut [Scene::stride(records, order)], &calls, REPETITIONS);
            sizes.push(Size { records, order, figures });
        }
    }
    sizes
}

fn contender(name: &'static str, scene: usize, call: Call, lines: u32) -> Contender {
    Contender { name, scene, call, lines, rounds: REPETITION_LINES.div_ceil(lines) }
}

/// Each mapping and each sort of stack once, over the records of the smallest image.
pub struct Layers {
    pub names: Vec<&'static str>,
    pub figures: Figures,
}

/// The stride window over plain memory comes first, and the one over checked memory second.
pub const PLAIN: usize = 0;
pub const CHECKED: usize = 1;

pub fn layers() -> Layers {
    let order = Order::Shuffled;
    let data = FEW * RECORD;
    let dense = (FEW / PAGE_RECORDS) as u32;
    let all = (data / LINE) as u32;
    let stride = || Scene::stride(FEW, order);
    let other = |registers| Scene::other(FEW, order, data, registers);
    let stacks: [(&str, Scene, Call, u32); 8] = [
        ("stride over plain memory", stride(), contenders::stride, dense),
        ("stride over checked memory", Scene::checked(FEW, order), contenders::checked, dense),
        ("direct over plain memory", other([0; 3]), contenders::direct, all),
        ("colour over plain memory", other([16_384, 16_384, 0]), contenders::colour, all),
        ("transpose over plain memory", other([PRICE, RECORD, FEW]), contenders::transpose, dense),
        ("stride over a cache over plain memory", stride(), contenders::over_cache, dense),
        ("a cache over stride over plain memory", stride(), contenders::cached, dense),
        ("stride over direct over plain memory", Scene::two_windows(FEW, order), contenders::over_window, dense),
    ];
    let mut layers = Vec::new();
    let mut scenes = Vec::new();
    for (place, (name, scene, call, lines)) in stacks.into_iter().enumerate() {
        layers.push(contender(name, place, call, lines));
        scenes.push(scene);
    }
    let figures = measure(&mut scenes, &layers, REPETITIONS);
    Layers { names: layers.iter().map(|layer| layer.name).collect(), figures }
}

/// Openings of stride windows, by the number of entries in the table.
pub struct Openings {
    pub entries: [usize; 3],
    pub figures: Figures,
}

pub fn openings() -> Openings {
    let entries = [256, 4096, 65_536];
    let mut scenes = entries.map(|entries| Scene::stride(entries * PAGE_RECORDS, Order::Shuffled));
    let calls = [0, 1, 2].map(|scene| Contender {
        name: "opening",
        scene,
        call: contenders::stride,
        lines: 0,
        rounds: (65_536 / entries[scene]) as u32,
    });
    Openings { entries, figures: measure(&mut scenes, &calls, REPETITIONS) }
}

/// What `once` may call, and for how many lines at most.
pub const ONCE_CALLS: &str = "read, write, simple-read, simple-write, gather, scatter, copy";
pub const ONCE_LINES: u32 = (FEW / PAGE_RECORDS) as u32;

/// One call on the smallest image, or nothing where there is no such call.
pub fn once(call: &str, lines: u32) -> Option<bool> {
    let call: Call = match call {
        "read" => contenders::stride,
        "write" => contenders::stride_write,
        "simple-read" => contenders::simple_read,
        "simple-write" => contenders::simple_write,
        "gather" => raw::gather,
        "scatter" => raw::scatter,
        "copy" => raw::copy,
        _ => return None,
    };
    Some(call(&mut Scene::stride(FEW, Order::Shuffled), lines))
}
