//! Before anything is timed: every contender brings the same lines and leaves the same memory.

use crate::contenders::{self, Call};
use crate::experiments::FEW;
use crate::raw;
use crate::scene::{Order, PAGE_RECORDS, PRICE, RECORD, Scene, prices};

const LINES: u32 = (FEW / PAGE_RECORDS) as u32;

pub fn answers() {
    for order in Order::ALL {
        let plain = || Scene::stride(FEW, order);
        reads("the window", plain(), contenders::stride);
        reads("the simple window", plain(), contenders::simple_read);
        reads("the strided gather", plain(), raw::gather);
        reads("checked memory", Scene::checked(FEW, order), contenders::checked);
        reads("a window over a cache", plain(), contenders::over_cache);
        reads("a cache over a window", plain(), contenders::cached);
        reads("a window over a window", Scene::two_windows(FEW, order), contenders::over_window);
        same("reads", order, contenders::stride, contenders::simple_read);
        same("writes", order, contenders::stride_write, contenders::simple_write);
        whole(order);
        transposed(order);
    }
}

/// The buffer holds the last of the lines that were read.
fn reads(name: &str, mut scene: Scene, call: Call) {
    for lines in 1..=LINES {
        assert!(call(&mut scene, lines), "{name} refuses a line");
        assert!(scene.line == prices(lines as usize - 1), "{name} brings other bytes in line {}", lines - 1);
    }
}

/// Two calls leave memories that are equal, marks and all.
fn same(name: &str, order: Order, one: Call, other: Call) {
    let mut scenes = [Scene::stride(FEW, order), Scene::stride(FEW, order)];
    for (scene, call) in scenes.iter_mut().zip([one, other]) {
        scene.line = prices(7);
        assert!(call(scene, LINES), "{name}: a line was refused");
    }
    assert!(scenes[0].bytes == scenes[1].bytes, "the {name} of the two windows leave different memories");
}

/// Direct and colour, with a colour as large as its way, show the records as they are.
fn whole(order: Order) {
    let image = FEW * RECORD;
    let direct = Scene::other(FEW, order, image, [0; 3]);
    let colour = Scene::other(FEW, order, image, [16_384, 16_384, 0]);
    for (name, mut scene, call) in
        [("direct", direct, contenders::direct as Call), ("colour", colour, contenders::colour)]
    {
        for record in 0..FEW {
            assert!(call(&mut scene, record as u32 + 1), "{name} refuses a line");
            let found = &scene.line[8..8 + PRICE];
            assert!(found == crate::scene::price(record), "{name} brings another record");
        }
    }
}

/// The first columns of the transposed records are their first bytes, and the third are the prices.
fn transposed(order: Order) {
    let mut scene = Scene::other(FEW, order, FEW * RECORD, [PRICE, RECORD, FEW]);
    for lines in 2 * LINES + 1..=3 * LINES {
        assert!(contenders::transpose(&mut scene, lines), "transpose refuses a line");
        assert!(scene.line == prices((lines - 2 * LINES) as usize - 1), "transpose brings other bytes");
    }
}
