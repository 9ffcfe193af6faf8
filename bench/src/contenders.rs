//! What is timed. Each reads into the scene's buffer, or writes it into, the first lines of the scene.

use std::hint::black_box;

use crate::library::{self, Stack};
use crate::scene::{LINE, Scene};
use crate::simple::{Fault, SimpleWindow};

/// A call on a scene for its first lines. Whether all were accepted.
pub type Call = fn(&mut Scene, u32) -> bool;

pub fn stride(scene: &mut Scene, lines: u32) -> bool {
    read(Stack::Stride, scene, lines)
}

pub fn direct(scene: &mut Scene, lines: u32) -> bool {
    read(Stack::Direct, scene, lines)
}

pub fn colour(scene: &mut Scene, lines: u32) -> bool {
    read(Stack::Colour, scene, lines)
}

pub fn transpose(scene: &mut Scene, lines: u32) -> bool {
    read(Stack::Transpose, scene, lines)
}

pub fn checked(scene: &mut Scene, lines: u32) -> bool {
    read(Stack::Checked, scene, lines)
}

pub fn over_cache(scene: &mut Scene, lines: u32) -> bool {
    read(Stack::OverCache, scene, lines)
}

pub fn cached(scene: &mut Scene, lines: u32) -> bool {
    read(Stack::Cached, scene, lines)
}

fn read(stack: Stack, scene: &mut Scene, lines: u32) -> bool {
    library::read(stack, &mut scene.bytes, &mut scene.opening, lines, &mut scene.line)
}

pub fn stride_write(scene: &mut Scene, lines: u32) -> bool {
    library::write(&mut scene.bytes, &mut scene.opening, lines, &scene.line)
}

pub fn over_window(scene: &mut Scene, lines: u32) -> bool {
    let Some(lower) = &mut scene.lower else {
        return false;
    };
    library::read_over_window(&mut scene.bytes, lower, &mut scene.opening, lines, &mut scene.line)
}

pub fn simple_read(scene: &mut Scene, lines: u32) -> bool {
    let mut window = SimpleWindow::new(&mut scene.bytes, &scene.opening.registers);
    (0..u64::from(lines)).all(|number| {
        let answer = window.read(number * LINE as u64, &mut scene.line);
        black_box(&mut scene.line);
        accepted(answer)
    })
}

pub fn simple_write(scene: &mut Scene, lines: u32) -> bool {
    let mut window = SimpleWindow::new(&mut scene.bytes, &scene.opening.registers);
    (0..u64::from(lines)).all(|number| {
        let line = black_box(&scene.line);
        accepted(window.write(number * LINE as u64, line))
    })
}

fn accepted(answer: Result<(), Fault>) -> bool {
    black_box(answer).is_ok()
}
