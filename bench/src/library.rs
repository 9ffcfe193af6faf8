//! The calls of the proved library, as crates/bench_calls exports them.

pub type Registers = [u64; 5];
pub type Line = [u8; 128];

/// A call that reads: the bytes and the board each as a pointer and a length, as every slice crosses.
type ReadCall = unsafe extern "C" fn(*mut u8, usize, *mut u8, usize, &Registers, u32, &mut Line) -> bool;

#[rustfmt::skip]
unsafe extern "C" {
    fn bench_read_stride(bytes: *mut u8, n: usize, board: *mut u8, m: usize, by: &Registers, lines: u32, line: &mut Line) -> bool;
    fn bench_read_direct(bytes: *mut u8, n: usize, board: *mut u8, m: usize, by: &Registers, lines: u32, line: &mut Line) -> bool;
    fn bench_read_colour(bytes: *mut u8, n: usize, board: *mut u8, m: usize, by: &Registers, lines: u32, line: &mut Line) -> bool;
    fn bench_read_transpose(bytes: *mut u8, n: usize, board: *mut u8, m: usize, by: &Registers, lines: u32, line: &mut Line) -> bool;
    fn bench_read_checked(bytes: *mut u8, n: usize, board: *mut u8, m: usize, by: &Registers, lines: u32, line: &mut Line) -> bool;
    fn bench_read_over_cache(bytes: *mut u8, n: usize, board: *mut u8, m: usize, by: &Registers, lines: u32, line: &mut Line) -> bool;
    fn bench_read_cached(bytes: *mut u8, n: usize, board: *mut u8, m: usize, by: &Registers, lines: u32, line: &mut Line) -> bool;
    fn bench_write_stride(bytes: *mut u8, n: usize, board: *mut u8, m: usize, by: &Registers, lines: u32, line: &Line) -> bool;
    fn bench_read_over_window(
        bytes: *mut u8, n: usize,
        lower_board: *mut u8, lower_m: usize, lower: &Registers,
        upper_board: *mut u8, upper_m: usize, upper: &Registers,
        lines: u32, line: &mut Line,
    ) -> bool;
}

/// The stacks of one window.
#[derive(Clone, Copy)]
pub enum Stack {
    Stride,
    Direct,
    Colour,
    Transpose,
    Checked,
    OverCache,
    Cached,
}

impl Stack {
    fn call(self) -> ReadCall {
        match self {
            Stack::Stride => bench_read_stride,
            Stack::Direct => bench_read_direct,
            Stack::Colour => bench_read_colour,
            Stack::Transpose => bench_read_transpose,
            Stack::Checked => bench_read_checked,
            Stack::OverCache => bench_read_over_cache,
            Stack::Cached => bench_read_cached,
        }
    }
}

/// A board, a byte for each page of the memory below, and the registers of the window.
pub struct Opening {
    pub board: Vec<u8>,
    pub registers: Registers,
}

/// Opens a window, and reads its first lines into `line`. Whether all were accepted.
pub fn read(stack: Stack, bytes: &mut [u8], opening: &mut Opening, lines: u32, line: &mut Line) -> bool {
    let board = &mut opening.board;
    // SAFETY: both slices are borrowed for the call, which keeps no pointer.
    unsafe {
        stack.call()(bytes.as_mut_ptr(), bytes.len(), board.as_mut_ptr(), board.len(), &opening.registers, lines, line)
    }
}

/// Opens a stride window over plain memory, and writes the same bytes into its first lines.
pub fn write(bytes: &mut [u8], opening: &mut Opening, lines: u32, line: &Line) -> bool {
    let board = &mut opening.board;
    // SAFETY: both slices are borrowed for the call, which keeps no pointer.
    unsafe {
        bench_write_stride(
            bytes.as_mut_ptr(),
            bytes.len(),
            board.as_mut_ptr(),
            board.len(),
            &opening.registers,
            lines,
            line,
        )
    }
}

/// Opens a stride window over a direct one, and reads its first lines.
pub fn read_over_window(
    bytes: &mut [u8],
    lower: &mut Opening,
    upper: &mut Opening,
    lines: u32,
    line: &mut Line,
) -> bool {
    // SAFETY: the three slices are borrowed for the call, which keeps no pointer.
    unsafe {
        bench_read_over_window(
            bytes.as_mut_ptr(),
            bytes.len(),
            lower.board.as_mut_ptr(),
            lower.board.len(),
            &lower.registers,
            upper.board.as_mut_ptr(),
            upper.board.len(),
            &upper.registers,
            lines,
            line,
        )
    }
}
