//! A stride window over plain memory in safe Rust, by the rules of docs/windows.md: the mapping, the page
//! table, a TLB of 32 places, marks, each call whole or not at all. It makes no examination when it is opened.

use crate::library::Registers;

const PAGE: u64 = 4096;
const LINE: u64 = 128;
const PLACES: usize = 32;

const VALID: u8 = 0x80;
const REFERENCED: u8 = 0x40;
const MODIFIED: u8 = 0x20;
const OUT: u8 = 0x10;

#[derive(Debug)]
pub enum Fault {
    BadRun,
    PastEnd,
    NoPage,
    PageOut,
}

#[derive(Clone, Copy)]
struct Translation {
    page: u64,
    flags: u8,
    frame: u32,
}

/// Where a part of a run stands.
#[derive(Clone, Copy, Default)]
struct Part {
    page: u64,
    address: usize,
    size: usize,
}

pub struct SimpleWindow<'a> {
    memory: &'a mut [u8],
    image_size: u64,
    table: u64,
    object_size: u64,
    /// an object's size is a power of two, so its number takes no division
    object_shift: u32,
    stride: u64,
    offset: u64,
    tlb: [Option<Translation>; PLACES],
    pub lookups: u64,
    pub fills: u64,
}

impl<'a> SimpleWindow<'a> {
    pub fn new(memory: &'a mut [u8], registers: &Registers) -> SimpleWindow<'a> {
        let [image_size, table_page, object_size, stride, offset] = *registers;
        SimpleWindow {
            memory,
            image_size,
            table: table_page * PAGE,
            object_size,
            object_shift: object_size.trailing_zeros(),
            stride,
            offset,
            tlb: [None; PLACES],
            lookups: 0,
            fills: 0,
        }
    }

    pub fn read(&mut self, a: u64, buffer: &mut [u8]) -> Result<(), Fault> {
        let n = buffer.len();
        self.check_run(a, n)?;
        let mut line = [0; LINE as usize];
        let mut parts = [Part::default(); PLACES];
        let mut count = 0;
        let mut done = 0;
        while done < n {
            let part = self.find(a + done as u64, n - done)?;
            line[done..done + part.size].copy_from_slice(&self.memory[part.address..part.address + part.size]);
            parts[count] = part;
            count += 1;
            done += part.size;
        }
        self.mark(&parts[..count], REFERENCED);
        buffer.copy_from_slice(&line[..n]);
        Ok(())
    }

    pub fn write(&mut self, a: u64, bytes: &[u8]) -> Result<(), Fault> {
        let n = bytes.len();
        self.check_run(a, n)?;
        let mut parts = [Part::default(); PLACES];
        let mut count = 0;
        let mut done = 0;
        while done < n {
            let part = self.find(a + done as u64, n - done)?;
            parts[count] = part;
            count += 1;
            done += part.size;
        }
        self.mark(&parts[..count], REFERENCED | MODIFIED);
        let mut rest = bytes;
        for part in &parts[..count] {
            let (these, others) = rest.split_at(part.size);
            self.memory[part.address..part.address + part.size].copy_from_slice(these);
            rest = others;
        }
        Ok(())
    }

    fn check_run(&self, a: u64, n: usize) -> Result<(), Fault> {
        if n == 0 || n as u64 > LINE - a % LINE {
            return Err(Fault::BadRun);
        }
        if n as u64 > self.image_size.saturating_sub(a) {
            return Err(Fault::PastEnd);
        }
        Ok(())
    }

    /// Where the bytes from s on stand that lie in its grain, up to n of them.
    fn find(&mut self, s: u64, n: usize) -> Result<Part, Fault> {
        let rest = s & (self.object_size - 1);
        let size = ((self.object_size - rest) as usize).min(n);
        let v = (s >> self.object_shift) * self.stride + self.offset + rest;
        let page = v / PAGE;
        let address = (u64::from(self.look_up(page)?) * PAGE + v % PAGE) as usize;
        if address + size > self.memory.len() {
            return Err(Fault::PastEnd);
        }
        Ok(Part { page, address, size })
    }

    fn look_up(&mut self, page: u64) -> Result<u32, Fault> {
        self.lookups += 1;
        if let Some(held) = self.tlb[page as usize % PLACES]
            && held.page == page
        {
            return Ok(held.frame);
        }
        let at = self.entry(page);
        let entry = self.memory.get(at..at + 4).ok_or(Fault::PastEnd)?;
        let flags = entry[0] & 0xF0;
        let frame = u32::from_be_bytes([entry[0] & 0x0F, entry[1], entry[2], entry[3]]);
        if flags & VALID == 0 {
            return Err(Fault::NoPage);
        }
        if flags & OUT != 0 {
            return Err(Fault::PageOut);
        }
        self.fills += 1;
        self.tlb[page as usize % PLACES] = Some(Translation { page, flags, frame });
        Ok(frame)
    }

    /// Sets the marks of the parts' pages, in the table and in what is held.
    fn mark(&mut self, parts: &[Part], marks: u8) {
        for part in parts {
            let place = &mut self.tlb[part.page as usize % PLACES];
            if let Some(held) = place
                && held.page == part.page
            {
                if held.flags & marks == marks {
                    continue;
                }
                held.flags |= marks;
            }
            let at = self.entry(part.page);
            self.memory[at] |= marks;
        }
    }

    fn entry(&self, page: u64) -> usize {
        (self.table + page * 4) as usize
    }
}
