#!/usr/bin/env python3
"""Plants one bug at a time in a copy of the model, and shows whether the answers to the chosen cases differ then.

plant.py           every bug of the table, and a list of those that no case shows
plant.py WORD      only bugs in whose file or text the word stands

The copies are made in target/bugs. The exit status is 0 if every bug is shown, but for those of the table's last part, of which
it is known why no case can show them.
"""

import concurrent.futures
import os
import pathlib
import shutil
import subprocess
import sys

MODEL = pathlib.Path(__file__).resolve().parent.parent
CASES = MODEL / "cases/chosen.cases"
ANSWERS = MODEL / "cases/chosen.answers"
WORKERS = 4
# What came of a bug that the cases show: other answers, a panic, or no end.
SHOWN = ("shown", "stops", "hangs")

# File below src/, what stands there, and what is planted in its place.
BUGS = [
    # Runs, cells, faults.
    ("memory.rs", "length == 0 ||", "false ||"),
    ("memory.rs", "u128::from(address % LINE) + length > u128::from(LINE)", "u128::from(address % LINE) + length >= u128::from(LINE)"),
    ("memory.rs", "u128::from(address) + length > u128::from(size)", "u128::from(address) + length >= u128::from(size)"),
    ("memory.rs", "u128::from(address) + length > u128::from(size)", "u128::from(address.wrapping_add(length as u64)) > u128::from(size)"),
    ("memory.rs", "return Err(Fault::here(Cause::BadRun, address));", "return Err(Fault::here(Cause::BadRun, address / LINE * LINE));"),
    ("memory.rs", "cells.iter().copied().collect()", "cells.iter().rev().copied().collect::<Result<Vec<u8>, Fault>>().map(|b| b.into_iter().rev().collect())"),
    ("memory.rs", "buffer.copy_from_slice(&bytes?);", "match bytes { Ok(bytes) => buffer.copy_from_slice(&bytes), Err(fault) => { buffer[0] = 0; return Err(fault); } }"),
    ("memory.rs", "Memory::Cache(cache) => cache.below.cell(address).map_err(Fault::passed_up),", "Memory::Cache(cache) => cache.below.cell(address),"),
    ("fault.rs", "self.depth.saturating_add(1)", "self.depth.max(1)"),
    # Bottoms.
    ("bottom.rs", "if self.kind == Kind::Checked {\n            self.seal(address / LINE);\n        }", ""),
    ("bottom.rs", "LINE * (length / self.line_bytes()).min(MOST_LINES)", "LINE * length.div_ceil(self.line_bytes()).min(MOST_LINES)"),
    ("bottom.rs", "Kind::Checked => CHECKED_LINE,", "Kind::Checked => LINE,"),
    ("bottom.rs", "Kind::Checked if xor(self.line(address)) != 0 => {", "Kind::Checked if xor(self.line(address)) > 127 => {"),
    ("bottom.rs", "Err(Fault::here(Cause::FailedCheck, address))", "Err(Fault::here(Cause::FailedCheck, address / LINE * LINE))"),
    ("bottom.rs", "*byte ^= 1 << (bit % 8);", "*byte |= 1 << (bit % 8);"),
    ("bottom.rs", "*byte ^= 1 << (bit % 8);", "*byte ^= 128 >> (bit % 8);"),
    # Registers and arming.
    ("mapping.rs", "if number >= widths.len() as u64 {", "if number > widths.len() as u64 {"),
    ("mapping.rs", "if value >= 1 << widths[number as usize] {", "if value > 1 << widths[number as usize] {"),
    ("mapping.rs", "Kind::Stride => &[32, 28, 12, 16, 12],", "Kind::Stride => &[32, 28, 12, 32, 12],"),
    ("mapping.rs", "Kind::Transpose => &[32, 28, 12, 32, 32],", "Kind::Transpose => &[32, 28, 16, 32, 32],"),
    ("mapping.rs", "image == 0 || !image.is_multiple_of(LINE)", "!image.is_multiple_of(LINE)"),
    ("mapping.rs", "image == 0 || !image.is_multiple_of(LINE)", "image == 0"),
    ("mapping.rs", "if mapping.extent() > FARTHEST {", "if mapping.extent() >= FARTHEST {"),
    ("mapping.rs", "if mapping.extent() > FARTHEST {", "if mapping.extent() > 2 * FARTHEST {"),
    ("mapping.rs", "if !mapping.condition() {\n            return Err(ArmingRefusal::BadCondition);\n        }\n        if mapping.extent() > FARTHEST {\n            return Err(ArmingRefusal::TooFar);\n        }", "if mapping.condition() && mapping.extent() > FARTHEST {\n            return Err(ArmingRefusal::TooFar);\n        }\n        if !mapping.condition() {\n            return Err(ArmingRefusal::BadImage);\n        }"),
    ("mapping.rs", "(\"4096 divides F\", offset.is_multiple_of(4096))", "(\"4096 divides F\", offset.is_multiple_of(128))"),
    ("mapping.rs", "offset + colour <= way", "offset + colour <= 2 * way"),
    ("mapping.rs", "image.is_multiple_of(way)", "true"),
    ("mapping.rs", "way.is_power_of_two()", "true"),
    ("mapping.rs", "colour.is_power_of_two()", "true"),
    ("mapping.rs", "colour >= 4096", "colour >= 2048"),
    ("mapping.rs", "stride.is_multiple_of(LINE)", "true"),
    ("mapping.rs", "offset + object <= stride", "offset + object <= stride + 128"),
    ("mapping.rs", "offset % LINE + object <= LINE", "true"),
    ("mapping.rs", "offset % LINE + object <= LINE", "offset + object <= LINE"),
    ("mapping.rs", "rows.is_power_of_two()", "rows > 0"),
    ("mapping.rs", "row.is_multiple_of(element)", "true"),
    ("mapping.rs", "image.is_multiple_of(element * rows)", "image.is_multiple_of(element)"),
    ("mapping.rs", "is_some_and(|n| n <= row)", "is_some_and(|_| true)"),
    ("mapping.rs", "is_some_and(|n| n <= row)", "is_some_and(|n| n < row)"),
    ("mapping.rs", "object >= 4)", "object >= 2)"),
    ("mapping.rs", "object >= 4)", "object > 4)"),
    ("mapping.rs", "element >= 4)", "element >= 2)"),
    ("mapping.rs", "element <= 128", "element <= 256"),
    ("mapping.rs", "element <= 128", "element < 128"),
    ("mapping.rs", "object.is_power_of_two()", "true"),
    ("mapping.rs", "element.is_power_of_two()", "true"),
    # Places and extents.
    ("mapping.rs", "let shown = c <= in_way && in_way < c + b;", "let shown = c <= in_way && in_way <= c + b;"),
    ("mapping.rs", "shown.then(|| s / a * b + in_way - c)", "shown.then(|| s / a * b + in_way % b)"),
    ("mapping.rs", "Kind::Stride => Some(s / a * b + c + s % a),", "Kind::Stride => Some(s / a * b + c),"),
    ("mapping.rs", "Some(element % c * b + element / c * a + s % a)", "Some(element / c * b + element % c * a + s % a)"),
    ("mapping.rs", "Kind::Stride => (i / a - 1) * b + c + a,", "Kind::Stride => i / a * b + c + a,"),
    ("mapping.rs", "Kind::Transpose => (c - 1) * b + i / c,", "Kind::Transpose => c * b,"),
    ("mapping.rs", "Kind::Colour => i / a * b,", "Kind::Colour => i,"),
    ("mapping.rs", "Kind::Transpose => 4,", "Kind::Transpose => 3,"),
    # Entries and tables.
    ("page_table.rs", "word & 0x0FFF_FFFF", "word & 0x00FF_FFFF"),
    ("page_table.rs", "if !self.valid {\n            return Err(Cause::NoPage);\n        }\n        if self.out {\n            return Err(Cause::PageOut);\n        }", "if self.out {\n            return Err(Cause::PageOut);\n        }\n        if !self.valid {\n            return Err(Cause::NoPage);\n        }"),
    ("page_table.rs", "Access::Write => self.referenced && self.modified,", "Access::Write => self.referenced,"),
    ("page_table.rs", "Access::Read => self.referenced,", "Access::Read => true,"),
    ("page_table.rs", "modified: self.modified || access == Access::Write,", "modified: self.modified,"),
    ("page_table.rs", "Access::Read => top | REFERENCED,", "Access::Read => top | REFERENCED | MODIFIED,"),
    ("page_table.rs", "Access::Write => top | REFERENCED | MODIFIED,", "Access::Write => top | MODIFIED,"),
    ("page_table.rs", "Access::Read => top | REFERENCED,", "Access::Read => top & !MODIFIED | REFERENCED,"),
    ("page_table.rs", "entries: mapping.extent().div_ceil(PAGE),", "entries: mapping.extent() / PAGE + 1,"),
    ("page_table.rs", "self.entries.div_ceil(ENTRIES_OF_A_PAGE)", "self.entries / ENTRIES_OF_A_PAGE + 1"),
    ("page_table.rs", "page < self.page + self.pages()", "page <= self.page"),
    ("page_table.rs", "*byte = below.cell(address).map_err(Fault::passed_up)?;", "*byte = below.cell(address)?;"),
    # Openings.
    ("opening.rs", "if board < pages {", "if board <= pages {"),
    ("opening.rs", "if table.page + table.pages() > pages {", "if table.page >= pages {"),
    ("opening.rs", "if table.page + table.pages() > pages {", "if table.page + table.pages() >= pages {"),
    ("opening.rs", "if board < pages {\n        return Err(Reason::ShortBoard);\n    }\n    if table.page + table.pages() > pages {\n        return Err(Reason::TableOutside);\n    }", "if table.page + table.pages() > pages {\n        return Err(Reason::TableOutside);\n    }\n    if board < pages {\n        return Err(Reason::ShortBoard);\n    }"),
    ("opening.rs", "let pages = below.size() / PAGE;", "let pages = below.size().div_ceil(PAGE);"),
    ("opening.rs", "board.fill(0);\n    sizes.map_err(|reason| OpeningRefusal { reason, entry: 0 })?;", "sizes.map_err(|reason| OpeningRefusal { reason, entry: 0 })?;\n    board.fill(0);"),
    ("opening.rs", "if frame >= pages {", "if frame > pages {"),
    ("opening.rs", "} else if table.has_page(frame) {\n            Reason::FrameInTable\n", "} else if false {\n            Reason::FrameInTable\n"),
    ("opening.rs", "} else if taken.contains(&frame) {", "} else if taken.last() == Some(&frame) {"),
    ("opening.rs", "taken.push(frame);\n            continue;", "taken.insert(0, frame);\n            taken.truncate(2);\n            continue;"),
    ("opening.rs", "return Err(OpeningRefusal { reason, entry });", "return Err(OpeningRefusal { reason, entry: entry % 32 });"),
    ("opening.rs", "read_table(&table, below, last);", "read_table(&table, below, table.entries - 1);"),
    ("opening.rs", "read_table(&table, below, last);", ""),
    ("opening.rs", "for k in first..=last.min(first + ENTRIES_OF_A_LINE - 1) {", "for k in first..=last.min(first + 1) {"),
    ("opening.rs", "for k in first..=last.min(first + ENTRIES_OF_A_LINE - 1) {", "for k in first..first + ENTRIES_OF_A_LINE {"),
    ("opening.rs", "table.entry(below, k).ok()?.live_frame().ok()", "match table.entry(below, k) { Ok(entry) => entry.live_frame().ok(), Err(_) => Some(u64::MAX) }"),
    # Windows.
    ("window.rs", "Err(_) => 0,", "Err(_) => self.mapping.image_size(),"),
    ("window.rs", "Ok(frame * PAGE + v % PAGE)", "Ok(frame * PAGE + s % PAGE)"),
    ("window.rs", "map_err(|cause| Fault::here(cause, s))?", "map_err(|cause| Fault::here(cause, v))?"),
    ("window.rs", "self.below.cell(address).map_err(Fault::passed_up)", "self.below.cell(address)"),
    ("window.rs", "self.mark_all(&spots, Access::Read);", ""),
    ("window.rs", "self.mark_all(&spots, Access::Write);", "self.mark_all(&spots, Access::Read);"),
    ("window.rs", "self.mark_all(&spots, Access::Read);", "self.mark_all(&spots[..1], Access::Read);"),
    ("window.rs", "let part = &bytes[spot.start..spot.start + spot.length];", "let part = &bytes[..spot.length];"),
    ("window.rs", "            spots.push(spot);", "            self.mark(spot.page, Access::Read);\n            spots.push(spot);"),
    ("window.rs", "self.below\n                .read(spot.address, &mut vec![0; length])\n                .map_err(Fault::passed_up)?;", ""),
    ("window.rs", "self.tlb.count(false);\n            return Ok(entry);", "return Ok(entry);"),
    ("window.rs", "let is_fill = answer.is_ok() && entry.live_frame().is_ok();", "let is_fill = answer.is_ok();"),
    ("window.rs", "self.tlb.count(is_fill);\n", "self.tlb.count(true);\n"),
    ("window.rs", "            self.tlb.keep(page, entry);\n", ""),
    ("window.rs", "        self.tlb.refresh(page, access);\n", ""),
    ("window.rs", "        self.tlb.refresh(page, access);\n", "        self.tlb.refresh(page, Access::Write);\n"),
    ("window.rs", "let read = self.below.read(address, &mut top);", "let read: Answer = Ok(()); top[0] = self.below.cell(address).unwrap();"),
    ("window.rs", "let left_in_grain = (grain - (address + start as u64) % grain) as usize;", "let left_in_grain = grain as usize;"),
    ("window.rs", "let left_in_grain = (grain - (address + start as u64) % grain) as usize;", "let left_in_grain = (4 - (address + start as u64) % 4) as usize;"),
    # The TLB.
    ("tlb.rs", "const PLACES: u64 = 32;", "const PLACES: u64 = 31;"),
    ("tlb.rs", "const PLACES: u64 = 32;", "const PLACES: u64 = 16;"),
    ("tlb.rs", "(held.page == page).then_some(held.entry)", "(held.page % 64 == page % 64).then_some(held.entry)"),
    ("tlb.rs", "self.keep(page, entry.marked(access));", "self.keep(page, entry.marked(Access::Read));"),
    ("tlb.rs", "self.lookups += 1;", "self.lookups += 1 + u64::from(is_fill);"),
    # Caches.
    ("cache.rs", "const SETS: u64 = 8;", "const SETS: u64 = 16;"),
    ("cache.rs", "const SETS: u64 = 8;", "const SETS: u64 = 4;"),
    ("cache.rs", "const WAYS: usize = 2;", "const WAYS: usize = 3;"),
    ("cache.rs", "const WAYS: usize = 2;", "const WAYS: usize = 1;"),
    ("cache.rs", "let kept = first && self.prefetch(number + 1);", "let kept = self.prefetch(number + 1);"),
    ("cache.rs", "let kept = first && self.prefetch(number + 1);", "let kept = first && false;"),
    ("cache.rs", "std::mem::take(&mut line.prefetched)", "line.prefetched"),
    ("cache.rs", "self.held(number).is_none() && self.fetch(number, true)", "self.fetch(number, true)"),
    ("cache.rs", "self.held(number).is_none() && self.fetch(number, true)", "self.held(number).is_none() && self.fetch(number, false)"),
    ("cache.rs", "self.counts.count(true, kept);\n            return Ok(());", "self.counts.count(true, kept);\n            let line = self.drop_and_take(number);\n            self.keep(line);\n            return Ok(());"),
    ("cache.rs", "let kept = self.prefetch(number + 1);\n            self.counts.count(false, kept);", "let kept = false;\n            self.counts.count(false, kept);"),
    ("cache.rs", "let kept = self.prefetch(number + 1);\n            self.counts.count(false, kept);", "let kept = self.prefetch(number + 1);\n            let kept = kept && self.prefetch(number + 2) || kept;\n            self.counts.count(false, kept);"),
    ("cache.rs", "        self.counts.count(false, false);\n        self.below", "        self.below"),
    ("cache.rs", "        self.counts.count(false, false);\n        self.below", "        self.prefetch(number + 1);\n        self.counts.count(false, false);\n        self.below"),
    ("cache.rs", "self.below\n            .read(address, &mut vec![0; length])\n            .map_err(Fault::passed_up)", "self.below.cells(address, length).into_iter().collect::<Result<Vec<u8>, Fault>>().map(|_| ())"),
    ("cache.rs", "        self.drop_line(address / LINE);\n", ""),
    ("cache.rs", "        self.drop_line(address / LINE);\n", "        self.set(address / LINE).clear();\n"),
    ("cache.rs", "        self.drop_line(address / LINE);\n        Ok(())", "        self.drop_line(address / LINE);\n        self.fetch(address / LINE, false);\n        Ok(())"),
    ("cache.rs", "        self.drop_line(address / LINE);\n        Ok(())", "        self.drop_line(address / LINE);\n        self.counts.count(false, false);\n        Ok(())"),
    ("cache.rs", "set.insert(0, line);\n        set.truncate(WAYS);", "set.insert(0, line);\n        if set.len() > WAYS { set.remove(1); }"),
    ("cache.rs", "(hits * 1000).checked_div(reads).unwrap_or(0)", "(hits * 1000 + reads / 2).checked_div(reads).unwrap_or(0)"),
    ("cache.rs", "(hits * 1000).checked_div(reads).unwrap_or(0)", "(hits * 1000).checked_div(reads).unwrap_or(1000)"),
    # Set-ups and the order of things.
    ("play.rs", "let mut set = RegisterSet::new(kind);\n    for (number, value) in &set_up.writes {\n        set.write(*number, *value)", "let mut set = RegisterSet::new(kind);\n    for (number, value) in set_up.writes.iter().rev() {\n        set.write(*number, *value)"),
]

# Bugs that no case can show, and why.
UNSEEN = [
    ("mapping.rs", "stride != 0", "true", "0 fails F + B <= D as well"),
    ("mapping.rs", "way >= 4096", "true", "a smaller way fails F + C <= W as well"),
    ("mapping.rs", "object <= 128", "true", "a larger object does not fit a line"),
    ("fault.rs", "self.depth.saturating_add(1)", "self.depth + 1", "a stack has four layers at most"),
    ("tlb.rs", "if self.lookups < MOST_LOOKUPS {", "if true {", "no list is that long"),
    ("cache.rs", "if self.reads < MOST_READS {", "if true {", "no list is that long"),
    ("bottom.rs", ".min(MOST_LINES)", "", "no text is that long"),
    ("window.rs", "let read = self.below.read(address, &mut top);", "let read = self.below.read(address, &mut [0; 4]); top[0] = self.below.cell(address).unwrap();", "an entry lies in one grain and in one line of whatever is below"),
    ("cache.rs", "self.below.write(address, bytes).map_err(Fault::passed_up)?;", "self.drop_line(address / LINE);\n        self.below.write(address, bytes).map_err(Fault::passed_up)?;", "a line that is held refuses no write"),
]

# A helper that one bug needs.
EXTRA = {
    "cache.rs": (
        "    fn drop_line(&mut self, number: u64) {",
        "    #[allow(dead_code)]\n    fn drop_and_take(&mut self, number: u64) -> HeldLine {\n        let line = self.held(number).unwrap().clone();\n        self.drop_line(number);\n        line\n    }\n\n    fn drop_line(&mut self, number: u64) {",
    )
}


# All that a copy of the model has to do.
MAIN = """
fn main() {
    let text = std::io::read_to_string(std::io::stdin()).unwrap();
    for case in model::case::parse(&text).unwrap() {
        print!("{}", model::play::answers(&case));
    }
}
"""


def answers_alone(source):
    """Leaves out of a copy what the answers do not need, since building it is what takes the time."""
    lib = source / "lib.rs"
    left_out = ("pub mod generate;", "pub mod random;", "pub mod stats;")
    lib.write_text("\n".join(line for line in lib.read_text().splitlines() if line not in left_out))
    (source / "main.rs").write_text(MAIN)


def plant(work, bug):
    """Builds the model with one bug in the folder, and says what came of it and how many cases show it."""
    file, old, new = bug[:3]
    shutil.copytree(MODEL / "src", work / "src", dirs_exist_ok=True)
    shutil.copy(MODEL / "Cargo.toml", work)
    answers_alone(work / "src")
    path = work / "src" / file
    text = path.read_text()
    if text.count(old) != 1:
        return f"stands {text.count(old)} times", 0
    text = text.replace(old, new)
    if "drop_and_take" in new:
        text = text.replace(*EXTRA[file])
    path.write_text(text)
    # To build quickly matters more than to run so.
    fast = os.environ | {"CARGO_PROFILE_RELEASE_OPT_LEVEL": "1", "CARGO_INCREMENTAL": "1"}
    build = subprocess.run(["cargo", "build", "--release", "--quiet"], cwd=work, env=fast, capture_output=True, text=True)
    if build.returncode:
        return "does not build: " + build.stderr.splitlines()[0], 0
    try:
        with open(CASES) as cases:
            run = subprocess.run(
                [work / "target/release/model", "answers"], stdin=cases, capture_output=True, text=True, timeout=120
            )
    except subprocess.TimeoutExpired:
        return "hangs", 1
    good = ANSWERS.read_text().split("end\n")
    made = run.stdout.split("end\n")
    differ = sum(a != b for a, b in zip(good, made))
    if run.returncode:
        return "stops", max(differ, 1)
    return ("shown" if differ else "same"), differ


def main():
    if shutil.which("cargo") is None:
        print("plant: cargo is wanting: install Rust, of 1.85 or later, as https://rustup.rs says")
        return 1
    word = sys.argv[1] if len(sys.argv) > 1 else ""
    bugs = [bug for bug in BUGS + UNSEEN if word in bug[0] or word in bug[1] or word in bug[2]]
    folders = [MODEL / f"target/bugs/{i}" for i in range(WORKERS)]
    for folder in folders:
        folder.mkdir(parents=True, exist_ok=True)

    def work(worker):
        return [say(bug, *plant(folders[worker], bug)) for bug in bugs[worker::WORKERS]]

    with concurrent.futures.ThreadPoolExecutor(WORKERS) as pool:
        results = [result for part in pool.map(work, range(WORKERS)) for result in part]
    print("Not shown:")
    missed = 0
    for bug, what, _ in results:
        if what not in SHOWN:
            why = bug[3] if len(bug) > 3 else "UNEXPLAINED"
            print(f"  {what}: {short(bug)}: {why}")
            missed += len(bug) == 3
    print(f"{len(results)} bugs, {sum(what in SHOWN for _, what, _ in results)} shown, {missed} of the others unexplained")
    return 1 if missed else 0


def say(bug, what, differ):
    print(f"{what:6} {differ:4} {short(bug)}", flush=True)
    return bug, what, differ


def short(bug):
    old, new = (" ".join(text.split())[:60] for text in bug[1:3])
    return f"{bug[0]:14} {old} -> {new}"


if __name__ == "__main__":
    sys.exit(main())
