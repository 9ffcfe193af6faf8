#!/bin/sh
# Shows that a build refuses programs that misuse register sets, windows and addresses, and mappings of others that break a rule which
# all mappings keep; and that it accepts a program and a mapping of the same shape, and the example of README.md.
# They are put together in a temporary folder, beside a copy of the libraries that they use, and checked there.
set -u
cd "$(dirname "$0")/.." || exit 2
work=$(mktemp -d) || exit 2
trap 'rm -rf "$work"' EXIT
failed=0

mkdir "$work/crates"
for crate in units memory plain records mapping stride page_table opening walk transfer window; do
    cp -R crates/$crate "$work/crates/"
done
cat >"$work/crates.txt" <<'LIST'
units:
memory: units
plain: units memory
records: units memory
mapping: units
stride: units mapping
page_table: units memory mapping
opening: units memory mapping page_table
walk: units memory mapping page_table
transfer: units memory mapping page_table walk
window: memory mapping page_table opening walk transfer
LIST

# crate NAME USES: a crate of no source yet, which uses these
crate() {
    mkdir -p "$work/crates/$1/src" "$work/crates/$1/specs" "$work/crates/$1/proofs"
    : >"$work/crates/$1/specs/Lib.antt"
    : >"$work/crates/$1/proofs/Lib.antt"
    echo "$1: $2" >>"$work/crates.txt"
}

# program NAME MIDDLE: a crate that writes a set and arms it, with MIDDLE between arming and a size or a place
program() {
    crate "$1" 'memory plain mapping stride page_table window'
    cat >"$work/crates/$1/src/lib.rt" <<PROGRAM
#![tactic(auto)]

use mapping::{Mapping, MemoryAddress, RegisterSet, WindowAddress};
use memory::Memory;
use page_table::read_entry;
use plain::Plain;
use stride::Stride;
use window::Window;

pub fn program(bytes: &mut [u8], board: &mut [u8]) -> u64 {
    let mut set = RegisterSet::<Stride>::new();
    let _ = set.write(0, 128);
    let answer = set.arm();
    $2
}
PROGRAM
}

# mapping NAME EDIT: a mapping of another crate, the stride mapping with the type number 200, and then changed by EDIT, a line of sed
mapping() {
    cp -R crates/stride "$work/crates/$1"
    rm -rf "$work/crates/$1/out" "$work/crates/$1/must-fail"
    echo "$1: units mapping" >>"$work/crates.txt"
    sed -i -e "s/Rattle\.stride\./Rattle.$1./" -e 's/const TYPE_NUMBER: u8 = 3/const TYPE_NUMBER: u8 = 200/' -e 's/TYPE_NUMBER = { 3 }/TYPE_NUMBER = { 200 }/' \
        -e 's/type_number = 3;/type_number = 200;/' -e "$2" "$work/crates/$1"/s*/*.rt "$work/crates/$1"/specs/*.antt
}

# example NAME: a crate of the Rust code in README.md
example() {
    crate "$1" 'plain records mapping stride window memory'
    sed -n '/^```rust$/,/^```$/p' README.md | sed '/^```/d' >"$work/crates/$1/src/lib.rt"
    if ! grep -q '^pub fn' "$work/crates/$1/src/lib.rt"; then
        echo 'refused builds: FAILED: README.md has no example'
        failed=1
    fi
}

checked() {
    (cd "$work/crates/$1" && rt check) >"$work/$1.log" 2>&1
}

# accepted NAME WORDS: the checker proves NAME
accepted() {
    if checked "$1"; then
        echo "refused builds: ok, $2 is accepted"
    else
        echo "refused builds: FAILED: $2 is refused:"
        grep -m 5 'error\|not proved\|no proof' "$work/$1.log"
        failed=1
    fi
}

# refused NAME ERROR WORDS: the checker turns NAME away, and says ERROR
refused() {
    if checked "$1"; then
        echo "refused builds: FAILED: $3 is accepted"
        failed=1
    elif grep -q "$2" "$work/$1.log"; then
        echo "refused builds: ok, $3 is refused ($2)"
    else
        echo "refused builds: FAILED: $3 is refused, but not with $2:"
        head -5 "$work/$1.log"
        failed=1
    fi
}

program used '
    match answer {
        Ok(armed) => Window::open(armed, Plain::new(bytes), board).size(),
        Err(_) => 0,
    }'
program placed '
    match answer {
        Ok(armed) => {
            let mapping = armed.into_mapping();
            let _ = mapping.place(WindowAddress(4));
            let _ = read_entry(&mut Plain::new(bytes), MemoryAddress(4));
            mapping.image_size()
        }
        Err(_) => 0,
    }'
program written '
    let _ = set.write(1, 5);
    match answer {
        Ok(armed) => Window::open(armed, Plain::new(bytes), board).size(),
        Err(_) => 0,
    }'
program twice '
    match answer {
        Ok(armed) => {
            let memory = Window::open(armed, Plain::new(bytes), board).close();
            Window::open(armed, memory, board).size()
        }
        Err(_) => 0,
    }'
program unarmed '
    let _ = answer;
    Window::open(RegisterSet::<Stride>::new(), Plain::new(bytes), board).size()'
program bare '
    match answer {
        Ok(armed) => Window::open(armed.into_mapping(), Plain::new(bytes), board).size(),
        Err(_) => 0,
    }'
program address '
    match answer {
        Ok(armed) => {
            let mapping = armed.into_mapping();
            let _ = mapping.place(MemoryAddress(4));
            mapping.image_size()
        }
        Err(_) => 0,
    }'
program entry '
    let _ = answer;
    let _ = read_entry(&mut Plain::new(bytes), WindowAddress(4));
    0'

example example

mapping third ''
mapping wide 's/widths = 32/widths = 40/'
mapping colours 's/TYPE_NUMBER: u8 = 200/TYPE_NUMBER: u8 = 2/; s/TYPE_NUMBER = { 200 }/TYPE_NUMBER = { 2 }/'

accepted used 'a window opened from an armed set'
accepted placed 'a place and an entry, asked by the addresses that are due'
accepted third 'a mapping of another crate'
accepted example 'the example of README.md'
refused written 'borrow-e0382' 'a register written after arming'
refused twice 'borrow-e0382' 'an armed set used twice'
refused unarmed 'mismatched-types' 'a window opened from an unarmed set'
refused bare 'mismatched-types' 'a window opened from a mapping without its set'
refused address 'mismatched-types' 'a memory address where a window address is due'
refused entry 'mismatched-types' 'a window address where a memory address is due'
refused wide 'error: `shared-value`' 'a mapping with an image size of 40 bits'
refused colours 'error: `numbered-value`' 'a mapping whose type constant is not the type number of its rules'
exit $failed
