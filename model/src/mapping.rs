//! The four mappings, their registers, and arming (mappings.md).

use crate::memory::LINE;

#[derive(Clone, Copy, Debug, PartialEq, Eq)]
pub enum Kind {
    Direct,
    Colour,
    Stride,
    Transpose,
}

/// Why a register is not written. The discriminant is the number of the refusal.
#[derive(Clone, Copy, Debug, PartialEq, Eq)]
pub enum RegisterRefusal {
    NoRegister = 11,
    TooWide = 12,
}

/// Why a set is not armed.
#[derive(Clone, Copy, Debug, PartialEq, Eq)]
pub enum ArmingRefusal {
    BadImage = 13,
    BadCondition = 14,
    TooFar = 15,
}

/// No extent exceeds this.
const FARTHEST: u64 = 1 << 34;

impl Kind {
    pub fn type_number(self) -> u64 {
        match self {
            Kind::Direct => 1,
            Kind::Colour => 2,
            Kind::Stride => 3,
            Kind::Transpose => 4,
        }
    }

    /// How many bits each register has. Registers 0 and 1 are the same for every mapping.
    pub fn widths(self) -> &'static [u32] {
        match self {
            Kind::Direct => &[32, 28],
            Kind::Colour => &[32, 28, 32, 32, 32],
            Kind::Stride => &[32, 28, 12, 16, 12],
            Kind::Transpose => &[32, 28, 12, 32, 32],
        }
    }
}

/// A set of registers that is being written; all are 0 at first.
#[derive(Clone, Debug, PartialEq, Eq)]
pub struct RegisterSet {
    kind: Kind,
    values: [u64; 5],
}

impl RegisterSet {
    pub fn new(kind: Kind) -> RegisterSet {
        RegisterSet {
            kind,
            values: [0; 5],
        }
    }

    /// Writes one register, or refuses and changes nothing. Number and value are any 64-bit numbers.
    pub fn write(&mut self, number: u64, value: u64) -> Result<(), RegisterRefusal> {
        let widths = self.kind.widths();
        if number >= widths.len() as u64 {
            return Err(RegisterRefusal::NoRegister);
        }
        if value >= 1 << widths[number as usize] {
            return Err(RegisterRefusal::TooWide);
        }
        self.values[number as usize] = value;
        Ok(())
    }

    /// The mapping that these registers would be; only an armed one may be asked for places.
    pub fn mapping(&self) -> Mapping {
        Mapping {
            kind: self.kind,
            values: self.values,
        }
    }

    /// Arms the set: the tests 13, 14 and 15, in this order.
    pub fn arm(self) -> Result<Mapping, ArmingRefusal> {
        let mapping = self.mapping();
        let image = mapping.image_size();
        if image == 0 || !image.is_multiple_of(LINE) {
            return Err(ArmingRefusal::BadImage);
        }
        if !mapping.condition() {
            return Err(ArmingRefusal::BadCondition);
        }
        if mapping.extent() > FARTHEST {
            return Err(ArmingRefusal::TooFar);
        }
        Ok(mapping)
    }
}

/// An armed mapping: the registers that have armed.
#[derive(Clone, Debug, PartialEq, Eq)]
pub struct Mapping {
    pub kind: Kind,
    values: [u64; 5],
}

impl Mapping {
    pub fn image_size(&self) -> u64 {
        self.values[0]
    }

    pub fn table_page(&self) -> u64 {
        self.values[1]
    }

    pub fn grain(&self) -> u64 {
        match self.kind {
            Kind::Direct | Kind::Colour => LINE,
            Kind::Stride | Kind::Transpose => self.values[2],
        }
    }

    /// The condition that each mapping has of its own: each clause of it, in words, and whether it holds.
    pub fn clauses(&self) -> Vec<(&'static str, bool)> {
        let [i, _, a, b, c] = self.values;
        match self.kind {
            Kind::Direct => Vec::new(),
            Kind::Colour => colour_clauses(i, a, b, c),
            Kind::Stride => stride_clauses(a, b, c),
            Kind::Transpose => transpose_clauses(i, a, b, c),
        }
    }

    fn condition(&self) -> bool {
        self.clauses().iter().all(|(_, holds)| *holds)
    }

    /// The end of the data that the image reaches. It asks for the condition, since it divides.
    pub fn extent(&self) -> u64 {
        let [i, _, a, b, c] = self.values;
        match self.kind {
            Kind::Direct => i,
            Kind::Colour => i / a * b,
            Kind::Stride => (i / a - 1) * b + c + a,
            Kind::Transpose => (c - 1) * b + i / c,
        }
    }

    /// The pseudo-virtual address of a window address, or nothing.
    pub fn place(&self, s: u64) -> Option<u64> {
        let [i, _, a, b, c] = self.values;
        if s >= i {
            return None;
        }
        match self.kind {
            Kind::Direct => Some(s),
            Kind::Colour => {
                let in_way = s % a;
                let shown = c <= in_way && in_way < c + b;
                shown.then(|| s / a * b + in_way - c)
            }
            Kind::Stride => Some(s / a * b + c + s % a),
            Kind::Transpose => {
                let element = s / a;
                Some(element % c * b + element / c * a + s % a)
            }
        }
    }
}

/// Way size W, colour size C, colour offset F.
fn colour_clauses(image: u64, way: u64, colour: u64, offset: u64) -> Vec<(&'static str, bool)> {
    vec![
        ("W is a power of two", way.is_power_of_two()),
        ("W is at least 4096", way >= 4096),
        ("C is a power of two", colour.is_power_of_two()),
        ("C is at least 4096", colour >= 4096),
        ("4096 divides F", offset.is_multiple_of(4096)),
        ("F + C is at most W", offset + colour <= way),
        ("W divides I", image.is_multiple_of(way)),
    ]
}

/// Object size B, stride D, object offset F.
fn stride_clauses(object: u64, stride: u64, offset: u64) -> Vec<(&'static str, bool)> {
    vec![
        ("B is a power of two", object.is_power_of_two()),
        ("B is at least 4", object >= 4),
        ("B is at most 128", object <= 128),
        ("128 divides D", stride.is_multiple_of(LINE)),
        ("D is not 0", stride != 0),
        ("F + B is at most D", offset + object <= stride),
        ("an object fits a line", offset % LINE + object <= LINE),
    ]
}

/// Element size B, row size D, row count N.
fn transpose_clauses(image: u64, element: u64, row: u64, rows: u64) -> Vec<(&'static str, bool)> {
    vec![
        ("B is a power of two", element.is_power_of_two()),
        ("B is at least 4", element >= 4),
        ("B is at most 128", element <= 128),
        ("N is a power of two", rows.is_power_of_two()),
        ("B divides D", row.is_multiple_of(element)),
        ("B x N divides I", image.is_multiple_of(element * rows)),
        // Where N is 0 it is no power of two either.
        (
            "I / N is at most D",
            image.checked_div(rows).is_some_and(|n| n <= row),
        ),
    ]
}

/// A set that is written and armed in one go; for tests.
pub fn armed(kind: Kind, values: &[u64]) -> Result<Mapping, u64> {
    let mut set = RegisterSet::new(kind);
    for (number, value) in values.iter().enumerate() {
        set.write(number as u64, *value).map_err(|r| r as u64)?;
    }
    set.arm().map_err(|r| r as u64)
}

#[cfg(test)]
mod tests {
    use super::*;

    fn refusal(kind: Kind, values: &[u64]) -> u64 {
        armed(kind, values).map_or_else(|number| number, |_| 0)
    }

    #[test]
    fn stride_example() {
        let mapping = armed(Kind::Stride, &[128, 0, 4, 128, 8]).unwrap();
        assert_eq!(mapping.place(4), Some(136));
        assert_eq!(mapping.place(127), Some(3979));
        assert_eq!(mapping.place(128), None);
        assert_eq!(mapping.extent(), 3980);
        assert_eq!(mapping.grain(), 4);
        assert_eq!(refusal(Kind::Stride, &[128, 0, 4, 128, 125]), 14);
        assert_eq!(refusal(Kind::Stride, &[128, 0, 64, 256, 64]), 0);
        assert_eq!(refusal(Kind::Stride, &[128, 0, 128, 256, 64]), 14);
        let far = armed(Kind::Stride, &[536_870_912, 0, 128, 4096, 3968]).unwrap();
        assert_eq!(far.extent(), 1 << 34);
        assert_eq!(
            refusal(Kind::Stride, &[536_871_040, 0, 128, 4096, 3968]),
            15
        );
    }

    #[test]
    fn registers_are_refused() {
        let mut set = RegisterSet::new(Kind::Direct);
        assert_eq!(set.write(2, u64::MAX), Err(RegisterRefusal::NoRegister));
        assert_eq!(set.write(0, 1 << 32), Err(RegisterRefusal::TooWide));
        assert_eq!(set.write(1, 1 << 28), Err(RegisterRefusal::TooWide));
        assert_eq!(set.write(1, (1 << 28) - 1), Ok(()));
        let mut set = RegisterSet::new(Kind::Stride);
        assert_eq!(set.write(u64::MAX, 0), Err(RegisterRefusal::NoRegister));
        assert_eq!(set.write(2, 4096), Err(RegisterRefusal::TooWide));
        assert_eq!(set.write(3, 65536), Err(RegisterRefusal::TooWide));
        assert_eq!(set.write(4, 4095), Ok(()));
        assert_eq!(set.arm(), Err(ArmingRefusal::BadImage));
    }

    #[test]
    fn conditions() {
        assert_eq!(refusal(Kind::Direct, &[100]), 13);
        assert_eq!(refusal(Kind::Colour, &[8192, 0, 8192, 4096, 4096]), 0);
        assert_eq!(refusal(Kind::Colour, &[8192, 0, 8192, 4096, 8192]), 14);
        assert_eq!(refusal(Kind::Colour, &[8192, 0, 8192, 2048, 0]), 14);
        assert_eq!(refusal(Kind::Colour, &[4096, 0, 8192, 4096, 0]), 14);
        assert_eq!(refusal(Kind::Transpose, &[128, 0, 4, 32, 4]), 0);
        assert_eq!(refusal(Kind::Transpose, &[128, 0, 4, 28, 4]), 14);
        assert_eq!(refusal(Kind::Transpose, &[128, 0, 4, 32, 3]), 14);
        assert_eq!(refusal(Kind::Transpose, &[128, 0, 4, 34, 4]), 14);
        assert_eq!(refusal(Kind::Transpose, &[128, 0, 4, 32, 64]), 14);
    }

    #[test]
    fn colours_and_columns() {
        let colour = armed(Kind::Colour, &[16384, 0, 8192, 4096, 4096]).unwrap();
        assert_eq!(colour.extent(), 8192);
        assert_eq!(colour.place(4095), None);
        assert_eq!(colour.place(4096), Some(0));
        assert_eq!(colour.place(8191), Some(4095));
        assert_eq!(colour.place(12288), Some(4096));
        let columns = armed(Kind::Transpose, &[128, 0, 4, 100, 4]).unwrap();
        assert_eq!(columns.extent(), 332);
        assert_eq!(columns.place(4), Some(100));
        assert_eq!(columns.place(17), Some(5));
    }

    /// No two window addresses share a place, every place is below the extent, and a grain lies in one line.
    #[test]
    fn laws() {
        let sets: [(Kind, &[u64]); 4] = [
            (Kind::Direct, &[512]),
            (Kind::Colour, &[32768, 0, 16384, 8192, 4096]),
            (Kind::Stride, &[512, 0, 16, 384, 100]),
            (Kind::Transpose, &[1024, 0, 32, 160, 8]),
        ];
        for (kind, values) in sets {
            let mapping = armed(kind, values).unwrap();
            let grain = mapping.grain();
            let mut seen = std::collections::HashSet::new();
            for s in 0..mapping.image_size() {
                let first = mapping.place(s / grain * grain);
                let Some(v) = mapping.place(s) else {
                    assert_eq!(first, None);
                    continue;
                };
                assert!(v < mapping.extent() && seen.insert(v));
                assert_eq!(first.map(|f| f + s % grain), Some(v));
                assert_eq!(first.map(|f| f / LINE), Some(v / LINE));
            }
        }
    }
}
