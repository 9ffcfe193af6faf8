//! What a card is set up with.

use crate::calls::RawSetup;

/// A mapping with its registers. `docs/mappings.md` says what each means.
#[derive(Clone, Copy, PartialEq, Eq, Debug)]
pub enum Mapping {
    Direct { image_size: u64, table_page: u64 },
    Colour { image_size: u64, table_page: u64, way_size: u64, colour_size: u64, colour_offset: u64 },
    Stride { image_size: u64, table_page: u64, object_size: u64, stride: u64, object_offset: u64 },
    Transpose { image_size: u64, table_page: u64, element_size: u64, row_size: u64, row_count: u64 },
}

/// How the bytes hold the lines of the memory.
#[derive(Clone, Copy, PartialEq, Eq, Debug)]
pub enum Format {
    /// 128 bytes for each line.
    Plain,
    /// 129 bytes for each line, the last of which is the exclusive or of the others.
    Checked,
}

/// Where a cache stands, by the window.
#[derive(Clone, Copy, PartialEq, Eq, Debug)]
pub enum Cache {
    Absent,
    Under,
    Over,
}

#[derive(Clone, Copy, PartialEq, Eq, Debug)]
pub struct Setup {
    pub mapping: Mapping,
    pub format: Format,
    pub cache: Cache,
}

impl Mapping {
    fn numbers(self) -> (u64, [u64; 5]) {
        match self {
            Mapping::Direct { image_size, table_page } => (1, [image_size, table_page, 0, 0, 0]),
            Mapping::Colour { image_size, table_page, way_size, colour_size, colour_offset } => {
                (2, [image_size, table_page, way_size, colour_size, colour_offset])
            }
            Mapping::Stride { image_size, table_page, object_size, stride, object_offset } => {
                (3, [image_size, table_page, object_size, stride, object_offset])
            }
            Mapping::Transpose { image_size, table_page, element_size, row_size, row_count } => {
                (4, [image_size, table_page, element_size, row_size, row_count])
            }
        }
    }
}

impl Setup {
    pub(crate) fn raw(self) -> RawSetup {
        let (mapping, registers) = self.mapping.numbers();
        RawSetup {
            mapping,
            format: match self.format {
                Format::Plain => 1,
                Format::Checked => 2,
            },
            cache: match self.cache {
                Cache::Absent => 0,
                Cache::Under => 1,
                Cache::Over => 2,
            },
            registers,
        }
    }
}
