//! A second model of the memories, mappings, windows and caches, written from docs/ alone. See README.md.

pub mod bottom;
pub mod cache;
pub mod case;
pub mod fault;
pub mod generate;
pub mod mapping;
pub mod memory;
pub mod opening;
pub mod page_table;
pub mod play;
pub mod random;
pub mod stats;
pub mod tlb;
pub mod window;
