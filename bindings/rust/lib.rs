//! Corwystal, the page manager of the collector boards, as a crate: all that corwystal.rs has, [`Pager`] first.
//!
//! ```
//! use corwystal::{Memory, Pager, Refusal, Sizes, index_words};
//!
//! fn main() -> Result<(), Refusal> {
//!     let memory = Memory {
//!         index: &mut [0; index_words(8)],
//!         count: &mut [0; 8],
//!         table: &mut [0; 8],
//!         helper: &mut [0; 8],
//!         stack: &mut [0; 8],
//!         cache: &mut [0; 8],
//!         link: &mut [0; 3],
//!         ram: &mut [b'9'; 3 * 256],
//!     };
//!     let mut pager = Pager::start(memory, Sizes { spaces: 1, pages: 8, frames: 3, page: 256 })?;
//!     pager.mark(0, 0)?;
//!     pager.write(0, 1_000, b"3.71")?;
//!     let mut level = [0; 6];
//!     pager.read(0, 1_000, &mut level)?;
//!     assert_eq!(&level, b"3.71\0\0"); // what is left of a new page is zeros
//!     assert_eq!(pager.free_count()?, 2);
//!     Ok(())
//! }
//! ```

// Said here, since a file that is taken as a module too can't say it.
#![no_std]

mod corwystal;

pub use corwystal::*;
