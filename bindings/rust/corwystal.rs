//! Corwystal, the page manager of the collector boards, for Rust: safe, without the standard library.
//!
//! A [`Pager`] borrows its memory for as long as it lives, so nobody else can write it, which is all that the proofs
//! assume of a caller. It allocates nothing and never panics. Link `libcorwystal.a`; `docs/KERNEL.md` has the rest.
//!
//! Take it as a crate (`Cargo.toml` beside this file links the library), or this file alone as a module: `mod corwystal;`.
//!
//! ```ignore
//! let mut pager = Pager::start(memory, Sizes { spaces: 1, pages: 8, frames: 3, page: 256 })?;
//! pager.mark(0, 0)?;
//! pager.write(0, 1_000, b"3.71")?;
//! ```

// A program that has this file as its module needn't use all of it.
#![allow(dead_code)]

use core::fmt;

/// S spaces of N pages, F frames of P bytes: docs/SPECIFICATION.md, Sizes.
#[derive(Clone, Copy, Debug, PartialEq, Eq)]
pub struct Sizes {
    /// S, from 1 to 64.
    pub spaces: u32,
    /// N, from 1 on; S x N is at most 262,144.
    pub pages: u32,
    /// F, from 1 to 65,536.
    pub frames: u32,
    /// P, a power of two from 256 to 65,536.
    pub page: u32,
}

/// The entries that each buffer needs.
#[must_use]
#[derive(Clone, Copy, Debug, PartialEq, Eq)]
pub struct Needs {
    /// 64-bit words of the index.
    pub index: usize,
    /// 32-bit words of the resident counts, page table, helper, stack and region cache each.
    pub places: usize,
    /// 32-bit words of the frame link.
    pub link: usize,
    /// Bytes of RAM.
    pub ram: usize,
    /// Bytes of a map file, at most: as long a buffer has room for every map, see [`Pager::write_map`].
    pub map: usize,
}

/// The words of an index of so many places, as a constant, for memory laid out when the kernel is built.
#[must_use]
pub const fn index_words(places: usize) -> usize {
    let mut layer = places.div_ceil(64);
    let mut words = layer;
    while layer > 1 {
        layer = layer.div_ceil(64);
        words += layer;
    }
    words
}

/// The bytes of a map file at most, of so many spaces, places and frames, as a constant; [`Needs::map`] is the same.
#[must_use]
pub const fn map_bytes(spaces: usize, places: usize, frames: usize) -> usize {
    contents_bytes(spaces) + 4 * (3 * places + 2 * frames)
}

/// The bytes of the contents, with which a map of so many spaces begins; of 64 spaces 796, the most.
#[must_use]
pub const fn contents_bytes(spaces: usize) -> usize {
    4 * (3 * spaces + 7)
}

impl Sizes {
    /// What a start of these sizes and the calls after it must be lent; none for sizes outside their limits.
    #[must_use]
    pub fn needs(self) -> Option<Needs> {
        let needs = raw::corwystal_sizes(self.spaces, self.pages, self.frames, self.page);
        if needs.refusal != 0 {
            return None;
        }
        Some(Needs {
            index: needs.index,
            places: needs.places,
            link: needs.link,
            ram: needs.ram,
            map: needs.map,
        })
    }

    // Those of a map file whose contents aren't cut short.
    fn in_map(file: &[u8]) -> Option<Sizes> {
        let word = |k: usize| -> Option<u32> {
            let bytes = file.get(4 * k..4 * k + 4)?;
            Some(u32::from_le_bytes(bytes.try_into().ok()?))
        };
        let sizes = Sizes {
            spaces: word(0)?,
            pages: word(1)?,
            frames: word(2)?,
            page: word(3)?,
        };
        (contents_bytes(sizes.spaces as usize) <= file.len()).then_some(sizes)
    }
}

/// Why a call was refused; nothing was changed. The numbers are those of docs/SPECIFICATION.md.
#[derive(Clone, Copy, Debug, PartialEq, Eq)]
#[repr(u32)]
pub enum Refusal {
    /// A size outside its limits, or a buffer too short for the sizes: [`Sizes::needs`] tells what they need. Of [`how_full`], contents that are
    /// cut short or whose number of spaces is outside its limits: fetch more of the map, or fetch it again.
    Size = 1,
    /// No such space: they are numbered from 0 to one less than [`Sizes::spaces`].
    NoSpace = 2,
    /// No such page or address, or the span ends beyond its space: refuse what was to be stored there.
    NoPage = 3,
    /// The page lies before every start of its space: mark a start at it or before it.
    NoRegion = 4,
    /// The page that was to be dropped or released is no start: [`Pager::list`] has the starts.
    NoStart = 5,
    /// The page is a start already: its region is there and can be used.
    StartAlready = 6,
    /// The region that would be cut or dropped has resident pages: release it first.
    ResidentPages = 7,
    /// The pool has too few frames, and nothing was stored or mapped: release a region or give back a page, and try again.
    NoFrame = 8,
    /// Head or tables are not what these calls left: trust no page and start anew.
    NotOurs = 9,
    /// The page is in a region, but was neither touched nor written since it was given back: there is nothing to read or to give back.
    NotResident = 10,
    /// Fewer records than regions: lend a longer slice; as many as a space has pages are always enough.
    NoRoom = 11,
    /// The bytes are no map file: read it again, all of it and nothing more, or start.
    NoMap = 12,
    /// The buffer is shorter than the map: [`Needs::map`] bytes are always enough.
    NoMapRoom = 13,
}

impl Refusal {
    /// Its number in docs/SPECIFICATION.md, 1 to 13.
    #[must_use]
    pub fn number(self) -> u32 {
        self as u32
    }

    fn of(kind: u32) -> Refusal {
        match kind {
            1 => Refusal::Size,
            2 => Refusal::NoSpace,
            3 => Refusal::NoPage,
            4 => Refusal::NoRegion,
            5 => Refusal::NoStart,
            6 => Refusal::StartAlready,
            7 => Refusal::ResidentPages,
            8 => Refusal::NoFrame,
            10 => Refusal::NotResident,
            11 => Refusal::NoRoom,
            12 => Refusal::NoMap,
            13 => Refusal::NoMapRoom,
            _ => Refusal::NotOurs,
        }
    }
}

impl fmt::Display for Refusal {
    fn fmt(&self, f: &mut fmt::Formatter<'_>) -> fmt::Result {
        f.write_str(match self {
            Refusal::Size => {
                "a size outside its limits, a buffer or map contents too short, or no start: lend what the sizes need, then start; or fetch more of the map"
            }
            Refusal::NoSpace => "no such space: name one below the number of spaces",
            Refusal::NoPage => "no such page or address, or the span ends beyond its space: stay within the space",
            Refusal::NoRegion => "the page has no region: mark a start at it or before it",
            Refusal::NoStart => "the page is no start: name one that the list of regions has",
            Refusal::StartAlready => "the page is a start already: use its region as it is",
            Refusal::ResidentPages => "the region has resident pages: release it first",
            Refusal::NoFrame => "the pool has too few frames: release a region or give back a page, then try again",
            Refusal::NotOurs => "head or tables are not what these calls left: trust no page and start anew",
            Refusal::NotResident => "the page is in a region, but absent: touch or write it before it is read; there is nothing to give back",
            Refusal::NoRoom => "fewer records than regions: lend more records",
            Refusal::NoMap => "the bytes are no map file: read it again, all of it and nothing more, or start",
            Refusal::NoMapRoom => "the buffer is shorter than the map: lend as many bytes as the sizes need",
        })
    }
}

impl core::error::Error for Refusal {}

/// A refused touch or look, with the index words that were read.
#[derive(Clone, Copy, Debug, PartialEq, Eq)]
pub struct Refused {
    /// Why.
    pub refusal: Refusal,
    /// Index words read.
    pub words: u32,
}

impl fmt::Display for Refused {
    fn fmt(&self, f: &mut fmt::Formatter<'_>) -> fmt::Result {
        self.refusal.fmt(f)
    }
}

impl core::error::Error for Refused {}

impl From<Refused> for Refusal {
    fn from(refused: Refused) -> Refusal {
        refused.refusal
    }
}

/// The frame of a page that was touched.
#[derive(Clone, Copy, Debug, PartialEq, Eq)]
pub enum Touched {
    /// The page was resident.
    Old {
        /// Its frame.
        frame: u32,
    },
    /// The page was mapped just now; it reads as zeros.
    New {
        /// Its frame.
        frame: u32,
        /// Index words read.
        words: u32,
    },
}

/// What a look found.
#[must_use]
#[derive(Clone, Copy, Debug, PartialEq, Eq)]
pub enum Looked {
    /// The page is resident.
    Resident {
        /// Its frame.
        frame: u32,
    },
    /// The page is in a region, but absent.
    Absent {
        /// Index words read.
        words: u32,
    },
}

/// One region of a space.
#[repr(C)]
#[derive(Clone, Copy, Debug, Default, PartialEq, Eq)]
pub struct Region {
    /// Its first page.
    pub start: u32,
    /// Its pages, up to the next start or the space's end.
    pub length: u32,
    /// How many of them are resident.
    pub resident: u32,
}

/// The memory that a pager works on. All of it may hold anything before a start or a map that is read: a start prepares index and
/// counts, a map index and tables.
pub struct Memory<'a> {
    /// The index of starts: [`Needs::index`] words, or [`index_words`] as a constant.
    pub index: &'a mut [u64],
    /// Resident pages of each region: [`Needs::places`] words, like the next four.
    pub count: &'a mut [u32],
    /// The page table.
    pub table: &'a mut [u32],
    /// Where in its region's stack a page is.
    pub helper: &'a mut [u32],
    /// The list of each region's pages, the newest last.
    pub stack: &'a mut [u32],
    /// The region of each page, as last found.
    pub cache: &'a mut [u32],
    /// The frame after each frame: [`Needs::link`] words.
    pub link: &'a mut [u32],
    /// The frames: [`Needs::ram`] bytes. A frame is cleared when a page is mapped to it, and at no other time.
    pub ram: &'a mut [u8],
}

// A call of the C entrance: what it is given, then what it is lent, each buffer as a pointer, to read or to change, and its length.
macro_rules! lend {
    ($call:ident($($given:expr),*; $($pointer:ident $buffer:expr),*)) => {
        unsafe { raw::$call($($given,)* $($buffer.$pointer(), $buffer.len()),*) }
    };
}

/// A pager on borrowed memory.
pub struct Pager<'a> {
    head: raw::Head,
    memory: Memory<'a>,
}

impl Memory<'_> {
    fn holds(&self, needs: &Needs) -> bool {
        needs.index <= self.index.len()
            && needs.places <= self.count.len()
            && needs.places <= self.table.len()
            && needs.places <= self.helper.len()
            && needs.places <= self.stack.len()
            && needs.places <= self.cache.len()
            && needs.link <= self.link.len()
            && needs.ram <= self.ram.len()
    }
}

impl<'a> Pager<'a> {
    /// Begins with these sizes: no starts, every frame in the pool. Refused where a buffer is too short for them.
    pub fn start(memory: Memory<'a>, sizes: Sizes) -> Result<Pager<'a>, Refusal> {
        let mut pager = Pager {
            head: raw::Head::default(),
            memory,
        };
        pager.restart(sizes)?;
        Ok(pager)
    }

    /// Begins anew; the RAM stays as it stands, and no page shows it. A refusal leaves the pager as it was.
    pub fn restart(&mut self, sizes: Sizes) -> Result<(), Refusal> {
        let needs = sizes.needs().ok_or(Refusal::Size)?;
        if !self.memory.holds(&needs) {
            return Err(Refusal::Size);
        }
        let m = &mut self.memory;
        let answer = lend!(corwystal_start(&mut self.head, sizes.spaces, sizes.pages, sizes.frames, sizes.page;
            as_mut_ptr m.index, as_mut_ptr m.count));
        answer.done()
    }

    /// Begins with the state that a map file tells, and the RAM as it stands. Refused with [`Refusal::NoMap`] if the bytes are no map
    /// file, and with [`Refusal::Size`] where a buffer is too short for its sizes.
    pub fn from_map(memory: Memory<'a>, file: &[u8]) -> Result<Pager<'a>, Refusal> {
        let mut pager = Pager {
            head: raw::Head::default(),
            memory,
        };
        pager.read_map(file)?;
        Ok(pager)
    }

    /// Begins anew with the state that a map file tells; the RAM stays as it stands: pages that are resident in the map show it, later
    /// ones are zeros. The file is all of the bytes. A refusal, as of [`Pager::from_map`], leaves the pager as it was.
    pub fn read_map(&mut self, file: &[u8]) -> Result<(), Refusal> {
        // the RAM isn't lent to the call, so that it has room is seen here, in the place of the call's own 1
        if let Some(needs) = Sizes::in_map(file).and_then(Sizes::needs) {
            if !self.memory.holds(&needs) {
                return Err(Refusal::Size);
            }
        }
        let m = &mut self.memory;
        let answer = lend!(corwystal_read_map(&mut self.head;
            as_ptr file, as_mut_ptr m.index, as_mut_ptr m.count, as_mut_ptr m.table, as_mut_ptr m.helper,
            as_mut_ptr m.stack, as_mut_ptr m.cache, as_mut_ptr m.link));
        answer.done()
    }

    /// The whole state but for the RAM as a map file at the front of the buffer, which is what is answered; the bytes after it stay.
    /// Refused with [`Refusal::NotOurs`] on tables that others wrote, then with [`Refusal::NoMapRoom`] for a buffer that is shorter
    /// than the map. A refusal leaves the buffer.
    pub fn write_map<'f>(&self, file: &'f mut [u8]) -> Result<&'f [u8], Refusal> {
        let m = &self.memory;
        let answer = lend!(corwystal_write_map(&self.head;
            as_ptr m.index, as_ptr m.count, as_ptr m.table, as_ptr m.stack, as_ptr m.link, as_mut_ptr file));
        let n = answer.value_of(raw::MAP)? as usize;
        Ok(&file[..n])
    }

    /// Makes a page a region's start. The region that it cuts must have no resident page.
    pub fn mark(&mut self, space: u32, page: u32) -> Result<(), Refusal> {
        let m = &mut self.memory;
        let answer =
            lend!(corwystal_mark(&self.head, space, page; as_mut_ptr m.index, as_ptr m.count));
        answer.done()
    }

    /// Makes a start none any more; its pages join the region before it. It must have no resident page.
    pub fn drop_start(&mut self, space: u32, page: u32) -> Result<(), Refusal> {
        let m = &mut self.memory;
        let answer =
            lend!(corwystal_drop(&self.head, space, page; as_mut_ptr m.index, as_ptr m.count));
        answer.done()
    }

    /// The frame of a page, mapped if need be. A new page reads as zeros: with what its frame last held, another harbour's
    /// levels would be filed as this gauge's.
    pub fn touch(&mut self, space: u32, page: u32) -> Result<Touched, Refused> {
        let m = &mut self.memory;
        let answer = lend!(corwystal_touch(&mut self.head, space, page;
            as_ptr m.index, as_mut_ptr m.count, as_mut_ptr m.table, as_mut_ptr m.helper, as_mut_ptr m.stack,
            as_mut_ptr m.cache, as_mut_ptr m.link, as_mut_ptr m.ram));
        let frame = answer.value as u32;
        match answer.kind {
            raw::OLD => Ok(Touched::Old { frame }),
            raw::NEW => Ok(Touched::New {
                frame,
                words: answer.words,
            }),
            _ => Err(answer.refused()),
        }
    }

    /// Whether a page is resident, and its frame.
    pub fn look(&self, space: u32, page: u32) -> Result<Looked, Refused> {
        let m = &self.memory;
        let answer = lend!(corwystal_look(&self.head, space, page;
            as_ptr m.index, as_ptr m.count, as_ptr m.table, as_ptr m.helper, as_ptr m.stack, as_ptr m.cache));
        match answer.kind {
            raw::RESIDENT => Ok(Looked::Resident {
                frame: answer.value as u32,
            }),
            raw::ABSENT => Ok(Looked::Absent {
                words: answer.words,
            }),
            _ => Err(answer.refused()),
        }
    }

    /// Gives back every page of the region that starts at a page, in constant time, and answers how many. The start stays.
    pub fn release(&mut self, space: u32, page: u32) -> Result<u32, Refusal> {
        let m = &mut self.memory;
        let answer = lend!(corwystal_release(&mut self.head, space, page;
            as_ptr m.index, as_mut_ptr m.count, as_ptr m.table, as_ptr m.stack, as_mut_ptr m.link));
        Ok(answer.value_of(raw::PAGES)? as u32)
    }

    /// Gives back one page, in constant time, as when a corrected page has made it useless; the other pages of its region stay. Its
    /// frame goes to the front of the pool, so that the next new page gets it. The region's newest page, which is the last in its list,
    /// takes the position of the page there; if it is the newest itself, the list just gets shorter. Release and map go by that list,
    /// whatever was mapped when. The start stays, also where the region is empty then, and so do the bytes. Refused with
    /// [`Refusal::NoRegion`] for a page without a region, and with [`Refusal::NotResident`] for one that is absent.
    pub fn give_back(&mut self, space: u32, page: u32) -> Result<(), Refusal> {
        let m = &mut self.memory;
        let answer = lend!(corwystal_give_back(&mut self.head, space, page;
            as_ptr m.index, as_mut_ptr m.count, as_ptr m.table, as_mut_ptr m.helper, as_mut_ptr m.stack,
            as_ptr m.cache, as_mut_ptr m.link));
        answer.done()
    }

    /// How many frames the pool has. Nothing is freed: that is [`Pager::release`] and [`Pager::give_back`].
    pub fn free_count(&self) -> Result<u32, Refusal> {
        let answer = unsafe { raw::corwystal_free_count(&self.head) };
        Ok(answer.value_of(raw::FRAMES)? as u32)
    }

    /// The place in RAM of an address.
    pub fn translate(&self, space: u32, address: usize) -> Result<usize, Refusal> {
        let m = &self.memory;
        let answer = lend!(corwystal_translate(&self.head, space, address;
            as_ptr m.index, as_ptr m.count, as_ptr m.table, as_ptr m.helper, as_ptr m.stack, as_ptr m.cache));
        Ok(answer.value_of(raw::AT)? as usize)
    }

    /// Fills the buffer from an address on. A refusal leaves the buffer.
    pub fn read(&self, space: u32, address: usize, buffer: &mut [u8]) -> Result<(), Refusal> {
        let m = &self.memory;
        let answer = lend!(corwystal_read(&self.head, space, address;
            as_mut_ptr buffer, as_ptr m.index, as_ptr m.count, as_ptr m.table, as_ptr m.helper,
            as_ptr m.stack, as_ptr m.cache, as_ptr m.ram));
        answer.value_of(raw::BYTES)?;
        Ok(())
    }

    /// Stores the bytes from an address on, mapping pages that are absent: all or nothing. The rest of a new page is zeros.
    pub fn write(&mut self, space: u32, address: usize, bytes: &[u8]) -> Result<(), Refusal> {
        let m = &mut self.memory;
        let answer = lend!(corwystal_write(&mut self.head, space, address;
            as_ptr bytes, as_ptr m.index, as_mut_ptr m.count, as_mut_ptr m.table, as_mut_ptr m.helper,
            as_mut_ptr m.stack, as_mut_ptr m.cache, as_mut_ptr m.link, as_mut_ptr m.ram));
        answer.done()
    }

    /// The regions of a space, ascending, at the front of the records; those after the last stay.
    pub fn list<'r>(&self, space: u32, records: &'r mut [Region]) -> Result<&'r [Region], Refusal> {
        let m = &self.memory;
        let answer = lend!(corwystal_list(&self.head, space;
            as_mut_ptr records, as_ptr m.index, as_ptr m.count));
        let n = answer.value_of(raw::REGIONS)? as usize;
        Ok(&records[..n])
    }

    /// The bytes of a frame, to look at; none for a number that is no frame's.
    #[must_use]
    pub fn frame(&self, frame: u32) -> Option<&[u8]> {
        if frame >= self.head.frames {
            return None;
        }
        let size = 1usize << self.head.page_shift;
        let from = frame as usize * size;
        self.memory.ram.get(from..from + size)
    }
}

/// How full a space is, from the contents of a map file alone: its first [`contents_bytes`], or more, as all of the file; what follows them
/// isn't read. It needs no pager. The answer is the number of resident pages that the contents tell, as it stands: right for every file that
/// [`Pager::read_map`] accepts, any number in a damaged one. Refused with [`Refusal::Size`] if the contents are cut short or their number of
/// spaces is outside its limits, then with [`Refusal::NoSpace`].
pub fn how_full(space: u32, contents: &[u8]) -> Result<u32, Refusal> {
    let answer = lend!(corwystal_how_full(space; as_ptr contents));
    Ok(answer.value_of(raw::PAGES)? as u32)
}

// The C entrance, as bindings/c/corwystal.h declares it.
mod raw {
    use super::{Refusal, Refused, Region};

    pub const DONE: u32 = 16;
    pub const OLD: u32 = 17;
    pub const NEW: u32 = 18;
    pub const RESIDENT: u32 = 19;
    pub const ABSENT: u32 = 20;
    pub const PAGES: u32 = 21;
    pub const FRAMES: u32 = 22;
    pub const AT: u32 = 23;
    pub const BYTES: u32 = 24;
    pub const REGIONS: u32 = 25;
    pub const MAP: u32 = 26;

    #[must_use]
    #[repr(C)]
    pub struct Needs {
        pub refusal: u32,
        pub index: usize,
        pub places: usize,
        pub link: usize,
        pub ram: usize,
        pub map: usize,
    }

    #[repr(C)]
    #[derive(Default)]
    pub struct Head {
        pub spaces: u32,
        pub pages: u32,
        pub frames: u32,
        pub page_shift: u32,
        pub first: u32,
        pub many: u32,
        pub fresh: u32,
    }

    #[must_use]
    #[repr(C)]
    pub struct Answer {
        pub kind: u32,
        pub words: u32,
        pub value: u64,
    }

    impl Answer {
        pub fn value_of(self, kind: u32) -> Result<u64, Refusal> {
            if self.kind == kind {
                Ok(self.value)
            } else {
                Err(Refusal::of(self.kind))
            }
        }

        pub fn done(self) -> Result<(), Refusal> {
            self.value_of(DONE).map(|_| ())
        }

        pub fn refused(self) -> Refused {
            Refused {
                refusal: Refusal::of(self.kind),
                words: self.words,
            }
        }
    }

    unsafe extern "C" {
        // numbers only: nothing is asked of its caller
        pub safe fn corwystal_sizes(spaces: u32, pages: u32, frames: u32, page: u32) -> Needs;

        pub fn corwystal_start(
            head: *mut Head,
            spaces: u32,
            pages: u32,
            frames: u32,
            page: u32,
            index: *mut u64,
            index_len: usize,
            count: *mut u32,
            count_len: usize,
        ) -> Answer;

        pub fn corwystal_mark(
            head: *const Head,
            space: u32,
            page: u32,
            index: *mut u64,
            index_len: usize,
            count: *const u32,
            count_len: usize,
        ) -> Answer;

        pub fn corwystal_drop(
            head: *const Head,
            space: u32,
            page: u32,
            index: *mut u64,
            index_len: usize,
            count: *const u32,
            count_len: usize,
        ) -> Answer;

        pub fn corwystal_touch(
            head: *mut Head,
            space: u32,
            page: u32,
            index: *const u64,
            index_len: usize,
            count: *mut u32,
            count_len: usize,
            table: *mut u32,
            table_len: usize,
            helper: *mut u32,
            helper_len: usize,
            stack: *mut u32,
            stack_len: usize,
            cache: *mut u32,
            cache_len: usize,
            link: *mut u32,
            link_len: usize,
            ram: *mut u8,
            ram_len: usize,
        ) -> Answer;

        pub fn corwystal_look(
            head: *const Head,
            space: u32,
            page: u32,
            index: *const u64,
            index_len: usize,
            count: *const u32,
            count_len: usize,
            table: *const u32,
            table_len: usize,
            helper: *const u32,
            helper_len: usize,
            stack: *const u32,
            stack_len: usize,
            cache: *const u32,
            cache_len: usize,
        ) -> Answer;

        pub fn corwystal_release(
            head: *mut Head,
            space: u32,
            page: u32,
            index: *const u64,
            index_len: usize,
            count: *mut u32,
            count_len: usize,
            table: *const u32,
            table_len: usize,
            stack: *const u32,
            stack_len: usize,
            link: *mut u32,
            link_len: usize,
        ) -> Answer;

        pub fn corwystal_give_back(
            head: *mut Head,
            space: u32,
            page: u32,
            index: *const u64,
            index_len: usize,
            count: *mut u32,
            count_len: usize,
            table: *const u32,
            table_len: usize,
            helper: *mut u32,
            helper_len: usize,
            stack: *mut u32,
            stack_len: usize,
            cache: *const u32,
            cache_len: usize,
            link: *mut u32,
            link_len: usize,
        ) -> Answer;

        pub fn corwystal_free_count(head: *const Head) -> Answer;

        pub fn corwystal_translate(
            head: *const Head,
            space: u32,
            address: usize,
            index: *const u64,
            index_len: usize,
            count: *const u32,
            count_len: usize,
            table: *const u32,
            table_len: usize,
            helper: *const u32,
            helper_len: usize,
            stack: *const u32,
            stack_len: usize,
            cache: *const u32,
            cache_len: usize,
        ) -> Answer;

        pub fn corwystal_read(
            head: *const Head,
            space: u32,
            address: usize,
            buffer: *mut u8,
            buffer_len: usize,
            index: *const u64,
            index_len: usize,
            count: *const u32,
            count_len: usize,
            table: *const u32,
            table_len: usize,
            helper: *const u32,
            helper_len: usize,
            stack: *const u32,
            stack_len: usize,
            cache: *const u32,
            cache_len: usize,
            ram: *const u8,
            ram_len: usize,
        ) -> Answer;

        pub fn corwystal_write(
            head: *mut Head,
            space: u32,
            address: usize,
            bytes: *const u8,
            bytes_len: usize,
            index: *const u64,
            index_len: usize,
            count: *mut u32,
            count_len: usize,
            table: *mut u32,
            table_len: usize,
            helper: *mut u32,
            helper_len: usize,
            stack: *mut u32,
            stack_len: usize,
            cache: *mut u32,
            cache_len: usize,
            link: *mut u32,
            link_len: usize,
            ram: *mut u8,
            ram_len: usize,
        ) -> Answer;

        pub fn corwystal_list(
            head: *const Head,
            space: u32,
            records: *mut Region,
            records_len: usize,
            index: *const u64,
            index_len: usize,
            count: *const u32,
            count_len: usize,
        ) -> Answer;

        pub fn corwystal_write_map(
            head: *const Head,
            index: *const u64,
            index_len: usize,
            count: *const u32,
            count_len: usize,
            table: *const u32,
            table_len: usize,
            stack: *const u32,
            stack_len: usize,
            link: *const u32,
            link_len: usize,
            file: *mut u8,
            file_len: usize,
        ) -> Answer;

        pub fn corwystal_read_map(
            head: *mut Head,
            file: *const u8,
            file_len: usize,
            index: *mut u64,
            index_len: usize,
            count: *mut u32,
            count_len: usize,
            table: *mut u32,
            table_len: usize,
            helper: *mut u32,
            helper_len: usize,
            stack: *mut u32,
            stack_len: usize,
            cache: *mut u32,
            cache_len: usize,
            link: *mut u32,
            link_len: usize,
        ) -> Answer;

        pub fn corwystal_how_full(space: u32, contents: *const u8, contents_len: usize) -> Answer;
    }
}
