// The calls of bindings/c/corwystal.h, declared here once more, and the plain machine's calls turned
// into them. Raw pointers: a trial lends any lengths and any head.
use crate::plain::{Ask, Lent, Sizes};

#[repr(C)]
#[derive(Clone, Copy, Debug, Default, PartialEq)]
pub struct Head {
    pub spaces: u32,
    pub pages: u32,
    pub frames: u32,
    pub page_shift: u32,
    pub first: u32,
    pub many: u32,
    pub fresh: u32,
}

impl Head {
    // The sizes that a head holds. A power that is no page size's gives a page size that is none.
    pub fn sizes(&self) -> Sizes {
        Sizes {
            spaces: self.spaces.into(),
            pages: self.pages.into(),
            frames: self.frames.into(),
            page: if self.page_shift < 32 {
                1 << self.page_shift
            } else {
                0
            },
        }
    }
}

#[repr(C)]
#[derive(Clone, Copy)]
pub struct Region {
    pub start: u32,
    pub length: u32,
    pub resident: u32,
}

#[repr(C)]
#[derive(Clone, Copy, Debug, PartialEq)]
pub struct Answer {
    pub kind: u32,
    pub words: u32,
    pub value: u64,
}

impl Answer {
    pub fn is_refusal(&self) -> bool {
        self.kind < DONE
    }
}

pub const DONE: u32 = 16;
pub const OLD: u32 = 17;
pub const NEW: u32 = 18;
pub const RESIDENT: u32 = 19;
pub const ABSENT: u32 = 20;
pub const PAGES: u32 = 21;
pub const FRAMES: u32 = 22;
pub const AT: u32 = 23;
pub const BYTES: u32 = 24;
pub const REGIONS: u32 = 25;
pub const MAP: u32 = 26;

#[repr(C)]
#[derive(Clone, Copy, Debug, PartialEq)]
pub struct Needs {
    pub refusal: u32,
    pub index: usize,
    pub places: usize,
    pub link: usize,
    pub ram: usize,
    pub map: usize,
}

type Words = *mut u64;
type Table = *mut u32;

#[rustfmt::skip]
pub mod library {
    use super::{Answer, Head, Needs, Region, Table, Words};
    extern "C" {
        pub fn corwystal_sizes(spaces: u32, pages: u32, frames: u32, page: u32) -> Needs;
        pub fn corwystal_start(head: *mut Head, spaces: u32, pages: u32, frames: u32, page: u32,
            index: Words, index_len: usize, count: Table, count_len: usize) -> Answer;
        pub fn corwystal_mark(head: *const Head, space: u32, page: u32,
            index: Words, index_len: usize, count: Table, count_len: usize) -> Answer;
        pub fn corwystal_drop(head: *const Head, space: u32, page: u32,
            index: Words, index_len: usize, count: Table, count_len: usize) -> Answer;
        pub fn corwystal_touch(head: *mut Head, space: u32, page: u32,
            index: Words, index_len: usize, count: Table, count_len: usize,
            table: Table, table_len: usize, helper: Table, helper_len: usize,
            stack: Table, stack_len: usize, cache: Table, cache_len: usize,
            link: Table, link_len: usize, ram: *mut u8, ram_len: usize) -> Answer;
        pub fn corwystal_look(head: *const Head, space: u32, page: u32,
            index: Words, index_len: usize, count: Table, count_len: usize,
            table: Table, table_len: usize, helper: Table, helper_len: usize,
            stack: Table, stack_len: usize, cache: Table, cache_len: usize) -> Answer;
        pub fn corwystal_release(head: *mut Head, space: u32, page: u32,
            index: Words, index_len: usize, count: Table, count_len: usize,
            table: Table, table_len: usize, stack: Table, stack_len: usize,
            link: Table, link_len: usize) -> Answer;
        pub fn corwystal_free_count(head: *const Head) -> Answer;
        pub fn corwystal_translate(head: *const Head, space: u32, address: usize,
            index: Words, index_len: usize, count: Table, count_len: usize,
            table: Table, table_len: usize, helper: Table, helper_len: usize,
            stack: Table, stack_len: usize, cache: Table, cache_len: usize) -> Answer;
        pub fn corwystal_read(head: *const Head, space: u32, address: usize,
            buffer: *mut u8, buffer_len: usize,
            index: Words, index_len: usize, count: Table, count_len: usize,
            table: Table, table_len: usize, helper: Table, helper_len: usize,
            stack: Table, stack_len: usize, cache: Table, cache_len: usize,
            ram: *mut u8, ram_len: usize) -> Answer;
        pub fn corwystal_write(head: *mut Head, space: u32, address: usize,
            bytes: *const u8, bytes_len: usize,
            index: Words, index_len: usize, count: Table, count_len: usize,
            table: Table, table_len: usize, helper: Table, helper_len: usize,
            stack: Table, stack_len: usize, cache: Table, cache_len: usize,
            link: Table, link_len: usize, ram: *mut u8, ram_len: usize) -> Answer;
        pub fn corwystal_list(head: *const Head, space: u32, records: *mut Region, records_len: usize,
            index: Words, index_len: usize, count: Table, count_len: usize) -> Answer;
        pub fn corwystal_write_map(head: *const Head,
            index: Words, index_len: usize, count: Table, count_len: usize,
            table: Table, table_len: usize, stack: Table, stack_len: usize,
            link: Table, link_len: usize, file: *mut u8, file_len: usize) -> Answer;
        pub fn corwystal_give_back(head: *mut Head, space: u32, page: u32,
            index: Words, index_len: usize, count: Table, count_len: usize,
            table: Table, table_len: usize, helper: Table, helper_len: usize,
            stack: Table, stack_len: usize, cache: Table, cache_len: usize,
            link: Table, link_len: usize) -> Answer;
    }
}

// What is lent to one call: the head, the eight buffers with their lengths in entries, and the
// call's own buffer (to read into, to write from, or the records), as long as the call says.
pub struct Loan {
    pub head: *mut Head,
    pub at: [*mut u8; 8],
    pub lent: Lent,
    pub own: *mut u8,
}

fn narrow(number: u64) -> u32 {
    number.try_into().expect("an argument of 32 bits")
}

#[cfg(broken)]
pub use crate::broken::make;
#[cfg(not(broken))]
pub use ask_library as make;

// Safety: every pointer is good for its length; a call that must be refused may be lent less.
#[rustfmt::skip]
pub unsafe fn ask_library(ask: &Ask, loan: &Loan) -> Answer {
    let head = loan.head;
    let n = loan.lent.map(|length| length as usize);
    let index = loan.at[0] as Words;
    let [count, table, helper, stack, cache, link] = [1, 2, 3, 4, 5, 6].map(|b| loan.at[b] as Table);
    let ram = loan.at[7];
    match *ask {
        Ask::Start(s) => library::corwystal_start(head, narrow(s.spaces), narrow(s.pages), narrow(s.frames),
            narrow(s.page), index, n[0], count, n[1]),
        Ask::Mark(space, page) =>
            library::corwystal_mark(head, narrow(space), narrow(page), index, n[0], count, n[1]),
        Ask::Drop(space, page) =>
            library::corwystal_drop(head, narrow(space), narrow(page), index, n[0], count, n[1]),
        Ask::Touch(space, page) => library::corwystal_touch(head, narrow(space), narrow(page),
            index, n[0], count, n[1], table, n[2], helper, n[3], stack, n[4], cache, n[5], link, n[6], ram, n[7]),
        Ask::Look(space, page) => library::corwystal_look(head, narrow(space), narrow(page),
            index, n[0], count, n[1], table, n[2], helper, n[3], stack, n[4], cache, n[5]),
        Ask::Release(space, page) => library::corwystal_release(head, narrow(space), narrow(page),
            index, n[0], count, n[1], table, n[2], stack, n[4], link, n[6]),
        Ask::Free => library::corwystal_free_count(head),
        Ask::Translate(space, address) => library::corwystal_translate(head, narrow(space), address as usize,
            index, n[0], count, n[1], table, n[2], helper, n[3], stack, n[4], cache, n[5]),
        Ask::Read(space, address, length) => library::corwystal_read(head, narrow(space), address as usize,
            loan.own, length as usize,
            index, n[0], count, n[1], table, n[2], helper, n[3], stack, n[4], cache, n[5], ram, n[7]),
        Ask::Write(space, address, ref bytes) => library::corwystal_write(head, narrow(space), address as usize,
            loan.own, bytes.len(),
            index, n[0], count, n[1], table, n[2], helper, n[3], stack, n[4], cache, n[5], link, n[6], ram, n[7]),
        Ask::List(space, room) => library::corwystal_list(head, narrow(space), loan.own as *mut Region,
            room as usize, index, n[0], count, n[1]),
        Ask::WriteMap(room) => library::corwystal_write_map(head, index, n[0], count, n[1], table, n[2], stack, n[4],
            link, n[6], loan.own, room as usize),
        Ask::GiveBack(space, page) => library::corwystal_give_back(head, narrow(space), narrow(page),
            index, n[0], count, n[1], table, n[2], helper, n[3], stack, n[4], cache, n[5], link, n[6]),
    }
}
