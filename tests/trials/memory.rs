// The memory of an honest trial, lent to every call: what it should hold stands beside it, and after
// each call every page that was written or should have been is compared.
use crate::draw::Draw;
use crate::entrance::{Head, Loan};
use crate::garbage::Words;
use crate::plain::{Lent, Sizes};
use crate::watch::{Arena, Slot, Wanted, PAGE};

// The eight buffers in a call's order, then what a call fills or reads for its caller, and the head.
pub const INDEX: usize = 0;
pub const COUNT: usize = 1;
pub const TABLE: usize = 2;
pub const HELPER: usize = 3;
pub const STACK: usize = 4;
pub const LINK: usize = 6;
pub const RAM: usize = 7;
pub const READ: usize = 8;
pub const BYTES: usize = 9;
pub const RECORDS: usize = 10;
pub const HEAD: usize = 11;
pub const PARTS: usize = 12;

pub const NAMES: [&str; PARTS] = [
    "index",
    "count",
    "table",
    "helper",
    "stack",
    "cache",
    "link",
    "ram",
    "read buffer",
    "bytes",
    "records",
    "head",
];
// the bytes of an entry
pub const WIDTHS: [usize; PARTS] = [8, 4, 4, 4, 4, 4, 4, 1, 1, 1, 4, 4];

const RECORD: usize = 12;
// What lies between a buffer and the page's border.
const SPARE: u8 = 0xC5;
// More RAM is not there: calls that are lent it are then refused, and the others work on.
const MOST_RAM: u64 = 1 << 28;
// Written pages that are not watched again at once.
const FEW: usize = 12;

// A pattern for the excess: entries differ from their neighbours and from any garbage.
fn pattern(byte: usize) -> u8 {
    (byte.wrapping_mul(0x9D) ^ byte >> 8 ^ 0x5A) as u8
}

// Where two pages differ, by words of a width.
fn differing(one: &[u8], other: &[u8], width: usize) -> Vec<usize> {
    const BLOCK: usize = 64;
    let is_other = |at: &usize, bytes: usize| one[*at..at + bytes] != other[*at..at + bytes];
    let blocks = (0..PAGE).step_by(BLOCK).filter(|at| is_other(at, BLOCK));
    let words = blocks.flat_map(|block| (block..block + BLOCK).step_by(width));
    words.filter(|at| is_other(at, width)).collect()
}

// How many words of each part may differ from what was expected, and in how many entries.
pub struct Allowed {
    pub words: [usize; PARTS],
    pub needed: [usize; PARTS],
}

pub struct Memory {
    arena: Arena,
    owner: Vec<u8>,
    // what each part's pages should hold, the RAM's excepted: the plain machine has that
    shadows: Vec<Vec<u8>>,
    expected: Vec<u32>,
    // the entries that a call can be lent of each buffer
    pub most: Lent,
    // and those that are really there
    pub real: Lent,
}

impl Memory {
    // Long enough for the sizes, but for a RAM too large. The excess is a pattern or, of unreachable ones, inaccessible.
    pub fn new(draw: &mut Draw, sizes: &Sizes, longest: u64, unreachable: bool) -> Memory {
        let needed = sizes.needed();
        let mut real = needed;
        let mut most = needed;
        let mut wanted = Vec::new();
        for part in 0..PARTS {
            let entries = match part {
                READ | BYTES => longest,
                RECORDS => 3 * (sizes.places() + 2),
                HEAD => 7,
                RAM if needed[RAM] > MOST_RAM => {
                    (real[RAM], most[RAM]) = (PAGE as u64, PAGE as u64);
                    real[RAM]
                }
                _ => {
                    let excess = draw.among(&[0, 1, 3, 17, 700]);
                    real[part] += if unreachable { 0 } else { excess };
                    most[part] += excess;
                    real[part]
                }
            };
            wanted.push(Wanted {
                bytes: entries as usize * WIDTHS[part],
                ends_at_guard: unreachable || draw.once_in(2),
                beyond: 3,
            });
        }
        let arena = Arena::new(&wanted);
        let mut owner = Vec::new();
        for (part, slot) in arena.slots.iter().enumerate() {
            owner.resize(slot.pages.1, part as u8);
        }
        let (shadows, expected) = (Vec::new(), Vec::new());
        Memory {
            arena,
            owner,
            shadows,
            expected,
            most,
            real,
        }
    }

    fn slot(&self, part: usize) -> Slot {
        self.arena.slots[part]
    }

    // Garbage in what the sizes need, patterns in the rest; from then on every page is watched.
    pub fn fill(&mut self, draw: &mut Draw, words: &Words, head: [u32; 7]) -> Vec<u8> {
        for part in (0..PARTS).filter(|part| *part != RAM) {
            let slot = self.slot(part);
            let mut content: Vec<u8> = match part {
                INDEX => words.index.iter().flat_map(|w| w.to_le_bytes()).collect(),
                COUNT..=LINK => words.tables[part - 1]
                    .iter()
                    .flat_map(|w| w.to_le_bytes())
                    .collect(),
                HEAD => head.into_iter().flat_map(u32::to_le_bytes).collect(),
                _ => Vec::new(),
            };
            content.extend((content.len()..slot.bytes).map(pattern));
            let (from, to) = slot.pages;
            let mut shadow = vec![SPARE; (to - from) * PAGE];
            let lead = slot.first - from * PAGE;
            shadow[lead..lead + slot.bytes].copy_from_slice(&content);
            self.arena.fill(from * PAGE, &shadow);
            self.shadows.push(shadow);
            if part + 1 == RAM {
                self.shadows.push(Vec::new());
            }
        }
        let ram = self.fill_ram(draw);
        self.arena.watch();
        ram
    }

    fn fill_ram(&mut self, draw: &mut Draw) -> Vec<u8> {
        let slot = self.slot(RAM);
        let (from, to) = slot.pages;
        let ram = match draw.below(4) {
            0 => vec![0; slot.bytes],
            1 => (0..slot.bytes).map(pattern).collect(),
            2 => vec![0xFF; slot.bytes],
            _ => draw.bytes(slot.bytes as u64),
        };
        self.arena.fill(from * PAGE, &[SPARE; PAGE]);
        self.arena.fill((to - 1) * PAGE, &[SPARE; PAGE]);
        self.arena.fill(slot.first, &ram);
        ram
    }

    // ---- what a call is lent

    // A caller's own buffer of so many bytes lies at one end of its part.
    fn own(&self, part: usize, bytes: usize) -> usize {
        let slot = self.slot(part);
        assert!(bytes <= slot.bytes);
        match slot.first % PAGE == 0 {
            true if slot.bytes % PAGE != 0 => slot.first,
            _ => slot.first + slot.bytes - bytes,
        }
    }

    pub fn has_own(&self, part: usize, bytes: u64) -> bool {
        bytes <= self.slot(part).bytes as u64
    }

    pub fn loan(&self, lent: Lent, part: usize, bytes: u64) -> Loan {
        Loan {
            head: self.arena.at(self.slot(HEAD).first) as *mut Head,
            at: std::array::from_fn(|b| self.arena.at(self.slot(b).first)),
            lent,
            own: self.arena.at(self.own(part, bytes as usize)),
        }
    }

    pub fn head(&self) -> Head {
        unsafe { *(self.arena.at(self.slot(HEAD).first) as *const Head) }
    }

    // ---- what it should hold

    // Bytes that a part should hold from one of them on.
    fn expect_at(&mut self, part: usize, first: usize, bytes: &[u8]) {
        let from = self.slot(part).pages.0 * PAGE;
        self.shadows[part][first - from..][..bytes.len()].copy_from_slice(bytes);
        self.expect_pages(first, bytes.len());
    }

    fn expect_pages(&mut self, first: usize, bytes: usize) {
        let pages = first / PAGE..(first + bytes).div_ceil(PAGE);
        self.expected.extend(pages.map(|page| page as u32));
    }

    // An entry of the index or a table.
    pub fn expect(&mut self, part: usize, entry: u64, value: u64) {
        let width = WIDTHS[part];
        let first = self.slot(part).first + entry as usize * width;
        self.expect_at(part, first, &value.to_le_bytes()[..width]);
    }

    // What an entry of a table or of the head should hold.
    pub fn should(&self, part: usize, entry: u64) -> u64 {
        let slot = self.slot(part);
        let first = slot.first - slot.pages.0 * PAGE + entry as usize * WIDTHS[part];
        let word = self.shadows[part][first..first + 4].try_into().unwrap();
        u32::from_le_bytes(word).into()
    }

    // The first entries of the index or a table are 0.
    pub fn expect_zeros(&mut self, part: usize, entries: u64) {
        let zeros = vec![0; entries as usize * WIDTHS[part]];
        self.expect_at(part, self.slot(part).first, &zeros);
    }

    // The caller's own buffer of so many bytes begins with these.
    pub fn expect_own(&mut self, part: usize, length: u64, bytes: &[u8]) {
        self.expect_at(part, self.own(part, length as usize), bytes);
    }

    // A part of the RAM is what the machine's is.
    pub fn expect_ram(&mut self, part: std::ops::Range<usize>) {
        self.expect_pages(self.slot(RAM).first + part.start, part.len());
    }

    // The caller's own bytes, to be written by a call.
    pub fn lay_down(&mut self, bytes: &[u8]) {
        let first = self.own(BYTES, bytes.len());
        self.arena.fill(first, bytes);
        self.expect_at(BYTES, first, bytes);
    }

    pub fn own_records(&self, records: u64) -> u64 {
        records * RECORD as u64
    }

    // ---- what it holds

    // Whether a page holds what it should, the commonest case: nothing is copied for it.
    fn is_held(&self, page: usize, ram: &[u8]) -> bool {
        let part = usize::from(self.owner[page]);
        let slot = self.slot(part);
        let does = self.arena.bytes(page..page + 1);
        if part != RAM {
            return does == &self.shadows[part][(page - slot.pages.0) * PAGE..][..PAGE];
        }
        let first = slot.first.max(page * PAGE);
        let end = (slot.first + slot.bytes).min((page + 1) * PAGE);
        let (lead, held) = does.split_at(first - page * PAGE);
        let (held, tail) = held.split_at(end - first);
        let is_spare = |byte: &u8| *byte == SPARE;
        held == &ram[first - slot.first..end - slot.first] && lead.iter().chain(tail).all(is_spare)
    }

    // The bytes that a page should hold.
    fn shadow(&self, page: usize, ram: &[u8]) -> [u8; PAGE] {
        let part = usize::from(self.owner[page]);
        let slot = self.slot(part);
        if part != RAM {
            return self.shadows[part][(page - slot.pages.0) * PAGE..][..PAGE]
                .try_into()
                .unwrap();
        }
        let mut bytes = [SPARE; PAGE];
        let first = slot.first.max(page * PAGE);
        let end = (slot.first + slot.bytes).min((page + 1) * PAGE);
        let held = &ram[first - slot.first..end - slot.first];
        bytes[first - page * PAGE..][..held.len()].copy_from_slice(held);
        bytes
    }

    // Holds one page to what it should be, but for the words that may differ. Counts them.
    fn hold(
        &mut self,
        page: usize,
        ram: &[u8],
        allowed: &Allowed,
        changed: &mut [usize; PARTS],
    ) -> Result<(), String> {
        if self.is_held(page, ram) {
            return Ok(());
        }
        let part = usize::from(self.owner[page]);
        let (slot, width) = (self.slot(part), WIDTHS[part]);
        let should = self.shadow(page, ram);
        let does = self.arena.bytes(page..page + 1);
        for at in differing(&should, does, width) {
            let entry = ((page * PAGE + at) as isize - slot.first as isize) / width as isize;
            let (should, does) = (&should[at..at + width], &does[at..at + width]);
            let is_needed = (0..allowed.needed[part] as isize).contains(&entry);
            changed[part] += 1;
            if allowed.words[part] < changed[part] || !is_needed {
                let name = NAMES[part];
                return Err(format!(
                    "{name}[{entry}] holds {does:02x?}, not {should:02x?}"
                ));
            }
            let from = (page - slot.pages.0) * PAGE + at;
            self.shadows[part][from..from + width].copy_from_slice(does);
        }
        Ok(())
    }

    // After a call: every page that was written or should have been.
    pub fn compare(&mut self, ram: &[u8], allowed: &Allowed) -> Result<(), String> {
        let mut changed = [0; PARTS];
        let mut pages = self.arena.written();
        pages.append(&mut self.expected);
        for page in pages {
            self.hold(page as usize, ram, allowed, &mut changed)?;
        }
        self.arena.watch_again(FEW);
        Ok(())
    }

    // Every page, written or not.
    pub fn compare_all(&mut self, ram: &[u8]) -> Result<(), String> {
        let none = Allowed {
            words: [0; PARTS],
            needed: [0; PARTS],
        };
        for part in 0..PARTS {
            let (from, to) = self.slot(part).pages;
            for page in from..to {
                self.hold(page, ram, &none, &mut [0; PARTS])?;
            }
        }
        Ok(())
    }
}
