// Memory for trials that are not honest: every buffer as long as it is said to be, to the byte,
// between inaccessible pages or on the heap for an address checker, and filled with anything.
use crate::draw::Draw;
use crate::entrance::{Head, Loan};
use crate::garbage::Words;
use crate::memory::{INDEX, WIDTHS};
use crate::plain::Lent;
use crate::watch::{Arena, Wanted, PAGE};
use std::alloc::{alloc_zeroed, dealloc, Layout};

// The eight buffers, the head, and the call's own buffer.
pub const HEAD: usize = 8;
pub const OWN: usize = 9;
pub const PARTS: usize = 10;

pub fn width(part: usize) -> usize {
    match part {
        HEAD => 4,
        OWN => 1,
        _ => WIDTHS[part],
    }
}

// Exactly so many bytes of the heap, aligned for every entry.
struct Block(*mut u8, Layout);

impl Block {
    fn new(bytes: usize) -> Block {
        let layout = Layout::from_size_align(bytes, 8).unwrap();
        let at = match bytes {
            0 => std::ptr::without_provenance_mut(8),
            _ => unsafe { alloc_zeroed(layout) },
        };
        assert!(!at.is_null(), "no memory for a trial");
        Block(at, layout)
    }
}

impl Drop for Block {
    fn drop(&mut self) {
        if self.1.size() > 0 {
            unsafe { dealloc(self.0, self.1) }
        }
    }
}

enum Kept {
    Guarded(Arena),
    Heap(Vec<Block>),
}

pub struct Anything {
    kept: Kept,
    pub lent: Lent,
    most_own: usize,
    // where the call's own buffer begins in its part
    pub own: usize,
    // what every part held before the call, with the rest of its pages if it has pages
    before: Vec<Vec<u8>>,
}

impl Anything {
    // Buffers of these lengths, and at most so many bytes of a call's own.
    pub fn new(lent: Lent, most_own: usize, on_heap: bool, ends: [bool; PARTS]) -> Anything {
        let bytes: [usize; PARTS] = std::array::from_fn(|part| match part {
            HEAD => 28,
            OWN => most_own,
            _ => lent[part] as usize * width(part),
        });
        let wanted = |part: usize| Wanted {
            bytes: bytes[part],
            ends_at_guard: ends[part],
            beyond: 1,
        };
        let kept = match on_heap {
            true => Kept::Heap(bytes.into_iter().map(Block::new).collect()),
            false => Kept::Guarded(Arena::new(&std::array::from_fn::<_, PARTS, _>(wanted))),
        };
        let before = vec![Vec::new(); PARTS];
        Anything {
            kept,
            lent,
            most_own,
            own: 0,
            before,
        }
    }

    // A part's first byte.
    fn at(&self, part: usize) -> *mut u8 {
        match &self.kept {
            Kept::Heap(blocks) => blocks[part].0,
            Kept::Guarded(arena) => arena.at(arena.slots[part].first),
        }
    }

    // A part's bytes, and the number of bytes of its pages before them.
    fn held(&self, part: usize) -> (&[u8], usize) {
        match &self.kept {
            Kept::Heap(blocks) => {
                let Block(at, layout) = &blocks[part];
                (unsafe { std::slice::from_raw_parts(*at, layout.size()) }, 0)
            }
            Kept::Guarded(arena) => {
                let slot = arena.slots[part];
                let lead = slot.first - slot.pages.0 * PAGE;
                (arena.bytes(slot.pages.0..slot.pages.1), lead)
            }
        }
    }

    pub fn bytes(&self, part: usize) -> usize {
        self.lent[part] as usize * width(part)
    }

    pub fn fill(&mut self, part: usize, first: usize, bytes: &[u8]) {
        let (held, lead) = self.held(part);
        assert!(lead + first + bytes.len() <= held.len());
        unsafe {
            std::ptr::copy_nonoverlapping(bytes.as_ptr(), self.at(part).add(first), bytes.len())
        }
    }

    // The index or a table, and in what is longer than its words anything.
    pub fn fill_words(&mut self, draw: &mut Draw, part: usize, words: &Words) {
        let mut bytes: Vec<u8> = match part {
            INDEX => words
                .index
                .iter()
                .flat_map(|word| word.to_le_bytes())
                .collect(),
            _ => {
                let table = words.tables[part - 1].iter();
                table.flat_map(|word| word.to_le_bytes()).collect()
            }
        };
        let length = self.bytes(part);
        bytes.extend(draw.bytes(length.saturating_sub(bytes.len()) as u64));
        self.fill(part, 0, &bytes[..length]);
    }

    pub fn head(&self) -> Head {
        unsafe { *(self.at(HEAD) as *const Head) }
    }

    pub fn set_head(&mut self, head: Head) {
        unsafe { *(self.at(HEAD) as *mut Head) = head }
    }

    // The call's own buffer gets so many bytes, at the part's end that is next to an inaccessible
    // page; on the heap a block of its own.
    pub fn lay_own(&mut self, bytes: usize) {
        if let Kept::Heap(blocks) = &mut self.kept {
            blocks[OWN] = Block::new(bytes);
            self.most_own = bytes;
        }
        let (_, lead) = self.held(OWN);
        self.own = if lead > 0 { self.most_own - bytes } else { 0 };
    }

    pub fn loan(&self) -> Loan {
        Loan {
            head: self.at(HEAD) as *mut Head,
            at: std::array::from_fn(|part| self.at(part)),
            lent: self.lent,
            own: unsafe { self.at(OWN).add(self.own) },
        }
    }

    // ---- what changed

    pub fn remember(&mut self) {
        for part in 0..PARTS {
            let mut before = std::mem::take(&mut self.before[part]);
            before.clear();
            before.extend_from_slice(self.held(part).0);
            self.before[part] = before;
        }
    }

    // The entries of a part that changed since, counted from its first; those before it are negative.
    pub fn changed(&self, part: usize) -> Vec<isize> {
        let (now, lead) = self.held(part);
        let before = &self.before[part];
        if now == before {
            return Vec::new();
        }
        let width = width(part);
        let pairs = now.chunks(width).zip(before.chunks(width)).enumerate();
        let changed = pairs.filter(|(_, (now, before))| now != before);
        changed
            .map(|(k, _)| k as isize - (lead / width) as isize)
            .collect()
    }

    // A part's bytes now, and as they were remembered.
    pub fn now(&self, part: usize) -> &[u8] {
        let (held, lead) = self.held(part);
        &held[lead..][..self.bytes(part)]
    }

    pub fn before(&self, part: usize) -> &[u8] {
        let (_, lead) = self.held(part);
        &self.before[part][lead..][..self.bytes(part)]
    }

    // The call's own buffer of so many bytes.
    pub fn own(&self, bytes: usize) -> &[u8] {
        let (held, lead) = self.held(OWN);
        &held[lead + self.own..][..bytes]
    }

    // Whether the first entries of a part are 0.
    pub fn is_zero(&self, part: usize, entries: u64) -> bool {
        let bytes = entries as usize * width(part);
        self.now(part)[..bytes].iter().all(|byte| *byte == 0)
    }
}
