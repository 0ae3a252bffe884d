// Entrances that are wrong in one way each, to try the trials on: `run.sh broken` builds the trials over
// them and demands that every one is found. Each is the library's call, with one thing done amiss.
use crate::entrance::{ask_library, Answer, Head, Loan};
use crate::entrance::{ABSENT, AT, BYTES, DONE, FRAMES, NEW, OLD, PAGES, REGIONS, RESIDENT};
use crate::plain::{Ask, Sizes};
use std::ops::Range;
use std::sync::OnceLock;

const COUNT: usize = 1;
const TABLE: usize = 2;
const HELPER: usize = 3;
const STACK: usize = 4;
const CACHE: usize = 5;
const LINK: usize = 6;
const RAM: usize = 7;

// A call that the library has answered: what was asked and lent, and some of what there was before.
struct Made<'a> {
    ask: &'a Ask,
    loan: &'a Loan,
    head: Head,
    sizes: Sizes,
    // the place that touch, look, release and give back ask for
    place: usize,
    // the first index word above the lowest layer, the last byte of a read's buffer, the frame links
    above: u64,
    last: u8,
    links: Vec<u32>,
    // the frames that a touch or write takes next, with what they held, and those of resident pages that it asks for
    next: Vec<(usize, Vec<u8>)>,
    resident: Vec<usize>,
    hand: Option<Hand>,
}

// A page that is handed back, by the words of the tables: its region's start, its position and that of the newest, the newest's place,
// and the frames of the page, of the one after it and of the newest.
#[derive(Clone, Copy)]
struct Hand {
    start: usize,
    position: usize,
    last: usize,
    newest: usize,
    frame: usize,
    after: usize,
    newest_frame: usize,
}

impl Hand {
    fn is_newest(&self) -> bool {
        self.position == self.last
    }

    fn is_neighbour(&self) -> bool {
        self.position + 1 == self.last
    }

    // others stand between it and the newest
    fn is_farther(&self) -> bool {
        self.position + 1 < self.last
    }
}

// What is answered instead, and done on the way.
type Fault = fn(&Made, Answer) -> Answer;

impl Made<'_> {
    fn new<'a>(ask: &'a Ask, loan: &'a Loan) -> Made<'a> {
        let head = unsafe { *loan.head };
        let sizes = head.sizes();
        let place = match *ask {
            Ask::Touch(space, page) | Ask::Look(space, page) | Ask::Release(space, page) => {
                space * sizes.pages + page
            }
            Ask::GiveBack(space, page) => space * sizes.pages + page,
            _ => 0,
        };
        let (place, above, last, links) = (place as usize, 0, 0, Vec::new());
        let (next, resident, hand) = (Vec::new(), Vec::new(), None);
        let mut made = Made {
            ask,
            loan,
            head,
            sizes,
            place,
            above,
            last,
            links,
            next,
            resident,
            hand,
        };
        if let (Some(above), true) = (made.above(), made.is_lent(0)) {
            made.above = unsafe { *above };
        }
        if let Some(last) = made.last() {
            made.last = unsafe { *last };
        }
        let has_links = matches!(ask, Ask::Release(..) | Ask::GiveBack(..));
        if has_links && sizes.within_limits() && made.is_lent(LINK) {
            made.links = (0..sizes.frames as usize)
                .map(|frame| made.get(LINK, frame))
                .collect();
        }
        if matches!(ask, Ask::GiveBack(..)) && made.passes(|_| true) {
            made.hand = made.hand();
        }
        if let (Some((space, pages)), true) = (made.pages(), made.passes(|_| true)) {
            let next = made.pool(pages.clone().count()).into_iter();
            made.next = next
                .map(|frame| (frame, made.frame(frame).to_vec()))
                .collect();
            let looks = pages.map(|page| unsafe { ask_library(&Ask::Look(space, page), loan) });
            let resident = looks.filter(|look| look.kind == RESIDENT);
            made.resident = resident.map(|look| look.value as usize).collect();
        }
        made
    }

    fn is_lent(&self, buffer: usize) -> bool {
        self.sizes.needed()[buffer] <= self.loan.lent[buffer]
    }

    // Whether it is refused neither with 2 or 3 nor with 1, as far as some buffers go.
    fn passes(&self, counts: fn(usize) -> bool) -> bool {
        let is_lent = self.ask.is_lent();
        let is_short = |b: usize| is_lent[b] == 1 && counts(b) && !self.is_lent(b);
        self.sizes.within_limits()
            && !(0..8).any(is_short)
            && self
                .ask
                .space()
                .is_some_and(|space| space < self.sizes.spaces)
            && self.ask.is_inside(&self.sizes)
    }

    // ---- the lists, for hand-backs

    // What a call is about to hand back, as far as the tables have places and frames for it.
    fn hand(&self) -> Option<Hand> {
        let (t, frames) = (self.sizes.places() as usize, self.sizes.frames as usize);
        let get = |table: usize, entry: usize| Some(self.get(table, entry) as usize);
        let is_place = |place: &usize| *place < t;
        let frame = |place: usize| get(TABLE, place).filter(|frame| *frame < frames);
        let start = get(CACHE, self.place).filter(is_place)?;
        let last = get(COUNT, start)?.checked_sub(1)?;
        let position = get(HELPER, self.place).filter(|position| *position <= last)?;
        let page = |entry: usize| get(STACK, entry).filter(is_place);
        is_place(&(start + last)).then_some(())?;
        let newest = page(start + last)?;
        let after = page(start + last.min(position + 1))?;
        Some(Hand {
            start,
            position,
            last,
            newest,
            frame: frame(self.place)?,
            after: frame(after)?,
            newest_frame: frame(newest)?,
        })
    }

    // What was handed back, if it was.
    fn handed(&self, answer: &Answer) -> Option<Hand> {
        self.hand.filter(|_| answer.kind == DONE)
    }

    // ---- the RAM, for touches and writes

    // The space and the pages that a touch or write maps.
    fn pages(&self) -> Option<(u64, Range<u64>)> {
        match *self.ask {
            Ask::Touch(space, page) => Some((space, page..page + 1)),
            Ask::Write(space, address, ref bytes) if self.passes(|_| true) => {
                Some((space, self.sizes.span(address, bytes.len() as u64)))
            }
            _ => None,
        }
    }

    // The first frames of the pool, as far as there are some: linked ones, then those never given.
    fn pool(&self, many: usize) -> Vec<usize> {
        let (mut first, mut fresh) = (self.head.first as usize, self.head.fresh as usize);
        let mut frames = Vec::new();
        while frames.len() < many {
            let is_linked = frames.len() < self.head.many as usize;
            let frame = if is_linked { first } else { fresh };
            if frame >= self.sizes.frames as usize {
                break;
            }
            if is_linked {
                first = self.get(LINK, frame) as usize;
            } else {
                fresh += 1;
            }
            frames.push(frame);
        }
        frames
    }

    // A frame's bytes.
    fn frame(&self, frame: usize) -> &mut [u8] {
        let page = self.sizes.page as usize;
        unsafe { std::slice::from_raw_parts_mut(self.loan.at[RAM].add(frame * page), page) }
    }

    // The frames that were taken, with what they held.
    fn taken(&self) -> &[(usize, Vec<u8>)] {
        let left = |h: &Head| u64::from(h.many) + u64::from(h.frames.saturating_sub(h.fresh));
        let now = unsafe { *self.loan.head };
        let taken = left(&self.head).saturating_sub(left(&now)) as usize;
        &self.next[..taken.min(self.next.len())]
    }

    // Stores a write's bytes once more, where translate says.
    fn store(&self) {
        let Ask::Write(space, address, bytes) = self.ask else {
            return;
        };
        let mut stored = 0;
        while stored < bytes.len() {
            let at = address + stored as u64;
            let here = unsafe { ask_library(&Ask::Translate(*space, at), self.loan) };
            let many = (self.sizes.page - at % self.sizes.page) as usize;
            let part = &bytes[stored..bytes.len().min(stored + many)];
            if here.kind == AT {
                let to = unsafe { self.loan.at[RAM].add(here.value as usize) };
                unsafe { std::ptr::copy_nonoverlapping(part.as_ptr(), to, part.len()) };
            }
            stored += part.len();
        }
    }

    // Of each frame that was taken some bytes are as they were, but for what a write has stored.
    fn leave(&self, some: impl Fn(usize) -> Range<usize>) {
        for (k, (frame, held)) in self.taken().iter().enumerate() {
            let some = some(k);
            self.frame(*frame)[some.clone()].copy_from_slice(&held[some]);
        }
        self.store();
    }

    // Where a write's span begins in its first page, and ends in its last.
    fn ends(&self) -> (usize, usize) {
        match self.ask {
            Ask::Write(_, address, bytes) if !bytes.is_empty() => {
                let last = address + bytes.len() as u64 - 1;
                let [first, last] = [*address, last].map(|at| (at % self.sizes.page) as usize);
                (first, last + 1)
            }
            _ => (0, 0),
        }
    }

    // Asks the library again, with all of a buffer that is needed.
    fn with(&self, buffer: usize) -> Answer {
        let mut lent = self.loan.lent;
        lent[buffer] = self.sizes.needed()[buffer];
        let Loan { head, at, own, .. } = *self.loan;
        unsafe {
            ask_library(
                self.ask,
                &Loan {
                    head,
                    at,
                    lent,
                    own,
                },
            )
        }
    }

    fn above(&self) -> Option<*mut u64> {
        let is_more = self.sizes.within_limits() && self.sizes.places() > 64;
        let words = self.sizes.places().div_ceil(64) as usize;
        is_more.then(|| (self.loan.at[0] as *mut u64).wrapping_add(words))
    }

    fn last(&self) -> Option<*mut u8> {
        match *self.ask {
            Ask::Read(_, _, count) if count > 0 && count < 1 << 30 => {
                Some(self.loan.own.wrapping_add(count as usize - 1))
            }
            _ => None,
        }
    }

    // An entry of count, table, helper, stack, cache or link, also one outside.
    fn get(&self, table: usize, entry: usize) -> u32 {
        let at = (self.loan.at[table] as *mut u32).wrapping_add(entry);
        unsafe { at.read_volatile() }
    }

    fn set(&self, table: usize, entry: usize, word: u32) {
        let at = (self.loan.at[table] as *mut u32).wrapping_add(entry);
        unsafe { at.write_volatile(word) }
    }

    // Two positions of a region's list are exchanged, and the chain is as it was.
    fn exchange(&self, start: usize, one: usize, other: usize) {
        let [first, second] = [one, other].map(|position| self.get(STACK, start + position));
        for (position, page) in [(one, second), (other, first)] {
            self.set(STACK, start + position, page);
            if u64::from(page) < self.sizes.places() {
                self.set(HELPER, page as usize, position as u32);
            }
        }
    }

    // The newest goes from a page's position to the end, the pages behind it one forward, as a list that closes up; the chain is as it was.
    fn close_up(&self, hand: &Hand) {
        for position in hand.position..hand.last - 1 {
            self.exchange(hand.start, position, position + 1);
        }
    }

    fn flip(&self, table: usize, entry: usize) {
        self.set(table, entry, self.get(table, entry) ^ 1);
    }

    fn flip_byte(&self, at: *mut u8, byte: usize) {
        unsafe { *at.add(byte) ^= 1 }
    }

    fn change_head(&self, change: fn(&mut Head)) {
        change(unsafe { &mut *self.loan.head })
    }

    fn first(&self) -> usize {
        unsafe { (*self.loan.head).first as usize }
    }

    // Whether a buffer has entries that aren't needed.
    fn has_excess(&self, buffer: usize) -> bool {
        self.sizes.within_limits() && self.sizes.needed()[buffer] < self.loan.lent[buffer]
    }
}

fn refusal(kind: u32) -> Answer {
    Answer {
        kind,
        words: 0,
        value: 0,
    }
}

const FAULTS: &[(&str, Fault)] = &[
    // ---- start, mark and drop
    ("start leaves a count", |m, answer| {
        if let (Ask::Start(sizes), DONE) = (m.ask, answer.kind) {
            m.set(COUNT, sizes.places() as usize - 1, 1);
        }
        answer
    }),
    ("start clears a count of the excess", |m, answer| {
        if let (Ask::Start(sizes), DONE) = (m.ask, answer.kind) {
            if sizes.places() < m.loan.lent[COUNT] {
                m.set(COUNT, sizes.places() as usize, 0);
            }
        }
        answer
    }),
    ("start takes pages of 131,072 bytes", |m, answer| {
        match m.ask {
            Ask::Start(sizes) if sizes.page == 131_072 => refusal(DONE),
            _ => answer,
        }
    }),
    ("mark sets the lowest layer only", |m, answer| {
        if let (Ask::Mark(..), DONE, Some(above)) = (m.ask, answer.kind, m.above()) {
            unsafe { *above = m.above };
        }
        answer
    }),
    ("mark answers 3 before 2", |m, answer| match m.ask {
        Ask::Mark(_, page) if answer.kind == 2 && *page >= m.sizes.pages => refusal(3),
        _ => answer,
    }),
    ("drop is done at resident pages", |m, answer| match m.ask {
        Ask::Drop(..) if answer.kind == 7 => refusal(DONE),
        _ => answer,
    }),
    // ---- touch and look
    (
        "a word too many at the last place of full size",
        |m, mut answer| {
            if answer.words > 0 && m.place == 262_143 {
                answer.words += 1;
            }
            answer
        },
    ),
    ("touch changes two helper words", |m, answer| {
        if answer.kind == NEW && m.sizes.places() > 1 {
            m.flip(HELPER, (m.place + 1) % m.sizes.places() as usize);
        }
        answer
    }),
    ("touch changes the link's excess", |m, answer| {
        if answer.kind == NEW && m.has_excess(LINK) {
            m.flip(LINK, m.sizes.frames as usize);
        }
        answer
    }),
    ("touch of a resident page changes a link", |m, answer| {
        if answer.kind == OLD && answer.value < m.sizes.frames {
            m.flip(LINK, answer.value as usize);
        }
        answer
    }),
    ("touch changes a word and answers 9", |m, answer| {
        if let (Ask::Touch(..), 9) = (m.ask, answer.kind) {
            m.flip(STACK, 0);
        }
        answer
    }),
    ("look answers 2 before 1", |m, answer| match m.ask {
        Ask::Look(space, _)
            if answer.kind == 1 && m.sizes.within_limits() && *space >= m.sizes.spaces =>
        {
            refusal(2)
        }
        _ => answer,
    }),
    ("look reads an entry after its stack", |m, answer| {
        if let Ask::Look(..) = m.ask {
            m.get(STACK, m.loan.lent[STACK] as usize);
        }
        answer
    }),
    ("look reads an entry before its counts", |m, answer| {
        if let Ask::Look(..) = m.ask {
            m.get(COUNT, usize::MAX);
        }
        answer
    }),
    ("look reads the table's excess", |m, answer| {
        if answer.kind == ABSENT && m.has_excess(TABLE) {
            m.get(TABLE, m.sizes.places() as usize);
        }
        answer
    }),
    (
        "look believes a page because stack and helper agree",
        |m, answer| {
            if answer.kind != ABSENT {
                return answer;
            }
            let [start, entry] = [CACHE, HELPER].map(|table| m.get(table, m.place) as usize);
            let is_inside = start <= m.place && start + entry < m.sizes.places() as usize;
            match is_inside && m.get(STACK, start + entry) as usize == m.place {
                true => Answer {
                    kind: RESIDENT,
                    words: 0,
                    value: m.get(TABLE, m.place).into(),
                },
                false => answer,
            }
        },
    ),
    ("look keeps a start in the cache", |m, answer| {
        if answer.kind == ABSENT {
            m.set(CACHE, m.place, m.place as u32);
        }
        answer
    }),
    ("look doesn't end", |m, answer| {
        if let (Ask::Look(..), 9) = (m.ask, answer.kind) {
            loop {
                std::hint::spin_loop();
            }
        }
        answer
    }),
    // ---- release and free
    ("release loses a frame", |m, answer| {
        if answer.kind == PAGES && answer.value > 1 {
            m.change_head(|head| head.many = head.many.saturating_sub(1));
        }
        answer
    }),
    ("release splices at the newest frame", |m, answer| {
        let is_splice = answer.kind == PAGES && answer.value > 1 && m.head.many > 0;
        if is_splice && m.first() < m.links.len() {
            let oldest = (0..m.links.len()).find(|frame| m.get(LINK, *frame) != m.links[*frame]);
            oldest.inspect(|frame| m.set(LINK, *frame, m.links[*frame]));
            m.set(LINK, m.first(), m.head.first);
        }
        answer
    }),
    ("release counts in 16 bits", |_, answer| match answer.kind {
        PAGES => Answer {
            value: (answer.value as u16).into(),
            ..answer
        },
        _ => answer,
    }),
    ("release keeps its count", |m, answer| {
        if answer.kind == PAGES {
            m.set(COUNT, m.place, answer.value as u32);
        }
        answer
    }),
    ("free changes the head", |m, answer| {
        if let Ask::Free = m.ask {
            m.change_head(|head| head.fresh ^= 1);
        }
        answer
    }),
    (
        "free counts frames that there are not",
        |m, answer| match m.ask {
            Ask::Free if answer.kind == 9 && m.head.fresh <= m.head.frames => Answer {
                kind: FRAMES,
                value: u64::from(m.head.many) + u64::from(m.head.frames - m.head.fresh),
                ..answer
            },
            _ => answer,
        },
    ),
    // ---- translate, read, write and list
    (
        "translate has 15 bits of a page of 65,536 bytes",
        |m, answer| match m.ask {
            Ask::Translate(..) if m.sizes.page == 65_536 => Answer {
                value: answer.value & !0x8000,
                ..answer
            },
            _ => answer,
        },
    ),
    ("read leaves its last byte", |m, answer| {
        if let (BYTES, Some(last)) = (answer.kind, m.last()) {
            unsafe { *last = m.last };
        }
        answer
    }),
    ("read has begun and is refused", |m, answer| {
        if let (Ask::Read(..), 10) = (m.ask, answer.kind) {
            m.flip_byte(m.loan.own, 0);
        }
        answer
    }),
    ("read fills a byte more", |m, answer| {
        if answer.kind == BYTES {
            m.flip_byte(m.loan.own, answer.value as usize);
        }
        answer
    }),
    ("write stores a byte more", |m, answer| {
        let Ask::Write(space, address, bytes) = m.ask else {
            return answer;
        };
        if answer.kind == DONE && !bytes.is_empty() {
            let last = Ask::Translate(*space, address + bytes.len() as u64 - 1);
            let next = unsafe { ask_library(&last, m.loan) }.value + 1;
            if next < m.sizes.needed()[RAM] {
                m.flip_byte(m.loan.at[RAM], next as usize);
            }
        }
        answer
    }),
    ("write maps nothing and changes the head", |m, answer| {
        let now = unsafe { *m.loan.head };
        if let (Ask::Write(..), DONE) = (m.ask, answer.kind) {
            if (now.many, now.fresh) == (0, m.head.fresh) && m.head.many == 0 {
                m.change_head(|head| head.first ^= 1);
            }
        }
        answer
    }),
    ("write maps a page and is refused", |m, answer| {
        if let (Ask::Write(space, address, _), 8) = (m.ask, answer.kind) {
            let page = Ask::Touch(*space, address / m.sizes.page);
            unsafe { ask_library(&page, m.loan) };
        }
        answer
    }),
    ("write takes a span whose end wraps", |m, answer| {
        match m.ask {
            Ask::Write(_, address, bytes)
                if answer.kind == 3 && *address > u64::MAX - bytes.len() as u64 =>
            {
                refusal(DONE)
            }
            _ => answer,
        }
    }),
    ("list fills a record more", |m, answer| {
        if let (Ask::List(_, room), REGIONS) = (m.ask, answer.kind) {
            if answer.value < *room {
                m.flip_byte(m.loan.own, 12 * answer.value as usize);
            }
        }
        answer
    }),
    ("list asks for a record more", |m, answer| match m.ask {
        Ask::List(_, room) if answer.kind == REGIONS && answer.value == *room && *room > 0 => {
            refusal(11)
        }
        _ => answer,
    }),
    // ---- "Hand back one page"; those that change what they may not show on any memory too
    ("give_back leaves the moved page's helper", |m, answer| {
        if let Some(hand) = m.handed(&answer).filter(|hand| !hand.is_newest()) {
            m.set(HELPER, hand.newest, hand.last as u32);
        }
        answer
    }),
    ("give_back closes the stack up", |m, answer| {
        if let Some(hand) = m.handed(&answer).filter(Hand::is_farther) {
            m.close_up(&hand);
        }
        answer
    }),
    ("give_back leaves the chain behind the page", |m, answer| {
        if let Some(hand) = m.handed(&answer).filter(Hand::is_farther) {
            m.set(LINK, hand.after, m.links[hand.after]);
        }
        answer
    }),
    ("give_back leaves the chain before the page", |m, answer| {
        if let Some(hand) = m.handed(&answer).filter(Hand::is_farther) {
            m.set(LINK, hand.newest_frame, m.links[hand.newest_frame]);
        }
        answer
    }),
    (
        "give_back takes the newest's neighbour for any other",
        |m, answer| {
            if let Some(hand) = m.handed(&answer).filter(Hand::is_neighbour) {
                m.set(LINK, hand.newest_frame, hand.newest_frame as u32);
            }
            answer
        },
    ),
    ("give_back moves something for the newest", |m, answer| {
        let hand = m.handed(&answer).filter(Hand::is_newest);
        if let Some(hand) = hand.filter(|hand| hand.last > 1) {
            m.exchange(hand.start, 0, hand.last - 1);
        }
        answer
    }),
    ("give_back keeps its count", |m, answer| {
        if let Some(hand) = m.handed(&answer) {
            m.set(COUNT, hand.start, hand.last as u32 + 1);
        }
        answer
    }),
    ("give_back puts the frame behind the first", |m, answer| {
        let first = m.head.first as usize;
        let is_more = m.head.many > 0 && first < m.links.len();
        if let Some(hand) = m.handed(&answer).filter(|_| is_more) {
            m.set(LINK, hand.frame, m.links[first]);
            m.set(LINK, first, hand.frame as u32);
            unsafe { (*m.loan.head).first = m.head.first };
        }
        answer
    }),
    ("give_back counts its frame twice", |m, answer| {
        if m.handed(&answer).is_some() {
            m.change_head(|head| head.many += 1);
        }
        answer
    }),
    ("give_back drops a start without pages", |m, answer| {
        let pages = m.sizes.pages;
        if let Some(hand) = m.handed(&answer).filter(|hand| hand.last == 0) {
            let start = hand.start as u64;
            unsafe { ask_library(&Ask::Drop(start / pages, start % pages), m.loan) };
        }
        answer
    }),
    ("give_back changes the page table", |m, answer| {
        if m.handed(&answer).is_some() {
            let is_clear = m.get(TABLE, m.place) == 0;
            m.set(TABLE, m.place, is_clear.into());
        }
        answer
    }),
    ("give_back changes the region cache", |m, answer| {
        if m.handed(&answer).is_some() {
            m.flip(CACHE, m.place);
        }
        answer
    }),
    ("give_back changes two helper words", |m, answer| {
        if let Some(hand) = m.handed(&answer).filter(|hand| !hand.is_newest()) {
            m.flip(HELPER, m.place);
            m.set(HELPER, hand.newest, hand.last as u32 + 1);
        }
        answer
    }),
    ("give_back changes its frame's bytes", |m, answer| {
        if let Some(hand) = m.handed(&answer).filter(|_| m.is_lent(RAM)) {
            m.flip_byte(m.loan.at[RAM], hand.frame << m.head.page_shift);
        }
        answer
    }),
    ("give_back changes the frames never given", |m, answer| {
        if m.handed(&answer).is_some() {
            m.change_head(|head| head.fresh ^= 1);
        }
        answer
    }),
    ("give_back changes a word and answers 10", |m, answer| {
        if let (Ask::GiveBack(..), 10) = (m.ask, answer.kind) {
            m.flip(STACK, m.place);
        }
        answer
    }),
    ("give_back changes a word and answers 9", |m, answer| {
        if let (Ask::GiveBack(..), 9) = (m.ask, answer.kind) {
            m.flip(COUNT, m.place);
        }
        answer
    }),
    (
        "give_back is done with an absent page",
        |m, answer| match m.ask {
            Ask::GiveBack(..) if answer.kind == 10 => refusal(DONE),
            _ => answer,
        },
    ),
    ("give_back answers 10 for 4", |m, answer| match m.ask {
        Ask::GiveBack(..) if answer.kind == 4 => refusal(10),
        _ => answer,
    }),
    ("give_back tells of index words", |m, answer| match m.ask {
        Ask::GiveBack(..) if answer.kind == 10 => Answer { words: 1, ..answer },
        _ => answer,
    }),
    ("give_back tells which frame", |m, answer| {
        let hand = m.handed(&answer);
        Answer {
            value: hand.map_or(answer.value, |hand| hand.frame as u64),
            ..answer
        }
    }),
    ("give_back asks for the RAM", |m, answer| match m.ask {
        Ask::GiveBack(..) if m.sizes.within_limits() && !m.is_lent(RAM) => refusal(1),
        _ => answer,
    }),
    (
        "give_back doesn't ask how long the link is",
        |m, answer| match m.ask {
            Ask::GiveBack(..) if answer.kind == 1 && m.passes(|b| b != LINK) => m.with(LINK),
            _ => answer,
        },
    ),
    ("give_back reads an entry after its cache", |m, answer| {
        if let Ask::GiveBack(..) = m.ask {
            m.get(CACHE, m.loan.lent[CACHE] as usize);
        }
        answer
    }),
    // ---- "A new page must read as zeros"; those that leave an old byte show in two runs too
    ("touch leaves the old bytes", |m, answer| {
        if answer.kind == NEW {
            m.leave(|_| 0..m.sizes.page as usize);
        }
        answer
    }),
    ("touch leaves the last old byte", |m, answer| {
        if answer.kind == NEW {
            let page = m.sizes.page as usize;
            m.leave(|_| page - 1..page);
        }
        answer
    }),
    (
        "touch leaves the old bytes behind the first 256",
        |m, answer| {
            if answer.kind == NEW {
                m.leave(|_| 256..m.sizes.page as usize);
            }
            answer
        },
    ),
    (
        "touch leaves the old bytes of a frame never given",
        |m, answer| {
            if answer.kind == NEW && m.head.many == 0 {
                m.leave(|_| 0..m.sizes.page as usize);
            }
            answer
        },
    ),
    ("touch clears no frame that was given back", |m, answer| {
        if answer.kind == NEW && m.head.many > 0 {
            m.leave(|_| 0..m.sizes.page as usize);
        }
        answer
    }),
    (
        "touch leaves the old bytes and clears the next frame",
        |m, answer| {
            if answer.kind == NEW && answer.value + 1 < m.sizes.frames {
                m.leave(|_| 0..m.sizes.page as usize);
                m.frame(answer.value as usize + 1).fill(0);
            }
            answer
        },
    ),
    ("touch clears a byte more", |m, answer| {
        if answer.kind == NEW && answer.value + 1 < m.sizes.frames {
            m.frame(answer.value as usize + 1)[0] = 0;
        }
        answer
    }),
    ("touch clears a byte of the RAM's excess", |m, answer| {
        let is_last = answer.kind == NEW && answer.value + 1 == m.sizes.frames;
        if is_last && m.has_excess(RAM) {
            let end = m.sizes.needed()[RAM] as usize;
            unsafe { m.loan.at[RAM].add(end).write_volatile(0) };
        }
        answer
    }),
    ("touch of a resident page clears it", |m, answer| {
        if answer.kind == OLD {
            m.frame(answer.value as usize).fill(0);
        }
        answer
    }),
    ("touch clears a frame and is refused", |m, answer| {
        if let (Ask::Touch(..), 4, Some((frame, _))) = (m.ask, answer.kind, m.next.first()) {
            m.frame(*frame).fill(0);
        }
        answer
    }),
    (
        "touch doesn't ask how long the RAM is",
        |m, answer| match m.ask {
            Ask::Touch(..) if answer.kind == 1 && m.passes(|b| b != RAM) => m.with(RAM),
            _ => answer,
        },
    ),
    (
        "touch of a resident page takes any RAM",
        |m, answer| match *m.ask {
            Ask::Touch(space, page) if answer.kind == 1 && m.passes(|b| b != RAM) => {
                let look = unsafe { ask_library(&Ask::Look(space, page), m.loan) };
                let kind = if look.kind == RESIDENT {
                    OLD
                } else {
                    return answer;
                };
                Answer { kind, ..look }
            }
            _ => answer,
        },
    ),
    (
        "touch answers 3 before it asks for the RAM",
        |m, answer| match *m.ask {
            Ask::Touch(space, page) if answer.kind == 1 && m.sizes.within_limits() => {
                let is_short = (0..RAM).any(|b| !m.is_lent(b));
                let is_three = space < m.sizes.spaces && page >= m.sizes.pages && !is_short;
                if is_three {
                    refusal(3)
                } else {
                    answer
                }
            }
            _ => answer,
        },
    ),
    ("write leaves the old bytes", |m, answer| {
        if let (Ask::Write(..), DONE) = (m.ask, answer.kind) {
            m.leave(|_| 0..m.sizes.page as usize);
        }
        answer
    }),
    ("write leaves the old bytes before its span", |m, answer| {
        if let (Ask::Write(..), DONE) = (m.ask, answer.kind) {
            m.leave(|k| 0..if k == 0 { m.ends().0 } else { 0 });
        }
        answer
    }),
    ("write leaves the old bytes behind its span", |m, answer| {
        if let (Ask::Write(..), DONE) = (m.ask, answer.kind) {
            let (last, page) = (m.taken().len(), m.sizes.page as usize);
            m.leave(|k| {
                if k + 1 == last {
                    m.ends().1..page
                } else {
                    page..page
                }
            });
        }
        answer
    }),
    ("write leaves the last old byte", |m, answer| {
        if let (Ask::Write(..), DONE) = (m.ask, answer.kind) {
            let page = m.sizes.page as usize;
            m.leave(|_| page - 1..page);
        }
        answer
    }),
    ("write clears after it has stored", |m, answer| {
        if let (Ask::Write(..), DONE) = (m.ask, answer.kind) {
            m.taken()
                .iter()
                .for_each(|(frame, _)| m.frame(*frame).fill(0));
        }
        answer
    }),
    ("write clears a resident page of its span", |m, answer| {
        if let (Ask::Write(..), DONE, Some(frame)) = (m.ask, answer.kind, m.resident.last()) {
            m.frame(*frame).fill(0);
            m.store();
        }
        answer
    }),
    (
        "write that maps clears a resident page of its span",
        |m, answer| {
            if let (Ask::Write(..), DONE, Some(frame)) = (m.ask, answer.kind, m.resident.first()) {
                if !m.taken().is_empty() {
                    m.frame(*frame).fill(0);
                    m.store();
                }
            }
            answer
        },
    ),
    ("write clears a frame and is refused", |m, answer| {
        if let (Ask::Write(..), 8, Some((frame, _))) = (m.ask, answer.kind, m.next.first()) {
            m.frame(*frame).fill(0);
        }
        answer
    }),
    ("write that maps nothing clears a frame", |m, answer| {
        if let (Ask::Write(..), DONE, Some((frame, _))) = (m.ask, answer.kind, m.next.first()) {
            if m.taken().is_empty() {
                m.frame(*frame).fill(0);
            }
        }
        answer
    }),
];

pub fn names() -> Vec<&'static str> {
    FAULTS.iter().map(|(name, _)| *name).collect()
}

// The number of the one that is tried.
fn tried() -> usize {
    static ONCE: OnceLock<usize> = OnceLock::new();
    *ONCE.get_or_init(|| {
        let number = std::env::var("TRIALS_FAULT").ok();
        number
            .and_then(|number| number.parse().ok())
            .expect("TRIALS_FAULT is no number")
    })
}

// Safety: as the library's own calls.
pub unsafe fn make(ask: &Ask, loan: &Loan) -> Answer {
    let made = Made::new(ask, loan);
    let answer = ask_library(ask, loan);
    FAULTS[tried()].1(&made, answer)
}
