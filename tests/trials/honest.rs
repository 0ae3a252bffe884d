// One honest trial: the same calls for the pager and for the plain machine, on memory that held
// garbage before the start. Answers, buffers and what each call changed are compared after every one.
use crate::cases::Handed;
use crate::draw::Draw;
use crate::entrance::{self, Answer, Loan, DONE};
use crate::garbage::{index_of, Garbage};
use crate::memory::{Allowed, Memory, BYTES, COUNT, HEAD, HELPER, INDEX, LINK, PARTS};
use crate::memory::{READ, RECORDS, STACK};
use crate::plain::{self, Ask, Call, Machine, Sizes};
use crate::tally::{line, Tally};
use crate::traffic::{favourites, Mix, Traffic};
use crate::watch;

// What a trial is made of.
#[derive(Clone, Copy)]
pub struct Plan {
    pub seed: u64,
    pub sizes: Sizes,
    pub garbage: Garbage,
    // the excess of every buffer is inaccessible, else a pattern
    pub unreachable: bool,
    pub longest: u64,
}

pub struct Trial<'a> {
    pub plan: Plan,
    pub machine: Machine,
    pub memory: Memory,
    pub traffic: Traffic,
    pub tally: &'a mut Tally,
    pub calls: u64,
    // starts that were accepted
    pub starts: u64,
    // what hand-backs have left
    pub handed: Handed,
}

// A page that a call hands back: the list of its region before that, by the region's start, and the page's position there.
pub struct Hand {
    pub start: u64,
    pub list: Vec<(u64, u64)>,
    pub position: usize,
}

// The head's numbers of the pool that a hand-back changes.
const FIRST: u64 = 4;
const MANY: u64 = 5;

// The plain machine's answer, as the entrance gives it.
fn told(answer: &plain::Answer, count: u64) -> Answer {
    use plain::Answer::*;
    let (kind, words, value) = match answer {
        Done => (entrance::DONE, 0, 0),
        Old(frame) => (entrance::OLD, 0, *frame),
        New(frame, words) => (entrance::NEW, *words, *frame),
        Resident(frame) => (entrance::RESIDENT, 0, *frame),
        Absent(words) => (entrance::ABSENT, *words, 0),
        Pages(many) => (entrance::PAGES, 0, *many),
        Free(many) => (entrance::FRAMES, 0, *many),
        At(place) => (entrance::AT, 0, *place),
        Bytes(_) => (entrance::BYTES, 0, count),
        Regions(regions) => (entrance::REGIONS, 0, regions.len() as u64),
        Map(file) => (entrance::MAP, 0, file.len() as u64),
        Refused(number, words) => (*number as u32, words.unwrap_or(0), 0),
    };
    let words = words as u32;
    Answer { kind, words, value }
}

// The seven numbers of a head before any start: no spaces, whatever else it holds.
fn head_before(draw: &mut Draw, sizes: &Sizes) -> [u32; 7] {
    if draw.once_in(2) {
        return [0; 7];
    }
    let [pages, frames, shift] = [sizes.pages, sizes.frames, sizes.page.ilog2().into()];
    let [first, many, fresh] = [32; 3].map(|bits| draw.any_size(bits));
    [0, pages, frames, shift, first, many, fresh].map(|number| number as u32)
}

impl Trial<'_> {
    pub fn new(plan: Plan, tally: &mut Tally) -> Trial<'_> {
        let mut draw = Draw::new(plan.seed);
        let mut memory = Memory::new(&mut draw, &plan.sizes, plan.longest, plan.unreachable);
        let favourites = favourites(&mut draw, &plan.sizes);
        let words = plan.garbage.words(&mut draw, &plan.sizes, &favourites);
        let head = head_before(&mut draw, &plan.sizes);
        let ram = memory.fill(&mut draw, &words, head);
        let traffic = Traffic {
            draw,
            first: plan.sizes,
            favourites,
            is_careless: false,
            longest: plan.longest,
        };
        tally.runs += 1;
        Trial {
            plan,
            machine: Machine::new(ram),
            memory,
            traffic,
            tally,
            calls: 0,
            starts: 0,
            handed: Handed::default(),
        }
    }

    // ---- calls

    // Calls of a mix; one in so many is likely to be amiss in several ways.
    pub fn drawn(&mut self, many: u64, mix: &Mix) -> Result<(), String> {
        for _ in 0..many {
            self.traffic.is_careless = self.traffic.draw.once_in(20);
            let ask = self.traffic.ask(&self.machine, &self.memory.most, mix);
            self.ask(ask)?;
        }
        self.traffic.is_careless = false;
        Ok(())
    }

    pub fn ask(&mut self, ask: Ask) -> Result<Answer, String> {
        let Memory { most, real, .. } = &self.memory;
        let call = self.traffic.lend(&self.machine, most, real, ask);
        self.call(call)
    }

    fn tell(&self, call: &Call) -> String {
        let Plan {
            seed,
            sizes,
            garbage,
            ..
        } = self.plan;
        let Sizes {
            spaces,
            pages,
            frames,
            page,
        } = sizes;
        let of = format!("sizes {spaces} {pages} {frames} {page}, {garbage:?}");
        format!(
            "honest seed {seed} ({of}), call {}: {}, lent {:?}",
            self.calls,
            line(&call.ask),
            call.lent
        )
    }

    // The memory that a call is lent, its own buffer of so many bytes included.
    fn loan(&mut self, call: &Call) -> Loan {
        let (part, bytes) = match &call.ask {
            Ask::Write(_, _, bytes) => {
                self.memory.lay_down(bytes);
                (BYTES, bytes.len() as u64)
            }
            Ask::List(_, room) => (RECORDS, self.memory.own_records(*room)),
            Ask::Read(_, _, count) if self.memory.has_own(READ, *count) => (READ, *count),
            _ => (READ, 0),
        };
        let mut loan = self.memory.loan(call.lent, part, bytes);
        if matches!(&call.ask, Ask::Read(_, _, count) if !self.memory.has_own(READ, *count)) {
            loan.own = watch::unreachable();
        }
        loan
    }

    pub fn call(&mut self, call: Call) -> Result<Answer, String> {
        let loan = self.loan(&call);
        let before = self.machine.sizes();
        let pool = self.machine.pool().len();
        let (old, hand) = (self.old(&call), self.hand(&call));
        let answer = watch::during(&|| self.tell(&call), || unsafe {
            entrance::make(&call.ask, &loan)
        });
        let should = self.machine.play(&call);
        let count = if let Ask::Read(_, _, count) = call.ask {
            count
        } else {
            0
        };
        if answer != told(&should, count) {
            let should = told(&should, count);
            return Err(format!(
                "{}: pager {answer:?}, plain machine {should:?}",
                self.tell(&call)
            ));
        }
        let new = pool.saturating_sub(self.machine.pool().len());
        self.expect(&call, &should, new);
        hand.iter().for_each(|hand| self.expect_hand_back(hand));
        let allowed = self.allowed(&call, &answer, new);
        let same = self.memory.compare(self.machine.ram(), &allowed);
        same.and_then(|()| self.sizes_held())
            .map_err(|e| format!("{}: {e}", self.tell(&call)))?;
        self.tally.count(&call, &answer, &before);
        self.starts += u64::from(matches!((&call.ask, answer.kind), (Ask::Start(_), DONE)));
        self.note(&call, &answer, pool as u64, &old);
        self.note_after_hand_backs(&call, &answer);
        hand.iter().for_each(|hand| self.note_hand_back(hand));
        self.calls += 1;
        Ok(answer)
    }

    // What a call is about to hand back, if it is accepted.
    fn hand(&self, call: &Call) -> Option<Hand> {
        let sizes = self.machine.sizes();
        let (Ask::GiveBack(space, page), Ok(())) = (&call.ask, call.check(&sizes)) else {
            return None;
        };
        let place = sizes.place(*space, *page);
        let start = self.machine.region(place)?;
        let list = self.machine.list_of(start).to_vec();
        let position = list.iter().position(|pair| pair.0 == place)?;
        Some(Hand {
            start,
            list,
            position,
        })
    }

    // ---- what the memory should hold after a call

    // After a call that mapped so many pages.
    fn expect(&mut self, call: &Call, answer: &plain::Answer, new: usize) {
        match (&call.ask, answer) {
            (_, plain::Answer::Refused(..)) => {}
            (Ask::Start(sizes), _) => {
                self.memory.expect_zeros(INDEX, sizes.needed()[INDEX]);
                self.memory.expect_zeros(COUNT, sizes.places());
            }
            (Ask::Mark(space, page) | Ask::Drop(space, page), _) => {
                self.expect_index(self.machine.sizes().place(*space, *page));
            }
            (Ask::Touch(space, page) | Ask::Release(space, page), _) => {
                self.expect_counts(*space, *page..page + 1);
                if let plain::Answer::New(frame, _) = answer {
                    self.memory.expect_ram(self.machine.bytes_of(*frame));
                }
            }
            (Ask::Read(_, _, count), plain::Answer::Bytes(bytes)) => {
                self.memory.expect_own(READ, *count, bytes);
            }
            (Ask::Write(space, address, bytes), _) => {
                self.expect_write(*space, *address, bytes.len() as u64, new)
            }
            (Ask::List(_, room), plain::Answer::Regions(regions)) => {
                self.expect_records(*room, regions)
            }
            _ => {}
        }
    }

    // "each layer above has one bit for each word below, set when that word isn't 0": the word of
    // each layer that a place is in.
    fn expect_index(&mut self, place: u64) {
        let starts = self.machine.starts();
        let (mut before, mut bits, mut unit) = (0, self.machine.sizes().places(), 1);
        loop {
            let k = place / (64 * unit);
            let mut word = 0u64;
            let mut from = 64 * unit * k;
            while let Some(start) = starts.range(from..64 * unit * (k + 1)).next() {
                word |= 1 << (start / unit % 64);
                from = (start / unit + 1) * unit;
            }
            self.memory.expect(INDEX, before + k, word);
            let words = bits.div_ceil(64);
            if words == 1 {
                return;
            }
            (before, bits, unit) = (before + words, words, 64 * unit);
        }
    }

    // The resident counts of the regions of some pages.
    fn expect_counts(&mut self, space: u64, pages: std::ops::Range<u64>) {
        let mut last = None;
        for page in pages {
            let start = self.machine.region(self.machine.sizes().place(space, page));
            if let (Some(start), true) = (start, start != last) {
                let many = self.machine.list_of(start).len() as u64;
                self.memory.expect(COUNT, start, many);
            }
            last = start;
        }
    }

    // W-205: "At most six table words and the head change". The stack has a region's pages from its start's entry on, the helper each
    // page's position there; a frame's link is the frame of the page before it, a free one's the next frame of the pool.
    fn expect_hand_back(&mut self, hand: &Hand) {
        let (memory, list) = (&mut self.memory, &hand.list);
        let (position, newest) = (hand.position as u64, list.len() - 1);
        let (frame, (page, last)) = (list[hand.position].1, list[newest]);
        memory.expect(COUNT, hand.start, newest as u64);
        // of the newest itself both are as they were
        memory.expect(HELPER, page, position);
        memory.expect(STACK, hand.start + position, page);
        if let Some((_, next)) = list.get(hand.position + 1) {
            let before = memory.should(LINK, frame);
            memory.expect(LINK, *next, last);
            // in this order: the next one may be the last
            memory.expect(LINK, last, before);
        }
        let [first, many] = [FIRST, MANY].map(|number| memory.should(HEAD, number));
        memory.expect(LINK, frame, first);
        memory.expect(HEAD, FIRST, frame);
        memory.expect(HEAD, MANY, many + 1);
    }

    // The span's bytes; of one that maps all bytes of its pages, for those around it are cleared.
    fn expect_write(&mut self, space: u64, address: u64, count: u64, new: usize) {
        let sizes = self.machine.sizes();
        let span = sizes.span(address, count);
        self.expect_counts(space, span.clone());
        let (first, many) = match new {
            0 => (address, count),
            _ => (
                span.start * sizes.page,
                (span.end - span.start) * sizes.page,
            ),
        };
        for part in self.machine.parts(space, first, many).unwrap() {
            self.memory.expect_ram(part);
        }
    }

    // "Records after the last stay unchanged"
    fn expect_records(&mut self, room: u64, regions: &[plain::Region]) {
        let numbers = regions.iter().flat_map(|r| [r.start, r.length, r.resident]);
        let bytes: Vec<u8> = numbers.flat_map(|n| (n as u32).to_le_bytes()).collect();
        self.memory
            .expect_own(RECORDS, self.memory.own_records(room), &bytes);
    }

    // "What a call may change", in the words that the program chooses. It chooses none of the RAM: the machine has each byte of it; nor
    // any of a hand-back's.
    fn allowed(&mut self, call: &Call, answer: &Answer, new: usize) -> Allowed {
        let mut words = [0; PARTS];
        // page table, helper, stack, region cache, frame link
        let chosen = 2..=LINK;
        match (&call.ask, answer.kind) {
            (_, 1..=11) => {}
            (Ask::Start(_), _) => words[HEAD] = 7,
            // "one word in each of the six tables"
            (Ask::Touch(..), entrance::NEW) => {
                words[HEAD] = 7;
                words[chosen].fill(1);
            }
            // "two table words (a resident count, a frame link)"
            (Ask::Release(..), _) => {
                words[HEAD] = 7;
                words[LINK] = 1;
            }
            // "the touches' words and the span's bytes"; an empty span "does nothing"
            (Ask::Write(_, _, bytes), _) if !bytes.is_empty() => {
                words[HEAD] = 7;
                words[chosen].fill(new);
            }
            _ => {}
        }
        let mut needed = [0; PARTS];
        for (b, entries) in self.machine.sizes().needed().into_iter().enumerate() {
            needed[b] = entries as usize;
        }
        needed[HEAD] = 7;
        Allowed { words, needed }
    }

    fn sizes_held(&self) -> Result<(), String> {
        let (head, sizes) = (self.memory.head(), self.machine.sizes());
        let numbers = |s: Sizes| [s.spaces, s.pages, s.frames, s.page];
        match sizes.spaces == 0 && head.spaces == 0 || numbers(head.sizes()) == numbers(sizes) {
            true => Ok(()),
            false => Err(format!("the head is {head:?}")),
        }
    }

    // All of the memory, with the whole index and every resident count by their rules.
    pub fn compare_all(&mut self) -> Result<(), String> {
        let sizes = self.machine.sizes();
        let starts: Vec<u64> = self.machine.starts().iter().copied().collect();
        if sizes.spaces > 0 {
            for (k, word) in index_of(&sizes, &starts).into_iter().enumerate() {
                self.memory.expect(INDEX, k as u64, word);
            }
            self.memory.expect_zeros(COUNT, sizes.places());
            for (start, list) in self.machine.lists() {
                self.memory.expect(COUNT, *start, list.len() as u64);
            }
        }
        let same = self.memory.compare_all(self.machine.ram());
        same.map_err(|e| {
            format!(
                "honest seed {}, after call {}: {e}",
                self.plan.seed, self.calls
            )
        })
    }
}
