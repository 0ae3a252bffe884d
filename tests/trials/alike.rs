// Two runs of the same calls from the same starts, on two memories that hold different things before each start. W-201: "no answer
// since a start depends on the RAM's starting contents", and document 01 lets five tables hold anything: so every answer, every byte
// read and every record is the same in both. The plain machine leads the draw and has no say: what it and the pager both had wrong
// shows here.
use crate::anything::{Anything, OWN, PARTS};
use crate::draw::Draw;
use crate::entrance::{self, Answer, Head};
use crate::garbage::KINDS;
use crate::memory::RAM;
use crate::plain::{Ask, Call, Lent, Machine, Sizes};
use crate::runs::drawn_sizes;
use crate::tally::line;
use crate::traffic::{favourites, Mix, Traffic, HUNGRY, MIXED, SPANS};
use crate::watch;
use std::collections::{HashMap, HashSet};

// How a page came to a frame whose bytes differed between the memories: by which call, and whether after a later start.
#[derive(Clone, Copy, Debug, PartialEq, Eq, Hash)]
pub enum Way {
    Touched,
    Written,
    TouchedAfterALaterStart,
    WrittenAfterALaterStart,
}

const WAYS: [Way; 4] = [
    Way::Touched,
    Way::Written,
    Way::TouchedAfterALaterStart,
    Way::WrittenAfterALaterStart,
];

#[derive(Default)]
pub struct Met {
    pub calls: u64,
    pub runs: u64,
    // reads of pages that came to such a frame
    pub reads: u64,
    ways: HashSet<Way>,
}

impl Met {
    // The ways by which no page came that was read.
    pub fn missing(&self) -> Vec<Way> {
        WAYS.into_iter()
            .filter(|way| !self.ways.contains(way))
            .collect()
    }
}

struct Pair<'a> {
    seed: u64,
    machine: Machine,
    traffic: Traffic,
    memories: [Anything; 2],
    // the bytes of the longest buffer of a call's own
    most_own: usize,
    // frames of resident pages whose bytes differed when they were mapped
    differed: HashMap<u64, Way>,
    starts: u64,
    met: &'a mut Met,
}

pub fn play(seed: u64, met: &mut Met) -> Result<(), String> {
    let mut draw = Draw::new(seed ^ 0xA11C_E000);
    let sizes = drawn_sizes(&mut draw);
    let mut pair = Pair::new(seed, draw, sizes, met);
    pair.begin(sizes)?;
    pair.stretch()?;
    for _ in 0..2 {
        let sizes = pair.traffic.other_sizes(&pair.memories[0].lent);
        pair.begin(sizes)?;
        pair.stretch()?;
    }
    Ok(())
}

impl Pair<'_> {
    fn new(seed: u64, mut draw: Draw, sizes: Sizes, met: &mut Met) -> Pair<'_> {
        let longest = (draw.among(&[2, 10, 40]) * sizes.page).min(300_000);
        // room for every record, and for the largest page
        let most_own = (longest as usize)
            .max(12 * (sizes.places() as usize + 2))
            .max(65_536);
        let lent: Lent = sizes
            .needed()
            .map(|entries| entries + draw.among(&[0, 1, 17]));
        let memories = [(); 2].map(|()| {
            let ends: [bool; PARTS] = std::array::from_fn(|_| draw.once_in(2));
            Anything::new(lent, most_own, false, ends)
        });
        let favourites = favourites(&mut draw, &sizes);
        let traffic = Traffic {
            draw,
            first: sizes,
            favourites,
            is_careless: false,
            longest,
        };
        met.runs += 1;
        Pair {
            seed,
            machine: Machine::new(vec![0; lent[RAM] as usize]),
            traffic,
            memories,
            most_own,
            differed: HashMap::new(),
            starts: 0,
            met,
        }
    }

    // ---- what the memories hold before a start

    // All of one memory anew: its RAM all zeros or all ones, or any bytes.
    fn fill(&mut self, which: usize, sizes: &Sizes, is_even: bool) {
        let (draw, memory) = (&mut self.traffic.draw, &mut self.memories[which]);
        let starts = favourites(draw, sizes);
        let kind = draw.among(&KINDS);
        let words = kind.words(draw, sizes, &starts);
        for part in 0..RAM {
            memory.fill_words(draw, part, &words);
        }
        let bytes = memory.bytes(RAM);
        let ram = match is_even {
            true => vec![[0, 0xFF][which]; bytes],
            false => draw.bytes(bytes as u64),
        };
        memory.fill(RAM, 0, &ram);
    }

    fn begin(&mut self, sizes: Sizes) -> Result<(), String> {
        let is_first = self.starts == 0;
        let (is_kept, is_even) = (self.traffic.draw.once_in(3), self.traffic.draw.once_in(2));
        // else a later start is on what the calls left, and frames of no page are as different as they were
        if is_first || !is_kept {
            for which in 0..2 {
                self.fill(which, &sizes, is_even);
            }
        }
        if is_first {
            for memory in &mut self.memories {
                memory.set_head(Head::default());
            }
        }
        while self.ask(Ask::Start(sizes))?.is_refusal() {}
        self.traffic.favourites = favourites(&mut self.traffic.draw, &sizes);
        Ok(())
    }

    // ---- the calls

    fn stretch(&mut self) -> Result<(), String> {
        for _ in 0..8 {
            let ask = self.traffic.mark(&self.machine);
            self.ask(ask)?;
        }
        for mix in [&MIXED, &SPANS, &HUNGRY, &SPANS] {
            self.drawn(100, mix)?;
            self.read_new()?;
        }
        Ok(())
    }

    fn drawn(&mut self, many: u64, mix: &Mix) -> Result<(), String> {
        for _ in 0..many {
            self.traffic.is_careless = self.traffic.draw.once_in(20);
            let ask = self.traffic.ask(&self.machine, &self.memories[0].lent, mix);
            self.ask(ask)?;
        }
        self.traffic.is_careless = false;
        Ok(())
    }

    // Some pages whose frames held different bytes, whole: the first byte that is left of them shows.
    fn read_new(&mut self) -> Result<(), String> {
        let sizes = self.machine.sizes();
        let pairs = self.machine.lists().values().flatten();
        let new = pairs.filter(|(_, frame)| self.differed.contains_key(frame));
        let places: Vec<u64> = new.map(|pair| pair.0).take(20).collect();
        for place in places {
            let (space, page) = (place / sizes.pages, place % sizes.pages);
            self.ask(Ask::Read(space, page * sizes.page, sizes.page))?;
        }
        Ok(())
    }

    fn ask(&mut self, ask: Ask) -> Result<Answer, String> {
        let lent = self.memories[0].lent;
        let call = self.traffic.lend(&self.machine, &lent, &lent, ask);
        let own = match &call.ask {
            Ask::Read(_, _, count) => *count as usize,
            Ask::Write(_, _, bytes) => bytes.len(),
            Ask::List(_, room) => 12 * *room as usize,
            _ => 0,
        };
        // a read that no space has bytes enough for is lent what no call may look at
        let is_there = own <= self.most_own;
        let own = if is_there { own } else { 0 };
        let bytes = match &call.ask {
            Ask::Write(_, _, bytes) => bytes.clone(),
            _ => vec![0x5A; own],
        };
        for memory in &mut self.memories {
            memory.lay_own(own);
            memory.fill(OWN, memory.own, &bytes);
        }
        let different = self.different(&call);
        let tell = || self.tell(&call);
        let answers = self.memories.each_ref().map(|memory| {
            let mut loan = memory.loan();
            loan.lent = call.lent;
            if !is_there {
                loan.own = watch::unreachable();
            }
            watch::during(&tell, || unsafe { entrance::make(&call.ask, &loan) })
        });
        if answers[0] != answers[1] {
            return Err(format!("{}: answered {answers:?}", tell()));
        }
        let [one, other] = self.memories.each_ref().map(|memory| memory.own(own));
        if let Some(at) = (0..own).find(|at| one[*at] != other[*at]) {
            let (one, other) = (one[at], other[at]);
            return Err(format!(
                "{}: byte {at} of its buffer is {one:02x} and {other:02x}",
                tell()
            ));
        }
        self.note(&call, &answers[0], different);
        Ok(answers[0])
    }

    fn tell(&self, call: &Call) -> String {
        let heads = self.memories.each_ref().map(Anything::head);
        let (seed, made) = (self.seed, self.met.calls);
        let (ask, lent) = (line(&call.ask), call.lent);
        format!("two runs, seed {seed}, call {made}: {ask}, lent {lent:?}, {heads:?}")
    }

    // ---- what it came to

    // The frames that a call can map, each with whether its bytes differ between the memories.
    fn different(&self, call: &Call) -> Vec<(u64, bool)> {
        let sizes = self.machine.sizes();
        let pages = match &call.ask {
            Ask::Touch(..) => 1,
            Ask::Write(_, address, bytes) if call.check(&sizes).is_ok() => {
                sizes.span(*address, bytes.len() as u64).count()
            }
            _ => 0,
        };
        let [one, other] = self.memories.each_ref().map(|memory| memory.now(RAM));
        let frames = self.machine.pool().iter().take(pages);
        let is_different = |frame: &u64| {
            let bytes = self.machine.bytes_of(*frame);
            (*frame, one[bytes.clone()] != other[bytes])
        };
        frames.map(is_different).collect()
    }

    fn note(&mut self, call: &Call, answer: &Answer, different: Vec<(u64, bool)>) {
        let pool = self.machine.pool().len();
        self.machine.play(call);
        self.met.calls += 1;
        let taken = pool.saturating_sub(self.machine.pool().len());
        let way = match (&call.ask, self.starts > 1) {
            (Ask::Touch(..), false) => Way::Touched,
            (Ask::Touch(..), true) => Way::TouchedAfterALaterStart,
            (_, false) => Way::Written,
            (_, true) => Way::WrittenAfterALaterStart,
        };
        match &call.ask {
            Ask::Start(_) if answer.kind == entrance::DONE => {
                self.starts += 1;
                self.differed.clear();
            }
            Ask::Touch(..) | Ask::Write(..) => {
                for (frame, is_different) in different.into_iter().take(taken) {
                    self.differed.remove(&frame);
                    if is_different {
                        self.differed.insert(frame, way);
                    }
                }
            }
            Ask::Read(space, address, count) if answer.kind == entrance::BYTES => {
                let parts = self
                    .machine
                    .parts(*space, *address, *count)
                    .unwrap_or_default();
                let size = self.machine.sizes().page;
                let ways = parts
                    .iter()
                    .filter_map(|part| self.differed.get(&(part.start as u64 / size)));
                let ways: Vec<Way> = ways.copied().collect();
                self.met.reads += u64::from(!ways.is_empty());
                self.met.ways.extend(ways);
            }
            _ => {}
        }
    }
}
