// What the trials came to: every answer that document 01 or 02 gives a call must have been given, or
// the trials say too little.
use crate::entrance::{
    Answer, ABSENT, AT, BYTES, DONE, FRAMES, MAP, NEW, OLD, PAGES, REGIONS, RESIDENT,
};
use crate::memory::RAM;
use crate::plain::{Ask, Call, Sizes};
use std::collections::HashSet;

pub const CALLS: [&str; 13] = [
    "start",
    "mark",
    "drop",
    "touch",
    "look",
    "release",
    "free",
    "translate",
    "read",
    "write",
    "list",
    "give_back",
    "write_map",
];

pub fn which(ask: &Ask) -> usize {
    match ask {
        Ask::Start(..) => 0,
        Ask::Mark(..) => 1,
        Ask::Drop(..) => 2,
        Ask::Touch(..) => 3,
        Ask::Look(..) => 4,
        Ask::Release(..) => 5,
        Ask::Free => 6,
        Ask::Translate(..) => 7,
        Ask::Read(..) => 8,
        Ask::Write(..) => 9,
        Ask::List(..) => 10,
        Ask::GiveBack(..) => 11,
        Ask::WriteMap(_) => 12,
    }
}

// The answers of each call on memory that the calls left: "Refusal numbers", then what it answers.
pub const ANSWERS: [&[u32]; 13] = [
    &[1, DONE],
    &[1, 2, 3, 6, 7, DONE],
    &[1, 2, 3, 5, 7, DONE],
    &[1, 2, 3, 4, 8, OLD, NEW],
    &[1, 2, 3, 4, RESIDENT, ABSENT],
    &[1, 2, 3, 5, PAGES],
    &[1, FRAMES],
    &[1, 2, 3, 4, 10, AT],
    &[1, 2, 3, 4, 10, BYTES],
    &[1, 2, 3, 4, 8, DONE],
    &[1, 2, 11, REGIONS],
    &[1, 2, 3, 4, 10, DONE],
    &[1, 13, MAP],
];

// "1 + 2u words .. If no such start exists it reads L": what touch and look can report with L layers.
const WORDS: [&[u32]; 3] = [&[1], &[1, 2, 3], &[1, 3, 5]];

pub const PAGE_SIZES: [u64; 9] = [256, 512, 1_024, 2_048, 4_096, 8_192, 16_384, 32_768, 65_536];
pub const SPACES: [u64; 5] = [1, 2, 3, 7, 64];
pub const PLACES: [u64; 6] = [1, 64, 65, 4_096, 4_097, 262_144];

// Whether a call is refused with 1 for its RAM, and would be refused with none of 1 to 3 otherwise.
pub fn lacks_ram_alone(call: &Call, sizes: &Sizes) -> bool {
    let is_short = |b: &usize| call.lent[*b] < call.ask.is_lent()[*b] * sizes.needed()[*b];
    sizes.within_limits()
        && (0..8).filter(is_short).eq([RAM])
        && call.ask.space().is_some_and(|space| space < sizes.spaces)
        && call.ask.is_inside(sizes)
}

// How a call reads in a report.
pub fn line(ask: &Ask) -> String {
    let name = CALLS[which(ask)];
    match ask {
        Ask::Start(s) => format!("{name} {} {} {} {}", s.spaces, s.pages, s.frames, s.page),
        Ask::Mark(space, page) | Ask::Drop(space, page) => format!("{name} {space} {page}"),
        Ask::Touch(space, page) | Ask::Look(space, page) => format!("{name} {space} {page}"),
        Ask::Release(space, page) | Ask::GiveBack(space, page) => format!("{name} {space} {page}"),
        Ask::Free => name.to_string(),
        Ask::Translate(space, address) => format!("{name} {space} {address}"),
        Ask::Read(space, address, count) => format!("{name} {space} {address}, {count} bytes"),
        Ask::Write(space, address, bytes) => {
            format!("{name} {space} {address}, {} bytes", bytes.len())
        }
        Ask::List(space, room) => format!("{name} {space}, room for {room}"),
        Ask::WriteMap(room) => format!("{name}, room for {room} bytes"),
    }
}

// What can come about, and must.
#[derive(Clone, Copy, Debug, PartialEq, Eq, Hash)]
pub enum Seen {
    // a call's answer of a kind
    Answer(&'static str, u32),
    // a call before any start
    Unstarted(&'static str),
    // a call refused for one entry of one buffer, by the buffer's number
    Short(&'static str, usize),
    // a call with two reasons to be refused: "the first that applies is answered"
    Both(&'static str, u32, u32),
    // index words reported, by the number of layers
    Words(usize, u32),
    // sizes of an accepted start
    PageSize(u64),
    Spaces(u64),
    Places(u64),
    Frames(u64),
    Case(Case),
}

// One list makes the cases and what must have been met of them, so that none is left out of it.
macro_rules! cases {
    ($($case:ident,)*) => {
        #[derive(Clone, Copy, Debug, PartialEq, Eq, Hash)]
        pub enum Case {
            $($case,)*
        }

        const CASES: &[Case] = &[$(Case::$case,)*];
    };
}

cases! {
    // at full size
    AllFramesReleasedAtOnce,
    TenThousandRecords,
    FiveThousandPagesRead,
    FiveThousandPagesWritten,
    ThreeThousandPagesMappedByAWrite,
    NoFrameOf65536,
    // later reasons that don't count
    MarkedAgainWithResidentPages,
    DroppedNoStartWithResidentPages,
    TouchedOutsideWithoutFrames,
    WroteOutsideWithoutFrames,
    ListedNoSpaceWithoutRoom,
    // edges of what is accepted
    WroteWithTheLastFrame,
    TooFewFramesForAWrite,
    ReadUpToAnAbsentPage,
    EmptyReadAtTheEnd,
    EmptyWriteAtTheEnd,
    EmptyReadOutside,
    EmptyWriteOutside,
    EmptyReadBeyondTheEnd,
    EmptyWriteBeyondTheEnd,
    EmptyRegionReleased,
    NoRecordForNoRegion,
    JustEnoughRecords,
    MoreRecordsThanRegions,
    OneRecordTooFew,
    FarBeyondTheSpace,
    // "all P bytes of its frame are set to 0": where other bytes stood, so that it shows
    TouchedOverOldBytes,
    MappedOverOldBytesAfterALaterStart,
    WroteBehindOldBytes,
    WroteBeforeOldBytes,
    // and where none may be cleared
    WroteBesideOldBytesAndMapped,
    RefusedWriteWithOldBytesToClear,
    // "1 also when the RAM lent to touch is too short"
    ResidentPageTouchedWithoutItsRam,
    // where in its region's list a page stood that was handed back
    HandedBackTheOldest,
    HandedBackInTheMiddle,
    HandedBackBeforeTheNewest,
    HandedBackTheOlderOfTwo,
    HandedBackTheNewest,
    HandedBackTheOnlyOne,
    HandedBackAmong65536,
    // and what came after it
    ReleasedInAnotherOrderThanMapped,
    TouchedTheFrameHandedBack,
    MarkedInARegionEmptiedByAHandBack,
    DroppedAfterItsLastPageWasHandedBack,
    // an empty pool is no reason
    HandedBackAbsentWithoutFrames,
}

#[derive(Default)]
pub struct Tally {
    pub calls: u64,
    pub runs: u64,
    seen: HashSet<Seen>,
}

impl Tally {
    pub fn case(&mut self, case: Case, is_so: bool) {
        if is_so {
            self.seen.insert(Seen::Case(case));
        }
    }

    pub fn count(&mut self, call: &Call, answer: &Answer, now: &Sizes) {
        let name = CALLS[which(&call.ask)];
        self.calls += 1;
        self.seen.insert(Seen::Answer(name, answer.kind));
        if now.spaces == 0 {
            self.seen.insert(Seen::Unstarted(name));
        }
        let sizes = if let Ask::Start(sizes) = &call.ask {
            sizes
        } else {
            now
        };
        if answer.kind <= 2 && sizes.within_limits() {
            self.count_reasons(call, answer.kind, sizes);
        }
        if let (Ask::Start(sizes), DONE) = (&call.ask, answer.kind) {
            self.seen.insert(Seen::PageSize(sizes.page));
            self.seen.insert(Seen::Spaces(sizes.spaces));
            self.seen.insert(Seen::Places(sizes.places()));
            self.seen.insert(Seen::Frames(sizes.frames));
        }
        if matches!(call.ask, Ask::Touch(..) | Ask::Look(..)) {
            let borders = [64, 4_096].into_iter();
            let layers = 1 + borders.filter(|most| *most < now.places()).count();
            self.seen.insert(Seen::Words(layers, answer.words));
        }
    }

    // Of a call refused with 1 or 2: the buffer that is short, and what else is amiss.
    fn count_reasons(&mut self, call: &Call, kind: u32, sizes: &Sizes) {
        let name = CALLS[which(&call.ask)];
        let (is_lent, needed) = (call.ask.is_lent(), sizes.needed());
        let is_short = |b: &usize| call.lent[*b] < is_lent[*b] * needed[*b];
        let short: Vec<usize> = (0..8).filter(is_short).collect();
        if let ([b], 1) = (&short[..], kind) {
            if call.lent[*b] + 1 == needed[*b] {
                self.seen.insert(Seen::Short(name, *b));
            }
        }
        if kind == 1 && call.ask.space().is_some_and(|space| sizes.spaces <= space) {
            self.seen.insert(Seen::Both(name, 1, 2));
        }
        if !call.ask.is_inside(sizes) {
            self.seen.insert(Seen::Both(name, kind, 3));
        }
    }

    // What never came about.
    pub fn missing(&self) -> Vec<Seen> {
        let mut wanted = wanted();
        wanted.retain(|one| !self.seen.contains(one));
        wanted
    }
}

fn wanted() -> Vec<Seen> {
    let mut wanted: Vec<Seen> = CASES.iter().copied().map(Seen::Case).collect();
    for ask in examples() {
        let name = CALLS[which(&ask)];
        let answers = ANSWERS[which(&ask)];
        wanted.extend(answers.iter().map(|kind| Seen::Answer(name, *kind)));
        wanted.push(Seen::Unstarted(name));
        let lent = (0..8).filter(|b| ask.is_lent()[*b] == 1);
        wanted.extend(lent.map(|b| Seen::Short(name, b)));
        let mut both = |first, second| {
            if answers.contains(&first) && answers.contains(&second) {
                wanted.push(Seen::Both(name, first, second));
            }
        };
        both(1, 2);
        both(1, 3);
        both(2, 3);
    }
    for (k, words) in WORDS.iter().enumerate() {
        wanted.extend(words.iter().map(|many| Seen::Words(k + 1, *many)));
    }
    wanted.extend(PAGE_SIZES.map(Seen::PageSize));
    wanted.extend(SPACES.map(Seen::Spaces));
    wanted.extend(PLACES.map(Seen::Places));
    wanted.extend([1, 65_536].map(Seen::Frames));
    wanted
}

// One of each call.
fn examples() -> [Ask; 12] {
    let sizes = Sizes {
        spaces: 1,
        pages: 1,
        frames: 1,
        page: 256,
    };
    [
        Ask::Start(sizes),
        Ask::Mark(0, 0),
        Ask::Drop(0, 0),
        Ask::Touch(0, 0),
        Ask::Look(0, 0),
        Ask::Release(0, 0),
        Ask::Free,
        Ask::Translate(0, 0),
        Ask::Read(0, 0, 0),
        Ask::Write(0, 0, Vec::new()),
        Ask::List(0, 0),
        Ask::GiveBack(0, 0),
    ]
}
