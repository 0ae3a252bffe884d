// Trials on memory that no call left: any head, any index, any tables, any arguments. Document 01
// leaves the answers open there, but for this: "the call ends, nothing undefined, 1 to 3 exactly as
// stated, a refusal changes nothing"; and the bounds on what a call may change hold.
use crate::anything::{Anything, HEAD, OWN, PARTS};
use crate::draw::Draw;
use crate::entrance::{self, Answer, Head};
use crate::garbage::KINDS;
use crate::memory::{COUNT, HELPER, INDEX, LINK, NAMES, RAM, STACK, TABLE};
use crate::plain::{Ask, Call, Lent, Sizes};
use crate::tally::{lacks_ram_alone, line, which, ANSWERS};
use crate::traffic::favourites;
use crate::watch;
use std::collections::BTreeSet;
use std::ops::Range;

#[derive(Default)]
pub struct Count {
    pub calls: u64,
    pub rounds: u64,
    pub nines: u64,
    // by call: refused with 1 to 3, and got past them
    pub outcomes: [[u64; 2]; 12],
    // touches and writes that cleared bytes other than 0, and touches refused for the RAM alone
    pub cleared: [u64; 2],
    pub short: u64,
    // hand-backs: done, and refused with 4, 9 and 10
    pub handed: [u64; 4],
}

// The kinds of answer that are counted of hand-backs.
const HANDED: [u32; 4] = [entrance::DONE, 4, 9, 10];

// How large a round's memory is; tiny is for an address checker.
#[derive(Clone, Copy, Debug, PartialEq)]
pub enum Scale {
    Tiny,
    Small,
    Large,
}

pub fn play(seed: u64, scale: Scale, calls: u64, count: &mut Count) -> Result<(), String> {
    count.rounds += 1;
    let mut round = Round::new(seed, scale);
    for _ in 0..calls {
        if round.draw.once_in(4) {
            round.disturb();
        }
        round.call(count)?;
    }
    Ok(())
}

// ---- what is drawn before the first call

fn drawn_sizes(draw: &mut Draw, scale: Scale) -> Sizes {
    let any = draw.from_to(1, 300);
    let t = match scale {
        Scale::Tiny => draw.among(&[1, 5, 63, 64, 65, 130]),
        Scale::Small => draw.among(&[any, any, any, 1, 2, 64, 65, 4_096, 4_097, 5_000]),
        Scale::Large => draw.among(&[262_144, 262_143, 100_000]),
    };
    let spaces = draw.among(&[1, 1, 2, 3, 7, 64]).min(t);
    let page = match scale {
        Scale::Tiny => 256,
        _ => 256 << draw.weighed(&[30, 20, 10, 5, 5, 3, 2, 1, 1]),
    };
    let most = match scale {
        Scale::Tiny => 8,
        Scale::Small => (300_000 / page).max(2),
        Scale::Large => ((1 << 22) / page).min(65_536),
    };
    let few = draw.from_to(1, most.min(12));
    let any = draw.from_to(1, most);
    let frames = draw.among(&[few, few, any, most]);
    Sizes {
        spaces,
        pages: t / spaces,
        frames,
        page,
    }
}

// Mostly what the sizes need; else one entry or all of one buffer is missing, or there is more.
fn lengths(draw: &mut Draw, sizes: &Sizes) -> Lent {
    let mut lent = sizes.needed();
    let which = draw.below(8) as usize;
    match draw.below(12) {
        0..=1 => lent[which] -= 1,
        2 => lent[which] = draw.below(lent[which]),
        3 => lent[which] = 0,
        4..=5 => lent[which] += draw.from_to(1, 70),
        _ => {}
    }
    lent
}

struct Round {
    seed: u64,
    scale: Scale,
    draw: Draw,
    sizes: Sizes,
    memory: Anything,
    longest: u64,
    made: u64,
}

impl Round {
    fn new(seed: u64, scale: Scale) -> Round {
        let mut draw = Draw::new(seed);
        let sizes = drawn_sizes(&mut draw, scale);
        let is_tiny = scale == Scale::Tiny;
        let all_end = draw.once_in(2);
        let ends: [bool; PARTS] = std::array::from_fn(|_| all_end || draw.once_in(2));
        let longest = if is_tiny { 1_500 } else { 20_000 };
        let lent = lengths(&mut draw, &sizes);
        let memory = Anything::new(lent, longest as usize, is_tiny, ends);
        let mut round = Round {
            seed,
            scale,
            draw,
            sizes,
            memory,
            longest,
            made: 0,
        };
        round.fill();
        round
    }

    // Garbage of one kind, but now and then a table of another.
    fn fill(&mut self) {
        let draw = &mut self.draw;
        let starts = favourites(draw, &self.sizes);
        let kinds = [draw.among(&KINDS), draw.among(&KINDS)];
        let words = kinds.map(|kind| kind.words(draw, &self.sizes, &starts));
        for part in 0..RAM {
            let words = &words[usize::from(draw.once_in(4))];
            self.memory.fill_words(draw, part, words);
        }
        let ram = draw.bytes(self.memory.bytes(RAM) as u64);
        self.memory.fill(RAM, 0, &ram);
        let head = self.head();
        self.memory.set_head(head);
    }

    // The round's sizes and any pool; now and then another size, or numbers of any size.
    fn head(&mut self) -> Head {
        let (s, draw) = (&self.sizes, &mut self.draw);
        let mut frame = || {
            let any = draw.any_size(32);
            draw.among(&[
                0,
                1,
                s.frames / 2,
                s.frames - 1,
                s.frames,
                s.frames + 1,
                any,
            ]) as u32
        };
        let mut head = Head {
            spaces: s.spaces as u32,
            pages: s.pages as u32,
            frames: s.frames as u32,
            page_shift: s.page.ilog2(),
            first: frame(),
            many: frame(),
            fresh: frame(),
        };
        let any = draw.any_size(32) as u32;
        match draw.below(24) {
            0 => head.spaces = draw.among(&[0, 1, 64, 65, any]),
            1 => head.pages = draw.among(&[0, 1, head.pages + 1, 262_144, 262_145, any]),
            2 => head.frames = draw.among(&[0, 1, head.frames + 1, 65_536, 65_537, any]),
            3 => head.page_shift = draw.among(&[0, 7, 8, 16, 17, 31, 32, 40, 64, 72, any]),
            4 => {
                let mut any = || draw.any_size(32) as u32;
                (head.spaces, head.pages, head.frames, head.page_shift) =
                    (any(), any(), any(), any() % 80);
            }
            _ => {}
        }
        head
    }

    // One word of anything, some bytes of the RAM, or another head.
    fn disturb(&mut self) {
        let part = self.draw.below(10) as usize;
        let entries = if part <= RAM {
            self.memory.lent[part]
        } else {
            0
        };
        // where zeros have come other bytes come again
        if part == RAM && entries > 0 {
            let first = self.draw.below(entries);
            let count = self.draw.below(3 * self.sizes.page).min(entries - first);
            let bytes = self.draw.bytes(count);
            self.memory.fill(RAM, first as usize, &bytes);
            return;
        }
        if entries == 0 {
            let head = self.head();
            self.memory.set_head(head);
            return;
        }
        let any = self.draw.next();
        let (t, f) = (self.sizes.places(), self.sizes.frames);
        let word = self
            .draw
            .among(&[0, 1, any % t, any % f, t, f, any, u64::MAX]);
        let entry = self.draw.below(entries);
        let width = crate::anything::width(part);
        self.memory
            .fill(part, entry as usize * width, &word.to_le_bytes()[..width]);
    }

    // ---- the calls

    fn space_and_page(&mut self) -> (u64, u64) {
        let (s, draw) = (&self.sizes, &mut self.draw);
        let (space, page) = (draw.below(s.spaces), draw.below(s.pages));
        let any = draw.any_size(32);
        let wrapped = (1u64 << 32).wrapping_sub(space * s.pages) & 0xFFFF_FFFF;
        match draw.below(24) {
            0 => (any, page),
            1 => (s.spaces, page),
            2 => (space, any),
            3 => (space, draw.among(&[s.pages, wrapped])),
            4 => (any, draw.any_size(32)),
            _ => (space, draw.among(&[page, page, page, 0, s.pages - 1])),
        }
    }

    fn span(&mut self, page: u64) -> (u64, u64) {
        let (s, draw) = (&self.sizes, &mut self.draw);
        let (few, some) = (draw.below(20), draw.below(3 * s.page));
        let count = draw
            .among(&[0, few, few, some, some, s.page, self.longest])
            .min(self.longest);
        let address = match draw.below(24) {
            0 => draw.any_size(64),
            1 => s.space_bytes(),
            2 => 0u64.wrapping_sub(draw.below(count + 2)),
            3..=6 => s.space_bytes().saturating_sub(count),
            7..=10 => page * s.page,
            _ => page * s.page + draw.below(s.page),
        };
        (address, count)
    }

    fn ask(&mut self) -> Ask {
        let (space, page) = self.space_and_page();
        let (address, count) = self.span(page);
        let weights = [2, 8, 8, 14, 10, 10, 4, 8, 12, 14, 8, 14];
        match self.draw.weighed(&weights) {
            0 => Ask::Start(self.start_sizes()),
            1 => Ask::Mark(space, page),
            2 => Ask::Drop(space, page),
            3 => Ask::Touch(space, page),
            4 => Ask::Look(space, page),
            5 => Ask::Release(space, page),
            6 => Ask::Free,
            7 => Ask::Translate(space, address),
            8 => Ask::Read(space, address, count),
            9 => Ask::Write(space, address, self.draw.bytes(count)),
            10 => {
                let most = self.longest / 12;
                let any = self.draw.below(most + 1);
                Ask::List(space, self.draw.among(&[0, 1, 3, any, most]))
            }
            _ => Ask::GiveBack(space, page),
        }
    }

    fn start_sizes(&mut self) -> Sizes {
        let (draw, mut sizes) = (&mut self.draw, self.sizes);
        let any = draw.any_size(32);
        match draw.below(8) {
            0 => sizes.spaces = any,
            1 => sizes.pages = any,
            2 => sizes.frames = any,
            3 => sizes.page = any,
            4 => sizes.pages += 1,
            _ => {}
        }
        sizes
    }

    fn call(&mut self, count: &mut Count) -> Result<(), String> {
        let ask = self.ask();
        let own = match &ask {
            Ask::Read(_, _, bytes) => *bytes as usize,
            Ask::Write(_, _, bytes) => bytes.len(),
            Ask::List(_, room) => 12 * *room as usize,
            _ => 0,
        };
        self.memory.lay_own(own);
        if let Ask::Write(_, _, bytes) = &ask {
            self.memory.fill(OWN, self.memory.own, bytes);
        }
        self.memory.remember();
        let (before, loan) = (self.memory.head(), self.memory.loan());
        let call = Call {
            ask,
            lent: self.memory.lent,
        };
        let tell = || self.tell(&call, &before);
        let answer = watch::during(&tell, || unsafe { entrance::make(&call.ask, &loan) });
        let judged = self.judge(&call, &before, &answer, own);
        judged.map_err(|e| format!("{}: answered {answer:?}, {e}", tell()))?;
        self.made += 1;
        count.calls += 1;
        count.nines += u64::from(answer.kind == 9);
        count.outcomes[which(&call.ask)][usize::from(call.check(&before.sizes()).is_ok())] += 1;
        self.count_answer(&call, &before, &answer, count);
        Ok(())
    }

    fn count_answer(&self, call: &Call, before: &Head, answer: &Answer, count: &mut Count) {
        match (&call.ask, answer.kind) {
            (Ask::Touch(..), 1) => {
                count.short += u64::from(lacks_ram_alone(call, &before.sizes()));
            }
            (Ask::Touch(..), entrance::NEW) => {
                count.cleared[0] += u64::from(!self.memory.changed(RAM).is_empty());
            }
            (Ask::Write(_, _, bytes), entrance::DONE) if self.mapped(before) > Some(0) => {
                count.cleared[1] += u64::from(self.memory.changed(RAM).len() > bytes.len());
            }
            (Ask::GiveBack(..), kind) => {
                let which = HANDED.iter().position(|counted| *counted == kind);
                which.into_iter().for_each(|which| count.handed[which] += 1);
            }
            _ => {}
        }
    }

    fn tell(&self, call: &Call, head: &Head) -> String {
        let Round {
            seed, scale, made, ..
        } = self;
        format!(
            "dishonest seed {seed} ({scale:?}), call {made}: {}, lent {:?}, {head:?}",
            line(&call.ask),
            call.lent
        )
    }

    // ---- what holds on any memory

    fn judge(&self, call: &Call, before: &Head, answer: &Answer, own: usize) -> Result<(), String> {
        let is_counted = matches!(call.ask, Ask::Touch(..) | Ask::Look(..));
        if answer.words != 0 && !is_counted {
            return Err("with index words".to_string());
        }
        // "1 to 3 are given exactly when stated", and touch and look then report 0
        if let Err(number) = call.check(&before.sizes()) {
            let should = Answer {
                kind: number as u32,
                words: 0,
                value: 0,
            };
            if *answer != should {
                return Err(format!("not {should:?}"));
            }
            return self.unchanged();
        }
        // later refusals: those that the table gives this call, and 9 to "all but start"
        let numbers = ANSWERS[which(&call.ask)];
        let is_nine = answer.kind == 9 && !matches!(call.ask, Ask::Start(_));
        if !is_nine && (answer.kind <= 3 || !numbers.contains(&answer.kind)) {
            return Err("which is no answer of this call".to_string());
        }
        if answer.is_refusal() {
            return if answer.value == 0 {
                self.unchanged()
            } else {
                Err("with a value".to_string())
            };
        }
        self.judge_value(call, before, answer)?;
        self.judge_changes(call, before, answer, own)
    }

    // "Every refusal leaves the head, all tables, the RAM, the read buffer and the record slice as
    // they stood"
    fn unchanged(&self) -> Result<(), String> {
        self.hold([0; PARTS], [0; PARTS])
    }

    // No frame is told of but those that there are.
    fn judge_value(&self, call: &Call, before: &Head, answer: &Answer) -> Result<(), String> {
        let sizes = before.sizes();
        let is_right = match call.ask {
            Ask::Read(_, _, count) => answer.value == count,
            Ask::List(_, room) => answer.value <= room,
            Ask::Touch(..) => answer.value < sizes.frames,
            Ask::Look(..) if answer.kind == entrance::RESIDENT => answer.value < sizes.frames,
            Ask::Translate(..) => answer.value < sizes.frames * sizes.page,
            Ask::Free => answer.value <= sizes.frames,
            _ if matches!(answer.kind, entrance::DONE | entrance::ABSENT) => answer.value == 0,
            _ => true,
        };
        let is_right = is_right
            && (answer.kind != entrance::OLD && answer.kind != entrance::RESIDENT
                || answer.words == 0);
        if is_right {
            Ok(())
        } else {
            Err("which no such call can answer".to_string())
        }
    }

    // "What a call may change"
    fn judge_changes(
        &self,
        call: &Call,
        before: &Head,
        answer: &Answer,
        own: usize,
    ) -> Result<(), String> {
        let sizes = self.memory.head().sizes();
        let mut most = [0; PARTS];
        let mut needed: [usize; PARTS] = [0; PARTS];
        for (b, entries) in sizes.needed().into_iter().enumerate() {
            needed[b] = entries as usize;
        }
        needed[HEAD] = 7;
        match &call.ask {
            Ask::Start(sizes) => {
                (most[INDEX], most[COUNT], most[HEAD]) = (needed[INDEX], needed[COUNT], 7);
                let [index, count, ..] = sizes.needed();
                if !self.memory.is_zero(INDEX, index) || !self.memory.is_zero(COUNT, count) {
                    return Err("index and counts are not prepared".to_string());
                }
            }
            Ask::Mark(..) | Ask::Drop(..) => most[INDEX] = 3,
            Ask::Touch(..) if answer.kind == entrance::NEW => {
                most[COUNT..=LINK].fill(1);
                most[HEAD] = 7;
                if self.mapped(before) != Some(1) {
                    return Err("and took not one frame".to_string());
                }
                most[RAM] = sizes.page as usize;
                if self.cost(&before.sizes(), &[answer.value]) != 0 {
                    return Err(
                        "and the RAM is not as it was but for that frame, cleared".to_string()
                    );
                }
            }
            Ask::Release(..) => (most[COUNT], most[LINK], most[HEAD]) = (1, 1, 7),
            // W-205: "At most six table words and the head change"
            Ask::GiveBack(..) => {
                (most[COUNT], most[HELPER], most[STACK], most[LINK]) = (1, 1, 1, 3);
                most[HEAD] = 2;
                if !self.has_one_frame_more(before) {
                    return Err("and the pool got not one frame".to_string());
                }
            }
            Ask::Read(..) => (most[OWN], needed[OWN]) = (own, own),
            Ask::Write(space, address, bytes) if !bytes.is_empty() => {
                let span = sizes.span(*address, bytes.len() as u64);
                let places = sizes.place(*space, span.start)..sizes.place(*space, span.end);
                let mapped = self.mapped(before).unwrap_or(u64::MAX);
                if mapped > span.end - span.start {
                    return Err("and took other frames than its pages may need".to_string());
                }
                most[COUNT..=LINK].fill(mapped as usize);
                most[RAM] = bytes.len() + mapped as usize * sizes.page as usize;
                most[HEAD] = if mapped == 0 { 0 } else { 7 };
                if !self.memory.changed(TABLE).iter().all(|entry| places.contains(&(*entry as u64))) {
                    return Err("and changed the page table at another page than its own".to_string());
                }
                let theirs = self.frames_at(places);
                let others = (0..sizes.frames).filter(|frame| !theirs.contains(frame));
                if others.map(|frame| self.frame(&sizes, frame)[0]).sum::<usize>() > 0 {
                    return Err("and changed bytes of a frame that no page of its span has".to_string());
                }
                let likeliest = self.likeliest(&before.sizes(), theirs, mapped);
                if self.cost(&before.sizes(), &likeliest) > bytes.len() {
                    return Err(format!(
                        "and no {mapped} frames cleared and {} bytes stored give the RAM",
                        bytes.len()
                    ));
                }
            }
            // "Records after the last stay unchanged"
            Ask::List(..) => {
                (most[OWN], needed[OWN]) = (12 * answer.value as usize, 12 * answer.value as usize)
            }
            _ => {}
        }
        self.hold(most, needed)?;
        let sizes = |head: &Head| (head.spaces, head.pages, head.frames, head.page_shift);
        let should = match call.ask {
            Ask::Start(s) => (
                s.spaces as u32,
                s.pages as u32,
                s.frames as u32,
                s.page.ilog2(),
            ),
            _ => sizes(before),
        };
        if sizes(&self.memory.head()) == should {
            Ok(())
        } else {
            Err("other sizes in the head".to_string())
        }
    }

    // By how many frames the head has fewer to give: so many pages were mapped.
    fn mapped(&self, before: &Head) -> Option<u64> {
        let left = |h: &Head| u64::from(h.many) + u64::from(h.frames.saturating_sub(h.fresh));
        left(before).checked_sub(left(&self.memory.head()))
    }

    // Whether the pool has one frame more and a frame at its front; nothing else of the head is other than it was.
    fn has_one_frame_more(&self, before: &Head) -> bool {
        let (now, mut should) = (self.memory.head(), *before);
        should.first = now.first;
        should.many = before.many.wrapping_add(1);
        now == should && should.many > 0 && now.first < now.frames
    }

    // ---- W-201: "the bytes of the frames it maps too; beyond these and a write's span no RAM byte changes"

    // How many bytes of a frame are not what they were, and how many are not 0.
    fn frame(&self, sizes: &Sizes, frame: u64) -> [usize; 2] {
        let bytes = (frame * sizes.page) as usize..((frame + 1) * sizes.page) as usize;
        let (now, before) = (
            &self.memory.now(RAM)[bytes.clone()],
            &self.memory.before(RAM)[bytes],
        );
        let changed = now.iter().zip(before).filter(|(now, before)| now != before);
        [
            changed.count(),
            now.iter().filter(|byte| **byte != 0).count(),
        ]
    }

    // How many bytes of the RAM are not what they would be with these frames cleared and nothing stored.
    fn cost(&self, sizes: &Sizes, cleared: &[u64]) -> usize {
        let frames = (0..sizes.frames).map(|frame| self.frame(sizes, frame));
        let costs = frames
            .zip(0..)
            .map(|(counts, frame)| counts[usize::from(cleared.contains(&frame))]);
        costs.sum()
    }

    // The frames that the page table now has at these places, each once.
    fn frames_at(&self, places: Range<u64>) -> Vec<u64> {
        let words = self.memory.now(TABLE).chunks_exact(4);
        let words = words.map(|word| u64::from(u32::from_le_bytes(word.try_into().unwrap())));
        let frames = words.skip(places.start as usize).take((places.end - places.start) as usize);
        let frames = frames.filter(|frame| *frame < u64::from(self.memory.head().frames));
        let frames: BTreeSet<u64> = frames.collect();
        frames.into_iter().collect()
    }

    // So many of these frames, of which it is the likeliest that they were cleared: nobody says which of its span's a write took on such
    // memory, and it can be one frame twice.
    fn likeliest(&self, sizes: &Sizes, mut frames: Vec<u64>, many: u64) -> Vec<u64> {
        let gain = |frame: &u64| {
            let [changed, left] = self.frame(sizes, *frame);
            changed as isize - left as isize
        };
        frames.sort_by_cached_key(|frame| -gain(frame));
        frames.truncate(many as usize);
        let least = usize::from(many > 0);
        while frames.len() > least && frames.last().is_some_and(|frame| gain(frame) < 0) {
            frames.pop();
        }
        frames
    }

    // ---- what changed

    // No more words changed than these, and none but those needed.
    fn hold(&self, most: [usize; PARTS], needed: [usize; PARTS]) -> Result<(), String> {
        for part in 0..PARTS {
            let changed = self.memory.changed(part);
            let first = if part == OWN {
                self.memory.own as isize
            } else {
                0
            };
            let is_needed =
                |entry: &&isize| (first..first + needed[part] as isize).contains(*entry);
            if most[part] < changed.len() || !changed.iter().all(|entry| is_needed(&entry)) {
                let name = ["head", "the call's own buffer"];
                let name = if part < HEAD {
                    NAMES[part]
                } else {
                    name[part - HEAD]
                };
                return Err(format!(
                    "{} words of {name} changed, first [{}]",
                    changed.len(),
                    changed[0]
                ));
            }
        }
        Ok(())
    }
}
