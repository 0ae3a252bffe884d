// Which of the cases that must come about an honest call was.
use crate::entrance::{Answer, BYTES, DONE, NEW, PAGES, REGIONS};
use crate::honest::{Hand, Trial};
use crate::plain::{Ask, Call, Machine};
use crate::tally::{lacks_ram_alone, Case};
use std::collections::BTreeSet;

// Where bytes other than 0 stood before a touch or write, so that it shows what is cleared and what is not.
#[derive(Default)]
pub struct Old {
    // at both ends of the frame that is next in the pool
    ends: bool,
    // in a new page of the span, before and behind the span
    before: bool,
    behind: bool,
    // in a resident page of the span, beside the span
    beside: bool,
}

// What hand-backs have left that a later call shows.
#[derive(Default)]
pub struct Handed {
    // the starts of regions whose list has another order than that of mapping, and of those that have lost their last page
    moved: BTreeSet<u64>,
    emptied: BTreeSet<u64>,
    // the frame that came back last
    frame: Option<u64>,
}

// Where in its region's list a page stood.
fn position(hand: &Hand) -> Case {
    match (hand.position, hand.list.len() - hand.position - 1) {
        (0, 0) => Case::HandedBackTheOnlyOne,
        (_, 0) => Case::HandedBackTheNewest,
        (0, 1) => Case::HandedBackTheOlderOfTwo,
        (_, 1) => Case::HandedBackBeforeTheNewest,
        (0, _) => Case::HandedBackTheOldest,
        _ => Case::HandedBackInTheMiddle,
    }
}

// The frame of a page of a span, and whether it is still to be mapped, as the next ones of the pool one after another.
fn frames(machine: &Machine, space: u64, pages: std::ops::Range<u64>) -> Option<Vec<(u64, bool)>> {
    let size = machine.sizes().page;
    let mut pool = machine.pool().iter();
    let frame = |page: u64| match machine.parts(space, page * size, size) {
        Ok(parts) => Some((parts[0].start as u64 / size, false)),
        Err(10) => pool.next().map(|frame| (*frame, true)),
        Err(_) => None,
    };
    pages.map(frame).collect()
}

impl Trial<'_> {
    // Before a call.
    pub fn old(&self, call: &Call) -> Old {
        let (machine, sizes) = (&self.machine, self.machine.sizes());
        let mut old = Old::default();
        let Ok(()) = call.check(&sizes) else {
            return old;
        };
        if let (Ask::Touch(..) | Ask::Write(..), Some(next)) = (&call.ask, machine.pool().front()) {
            let bytes = &machine.ram()[machine.bytes_of(*next)];
            old.ends = bytes[0] != 0 && bytes[bytes.len() - 1] != 0;
        }
        let (space, address, bytes) = match &call.ask {
            Ask::Write(space, address, bytes) if !bytes.is_empty() => (space, address, bytes),
            _ => return old,
        };
        let (first, end) = (address % sizes.page, address + bytes.len() as u64);
        let span = sizes.span(*address, bytes.len() as u64);
        let rest = span.end * sizes.page - end;
        let frames = frames(machine, *space, span).unwrap_or_default();
        let is_old = |bytes: &[u8]| bytes.iter().any(|byte| *byte != 0);
        if let (Some((one, is_new)), Some((last, is_last_new))) = (frames.first(), frames.last()) {
            let before = is_old(&machine.ram()[machine.bytes_of(*one)][..first as usize]);
            let last = &machine.ram()[machine.bytes_of(*last)];
            let behind = is_old(&last[last.len() - rest as usize..]);
            old.before = *is_new && before;
            old.behind = *is_last_new && behind;
            old.beside = !is_new && before || !is_last_new && behind;
        }
        old
    }

    // After a call: the frames in the pool before it are known, all else of a refused call is as it was.
    pub fn note(&mut self, call: &Call, answer: &Answer, pool: u64, old: &Old) {
        let (machine, kind) = (&self.machine, answer.kind);
        let sizes = machine.sizes();
        let end = sizes.space_bytes();
        // whether the region of a page has resident pages
        let is_resident = |space: u64, page: u64| {
            let start = machine.region(sizes.place(space, page));
            start.is_some_and(|start| !machine.list_of(start).is_empty())
        };
        let is_outside = |space: u64, address: u64| {
            let place = sizes.place(space, address / sizes.page);
            address < end && machine.region(place).is_none()
        };
        let cases = &mut self.tally;
        match &call.ask {
            Ask::Mark(space, page) if kind == 6 => {
                cases.case(
                    Case::MarkedAgainWithResidentPages,
                    is_resident(*space, *page),
                );
            }
            Ask::Drop(space, page) if kind == 5 => {
                cases.case(
                    Case::DroppedNoStartWithResidentPages,
                    is_resident(*space, *page),
                );
            }
            Ask::Touch(space, page) => {
                cases.case(Case::TouchedOutsideWithoutFrames, kind == 4 && pool == 0);
                cases.case(Case::NoFrameOf65536, kind == 8 && sizes.frames == 65_536);
                cases.case(Case::TouchedOverOldBytes, kind == NEW && old.ends);
                cases.case(
                    Case::MappedOverOldBytesAfterALaterStart,
                    kind == NEW && old.ends && self.starts > 1,
                );
                let is_resident = || machine.parts(*space, page * sizes.page, 1).is_ok();
                cases.case(
                    Case::ResidentPageTouchedWithoutItsRam,
                    kind == 1 && lacks_ram_alone(call, &sizes) && is_resident(),
                );
            }
            Ask::Release(..) if kind == PAGES => {
                cases.case(Case::EmptyRegionReleased, answer.value == 0);
                cases.case(Case::AllFramesReleasedAtOnce, answer.value == 65_536);
            }
            Ask::Read(space, address, count) => {
                let is_begun = kind == 10 && machine.parts(*space, *address, 1).is_ok();
                cases.case(Case::ReadUpToAnAbsentPage, is_begun);
                cases.case(
                    Case::EmptyReadAtTheEnd,
                    kind == BYTES && (*address, *count) == (end, 0),
                );
                cases.case(
                    Case::EmptyReadOutside,
                    kind == BYTES && *count == 0 && is_outside(*space, *address),
                );
                cases.case(
                    Case::EmptyReadBeyondTheEnd,
                    kind == 3 && (*address, *count) == (end + 1, 0),
                );
                cases.case(
                    Case::FiveThousandPagesRead,
                    kind == BYTES && *count >= 5_000 * sizes.page,
                );
                cases.case(Case::FarBeyondTheSpace, kind == 3 && *count > 1 << 34);
            }
            Ask::Write(space, address, bytes) => {
                let (count, is_done) = (bytes.len() as u64, kind == DONE);
                let new = pool.saturating_sub(machine.pool().len() as u64);
                cases.case(Case::WroteOutsideWithoutFrames, kind == 4 && pool == 0);
                cases.case(
                    Case::WroteWithTheLastFrame,
                    is_done && new > 1 && new == pool,
                );
                cases.case(Case::TooFewFramesForAWrite, kind == 8 && pool > 0);
                cases.case(Case::WroteBehindOldBytes, is_done && old.before);
                cases.case(Case::WroteBeforeOldBytes, is_done && old.behind);
                cases.case(
                    Case::WroteBesideOldBytesAndMapped,
                    is_done && old.beside && new > 0,
                );
                cases.case(Case::RefusedWriteWithOldBytesToClear, kind == 8 && old.ends);
                cases.case(
                    Case::EmptyWriteAtTheEnd,
                    is_done && count == 0 && *address == end,
                );
                cases.case(
                    Case::EmptyWriteOutside,
                    is_done && count == 0 && is_outside(*space, *address),
                );
                cases.case(
                    Case::EmptyWriteBeyondTheEnd,
                    kind == 3 && (*address, count) == (end + 1, 0),
                );
                cases.case(
                    Case::FiveThousandPagesWritten,
                    is_done && count >= 5_000 * sizes.page,
                );
                cases.case(
                    Case::ThreeThousandPagesMappedByAWrite,
                    is_done && new >= 3_000,
                );
            }
            Ask::List(space, room) => {
                let from = sizes.place(*space, 0);
                let is_few =
                    || machine.starts().range(from..from + sizes.pages).count() as u64 == room + 1;
                cases.case(
                    Case::JustEnoughRecords,
                    kind == REGIONS && answer.value == *room && *room > 0,
                );
                cases.case(
                    Case::MoreRecordsThanRegions,
                    kind == REGIONS && answer.value < *room,
                );
                cases.case(
                    Case::TenThousandRecords,
                    kind == REGIONS && answer.value >= 10_000,
                );
                cases.case(Case::OneRecordTooFew, kind == 11 && is_few());
                cases.case(
                    Case::NoRecordForNoRegion,
                    kind == REGIONS && answer.value == 0 && *room == 0,
                );
                cases.case(Case::ListedNoSpaceWithoutRoom, kind == 2 && *room == 0);
            }
            _ => {}
        }
    }

    // After a call that handed a page back.
    pub fn note_hand_back(&mut self, hand: &Hand) {
        let (cases, handed) = (&mut self.tally, &mut self.handed);
        let many = hand.list.len();
        cases.case(position(hand), true);
        cases.case(Case::HandedBackAmong65536, many == 65_536);
        handed.frame = Some(hand.list[hand.position].1);
        // without the last but one, the list is as if it had closed up
        if hand.position + 2 < many {
            handed.moved.insert(hand.start);
        }
        if many == 1 {
            handed.moved.remove(&hand.start);
            handed.emptied.insert(hand.start);
        }
    }

    // After a call that can show what hand-backs have left.
    pub fn note_after_hand_backs(&mut self, call: &Call, answer: &Answer) {
        let (machine, cases, handed) = (&self.machine, &mut self.tally, &mut self.handed);
        let sizes = machine.sizes();
        if let (Ask::Touch(..), NEW) | (Ask::Write(..), DONE) = (&call.ask, answer.kind) {
            let is_empty = |start: &u64| machine.list_of(*start).is_empty();
            handed.emptied.retain(is_empty);
        }
        match (&call.ask, answer.kind) {
            (Ask::GiveBack(..), 10) => cases.case(
                Case::HandedBackAbsentWithoutFrames,
                machine.pool().is_empty(),
            ),
            (Ask::Start(_), DONE) => *handed = Handed::default(),
            (Ask::Touch(..), NEW) => cases.case(
                Case::TouchedTheFrameHandedBack,
                handed.frame == Some(answer.value),
            ),
            (Ask::Release(space, page), PAGES) => {
                let is_moved = handed.moved.remove(&sizes.place(*space, *page));
                cases.case(
                    Case::ReleasedInAnotherOrderThanMapped,
                    is_moved && answer.value > 1,
                );
            }
            (Ask::Mark(space, page), DONE) if *page > 0 => {
                let cut = machine.region(sizes.place(*space, *page) - 1);
                let is_emptied = cut.is_some_and(|start| handed.emptied.contains(&start));
                cases.case(Case::MarkedInARegionEmptiedByAHandBack, is_emptied);
            }
            (Ask::Drop(space, page), DONE) => {
                let is_emptied = handed.emptied.remove(&sizes.place(*space, *page));
                cases.case(Case::DroppedAfterItsLastPageWasHandedBack, is_emptied);
            }
            _ => {}
        }
    }
}
