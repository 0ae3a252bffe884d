// The last frames of the largest RAM, 65,536 frames of 65,536 bytes: their bytes end at 2^32. To clear all of it takes too long and
// too much memory; so the head says that all frames but the last few are gone, and only these are ever written.
use crate::draw::Draw;
use crate::entrance::{self, Answer, Head, Loan};
use crate::plain::{Ask, Sizes};
use crate::tally::line;
use crate::watch::{self, Arena, Wanted};

const SIZES: Sizes = Sizes {
    spaces: 1,
    pages: 64,
    frames: 65_536,
    page: 65_536,
};
// as many frames as are left in the pool; the one before them must stay
const LAST: u64 = 6;

struct Largest {
    arena: Arena,
    head: Head,
    made: u64,
}

impl Largest {
    // Each buffer ends where no call may step.
    fn new() -> Largest {
        let widths = [8, 4, 4, 4, 4, 4, 4, 1];
        let parts = SIZES.needed().into_iter().zip(widths);
        let wanted: Vec<Wanted> = parts
            .map(|(entries, width)| Wanted {
                bytes: entries as usize * width,
                ends_at_guard: true,
                beyond: 3,
            })
            .collect();
        let (head, made) = (Head::default(), 0);
        let arena = Arena::new(&wanted);
        Largest { arena, head, made }
    }

    // The bytes of some frames.
    fn ram(&mut self, frames: std::ops::Range<u64>) -> &mut [u8] {
        let bytes = (frames.end - frames.start) * SIZES.page;
        let first = self.arena.slots[7].first + (frames.start * SIZES.page) as usize;
        unsafe { std::slice::from_raw_parts_mut(self.arena.at(first), bytes as usize) }
    }

    // Makes a call with all of the memory, and a buffer of its own.
    fn call(&mut self, ask: &Ask, own: &mut [u8]) -> Answer {
        let loan = Loan {
            head: &mut self.head,
            at: std::array::from_fn(|part| self.arena.at(self.arena.slots[part].first)),
            lent: SIZES.needed(),
            own: own.as_mut_ptr(),
        };
        self.made += 1;
        let tell = || format!("the largest RAM, call {}: {}", self.made, line(ask));
        watch::during(&tell, || unsafe { entrance::make(ask, &loan) })
    }

    fn hold(&mut self, ask: &Ask, own: &mut [u8], kind: u32, value: u64) -> Result<(), String> {
        let answer = self.call(ask, own);
        let is_right = (answer.kind, answer.value) == (kind, value);
        let what = format!("the largest RAM, call {}: {}", self.made, line(ask));
        is_right
            .then_some(())
            .ok_or_else(|| format!("{what}: answered {answer:?}, not {kind} {value}"))
    }
}

// Answers how many frames were mapped.
pub fn play() -> Result<u64, String> {
    let mut largest = Largest::new();
    let mut draw = Draw::new(SIZES.frames);
    let first = SIZES.frames - LAST;
    let hold = |largest: &mut Largest, should: &[u8], call: &str| {
        let is_held = largest.ram(first - 1..SIZES.frames) == should;
        is_held
            .then_some(())
            .ok_or_else(|| format!("the largest RAM is not as it should be after {call}"))
    };
    largest.hold(&Ask::Start(SIZES), &mut [], entrance::DONE, 0)?;
    largest.hold(&Ask::Mark(0, 0), &mut [], entrance::DONE, 0)?;
    largest.head.fresh = first as u32;
    // no byte is 0, so that each shows what was cleared
    let mut should: Vec<u8> = draw
        .bytes((LAST + 1) * SIZES.page)
        .iter()
        .map(|byte| byte | 1)
        .collect();
    largest
        .ram(first - 1..SIZES.frames)
        .copy_from_slice(&should);
    let page = SIZES.page as usize;

    largest.hold(&Ask::Touch(0, 9), &mut [], entrance::NEW, first)?;
    should[page..2 * page].fill(0);
    hold(&mut largest, &should, "a touch")?;

    // from inside page 9, which is resident, over four that are mapped, with a last frame left
    let (address, count) = (10 * SIZES.page - 5, 3 * SIZES.page + 10);
    let mut bytes = draw.bytes(count);
    let ask = Ask::Write(0, address, bytes.clone());
    largest.hold(&ask, &mut bytes, entrance::DONE, 0)?;
    should[2 * page..6 * page].fill(0);
    should[2 * page - 5..][..bytes.len()].copy_from_slice(&bytes);
    hold(&mut largest, &should, "a write")?;

    largest.hold(&Ask::Touch(0, 63), &mut [], entrance::NEW, SIZES.frames - 1)?;
    should[6 * page..].fill(0);
    hold(&mut largest, &should, "the touch of the last frame")?;
    largest.hold(&Ask::Touch(0, 62), &mut [], 8, 0)?;
    largest.hold(
        &Ask::Translate(0, SIZES.space_bytes() - 1),
        &mut [],
        entrance::AT,
        (1 << 32) - 1,
    )?;

    let mut read = vec![1; page];
    let ask = Ask::Read(0, 63 * SIZES.page, SIZES.page);
    largest.hold(&ask, &mut read, entrance::BYTES, SIZES.page)?;
    match read.iter().all(|byte| *byte == 0) {
        true => Ok(LAST),
        false => Err("a page of the last frame is not read as zeros".to_string()),
    }
}
