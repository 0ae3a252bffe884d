// Players that are wrong in one way each about new pages (W-201), maps (W-202) or hand-backs (W-205), to try the scripts on: `run.sh
// broken` plays them and demands that each is found. Each is the plain machine's play, and then some bytes of the RAM as they should not
// be, words of a map, or a list or the pool in another order.
use crate::plain::{Answer, Ask, Call, Machine};
use std::collections::VecDeque;
use std::ops::Range;
use std::sync::{Mutex, OnceLock};

type Bytes = Range<usize>;

// A call that was played: the RAM before and after it, and the bytes of the frames that it had to do with.
struct Played<'a> {
    ask: &'a Ask,
    is_refused: bool,
    before: Vec<u8>,
    after: Vec<u8>,
    // of pages that it asks for and that were resident
    resident: Vec<Bytes>,
    // of pages that it mapped, and of those that it released
    new: Vec<Bytes>,
    released: Vec<Bytes>,
    // what a write stored
    stored: Vec<Bytes>,
}

impl Played<'_> {
    fn is_touch(&self) -> bool {
        matches!(self.ask, Ask::Touch(..))
    }

    fn is_write(&self) -> bool {
        matches!(self.ask, Ask::Write(..))
    }

    // The bytes that a write stored are there, whatever was done around them.
    fn store(&self, ram: &mut [u8]) {
        for part in &self.stored {
            ram[part.clone()].copy_from_slice(&self.after[part.clone()]);
        }
    }

    // Of each new page's bytes some are as they were.
    fn leave(&self, ram: &mut [u8], some: impl Fn(Bytes) -> Bytes) {
        for bytes in self.new.iter().cloned().map(some) {
            ram[bytes.clone()].copy_from_slice(&self.before[bytes]);
        }
        self.store(ram);
    }

    fn clear(&self, ram: &mut [u8], frames: &[Bytes]) {
        for bytes in frames {
            ram[bytes.clone()].fill(0);
        }
    }
}

type Fault = fn(&Played, &mut [u8]);

const FAULTS: &[(&str, Fault)] = &[
    ("touch doesn't clear", |p, ram| {
        if p.is_touch() {
            p.leave(ram, |bytes| bytes);
        }
    }),
    ("only touch clears", |p, ram| {
        if p.is_write() {
            p.leave(ram, |bytes| bytes);
        }
    }),
    ("write doesn't clear before its span", |p, ram| {
        if let (true, Some(first)) = (p.is_write(), p.stored.first()) {
            p.leave(ram, |bytes| match bytes.contains(&first.start) {
                true => bytes.start..first.start,
                false => bytes.start..bytes.start,
            });
        }
    }),
    ("write doesn't clear behind its span", |p, ram| {
        if let (true, Some(last)) = (p.is_write(), p.stored.last()) {
            p.leave(ram, |bytes| match bytes.contains(&(last.end - 1)) {
                true => last.end..bytes.end,
                false => bytes.end..bytes.end,
            });
        }
    }),
    ("write clears after it has stored", |p, ram| {
        if p.is_write() {
            p.clear(ram, &p.new);
        }
    }),
    ("touch of a resident page clears it", |p, ram| {
        if p.is_touch() {
            p.clear(ram, &p.resident);
        }
    }),
    ("write clears the resident pages of its span", |p, ram| {
        if p.is_write() && !p.is_refused {
            p.clear(ram, &p.resident);
            p.store(ram);
        }
    }),
    (
        "a write that maps clears all of its span's pages",
        |p, ram| {
            if p.is_write() && !p.new.is_empty() {
                p.clear(ram, &p.resident);
                p.store(ram);
            }
        },
    ),
    (
        "a refused write clears the resident pages of its span",
        |p, ram| {
            if p.is_write() && p.is_refused {
                p.clear(ram, &p.resident);
            }
        },
    ),
    ("the last byte isn't cleared", |p, ram| {
        p.leave(ram, |bytes| bytes.end - 1..bytes.end)
    }),
    ("the first byte isn't cleared", |p, ram| {
        p.leave(ram, |bytes| bytes.start..bytes.start + 1)
    }),
    ("256 bytes are cleared, however large the page", |p, ram| {
        p.leave(ram, |bytes| bytes.start + 256..bytes.end);
    }),
    ("the frame behind is cleared", |p, ram| {
        p.leave(ram, |bytes| bytes);
        for bytes in &p.new {
            let behind = bytes.end..bytes.end + bytes.len();
            if behind.end <= ram.len() {
                ram[behind].fill(0);
            }
        }
        p.store(ram);
    }),
    ("cleared at release, not at mapping", |p, ram| {
        p.clear(ram, &p.released);
        p.leave(ram, |bytes| bytes);
    }),
    ("cleared at a start, not at mapping", |p, ram| {
        if let (Ask::Start(_), false) = (p.ask, p.is_refused) {
            ram.fill(0);
        }
        p.leave(ram, |bytes| bytes);
    }),
];

type MapFault = fn(&mut Vec<u32>);

const MAP_FAULTS: &[(&str, MapFault)] = &[
    (
        "a map's bodies are placed from the contents' end on",
        |words| {
            let contents = 3 * words[0] + 7;
            rows(words).for_each(|row| words[row] -= contents);
        },
    ),
    ("a map's bodies are placed by bytes", |words| {
        rows(words).for_each(|row| words[row] *= 4);
    }),
    ("a map's third words are regions, not pages", |words| {
        for (row, heads) in heads(words).into_iter().enumerate() {
            words[6 + 3 * row] = heads.len() as u32;
        }
    }),
    ("a map's pool has no third word", |words| {
        let pool = 6 + 3 * words[0] as usize;
        words[pool] = 0;
    }),
    ("a map's pool is reversed", |words| {
        let pool = words[4 + 3 * words[0] as usize] as usize;
        words[pool..].reverse();
    }),
    ("a map's pairs have the newest first", |words| {
        for head in heads(words).concat() {
            reorder(words, head, |pairs| pairs.reverse());
        }
    }),
    ("a map's pairs ascend by page", |words| {
        for head in heads(words).concat() {
            reorder(words, head, |pairs| pairs.sort());
        }
    }),
    ("a map's pairs have the frame first", |words| {
        for head in heads(words).concat() {
            reorder(words, head, |pairs| {
                pairs.iter_mut().for_each(|pair| pair.reverse())
            });
        }
    }),
    ("a map's starts are places", |words| {
        for (space, heads) in heads(words).into_iter().enumerate() {
            for head in heads {
                words[head] += space as u32 * words[1];
            }
        }
    }),
    ("a map's regions run to the space's end", |words| {
        for head in heads(words).concat() {
            words[head + 1] = words[1] - words[head];
        }
    }),
    ("a map's words have their highest byte first", |words| {
        words.iter_mut().for_each(|word| *word = word.swap_bytes());
    }),
    ("a map has the page size's power", |words| {
        words[3] = words[3].ilog2();
    }),
    ("a map lacks spaces without a region", |words| {
        let empty = (0..words[0] as usize).rev().find(|k| words[5 + 3 * k] == 0);
        if let Some(k) = empty {
            words.drain(4 + 3 * k..7 + 3 * k);
        }
    }),
];

// Where the contents tell of a body: each space's, then the pool's.
fn rows(words: &[u32]) -> impl Iterator<Item = usize> {
    (0..=words[0] as usize).map(|row| 4 + 3 * row)
}

// Where each region of each space starts in a map.
fn heads(words: &[u32]) -> Vec<Vec<usize>> {
    let spaces = rows(words).take(words[0] as usize);
    let of_space = |row: usize| {
        let mut at = words[row] as usize;
        let end = at + words[row + 1] as usize;
        let mut heads = Vec::new();
        while at < end {
            heads.push(at);
            at += 3 + 2 * words[at + 2] as usize;
        }
        heads
    };
    spaces.map(of_space).collect()
}

// A region's pairs, changed.
fn reorder(words: &mut [u32], head: usize, change: fn(&mut Vec<[u32; 2]>)) {
    let body = head + 3..head + 3 + 2 * words[head + 2] as usize;
    let mut pairs: Vec<[u32; 2]> = words[body.clone()]
        .chunks_exact(2)
        .map(|pair| [pair[0], pair[1]])
        .collect();
    change(&mut pairs);
    words[body].copy_from_slice(&pairs.concat());
}

fn wrong_map(fault: MapFault, file: &[u8]) -> Vec<u8> {
    let word = |four: &[u8]| u32::from_le_bytes([four[0], four[1], four[2], four[3]]);
    let mut words = file.chunks_exact(4).map(word).collect();
    fault(&mut words);
    words.into_iter().flat_map(u32::to_le_bytes).collect()
}

type HandFault = fn(&mut Machine, &Call) -> Answer;

const HAND_FAULTS: &[(&str, HandFault)] = &[
    ("the list closes up behind a page handed back", |m, call| {
        relist(m, call, |list, at| {
            list.remove(at);
        })
    }),
    ("the oldest page takes the position", |m, call| {
        relist(m, call, |list, at| {
            list.swap(0, at);
            list.remove(0);
        })
    }),
    ("the newest page takes the first position", |m, call| {
        relist(m, call, |list, at| {
            list.remove(at);
            let newest = list.pop();
            list.splice(0..0, newest);
        })
    }),
    (
        "the newest handed back moves the one before it",
        |m, call| {
            relist(m, call, |list, at| {
                let is_newest = at + 1 == list.len();
                list.swap_remove(at);
                if is_newest {
                    let before = list.pop();
                    list.splice(0..0, before);
                }
            })
        },
    ),
    (
        "the newest goes too far when its neighbour leaves",
        |m, call| {
            relist(m, call, |list, at| {
                let is_neighbour = at + 2 == list.len();
                list.swap_remove(at);
                if is_neighbour && at > 0 {
                    list.swap(at - 1, at);
                }
            })
        },
    ),
    ("the frame goes behind the pool's first", |m, call| {
        repool(m, call, |pool| {
            let behind = 1.min(pool.len() - 1);
            pool.swap(0, behind);
        })
    }),
    ("the frame goes to the pool's end", |m, call| {
        repool(m, call, |pool| pool.rotate_left(1))
    }),
    ("the frame is lost", |m, call| {
        repool(m, call, |pool| {
            pool.pop_front();
        })
    }),
    (
        "a region emptied by a hand-back loses its start",
        |m, call| {
            let start = handed(m, call).map(|(start, _)| start);
            let answer = m.play(call);
            if let Some(start) = start.filter(|start| m.list_of(*start).is_empty()) {
                m.starts_mut().remove(&start);
            }
            answer
        },
    ),
    ("a hand-back releases its region", |m, call| {
        let start = handed(m, call).map(|(start, _)| start);
        let answer = m.play(call);
        if let Some(start) = start {
            let pages = m.sizes().pages;
            let ask = Ask::Release(start / pages, start % pages);
            let lent = call.lent;
            m.play(&Call { ask, lent });
        }
        answer
    }),
    ("a release has the order of mapping", |m, call| {
        let (sizes, order) = (m.sizes(), mapped_order(m));
        if let (Ask::Release(space, page), Ok(())) = (&call.ask, call.check(&sizes)) {
            let list = m.lists_mut().get_mut(&sizes.place(*space, *page));
            list.into_iter().for_each(|list| put(list, &order));
        }
        let answer = m.play(call);
        mapped_order(m);
        answer
    }),
    ("a map has the order of mapping", |m, call| {
        let (lists, order) = (m.lists().clone(), mapped_order(m));
        if let Ask::WriteMap(_) = call.ask {
            m.lists_mut()
                .values_mut()
                .for_each(|list| put(list, &order));
            let answer = m.play(call);
            *m.lists_mut() = lists;
            return answer;
        }
        let answer = m.play(call);
        mapped_order(m);
        answer
    }),
    ("4 and 10 are the other way round", |m, call| {
        answered(m, call, |answer| match answer {
            Answer::Refused(4, None) => Answer::Refused(10, None),
            Answer::Refused(10, None) => Answer::Refused(4, None),
            _ => answer,
        })
    }),
    ("a page handed back twice is done", |m, call| {
        answered(m, call, |answer| match answer {
            Answer::Refused(10, None) => Answer::Done,
            _ => answer,
        })
    }),
    ("an empty pool is refused with 8", |m, call| {
        let is_empty = m.pool().is_empty();
        match (m.play(call), &call.ask) {
            (Answer::Refused(10, None), Ask::GiveBack(..)) if is_empty => Answer::Refused(8, None),
            (answer, _) => answer,
        }
    }),
    (
        "a hand-back of no start is refused with 5",
        |m, call| match (m.play(call), &call.ask) {
            (Answer::Refused(10, None), Ask::GiveBack(space, page))
                if !m.starts().contains(&m.sizes().place(*space, *page)) =>
            {
                Answer::Refused(5, None)
            }
            (answer, _) => answer,
        },
    ),
    ("a refused hand-back has index words", |m, call| {
        answered(m, call, |answer| match answer {
            Answer::Refused(number, None) => Answer::Refused(number, Some(1)),
            _ => answer,
        })
    }),
    ("a hand-back answers how many pages", |m, call| {
        answered(m, call, |answer| match answer {
            Answer::Done => Answer::Pages(1),
            _ => answer,
        })
    }),
];

type Pairs = Vec<(u64, u64)>;

// The region of a page that a call hands back, by its start, and the page's position in its list.
fn handed(machine: &Machine, call: &Call) -> Option<(u64, usize)> {
    let sizes = machine.sizes();
    let (Ask::GiveBack(space, page), Ok(())) = (&call.ask, call.check(&sizes)) else {
        return None;
    };
    let place = sizes.place(*space, *page);
    let start = machine.region(place)?;
    let mut list = machine.list_of(start).iter();
    let position = list.position(|pair| pair.0 == place)?;
    Some((start, position))
}

// A hand-back that leaves another list: what becomes of the one before it, by the page's position.
fn relist(machine: &mut Machine, call: &Call, change: fn(&mut Pairs, usize)) -> Answer {
    let hand = handed(machine, call);
    let mut list = hand.map_or(Vec::new(), |(start, _)| machine.list_of(start).to_vec());
    let answer = machine.play(call);
    if let Some((start, position)) = hand {
        change(&mut list, position);
        machine.lists_mut().retain(|other, _| *other != start);
        if !list.is_empty() {
            machine.lists_mut().insert(start, list);
        }
    }
    answer
}

// A hand-back that leaves another pool.
fn repool(machine: &mut Machine, call: &Call, change: fn(&mut VecDeque<u64>)) -> Answer {
    let hand = handed(machine, call);
    let answer = machine.play(call);
    if hand.is_some() {
        change(machine.pool_mut());
    }
    answer
}

// A hand-back that answers otherwise.
fn answered(machine: &mut Machine, call: &Call, change: fn(Answer) -> Answer) -> Answer {
    let answer = machine.play(call);
    match call.ask {
        Ask::GiveBack(..) => change(answer),
        _ => answer,
    }
}

// The resident pages in the order in which they were mapped, whatever was handed back. To be asked for before and after every call.
fn mapped_order(machine: &Machine) -> Vec<u64> {
    static ORDER: Mutex<Vec<u64>> = Mutex::new(Vec::new());
    let mut order = ORDER.lock().unwrap();
    let pairs = machine.lists().values().flatten();
    let resident: Vec<u64> = pairs.map(|pair| pair.0).collect();
    order.retain(|place| resident.contains(place));
    let is_new = |place: &u64| !order.contains(place);
    let new: Vec<u64> = resident.into_iter().filter(is_new).collect();
    order.extend(new);
    order.clone()
}

fn put(list: &mut Pairs, order: &[u64]) {
    list.sort_by_key(|pair| order.iter().position(|place| *place == pair.0));
}

// Whether the names were asked for, a line each; then they are told.
pub fn is_asked_for_names() -> bool {
    let is_asked = std::env::args().nth(1).is_some_and(|word| word == "faults");
    if is_asked {
        FAULTS.iter().for_each(|(name, _)| println!("{name}"));
        MAP_FAULTS.iter().for_each(|(name, _)| println!("{name}"));
        HAND_FAULTS.iter().for_each(|(name, _)| println!("{name}"));
    }
    is_asked
}

// The number of the one that is tried.
fn tried() -> usize {
    static ONCE: OnceLock<usize> = OnceLock::new();
    *ONCE.get_or_init(|| {
        let number = std::env::var("SESSION_FAULT").ok();
        number
            .and_then(|number| number.parse().ok())
            .expect("SESSION_FAULT is no number")
    })
}

// The frames' bytes of the resident ones among the pages that a call maps.
fn resident(machine: &Machine, call: &Call) -> Vec<Bytes> {
    let sizes = machine.sizes();
    if call.check(&sizes).is_err() {
        return Vec::new();
    }
    let (space, pages) = match call.ask {
        Ask::Touch(space, page) => (space, page..page + 1),
        Ask::Write(space, address, ref bytes) => (space, sizes.span(address, bytes.len() as u64)),
        _ => return Vec::new(),
    };
    let found = pages.filter_map(|page| machine.parts(space, page * sizes.page, sizes.page).ok());
    found.flatten().collect()
}

pub fn play(machine: &mut Machine, call: &Call) -> Answer {
    let Some(number) = tried().checked_sub(FAULTS.len()) else {
        return play_with_ram(machine, call);
    };
    if let Some(number) = number.checked_sub(MAP_FAULTS.len()) {
        return HAND_FAULTS[number].1(machine, call);
    }
    match machine.play(call) {
        Answer::Map(file) => Answer::Map(wrong_map(MAP_FAULTS[number].1, &file)),
        answer => answer,
    }
}

fn play_with_ram(machine: &mut Machine, call: &Call) -> Answer {
    let resident = resident(machine, call);
    let before = machine.ram().to_vec();
    let pool: Vec<u64> = machine.pool().iter().copied().collect();
    let answer = machine.play(call);
    let taken = match call.ask {
        Ask::Touch(..) | Ask::Write(..) => pool.len() - machine.pool().len(),
        _ => 0,
    };
    let released = if let Answer::Pages(many) = answer {
        many as usize
    } else {
        0
    };
    let frames = |frames: &[u64]| {
        frames
            .iter()
            .map(|frame| machine.bytes_of(*frame))
            .collect()
    };
    let now: Vec<u64> = machine.pool().iter().copied().collect();
    let is_refused = matches!(answer, Answer::Refused(..));
    let stored = match call.ask {
        Ask::Write(space, address, ref bytes) if !is_refused => {
            machine.parts(space, address, bytes.len() as u64).unwrap()
        }
        _ => Vec::new(),
    };
    let played = Played {
        ask: &call.ask,
        is_refused,
        after: machine.ram().to_vec(),
        before,
        resident,
        new: frames(&pool[..taken]),
        released: frames(&now[..released]),
        stored,
    };
    FAULTS[tried()].1(&played, machine.ram_mut());
    answer
}
