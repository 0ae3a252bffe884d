// What the index and the tables hold before a start: "the other five tables .. and the RAM stay
// untouched and may hold anything".
use crate::draw::Draw;
use crate::plain::Sizes;

#[derive(Clone, Copy, Debug, PartialEq)]
pub enum Garbage {
    Zeros,
    Ones,
    Random,
    // each word its own place
    Counted,
    // numbers that could be places, frames or entries of a small region
    Small,
    // regions with all of their pages resident, as an earlier use could have left them
    Agreeing,
    // such regions, but each table's words are of another of them now and then
    Disturbed,
}

pub const KINDS: [Garbage; 7] = [
    Garbage::Zeros,
    Garbage::Ones,
    Garbage::Random,
    Garbage::Counted,
    Garbage::Small,
    Garbage::Agreeing,
    Garbage::Disturbed,
];

// The words of the index, then those of the six tables, as many as are needed.
pub struct Words {
    pub index: Vec<u64>,
    // resident count, page table, helper, stack, region cache, frame link
    pub tables: [Vec<u32>; 6],
}

impl Garbage {
    // The words for some sizes; the agreeing ones have their regions at these starts.
    pub fn words(self, draw: &mut Draw, sizes: &Sizes, starts: &[u64]) -> Words {
        let needed = sizes.needed().map(|n| n as usize);
        let (t, f) = (sizes.places(), sizes.frames);
        let mut word = |k: usize, limits: &[u64]| match self {
            Garbage::Zeros => 0,
            Garbage::Ones => u32::MAX,
            Garbage::Random => draw.next() as u32,
            Garbage::Counted => k as u32,
            _ => {
                let limit = draw.among(limits);
                draw.below(limit) as u32
            }
        };
        let mut table = |many: usize, limits: &[u64]| (0..many).map(|k| word(k, limits)).collect();
        let mut tables: [Vec<u32>; 6] = [
            table(needed[1], &[4, 4, f + 1, t + 1]),
            table(needed[2], &[f, f, f + 1]),
            table(needed[3], &[4, 4, t]),
            table(needed[4], &[t, t, t + 1]),
            table(needed[5], &[t, t, t + 1]),
            table(needed[6], &[f, f, f + 1]),
        ];
        let high: Vec<u32> = table(2 * needed[0], &[2, 1 << 32]);
        let pairs = high
            .chunks(2)
            .map(|w| u64::from(w[0]) << 32 | u64::from(w[1]));
        let mut index: Vec<u64> = pairs.collect();
        if matches!(self, Garbage::Agreeing | Garbage::Disturbed) {
            agree(draw, sizes, starts, &mut tables);
            index = index_of(sizes, starts);
        }
        if self == Garbage::Disturbed {
            disturb(draw, t, &mut tables);
        }
        Words { index, tables }
    }
}

// Every page behind a start is in its region's stack, in some order, and has a frame.
fn agree(draw: &mut Draw, sizes: &Sizes, starts: &[u64], tables: &mut [Vec<u32>; 6]) {
    let mut starts = starts.to_vec();
    starts.sort_unstable();
    starts.dedup();
    for (k, &start) in starts.iter().enumerate() {
        let space_end = (start / sizes.pages + 1) * sizes.pages;
        let end = starts
            .get(k + 1)
            .map_or(space_end, |next| space_end.min(*next));
        let many = end - start;
        // a rotation is order enough: a table's word is rarely its own place
        let turn = draw.below(many);
        for j in 0..many {
            let place = start + (j + turn) % many;
            tables[1][place as usize] = draw.below(sizes.frames) as u32;
            tables[2][place as usize] = j as u32;
            tables[3][(start + j) as usize] = place as u32;
            tables[4][place as usize] = start as u32;
        }
        tables[0][start as usize] = many as u32;
    }
}

fn disturb(draw: &mut Draw, t: u64, tables: &mut [Vec<u32>; 6]) {
    for _ in 0..t / 4 + 2 {
        let which = draw.below(5) as usize;
        let (a, b) = (draw.below(t) as usize, draw.below(t) as usize);
        tables[which].swap(a, b);
    }
}

// "Layer 0 has ceil(T/64) words; each layer above has one bit for each word below, set when that
// word isn't 0, until a layer has one word .. lowest first"
pub fn index_of(sizes: &Sizes, starts: &[u64]) -> Vec<u64> {
    let mut layer = vec![0u64; sizes.places().div_ceil(64) as usize];
    for start in starts {
        layer[(start / 64) as usize] |= 1 << (start % 64);
    }
    let mut index = layer.clone();
    while layer.len() > 1 {
        let bits = |words: &[u64]| {
            (0..words.len())
                .filter(|k| words[*k] != 0)
                .map(|k| 1 << k)
                .sum()
        };
        layer = layer.chunks(64).map(bits).collect();
        index.extend(&layer);
    }
    index
}
