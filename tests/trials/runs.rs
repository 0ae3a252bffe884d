// Which honest trials are played: a table of sizes at and between the limits, and trials drawn whole.
use crate::draw::Draw;
use crate::garbage::KINDS;
use crate::honest::Plan;
use crate::plain::{Ask, Sizes};
use crate::story::Course;

const SESSION: Sizes = Sizes {
    spaces: 1,
    pages: 8,
    frames: 3,
    page: 256,
};

// S, N, F, P, then marks, marks in a row, calls of each mix, later starts, and whether the pool is
// drained at the end.
type Row = (u64, u64, u64, u64, u64, u64, u64, u64, bool);

// "T = S x N, at most 262,144", "Frames F: 1 to 65,536": full size first, the RAM at most 256 MiB,
// or not there.
#[rustfmt::skip]
const TABLE: [Row; 29] = [
    (64, 4_096, 65_536, 512, 200, 0, 400, 0, false),
    (1, 262_144, 65_536, 1_024, 60, 12_000, 400, 0, false),
    (1, 262_144, 65_536, 256, 0, 0, 100, 0, true),
    (2, 131_072, 65_536, 4_096, 30, 0, 200, 0, false),
    (1, 262_144, 65_536, 65_536, 5, 0, 200, 0, true),
    (7, 37_449, 4_096, 65_536, 60, 0, 150, 1, true),
    (3, 87_381, 3_000, 2_048, 100, 0, 600, 2, true),
    (64, 4_096, 1_024, 32_768, 300, 0, 200, 1, true),
    (5, 52_428, 4_096, 8_192, 200, 0, 200, 1, true),
    (1, 262_144, 1, 16_384, 40, 0, 200, 1, true),
    (16, 16_384, 300, 16_384, 2_000, 0, 300, 1, true),
    (1, 4_097, 512, 512, 40, 0, 300, 2, true),
    (1, 4_096, 4_096, 256, 20, 500, 300, 2, true),
    (64, 64, 300, 256, 200, 0, 300, 1, true),
    (17, 241, 90, 4_096, 80, 0, 300, 1, true),
    (2, 2_049, 60, 65_536, 30, 0, 200, 1, true),
    (1, 65, 20, 256, 8, 0, 300, 2, true),
    (5, 13, 40, 512, 12, 0, 300, 2, true),
    (1, 64, 64, 1_024, 6, 64, 300, 2, true),
    (64, 1, 30, 2_048, 40, 1, 300, 1, true),
    (8, 8, 9, 4_096, 12, 0, 300, 1, true),
    (1, 1, 1, 256, 1, 0, 200, 1, true),
    (1, 1, 3, 65_536, 1, 0, 200, 1, true),
    (2, 1, 1, 8_192, 2, 0, 200, 1, true),
    (3, 3, 2, 256, 3, 0, 300, 1, true),
    (7, 9, 12, 16_384, 12, 0, 200, 1, true),
    (63, 65, 100, 32_768, 90, 0, 200, 1, true),
    (2, 40, 65_536, 256, 10, 0, 200, 0, true),
    (4, 1_024, 6, 1_024, 50, 0, 300, 1, true),
];

// Document 01's session.
pub fn session() -> Vec<Ask> {
    vec![
        Ask::Start(SESSION),
        Ask::Mark(0, 0),
        Ask::Mark(0, 4),
        Ask::Touch(0, 5),
        Ask::Touch(0, 1),
        Ask::Touch(0, 6),
        Ask::Touch(0, 5),
        Ask::Touch(0, 7),
        Ask::Mark(0, 6),
        Ask::Release(0, 4),
        Ask::Look(0, 5),
        Ask::Touch(0, 2),
        Ask::Look(0, 9),
        Ask::Drop(0, 4),
        Ask::Touch(0, 7),
        Ask::Release(0, 0),
        Ask::Mark(0, 0),
    ]
}

// One for each kind of garbage.
pub fn sessions() -> Vec<Plan> {
    let plan = |garbage| Plan {
        seed: 0,
        sizes: SESSION,
        garbage,
        unreachable: false,
        longest: 256,
    };
    KINDS.map(plan).to_vec()
}

pub fn table() -> Vec<(Plan, Course)> {
    let rows = TABLE.into_iter().enumerate();
    let made = rows.map(
        |(k, (spaces, pages, frames, page, marks, dense, mixed, starts, drains))| {
            let plan = Plan {
                seed: k as u64,
                sizes: Sizes {
                    spaces,
                    pages,
                    frames,
                    page,
                },
                garbage: KINDS[k % KINDS.len()],
                unreachable: (k + k / KINDS.len()) % 2 == 1 && frames * page < 1 << 32,
                longest: if spaces * pages > 200_000 {
                    1_400_000
                } else {
                    40 * page
                },
            };
            (
                plan,
                Course {
                    marks,
                    dense,
                    mixed,
                    starts,
                    drains,
                },
            )
        },
    );
    made.collect()
}

pub fn drawn_sizes(draw: &mut Draw) -> Sizes {
    let t = match draw.below(16) {
        0..=5 => draw.from_to(1, 70),
        6..=8 => draw.among(&[64, 65, 128, 4_095, 4_096, 4_097, 4_160]),
        9..=14 => draw.from_to(1, 20_000),
        _ => draw.from_to(200_000, 262_144),
    };
    let any = draw.from_to(1, 64);
    let spaces = draw.among(&[1, 1, 2, 3, 7, 64, any]).min(t);
    let page = 256 << draw.below(9);
    let most = ((1 << 23) / page).min(65_536);
    let some = draw.from_to(1, t);
    let frames = draw
        .among(&[1, some, t / 2 + 1, t + 1, 2 + some % 9])
        .min(most);
    Sizes {
        spaces,
        pages: t / spaces,
        frames,
        page,
    }
}

pub fn drawn(seed: u64) -> (Plan, Course) {
    let mut draw = Draw::new(!seed);
    let sizes = drawn_sizes(&mut draw);
    let plan = Plan {
        seed,
        sizes,
        garbage: draw.among(&KINDS),
        unreachable: draw.once_in(2),
        longest: (draw.among(&[2, 10, 40]) * sizes.page).min(500_000),
    };
    let course = Course {
        marks: draw.among(&[0, 2, 10, 10, 40, 200]),
        dense: draw.among(&[0, 0, 0, 70]),
        mixed: draw.among(&[20, 100, 100, 200]),
        starts: draw.below(3),
        drains: draw.once_in(2),
    };
    (plan, course)
}
