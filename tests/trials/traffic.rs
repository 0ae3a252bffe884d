// Calls drawn for honest trials. The machine's state is at hand, so that most calls have something
// to do: starts, resident pages and their neighbours, the borders of words, layers and spaces.
use crate::draw::Draw;
use crate::plain::{Ask, Call, Lent, Machine, Sizes};
use crate::watch::UNREACHABLE;

// How often each call is drawn: mark, drop, touch, look, release, free, translate, read, write, list,
// give back, start.
pub type Mix = [u64; 12];

pub const MIXED: Mix = [40, 20, 80, 50, 40, 10, 30, 50, 50, 4, 40, 1];
pub const PAGES: Mix = [60, 40, 120, 90, 60, 10, 10, 10, 10, 2, 60, 0];
pub const SPANS: Mix = [10, 10, 30, 10, 15, 10, 50, 120, 120, 2, 30, 0];
pub const HUNGRY: Mix = [20, 10, 120, 40, 4, 20, 10, 20, 60, 2, 20, 0];
// lists that are full get another order
pub const HANDED: Mix = [10, 10, 100, 20, 20, 5, 10, 10, 20, 1, 160, 0];

// Addresses that a careless sum or product would wrap.
const FAR: [u64; 6] = [
    u64::MAX,
    u64::MAX - 7,
    1 << 63,
    1 << 34,
    1 << 32,
    (1 << 32) - 1,
];
const NO_PAGE: u64 = u32::MAX as u64;
// the most bytes of a space
const MOST_BYTES: u64 = 1 << 34;

pub struct Traffic {
    pub draw: Draw,
    // the sizes that calls before the first start are drawn for
    pub first: Sizes,
    pub favourites: Vec<u64>,
    // arguments lie outside more often, and buffers are shorter
    pub is_careless: bool,
    // the bytes of the longest span
    pub longest: u64,
}

// Places at the borders of index words, layers and spaces, and a few others.
pub fn favourites(draw: &mut Draw, sizes: &Sizes) -> Vec<u64> {
    let (n, t) = (sizes.pages, sizes.places());
    let borders = [
        0,
        64,
        4_096,
        8_192,
        n,
        2 * n,
        t,
        t / 64 * 64,
        t / 4_096 * 4_096,
    ];
    let around = |border: u64| [border.wrapping_sub(1), border, border + 1];
    let mut places: Vec<u64> = borders.into_iter().flat_map(around).collect();
    for _ in 0..8 {
        let any = draw.below(t);
        places.extend([any, any / 64 * 64, any / n * n]);
    }
    places.retain(|place| *place < t);
    places
}

impl Traffic {
    fn sizes(&self, machine: &Machine) -> Sizes {
        let sizes = machine.sizes();
        if sizes.spaces == 0 {
            self.first
        } else {
            sizes
        }
    }

    // Whether an argument lies outside.
    fn strays(&mut self) -> bool {
        self.draw.once_in(if self.is_careless { 2 } else { 30 })
    }

    // ---- places

    fn some_start(&mut self, machine: &Machine) -> Option<u64> {
        let any = self.draw.below(self.sizes(machine).places());
        let starts = machine.starts();
        starts.range(any..).next().or(starts.first()).copied()
    }

    fn some_resident(&mut self, machine: &Machine) -> Option<u64> {
        let any = self.draw.below(self.sizes(machine).places());
        let lists = machine.lists();
        let (_, list) = lists.range(any..).next().or(lists.first_key_value())?;
        let newest = list.len() as u64 - 1;
        let which = self.draw.below(list.len() as u64);
        Some(list[self.draw.among(&[0, newest, which, which]) as usize].0)
    }

    // A resident page by its position in its region's list: the oldest, the newest, the one before it, or any.
    pub fn some_listed(&mut self, machine: &Machine) -> Option<u64> {
        let start = machine.region(self.some_resident(machine)?)?;
        let list = machine.list_of(start);
        let newest = list.len() - 1;
        let any = self.draw.below(list.len() as u64) as usize;
        let position = [0, newest, newest.saturating_sub(1), any];
        Some(list[self.draw.among(&position)].0)
    }

    fn favourite(&mut self) -> u64 {
        self.draw.among(&self.favourites)
    }

    // A place inside the tables, mostly one of a region or near one.
    fn place(&mut self, machine: &Machine) -> u64 {
        let t = self.sizes(machine).places();
        let any = self.draw.below(t);
        let place = match self.draw.below(16) {
            0..=1 => any,
            2..=3 => self.favourite(),
            4..=6 => self.some_resident(machine).unwrap_or(any),
            7 => self.some_resident(machine).map_or(any, |place| place + 1),
            // the last of the region before
            8 => self.some_start(machine).unwrap_or(any).saturating_sub(1),
            9..=12 => self.some_start(machine).unwrap_or(any) + self.draw.below(6),
            _ => self.some_start(machine).unwrap_or(any) + self.draw.below(300),
        };
        place.min(t - 1)
    }

    // Space and page of a place, now and then outside, also where i x N + b wraps to a place.
    fn astray(&mut self, machine: &Machine, place: u64) -> (u64, u64) {
        let sizes = self.sizes(machine);
        let n = sizes.pages;
        let (mut space, mut page) = (place / n, place % n);
        if self.strays() {
            space = self
                .draw
                .among(&[sizes.spaces, sizes.spaces + 1, 64, 255, 65_536, NO_PAGE]);
        }
        if self.strays() {
            let wrapped = (1u64 << 32).wrapping_sub(space.wrapping_mul(n)) & NO_PAGE;
            page = self
                .draw
                .among(&[n, n, n + 1, 262_144, NO_PAGE, wrapped.max(n)]);
        }
        (space, page)
    }

    // ---- addresses and spans

    fn address(&mut self, machine: &Machine, place: u64) -> (u64, u64) {
        let sizes = self.sizes(machine);
        let (space, page) = self.astray(machine, place);
        let any = self.draw.below(sizes.page);
        let offset = self.draw.among(&[0, 1, sizes.page - 1, any, any]);
        match self.strays() {
            true => (space, self.draw.among(&FAR)),
            false => (space, page * sizes.page + offset),
        }
    }

    fn length(&mut self, sizes: &Sizes) -> u64 {
        let (page, draw) = (sizes.page, &mut self.draw);
        let few = draw.below(20);
        let some = draw.below(3 * page);
        let pages = page * draw.from_to(1, 40);
        let any = draw.below(self.longest + 1);
        let count = match draw.below(60) {
            0..=3 => 0,
            4..=20 => few,
            21..=32 => some,
            33..=44 => draw.among(&[1, page - 1, page, page + 1]),
            45..=56 => pages - draw.below(3),
            57..=58 => any,
            _ => self.longest,
        };
        count.min(self.longest)
    }

    // Space, address and length; many lie over a border, at the space's end or beyond it.
    fn span(&mut self, machine: &Machine, place: u64) -> (u64, u64, u64) {
        let sizes = self.sizes(machine);
        let (space, address) = self.address(machine, place);
        let end = sizes.space_bytes();
        let count = self.length(&sizes);
        let before = self.draw.below(count + 2);
        let fitting = address.min(end.saturating_sub(count));
        let page = address / sizes.page;
        let address = match self.draw.below(40) {
            0 => end,
            1 => end.saturating_sub(count),
            2 if self.draw.once_in(4) => end + 1,
            3 if self.draw.once_in(4) => end.saturating_sub(count) + 1,
            // the sum wraps to 0, or nearly
            4 if self.draw.once_in(4) => 0u64.wrapping_sub(count).wrapping_add(self.draw.below(3)),
            5..=12 => (page.saturating_mul(sizes.page))
                .saturating_add(sizes.page)
                .saturating_sub(before),
            13..=18 => page * sizes.page,
            19..=24 => fitting,
            _ => address,
        };
        (space, address, count)
    }

    // ---- the calls

    // A start of wrong sizes needs more than the most that a call can be lent.
    pub fn ask(&mut self, machine: &Machine, most: &Lent, mix: &Mix) -> Ask {
        let place = self.place(machine);
        let (space, page) = self.astray(machine, place);
        let start = self.start_or_not(machine);
        match self.draw.weighed(mix) {
            0 => self.mark(machine),
            1 => Ask::Drop(start.0, start.1),
            2 => Ask::Touch(space, page),
            3 => Ask::Look(space, page),
            4 => Ask::Release(start.0, start.1),
            5 => Ask::Free,
            6 => {
                let (space, address) = self.address(machine, place);
                Ask::Translate(space, address)
            }
            7 => self.read(machine),
            8 => {
                let (space, address, count) = self.span(machine, place);
                Ask::Write(space, address, self.draw.bytes(count))
            }
            9 => self.list(machine, space),
            10 => self.give_back(machine, place),
            _ => Ask::Start(self.wrong_sizes(most)),
        }
    }

    // Mostly of a resident page, else of a place.
    fn give_back(&mut self, machine: &Machine, place: u64) -> Ask {
        let place = match self.draw.below(6) {
            0 => place,
            _ => self.some_listed(machine).unwrap_or(place),
        };
        let (space, page) = self.astray(machine, place);
        Ask::GiveBack(space, page)
    }

    pub fn mark(&mut self, machine: &Machine) -> Ask {
        let any = self.draw.below(self.sizes(machine).places());
        let place = match self.draw.below(8) {
            0 => self.some_start(machine).unwrap_or(any),
            1..=2 => self.place(machine),
            3..=4 => self.favourite(),
            _ => any,
        };
        let (space, page) = self.astray(machine, place);
        Ask::Mark(space, page)
    }

    fn start_or_not(&mut self, machine: &Machine) -> (u64, u64) {
        let place = match self.draw.below(8) {
            0 => self.place(machine),
            // the start of a region with resident pages
            1..=2 => {
                let resident = self.some_resident(machine).unwrap_or(0);
                machine
                    .lists()
                    .range(..=resident)
                    .next_back()
                    .map_or(0, |(start, _)| *start)
            }
            _ => self.some_start(machine).unwrap_or(0),
        };
        self.astray(machine, place)
    }

    // Mostly of resident pages; now and then of more bytes than any space has.
    fn read(&mut self, machine: &Machine) -> Ask {
        let place = match self.draw.below(4) {
            0 => self.place(machine),
            _ => self.some_resident(machine).unwrap_or(0),
        };
        let (space, address, count) = self.span(machine, place);
        match self.draw.once_in(8) && self.strays() {
            true => Ask::Read(
                space,
                address,
                self.draw.from_to(MOST_BYTES + 1, UNREACHABLE as u64),
            ),
            false => Ask::Read(space, address, count),
        }
    }

    fn list(&mut self, machine: &Machine, space: u64) -> Ask {
        let sizes = self.sizes(machine);
        let from = sizes.pages * space.min(64);
        let many = machine.starts().range(from..from + sizes.pages).count() as u64;
        let fewer = self.draw.below(many + 1);
        let more = self.draw.from_to(many, sizes.places() + 1);
        let room = self
            .draw
            .among(&[0, many.saturating_sub(1), many, many + 1, fewer, more]);
        Ask::List(space, room)
    }

    // ---- sizes

    // Sizes that a memory has room for.
    pub fn other_sizes(&mut self, real: &Lent) -> Sizes {
        let t = 1 + self.draw.any_size(18) % self.first.places();
        let spaces = self.draw.among(&[1, 2, 3, 5, 64]).min(t);
        let shift = self.draw.below(9).min((real[7] / 256).ilog2().into());
        let page = 256 << shift;
        let frames = (1 + self.draw.any_size(16) % real[6]).min(real[7] / page);
        let sizes = Sizes {
            spaces,
            pages: t / spaces,
            frames,
            page,
        };
        assert!((0..8).all(|b| sizes.needed()[b] <= real[b]));
        sizes
    }

    // Sizes outside their limits, or that need more than these lengths.
    pub fn wrong_sizes(&mut self, most: &Lent) -> Sizes {
        let mut sizes = self.first;
        match self.draw.below(8) {
            0 => sizes.spaces = self.draw.among(&[0, 65, 1 << 16, NO_PAGE]),
            1 => sizes.pages = self.draw.among(&[0, 262_145, 1 << 26, 1 << 31, NO_PAGE]),
            2 => sizes.frames = self.draw.among(&[0, 65_537, 1 << 24, NO_PAGE]),
            3 => {
                sizes.page =
                    self.draw
                        .among(&[0, 1, 128, 255, 257, 384, 768, 131_072, 1 << 31, NO_PAGE])
            }
            // T over its limit, or a product of 2^32 and little more
            4 => {
                (sizes.spaces, sizes.pages) = self.draw.among(&[
                    (64, 4_097),
                    (3, 87_382),
                    (2, 131_073),
                    (16, 1 << 28),
                    (NO_PAGE, NO_PAGE),
                ])
            }
            5 => {
                sizes = Sizes {
                    spaces: NO_PAGE,
                    pages: NO_PAGE,
                    frames: NO_PAGE,
                    page: NO_PAGE,
                }
            }
            6 => (sizes.spaces, sizes.pages) = (1, most[1] + 1),
            _ => (sizes.spaces, sizes.pages) = (64, 4_096.max(most[1] / 64 + 1)),
        }
        sizes
    }

    // ---- lengths

    // Mostly all of the memory; else just enough, more than that, or one buffer too short. A start prepares what is really there.
    pub fn lend(&mut self, machine: &Machine, most: &Lent, real: &Lent, ask: Ask) -> Call {
        let mut lent = *most;
        let mut needed = machine.sizes().needed();
        if let Ask::Start(sizes) = &ask {
            lent = *real;
            needed = sizes.needed();
        }
        if self.draw.once_in(if self.is_careless { 2 } else { 12 }) {
            let is_lent = ask.is_lent();
            let lent_ones: Vec<usize> = (0..8).filter(|b| is_lent[*b] == 1).collect();
            let which = if lent_ones.is_empty() {
                7
            } else {
                self.draw.among(&lent_ones)
            };
            let kind = self.draw.below(8);
            for b in 0..8 {
                let enough = needed[b].min(lent[b]);
                lent[b] = match kind {
                    0..=3 if b == which => enough.saturating_sub(1),
                    4 if b == which => self.draw.below(enough.max(1)),
                    5 => self.draw.from_to(enough, lent[b]),
                    6..=7 => enough,
                    _ => lent[b],
                };
            }
        }
        Call { ask, lent }
    }
}
