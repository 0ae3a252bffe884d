// Lines of calls drawn at random, for scripts.rs. It keeps track of starts and resident pages, so
// that most calls have something to do.
use std::collections::BTreeSet;

// The greatest number that a line can have.
pub const MOST: u64 = 999_999_999;

// ---- the numbers drawn

pub struct Draw(u64);

impl Draw {
    // splitmix64
    fn next(&mut self) -> u64 {
        self.0 = self.0.wrapping_add(0x9E37_79B9_7F4A_7C15);
        let x = (self.0 ^ (self.0 >> 30)).wrapping_mul(0xBF58_476D_1CE4_E5B9);
        let y = (x ^ (x >> 27)).wrapping_mul(0x94D0_49BB_1331_11EB);
        y ^ (y >> 31)
    }

    pub fn below(&mut self, n: u64) -> u64 {
        self.next() % n
    }

    pub fn once_in(&mut self, n: u64) -> bool {
        self.below(n) == 0
    }

    pub fn among<T: Copy>(&mut self, choices: &[T]) -> T {
        choices[self.below(choices.len() as u64) as usize]
    }

    // Where a line can be cut or get a byte more.
    pub fn place(&mut self, line: &[u8]) -> usize {
        self.below(line.len() as u64 + 1) as usize
    }

    pub fn hex(&mut self, digits: u64) -> String {
        let digit = |_| char::from(self.among(b"0123456789abcdef"));
        (0..digits).map(digit).collect()
    }
}

// ---- what the calls have left, as far as it helps to draw calls that are accepted

// S, N, F, P
#[derive(Clone, Copy)]
pub struct Sizes(pub u64, pub u64, pub u64, pub u64);

impl Sizes {
    fn are_accepted(&self) -> bool {
        let Sizes(spaces, pages, frames, page) = *self;
        let some = (1..=64).contains(&spaces) && 0 < pages && 0 < frames;
        let fit = spaces * pages <= 1_024 && frames * page <= 32_768;
        some && fit && page.is_power_of_two() && 256 <= page
    }
}

// A space and a page of it, in the order of their places.
pub type Page = (u64, u64);

// Which pages are starts, which are resident, and in which order their regions have them; no frames.
#[derive(Clone)]
pub struct Left {
    pub sizes: Sizes,
    starts: BTreeSet<Page>,
    resident: BTreeSet<Page>,
    // the resident pages of all regions, each region's in the order of its list
    order: Vec<Page>,
}

impl Left {
    fn by_start(sizes: Sizes) -> Left {
        Left {
            sizes,
            starts: BTreeSet::new(),
            resident: BTreeSet::new(),
            order: Vec::new(),
        }
    }

    fn region(&self, at: Page) -> Option<Page> {
        let before = self.starts.range((at.0, 0)..=at).next_back();
        before.copied()
    }

    fn resident_of(&self, start: Page) -> Vec<Page> {
        let next = self.starts.range((start.0, start.1 + 1)..).next();
        let end = *next.unwrap_or(&(self.sizes.0, 0));
        let inside = self.resident.range(start..end);
        inside.copied().collect()
    }

    fn is_empty(&self, start: Page) -> bool {
        self.resident_of(start).is_empty()
    }

    // The resident pages of a region, the newest last.
    pub fn list_of(&self, start: Page) -> Vec<Page> {
        let is_inside = |at: &&Page| self.region(**at) == Some(start);
        self.order.iter().filter(is_inside).copied().collect()
    }

    fn is_inside(&self, at: Page) -> bool {
        at.0 < self.sizes.0 && at.1 < self.sizes.1
    }

    pub fn mark(&mut self, at: Page) {
        let is_free = self.region(at).is_none_or(|start| self.is_empty(start));
        if self.is_inside(at) && is_free {
            self.starts.insert(at);
        }
    }

    pub fn drop(&mut self, at: Page) {
        if self.starts.contains(&at) && self.is_empty(at) {
            self.starts.remove(&at);
        }
    }

    pub fn release(&mut self, at: Page) {
        if self.starts.contains(&at) {
            for page in self.resident_of(at) {
                self.resident.remove(&page);
            }
            self.order.retain(|page| self.resident.contains(page));
        }
    }

    // "the region's newest page takes its position there"
    pub fn give(&mut self, at: Page) {
        let Some(start) = self.region(at) else {
            return;
        };
        if let (true, Some(newest)) = (self.resident.remove(&at), self.list_of(start).pop()) {
            self.order.retain(|page| *page != newest);
            let left = self.order.iter_mut().find(|page| **page == at);
            left.into_iter().for_each(|left| *left = newest);
        }
    }

    // All of some pages or none.
    pub fn touch(&mut self, pages: &[Page]) {
        let known = |at: &Page| self.is_inside(*at) && self.region(*at).is_some();
        let absent = pages.iter().filter(|at| !self.resident.contains(at));
        let absent: Vec<Page> = absent.copied().collect();
        let many = absent.len() + self.resident.len();
        if pages.iter().all(known) && many as u64 <= self.sizes.2 {
            self.resident.extend(&absent);
            self.order.extend(absent);
        }
    }
}

// ---- a script

// How often each call is drawn: mark, drop, touch, look, release, free, translate, read, write,
// list, map, give.
pub type Mix = [u64; 12];

pub const MIXED: Mix = [4, 2, 8, 5, 4, 1, 3, 5, 5, 1, 0, 4];
pub const PAGES: Mix = [5, 3, 12, 9, 5, 1, 1, 1, 1, 1, 0, 5];
pub const SPANS: Mix = [1, 1, 3, 1, 2, 1, 5, 12, 12, 1, 0, 3];
pub const HUNGRY: Mix = [2, 1, 12, 4, 1, 2, 1, 2, 6, 1, 0, 3];
pub const MAPPED: Mix = [5, 3, 9, 1, 4, 1, 1, 1, 4, 1, 6, 5];
// no hand-back: speed.sh and bench/lines.sh time the same lines as ever
pub const ORDINARY: Mix = [30, 20, 350, 200, 60, 20, 70, 120, 120, 1, 0, 0];

pub struct Script {
    pub draw: Draw,
    pub left: Left,
    pub text: Vec<u8>,
    pub lines: u64,
    // how far behind a start pages are drawn
    pub reach: u64,
    // one argument in so many lies outside
    pub stray: u64,
    // one number in so many has leading zeros
    pub zeros: u64,
    // the bytes of the longest span
    pub most: u64,
}

impl Script {
    pub fn new(seed: u64) -> Script {
        Script {
            draw: Draw(seed),
            left: Left::by_start(Sizes(1, 8, 3, 256)),
            text: Vec::new(),
            lines: 0,
            reach: 6,
            stray: 24,
            zeros: 40,
            most: 256,
        }
    }

    // ---- lines

    pub fn raw(&mut self, line: &[u8]) {
        self.text.extend(line);
        self.text.push(b'\n');
        self.lines += 1;
    }

    fn number(&mut self, n: u64) -> String {
        let width = match self.draw.once_in(self.zeros) {
            true => 1 + self.draw.below(9) as usize,
            false => 1,
        };
        format!(" {n:0width$}")
    }

    pub fn line(&mut self, name: &str, numbers: &[u64]) {
        let mut line = name.to_string();
        for n in numbers {
            line += &self.number(*n);
        }
        self.raw(line.as_bytes());
    }

    // ---- arguments

    fn any(&mut self) -> Page {
        let Sizes(spaces, pages, ..) = self.left.sizes;
        (self.draw.below(spaces), self.draw.below(pages))
    }

    fn some_start(&mut self) -> Page {
        let any = self.any();
        let starts = &self.left.starts;
        let found = starts.range(any..).next().or(starts.first());
        *found.unwrap_or(&any)
    }

    fn some_resident(&mut self) -> Page {
        let any = self.any();
        let resident = &self.left.resident;
        let found = resident.range(any..).next().or(resident.first());
        *found.unwrap_or(&any)
    }

    // Mostly a page of some region.
    pub fn near(&mut self) -> Page {
        match self.draw.below(8) {
            0 => self.any(),
            1..=2 => self.some_resident(),
            _ => {
                let (space, start) = self.some_start();
                let page = start + self.draw.below(self.reach);
                (space, page.min(self.left.sizes.1 - 1))
            }
        }
    }

    fn astray(&mut self, at: Page) -> Page {
        let Sizes(spaces, pages, ..) = self.left.sizes;
        let (mut space, mut page) = at;
        if self.draw.once_in(self.stray) {
            space = self.draw.among(&[spaces, spaces + 1, 63, 64, 256, MOST]);
        }
        if self.draw.once_in(self.stray) {
            page = self.draw.among(&[pages, pages + 1, 1_024, 262_144, MOST]);
        }
        (space, page)
    }

    fn offset(&mut self) -> u64 {
        let page = self.left.sizes.3;
        let any = self.draw.below(page);
        self.draw.among(&[0, 1, page - 1, any, any])
    }

    // Space, address and length of a span; many lie over a border, at the space's end or beyond it.
    fn span(&mut self, at: Page) -> (u64, u64, u64) {
        let Sizes(_, pages, _, page) = self.left.sizes;
        let (space, at) = self.astray(at);
        let end = pages * page;
        let any = self.draw.below(257);
        let few = self.draw.below(20);
        let count = self.draw.among(&[0, 1, 2, few, few, any, 255, 256]);
        let count = count.min(self.most);
        let before = self.draw.below(count + 2);
        let address = match self.draw.below(40) {
            0 => end,
            1 => end + 1,
            2..=3 => end - count,
            4 => end - count + 1,
            5..=15 => ((at + 1) * page).saturating_sub(before),
            16..=22 => at * page,
            _ => at * page + self.offset(),
        };
        (space, address.min(MOST), count)
    }

    // ---- calls

    pub fn start(&mut self, sizes: Sizes) {
        let Sizes(spaces, pages, frames, page) = sizes;
        self.line("start", &[spaces, pages, frames, page]);
        if sizes.are_accepted() {
            self.left = Left::by_start(sizes);
        }
    }

    pub fn mark(&mut self) {
        let at = match self.draw.below(8) {
            0 => self.some_start(),
            1..=2 => self.near(),
            _ => self.any(),
        };
        let (space, page) = self.astray(at);
        self.line("mark", &[space, page]);
        self.left.mark((space, page));
    }

    // A start, or now and then any page.
    fn start_or_not(&mut self) -> Page {
        let at = match self.draw.below(8) {
            0 => self.near(),
            _ => self.some_start(),
        };
        self.astray(at)
    }

    pub fn drop(&mut self) {
        let (space, page) = self.start_or_not();
        self.line("drop", &[space, page]);
        self.left.drop((space, page));
    }

    pub fn touch(&mut self) {
        let near = self.near();
        let (space, page) = self.astray(near);
        self.line("touch", &[space, page]);
        self.left.touch(&[(space, page)]);
    }

    fn look(&mut self) {
        let near = self.near();
        let (space, page) = self.astray(near);
        self.line("look", &[space, page]);
    }

    pub fn release(&mut self) {
        let (space, page) = self.start_or_not();
        self.line("release", &[space, page]);
        self.left.release((space, page));
    }

    // A resident page by its position in its region's list: the oldest, the newest, the one before it, or any.
    fn some_listed(&mut self) -> Page {
        let at = self.some_resident();
        let list = match self.left.region(at) {
            Some(start) => self.left.list_of(start),
            None => Vec::new(),
        };
        let Some(newest) = list.len().checked_sub(1) else {
            return at;
        };
        let any = self.draw.below(list.len() as u64) as usize;
        let positions = [0, newest, newest.saturating_sub(1), any];
        list[self.draw.among(&positions)]
    }

    pub fn give(&mut self) {
        let at = match self.draw.below(6) {
            0 => self.near(),
            _ => self.some_listed(),
        };
        let (space, page) = self.astray(at);
        self.give_page((space, page));
    }

    pub fn give_page(&mut self, at: Page) {
        self.line("give", &[at.0, at.1]);
        self.left.give(at);
    }

    fn translate(&mut self) {
        let at = match self.draw.below(3) {
            0 => self.near(),
            _ => self.some_resident(),
        };
        let (space, page) = self.astray(at);
        let address = page * self.left.sizes.3 + self.offset();
        self.line("translate", &[space, address.min(MOST)]);
    }

    fn read(&mut self) {
        let at = match self.draw.below(4) {
            0 => self.near(),
            _ => self.some_resident(),
        };
        let (space, address, count) = self.span(at);
        self.line("read", &[space, address, count]);
    }

    fn write(&mut self) {
        let near = self.near();
        let (space, address, count) = self.span(near);
        let mut line = format!("write{}{}", self.number(space), self.number(address));
        if count > 0 {
            line += " ";
            line += &self.draw.hex(2 * count);
        }
        self.raw(line.as_bytes());
        self.wrote(space, address, count);
    }

    // The addresses of a page by which lines can write or read all of it.
    fn parts(&self, at: Page) -> impl Iterator<Item = u64> {
        let page = self.left.sizes.3;
        (at.1 * page..(at.1 + 1) * page).step_by(256)
    }

    // Every byte of a page is written, and none is 0: whatever is left of them later shows.
    pub fn fill_page(&mut self, at: Page) {
        for address in self.parts(at) {
            let hex: String = (0..256)
                .map(|_| format!("{:02x}", 1 + self.draw.below(255)))
                .collect();
            self.raw(format!("write {} {address} {hex}", at.0).as_bytes());
            self.wrote(at.0, address, 256);
        }
    }

    pub fn read_page(&mut self, at: Page) {
        for address in self.parts(at) {
            self.line("read", &[at.0, address, 256]);
        }
    }

    // Pages are mapped by each call that can, the writes of few bytes, of many, or over a border.
    pub fn map_some(&mut self, many: u64) {
        for _ in 0..many {
            let near = self.near();
            if self.draw.once_in(2) {
                self.line("touch", &[near.0, near.1]);
                self.left.touch(&[near]);
            } else {
                self.write();
            }
        }
    }

    // Every resident page, whole.
    pub fn read_all(&mut self) {
        for at in self.left.resident.clone() {
            self.read_page(at);
        }
    }

    pub fn wrote(&mut self, space: u64, address: u64, count: u64) {
        if count > 0 {
            let page = self.left.sizes.3;
            let span = address / page..=(address + count - 1) / page;
            let pages: Vec<Page> = span.map(|at| (space, at)).collect();
            self.left.touch(&pages);
        }
    }

    fn list(&mut self) {
        let any = self.any();
        let (space, _) = self.astray(any);
        self.line("list", &[space]);
    }

    pub fn call(&mut self, mix: &Mix) {
        let mut drawn = self.draw.below(mix.iter().sum());
        let mut which = 0;
        while drawn >= mix[which] {
            drawn -= mix[which];
            which += 1;
        }
        match which {
            0 => self.mark(),
            1 => self.drop(),
            2 => self.touch(),
            3 => self.look(),
            4 => self.release(),
            5 => self.line("free", &[]),
            6 => self.translate(),
            7 => self.read(),
            8 => self.write(),
            9 => self.list(),
            10 => self.line("map", &[]),
            _ => self.give(),
        }
    }

    pub fn calls(&mut self, many: u64, mix: &Mix) {
        for _ in 0..many {
            self.call(mix);
        }
    }

    // Calls before any start.
    pub fn too_early(&mut self, many: u64) {
        let left = self.left.clone();
        self.calls(many, &MIXED);
        self.left = left;
    }

    pub fn marks(&mut self, many: u64) {
        for _ in 0..many {
            self.mark();
        }
    }

    // Touches until every frame is taken, unless the regions are too small for that.
    pub fn empty_pool(&mut self) {
        let frames = self.left.sizes.2;
        for _ in 0..3 * frames {
            if self.left.resident.len() as u64 == frames {
                break;
            }
            self.touch();
        }
        self.touch();
    }

    // Regions are released until the pool has so many frames.
    pub fn make_room(&mut self, many: u64) {
        for start in self.left.starts.clone() {
            if self.left.resident.len() as u64 + many > self.left.sizes.2 {
                self.line("release", &[start.0, start.1]);
                self.left.release(start);
            }
        }
    }

    // The order of a region's list and of the pool, by a map, a release, touches, or hand-backs and touches.
    pub fn show(&mut self, start: Page) {
        match self.draw.below(4) {
            0 => self.line("map", &[]),
            1 => {
                self.line("release", &[start.0, start.1]);
                self.left.release(start);
                self.empty_pool();
            }
            2 => self.map_some(3),
            _ => {
                self.give();
                self.touch();
                self.give();
                self.line("map", &[]);
            }
        }
    }

    // A region gets so many resident pages of those below an end, in any order.
    pub fn fill_region(&mut self, start: Page, end: u64, many: u64) {
        self.line("release", &[start.0, start.1]);
        self.left.release(start);
        while (self.left.list_of(start).len() as u64) < many {
            let page = start.1 + self.draw.below(end - start.1);
            self.line("touch", &[start.0, page]);
            self.left.touch(&[(start.0, page)]);
        }
    }

    // The regions of every space, as one line each.
    pub fn lists(&mut self) {
        for space in 0..self.left.sizes.0 {
            self.line("list", &[space]);
        }
    }
}
