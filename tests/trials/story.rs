// The course of an honest trial: calls before any start, marks, a mix of all calls, an emptied pool,
// hand-backs, releases, starts with other sizes on what was left, and at the end all frames in the
// pool's order.
use crate::honest::Trial;
use crate::memory::RAM;
use crate::plain::{Ask, Call, Sizes};
use crate::traffic::{favourites, HANDED, HUNGRY, MIXED, PAGES, SPANS};

// How much of each a trial has.
#[derive(Clone, Copy)]
pub struct Course {
    pub marks: u64,
    // pages from the first on that are all marked
    pub dense: u64,
    // calls of each mix
    pub mixed: u64,
    // later starts with other sizes
    pub starts: u64,
    // the whole pool is emptied, in order, at the end too
    pub drains: bool,
}

impl Trial<'_> {
    pub fn play(&mut self, course: &Course) -> Result<(), String> {
        self.drawn(12, &MIXED)?;
        self.wrong_starts(20)?;
        self.drawn(4, &MIXED)?;
        if !self.plan.unreachable {
            self.begin(self.beyond_memory())?;
            self.drawn(100, &MIXED)?;
        }
        self.begin(self.plan.sizes)?;
        self.stretch(course)?;
        for _ in 0..course.starts {
            // on what the calls left: the RAM is full of bytes that no page may show
            let sizes = self.traffic.other_sizes(&self.memory.real);
            self.begin(sizes)?;
            self.stretch(&Course {
                marks: 10,
                dense: 0,
                mixed: course.mixed / 3,
                ..*course
            })?;
        }
        if course.starts > 0 {
            self.begin(self.plan.sizes)?;
            self.stretch(course)?;
        }
        self.end(course.drains)?;
        self.compare_all()
    }

    // Calls that are lent all of the memory.
    pub fn play_script(&mut self, asks: Vec<Ask>) -> Result<(), String> {
        for ask in asks {
            let lent = self.memory.real;
            self.call(Call { ask, lent })?;
        }
        self.compare_all()
    }

    fn wrong_starts(&mut self, many: u64) -> Result<(), String> {
        for _ in 0..many {
            let sizes = self.traffic.wrong_sizes(&self.memory.most);
            self.ask(Ask::Start(sizes))?;
        }
        Ok(())
    }

    // Sizes that a start accepts, for it is lent neither frame link nor RAM.
    fn beyond_memory(&self) -> Sizes {
        Sizes {
            frames: 65_536,
            page: 65_536,
            ..self.plan.sizes
        }
    }

    // A call that is accepted once it is lent enough.
    fn surely(&mut self, ask: impl Fn() -> Ask) -> Result<(), String> {
        while self.ask(ask())?.is_refusal() {}
        Ok(())
    }

    fn begin(&mut self, sizes: Sizes) -> Result<(), String> {
        self.surely(|| Ask::Start(sizes))?;
        self.traffic.favourites = favourites(&mut self.traffic.draw, &sizes);
        Ok(())
    }

    fn stretch(&mut self, course: &Course) -> Result<(), String> {
        for page in 0..course.dense.min(self.machine.sizes().pages) {
            self.ask(Ask::Mark(0, page))?;
        }
        self.drawn(20, &MIXED)?;
        for _ in 0..course.marks {
            let ask = self.traffic.mark(&self.machine);
            self.ask(ask)?;
        }
        self.drawn(course.mixed, &MIXED)?;
        self.drawn(course.mixed, &PAGES)?;
        self.drawn(course.mixed, &SPANS)?;
        self.drawn(course.mixed, &HUNGRY)?;
        self.empty_pool()?;
        self.drawn(course.mixed, &HUNGRY)?;
        self.drawn(course.mixed, &HANDED)?;
        self.compare_all()?;
        self.release_some(4)?;
        self.drawn(course.mixed, &MIXED)
    }

    // Whether the RAM is there: no page is mapped without it.
    fn has_ram(&self) -> bool {
        self.machine.sizes().needed()[RAM] <= self.memory.real[RAM]
    }

    // Touches of runs of pages and writes over many, until every frame is taken or most pages are.
    fn empty_pool(&mut self) -> Result<(), String> {
        let sizes = self.machine.sizes();
        if self.machine.starts().is_empty() {
            self.ask(Ask::Mark(0, 0))?;
        }
        for _ in 0..100 + sizes.frames / 40 {
            if self.machine.pool().is_empty() || !self.has_ram() {
                break;
            }
            let draw = &mut self.traffic.draw;
            let place = draw.below(sizes.places());
            let (space, page) = (place / sizes.pages, place % sizes.pages);
            let many = draw.from_to(1, 600).min(sizes.pages - page);
            if draw.once_in(3) {
                let count = (many * 8 * sizes.page)
                    .min(self.plan.longest)
                    .min((sizes.pages - page) * sizes.page);
                let bytes = draw.bytes(count);
                self.ask(Ask::Write(space, page * sizes.page, bytes))?;
            } else {
                for page in page..page + many {
                    self.ask(Ask::Touch(space, page))?;
                }
            }
        }
        // both calls that the pool can be too small for
        for _ in 0..8 {
            let place = self.traffic.draw.below(sizes.places());
            let (space, page) = (place / sizes.pages, place % sizes.pages);
            self.ask(Ask::Touch(space, page))?;
            let bytes = self.traffic.draw.bytes(1);
            self.ask(Ask::Write(space, page * sizes.page, bytes))?;
        }
        Ok(())
    }

    // The regions of one start in so many.
    fn release_some(&mut self, one_in: u64) -> Result<(), String> {
        let starts: Vec<u64> = self.machine.lists().keys().copied().collect();
        let pages = self.machine.sizes().pages;
        for start in starts {
            if self.traffic.draw.once_in(one_in) {
                self.ask(Ask::Release(start / pages, start % pages))?;
            }
        }
        Ok(())
    }

    // Resident pages are looked up once more, and every space is listed.
    fn end(&mut self, drains: bool) -> Result<(), String> {
        let Sizes {
            spaces,
            pages,
            page,
            ..
        } = self.machine.sizes();
        let lists = self.machine.lists().values().flatten();
        let resident: Vec<u64> = lists.map(|pair| pair.0).collect();
        let step = 1 + resident.len() / 2_000;
        for place in resident.into_iter().step_by(step) {
            let (space, at) = (place / pages, place % pages);
            self.ask(Ask::Look(space, at))?;
            let address = at * page + self.traffic.draw.below(page);
            self.ask(Ask::Translate(space, address))?;
            self.ask(Ask::Read(space, address, 1))?;
        }
        for space in 0..spaces {
            self.surely(|| Ask::List(space, pages + 1))?;
        }
        self.ask(Ask::Free)?;
        if drains {
            self.drain()
        } else {
            Ok(())
        }
    }

    // Some resident pages are handed back, and touched again from the first of them on: their regions' lists have another order then.
    fn hand_back_some(&mut self, many: u64) -> Result<(), String> {
        let pages = self.machine.sizes().pages;
        let mut places = Vec::new();
        for _ in 0..many {
            let Some(place) = self.traffic.some_listed(&self.machine) else {
                break;
            };
            self.surely(|| Ask::GiveBack(place / pages, place % pages))?;
            places.push(place);
        }
        for place in places {
            self.surely(|| Ask::Touch(place / pages, place % pages))?;
        }
        Ok(())
    }

    // All frames in the pool's order: every space is one region, its pages are touched from the first
    // on until no frame is left, some are handed back and touched again, and all go back at once.
    fn drain(&mut self) -> Result<(), String> {
        let Sizes {
            spaces,
            pages,
            page,
            ..
        } = self.machine.sizes();
        for start in self.machine.starts().clone() {
            self.surely(|| Ask::Release(start / pages, start % pages))?;
            self.surely(|| Ask::Drop(start / pages, start % pages))?;
        }
        for space in 0..spaces {
            self.surely(|| Ask::Mark(space, 0))?;
        }
        for place in 0..spaces * pages {
            if self.machine.pool().is_empty() || !self.has_ram() {
                break;
            }
            self.surely(|| Ask::Touch(place / pages, place % pages))?;
        }
        if self.has_ram() {
            let resident = self.machine.list_of(0).len() as u64 * page;
            let span = resident.min(self.plan.longest);
            // the last pages, before anything is stored there
            self.surely(|| Ask::Read(0, resident - span, span))?;
            let bytes = self.traffic.draw.bytes(span);
            self.surely(|| Ask::Write(0, 0, bytes.clone()))?;
            self.surely(|| Ask::Read(0, 0, span))?;
            self.surely(|| Ask::Translate(0, resident - 1))?;
        }
        self.hand_back_some(30)?;
        let resident = self.machine.resident_pages();
        for space in 0..spaces {
            self.surely(|| Ask::Release(space, 0))?;
        }
        // the first of them once more: the order in which they went back shows
        for page in 0..resident.min(pages).min(300) {
            self.surely(|| Ask::Touch(0, page))?;
        }
        self.surely(|| Ask::Free)
    }
}
