// The plain machine of document 01, for the programs of tests/ that say what the pager must answer.
// Written from the document alone, whose words stand in quotation marks, and from requests W-201, W-202
// and W-205 of document 02, by which a new page reads as zeros, the state goes to a map file, and one
// page is handed back: a set of starts, for each region a list of pages and frames, the pool as a list,
// the RAM. No table, no index, no layer.
#![allow(dead_code)]
use std::collections::{BTreeMap, BTreeSet, HashMap, VecDeque};
use std::ops::Range;

// ---- "Sizes"

#[derive(Clone, Copy)]
pub struct Sizes {
    pub spaces: u64,
    pub pages: u64,
    pub frames: u64,
    pub page: u64,
}

// "no start made (the head's S is then 0)"
const NONE: Sizes = Sizes {
    spaces: 0,
    pages: 0,
    frames: 0,
    page: 0,
};

// "The page sizes are nine powers of two, from 256 to 65,536 bytes"
fn is_page_size(bytes: u64) -> bool {
    bytes.is_power_of_two() && (256..=65_536).contains(&bytes)
}

// "L is 1 for T up to 64, 2 up to 4,096, else 3"
fn layers(places: u64) -> u64 {
    match places {
        0..=64 => 1,
        65..=4_096 => 2,
        _ => 3,
    }
}

// "Layer 0 has ceil(T/64) words; each layer above has one bit for each word below .., until a
// layer has one word"
fn index_words(places: u64) -> u64 {
    let mut layer = places.div_ceil(64);
    let mut words = layer;
    while layer > 1 {
        layer = layer.div_ceil(64);
        words += layer;
    }
    words
}

impl Sizes {
    // "T = S x N"
    pub fn places(&self) -> u64 {
        self.spaces * self.pages
    }

    // The products are taken of numbers within their limits only.
    pub fn within_limits(&self) -> bool {
        (1..=64).contains(&self.spaces)
            && (1..=262_144).contains(&self.pages)
            && self.places() <= 262_144
            && (1..=65_536).contains(&self.frames)
            && is_page_size(self.page)
    }

    pub fn space_bytes(&self) -> u64 {
        self.pages * self.page
    }

    // "Page b of space i stands at place i x N + b"
    pub fn place(&self, space: u64, page: u64) -> u64 {
        space * self.pages + page
    }

    // The entries that each buffer needs.
    pub fn needed(&self) -> Lent {
        let t = self.places();
        let ram = self.frames * self.page;
        [index_words(t), t, t, t, t, t, self.frames, ram]
    }

    // The pages of a span that ends within its space.
    pub fn span(&self, address: u64, count: u64) -> Range<u64> {
        let first = address / self.page;
        if count == 0 {
            return first..first;
        }
        first..(address + count - 1) / self.page + 1
    }
}

// ---- calls, with the lengths of the buffers lent to them

// index, resident count, page table, helper, stack, region cache, frame link, RAM
pub type Lent = [u64; 8];

// Lengths that no call finds too short.
pub const ALL: Lent = [u64::MAX; 8];

pub enum Ask {
    Start(Sizes),
    Mark(u64, u64),
    Drop(u64, u64),
    Touch(u64, u64),
    Look(u64, u64),
    Release(u64, u64),
    Free,
    // space, address
    Translate(u64, u64),
    // space, address, count
    Read(u64, u64, u64),
    // space, address, bytes
    Write(u64, u64, Vec<u8>),
    // space, records
    List(u64, u64),
    // the bytes of the file's buffer
    WriteMap(u64),
    GiveBack(u64, u64),
}

pub struct Call {
    pub ask: Ask,
    pub lent: Lent,
}

impl Ask {
    // Which call is lent which buffer: the document leaves it open but for touch's RAM, docs/DECISIONS.md has it.
    pub fn is_lent(&self) -> [u64; 8] {
        match self {
            Ask::Start(..) | Ask::Mark(..) | Ask::Drop(..) => [1, 1, 0, 0, 0, 0, 0, 0],
            Ask::Look(..) | Ask::Translate(..) => [1, 1, 1, 1, 1, 1, 0, 0],
            Ask::Release(..) => [1, 1, 1, 0, 1, 0, 1, 0],
            Ask::Free => [0; 8],
            Ask::Read(..) => [1, 1, 1, 1, 1, 1, 0, 1],
            // W-201: "1 also when the RAM lent to touch is too short", of a resident page too
            Ask::Touch(..) | Ask::Write(..) => [1; 8],
            Ask::List(..) => [1, 1, 0, 0, 0, 0, 0, 0],
            Ask::WriteMap(_) => [1, 1, 1, 0, 1, 0, 1, 0],
            Ask::GiveBack(..) => [1, 1, 1, 1, 1, 1, 1, 0],
        }
    }

    pub fn space(&self) -> Option<u64> {
        match *self {
            Ask::Start(_) | Ask::Free | Ask::WriteMap(_) => None,
            Ask::Mark(space, _) | Ask::Drop(space, _) | Ask::Touch(space, _) => Some(space),
            Ask::Look(space, _) | Ask::Release(space, _) | Ask::GiveBack(space, _) => Some(space),
            Ask::Translate(space, _) | Ask::Read(space, _, _) => Some(space),
            Ask::Write(space, _, _) | Ask::List(space, _) => Some(space),
        }
    }

    // Whether its page, address or span lies inside a space.
    pub fn is_inside(&self, sizes: &Sizes) -> bool {
        let ends = |address: u64, count: u64| {
            let end = address.checked_add(count);
            end.is_some_and(|end| end <= sizes.space_bytes())
        };
        match self {
            Ask::Start(_) | Ask::Free | Ask::List(..) | Ask::WriteMap(_) => true,
            Ask::Mark(_, page) | Ask::Drop(_, page) | Ask::Touch(_, page) => *page < sizes.pages,
            Ask::Look(_, page) | Ask::Release(_, page) => *page < sizes.pages,
            Ask::GiveBack(_, page) => *page < sizes.pages,
            Ask::Translate(_, address) => *address < sizes.space_bytes(),
            Ask::Read(_, address, count) => ends(*address, *count),
            Ask::Write(_, address, bytes) => ends(*address, bytes.len() as u64),
        }
    }

    // "Touch and look report this number"
    fn reports_words(&self) -> bool {
        matches!(self, Ask::Touch(..) | Ask::Look(..))
    }
}

impl Call {
    fn is_lent_enough(&self, sizes: &Sizes) -> bool {
        let (is_lent, needed) = (self.ask.is_lent(), sizes.needed());
        (0..8).all(|b| is_lent[b] * needed[b] <= self.lent[b])
    }

    // Refusals 1, 2 and 3, in their order; the sizes are a start's own, else the machine's.
    pub fn check(&self, now: &Sizes) -> Result<(), u64> {
        let sizes = match &self.ask {
            Ask::Start(sizes) => sizes,
            _ => now,
        };
        if !sizes.within_limits() || !self.is_lent_enough(sizes) {
            return Err(1);
        }
        if self.ask.space().is_some_and(|space| sizes.spaces <= space) {
            return Err(2);
        }
        if !self.ask.is_inside(sizes) {
            return Err(3);
        }
        Ok(())
    }
}

// ---- answers

pub struct Region {
    pub start: u64,
    pub length: u64,
    pub resident: u64,
}

pub enum Answer {
    Done,
    // frame
    Old(u64),
    // frame, index words
    New(u64, u64),
    // frame
    Resident(u64),
    // index words
    Absent(u64),
    Pages(u64),
    Free(u64),
    At(u64),
    Bytes(Vec<u8>),
    Regions(Vec<Region>),
    // the file
    Map(Vec<u8>),
    // number, and index words for touch and look
    Refused(u64, Option<u64>),
}

fn hex(bytes: &[u8]) -> String {
    bytes.iter().map(|b| format!("{b:02x}")).collect()
}

fn bytes_line(bytes: &[u8]) -> String {
    if bytes.is_empty() {
        "bytes".to_string()
    } else {
        format!("bytes {}", hex(bytes))
    }
}

fn regions_line(regions: &[Region]) -> String {
    let mut line = format!("regions {}", regions.len());
    for r in regions {
        line += &format!(" {} {} {}", r.start, r.length, r.resident);
    }
    line
}

impl Answer {
    // The line that "One session whole" gives for it, without its LF.
    pub fn line(&self) -> String {
        match self {
            Answer::Done => "ok".to_string(),
            Answer::Old(frame) => format!("frame {frame} old 0"),
            Answer::New(frame, words) => format!("frame {frame} new {words}"),
            Answer::Resident(frame) => format!("resident {frame} 0"),
            Answer::Absent(words) => format!("absent {words}"),
            Answer::Pages(n) => format!("pages {n}"),
            Answer::Free(n) => format!("free {n}"),
            Answer::At(place) => format!("at {place}"),
            Answer::Bytes(bytes) => bytes_line(bytes),
            Answer::Regions(regions) => regions_line(regions),
            Answer::Map(file) => format!("map {}", hex(file)),
            Answer::Refused(number, None) => format!("no {number}"),
            Answer::Refused(number, Some(words)) => format!("no {number} {words}"),
        }
    }
}

// ---- "The plain machine"

pub struct Machine {
    sizes: Sizes,
    // the places of all spaces' starts
    starts: BTreeSet<u64>,
    // by its start, each region's pairs (place of the page, frame) "in order of mapping"; W-205:
    // "From now on newest means last in the list, and order of mapping means the list's order"
    lists: BTreeMap<u64, Vec<(u64, u64)>>,
    // the frame of each place in the lists, so that no list is searched but for a hand-back
    held: HashMap<u64, u64>,
    pool: VecDeque<u64>,
    ram: Vec<u8>,
}

enum Page {
    Outside,
    // of the region with this start
    Absent(u64),
    // with this frame
    Resident(u64),
}

impl Machine {
    // No start made, on a RAM as it stands.
    pub fn new(ram: Vec<u8>) -> Machine {
        Machine {
            sizes: NONE,
            starts: BTreeSet::new(),
            lists: BTreeMap::new(),
            held: HashMap::new(),
            pool: VecDeque::new(),
            ram,
        }
    }

    pub fn ram(&self) -> &[u8] {
        &self.ram
    }

    // "A frame's bytes are the part of the RAM that starts at frame number times P"
    pub fn bytes_of(&self, frame: u64) -> Range<usize> {
        let first = (frame * self.sizes.page) as usize;
        first..first + self.sizes.page as usize
    }

    // For those who play it wrong on purpose.
    pub fn ram_mut(&mut self) -> &mut [u8] {
        &mut self.ram
    }

    pub fn pool_mut(&mut self) -> &mut VecDeque<u64> {
        &mut self.pool
    }

    pub fn starts_mut(&mut self) -> &mut BTreeSet<u64> {
        &mut self.starts
    }

    pub fn lists_mut(&mut self) -> &mut BTreeMap<u64, Vec<(u64, u64)>> {
        &mut self.lists
    }

    pub fn pool(&self) -> &VecDeque<u64> {
        &self.pool
    }

    pub fn sizes(&self) -> Sizes {
        self.sizes
    }

    pub fn starts(&self) -> &BTreeSet<u64> {
        &self.starts
    }

    // The lists that aren't empty.
    pub fn lists(&self) -> &BTreeMap<u64, Vec<(u64, u64)>> {
        &self.lists
    }

    // "The resident pages of all spaces are counted over the regions' lists"
    pub fn resident_pages(&self) -> u64 {
        self.lists.values().map(|list| list.len() as u64).sum()
    }

    // "Checks go in the order of the numbers; the first that applies is answered"
    pub fn play(&mut self, call: &Call) -> Answer {
        let words = call.ask.reports_words().then_some(0);
        match call.check(&self.sizes) {
            Ok(()) => self.accepted(&call.ask),
            Err(number) => Answer::Refused(number, words),
        }
    }

    fn accepted(&mut self, ask: &Ask) -> Answer {
        let sizes = self.sizes;
        match *ask {
            Ask::Start(sizes) => self.start(sizes),
            Ask::Mark(space, page) => self.mark(sizes.place(space, page)),
            Ask::Drop(space, page) => self.drop(sizes.place(space, page)),
            Ask::Touch(space, page) => self.touch(sizes.place(space, page)),
            Ask::Look(space, page) => self.look(sizes.place(space, page)),
            Ask::Release(space, page) => self.release(sizes.place(space, page)),
            Ask::Free => Answer::Free(self.pool.len() as u64),
            Ask::Translate(space, address) => self.translate(space, address),
            Ask::Read(space, address, count) => self.read(space, address, count),
            Ask::Write(space, address, ref bytes) => self.write(space, address, bytes),
            Ask::List(space, room) => self.list(space, room),
            Ask::WriteMap(room) => self.write_map(room),
            Ask::GiveBack(space, page) => self.give_back(sizes.place(space, page)),
        }
    }

    // ---- regions and pages

    // "A region runs from its start to just before the next start of its space, or to the space's
    // end": the start of the region of a place.
    pub fn region(&self, place: u64) -> Option<u64> {
        let first = place - place % self.sizes.pages;
        self.starts.range(first..=place).next_back().copied()
    }

    pub fn list_of(&self, start: u64) -> &[(u64, u64)] {
        self.lists.get(&start).map_or(&[], |list| list)
    }

    fn page(&self, place: u64) -> Page {
        let Some(start) = self.region(place) else {
            return Page::Outside;
        };
        match self.held.get(&place) {
            Some(&frame) => Page::Resident(frame),
            None => Page::Absent(start),
        }
    }

    // "the smallest number such that the aligned block of 64^(u+1) places around p holds a start at
    // most p. The find reads 1 + 2u words. If no such start exists it reads L"
    fn words(&self, place: u64) -> u64 {
        let holds = |u: u32| {
            let block = 64u64.pow(u + 1);
            let first = place - place % block;
            self.starts.range(first..=place).next().is_some()
        };
        match (0..3).find(|&u| holds(u)) {
            Some(u) => 1 + 2 * u64::from(u),
            None => layers(self.sizes.places()),
        }
    }

    // "the first frame of the pool is taken, the pair goes to the end of the region's list"; W-201:
    // "When touch or write maps a page, all P bytes of its frame are set to 0 before anything is stored"
    fn map(&mut self, start: u64, place: u64) -> Option<u64> {
        let frame = self.pool.pop_front()?;
        self.lists.entry(start).or_default().push((place, frame));
        self.held.insert(place, frame);
        let bytes = self.bytes_of(frame);
        self.ram[bytes].fill(0);
        Some(frame)
    }

    // ---- the calls

    // "sets the sizes, no starts, pool 0, 1, .., F-1"
    fn start(&mut self, sizes: Sizes) -> Answer {
        self.sizes = sizes;
        self.starts.clear();
        self.lists.clear();
        self.held.clear();
        self.pool = (0..sizes.frames).collect();
        Answer::Done
    }

    // "adds a start. A region that it cuts must have no resident page."
    fn mark(&mut self, place: u64) -> Answer {
        if self.starts.contains(&place) {
            return Answer::Refused(6, None);
        }
        let cut = self.region(place);
        if cut.is_some_and(|start| !self.list_of(start).is_empty()) {
            return Answer::Refused(7, None);
        }
        self.starts.insert(place);
        Answer::Done
    }

    // "removes a start whose region has no resident page"
    fn drop(&mut self, place: u64) -> Answer {
        if !self.starts.contains(&place) {
            return Answer::Refused(5, None);
        }
        if !self.list_of(place).is_empty() {
            return Answer::Refused(7, None);
        }
        self.starts.remove(&place);
        Answer::Done
    }

    fn touch(&mut self, place: u64) -> Answer {
        let words = self.words(place);
        match self.page(place) {
            Page::Outside => Answer::Refused(4, Some(words)),
            Page::Resident(frame) => Answer::Old(frame),
            Page::Absent(start) => match self.map(start, place) {
                Some(frame) => Answer::New(frame, words),
                None => Answer::Refused(8, Some(words)),
            },
        }
    }

    fn look(&self, place: u64) -> Answer {
        let words = self.words(place);
        match self.page(place) {
            Page::Outside => Answer::Refused(4, Some(words)),
            Page::Resident(frame) => Answer::Resident(frame),
            Page::Absent(_) => Answer::Absent(words),
        }
    }

    // "empties the region's list, puts its frames at the front of the pool, newest mapped first": the
    // last of the list first
    fn release(&mut self, place: u64) -> Answer {
        if !self.starts.contains(&place) {
            return Answer::Refused(5, None);
        }
        let list = self.lists.remove(&place).unwrap_or_default();
        for (place, frame) in &list {
            self.pool.push_front(*frame);
            self.held.remove(place);
        }
        Answer::Pages(list.len() as u64)
    }

    // W-205: "the page leaves its region's list, the region's newest page takes its position there, and
    // the frame goes to the front of the pool. If it was the newest, the list just gets shorter."
    fn give_back(&mut self, place: u64) -> Answer {
        // "Refusals: 4 and 10, in the order of document 01."
        let Some(start) = self.region(place) else {
            return Answer::Refused(4, None);
        };
        let Some(frame) = self.held.remove(&place) else {
            return Answer::Refused(10, None);
        };
        let mut list = self.lists.remove(&start).unwrap_or_default();
        let newest = list.pop();
        // the newest itself stands there no more
        if let (Some(left), Some(newest)) = (list.iter_mut().find(|pair| pair.0 == place), newest) {
            *left = newest;
        }
        if !list.is_empty() {
            self.lists.insert(start, list);
        }
        self.pool.push_front(frame);
        Answer::Done
    }

    // The frame of a resident page, or the refusal of one that isn't.
    fn frame(&self, space: u64, page: u64) -> Result<u64, u64> {
        match self.page(self.sizes.place(space, page)) {
            Page::Outside => Err(4),
            Page::Absent(_) => Err(10),
            Page::Resident(frame) => Ok(frame),
        }
    }

    // "page = address / P, offset = address mod P; a resident page gives frame x P + offset"
    fn translate(&self, space: u64, address: u64) -> Answer {
        let size = self.sizes.page;
        match self.frame(space, address / size) {
            Ok(frame) => Answer::At(frame * size + address % size),
            Err(number) => Answer::Refused(number, None),
        }
    }

    // Where the RAM has each page's part of a span, or the refusal of "the first that isn't
    // resident".
    pub fn parts(&self, space: u64, address: u64, count: u64) -> Result<Vec<Range<usize>>, u64> {
        let size = self.sizes.page;
        let part = |page: u64| {
            let first = address.max(page * size);
            let end = (address + count).min((page + 1) * size);
            let at = self.frame(space, page)? * size + first % size;
            Ok(at as usize..(at + end - first) as usize)
        };
        self.sizes.span(address, count).map(part).collect()
    }

    // "each page of the span is looked up first, ascending .. Otherwise the bytes are copied out"
    fn read(&self, space: u64, address: u64, count: u64) -> Answer {
        match self.parts(space, address, count) {
            Ok(parts) => {
                let bytes: Vec<&[u8]> = parts.into_iter().map(|part| &self.ram[part]).collect();
                Answer::Bytes(bytes.concat())
            }
            Err(number) => Answer::Refused(number, None),
        }
    }

    // "touches every page of the span, ascending, then stores. All or nothing": a refused one clears nothing
    fn write(&mut self, space: u64, address: u64, mut bytes: &[u8]) -> Answer {
        let count = bytes.len() as u64;
        if let Err(number) = self.touch_all(space, address, count) {
            return Answer::Refused(number, None);
        }
        for part in self.parts(space, address, count).unwrap() {
            let (now, later) = bytes.split_at(part.len());
            self.ram[part].copy_from_slice(now);
            bytes = later;
        }
        Answer::Done
    }

    // 4 for a page of the span without a region, then 8 for "more absent pages than pool frames".
    fn touch_all(&mut self, space: u64, address: u64, count: u64) -> Result<(), u64> {
        let mut absent = Vec::new();
        for page in self.sizes.span(address, count) {
            let place = self.sizes.place(space, page);
            match self.page(place) {
                Page::Outside => return Err(4),
                Page::Absent(start) => absent.push((start, place)),
                Page::Resident(_) => {}
            }
        }
        if self.pool.len() < absent.len() {
            return Err(8);
        }
        for (start, place) in absent {
            self.map(start, place);
        }
        Ok(())
    }

    // "one record a region (start, length, resident pages), ascending"
    fn list(&self, space: u64, room: u64) -> Answer {
        let regions = self.regions_of(space);
        if room < regions.len() as u64 {
            return Answer::Refused(11, None);
        }
        Answer::Regions(regions)
    }

    fn regions_of(&self, space: u64) -> Vec<Region> {
        let first = self.sizes.place(space, 0);
        let mut end = self.sizes.place(space + 1, 0);
        let mut regions = Vec::new();
        for &start in self.starts.range(first..end).rev() {
            regions.push(Region {
                start: start - first,
                length: end - start,
                resident: self.list_of(start).len() as u64,
            });
            end = start;
        }
        regions.reverse();
        regions
    }

    // ---- W-202: "A map file I can carry home"

    // "A space's body is, for each region ascending: start, length, resident count, then page and frame
    // pairs in mapping order."
    fn body(&self, space: u64) -> Vec<u64> {
        let first = self.sizes.place(space, 0);
        let mut body = Vec::new();
        for region in self.regions_of(space) {
            body.extend([region.start, region.length, region.resident]);
            for (place, frame) in self.list_of(first + region.start) {
                body.extend([place - first, *frame]);
            }
        }
        body
    }

    // "Contents: S, N, F, P, then for each space and last for the pool three words: where its body starts
    // .., its length in words, and its resident pages (for the pool, its length) .. Bodies follow in order
    // with no gaps."
    pub fn map_file(&self) -> Vec<u8> {
        let Sizes {
            spaces,
            pages,
            frames,
            page,
        } = self.sizes;
        let mut words = vec![spaces, pages, frames, page];
        let mut bodies = Vec::new();
        let mut at = 4 + 3 * (spaces + 1);
        let mut add = |body: Vec<u64>, third: u64| {
            words.extend([at, body.len() as u64, third]);
            at += body.len() as u64;
            bodies.extend(body);
        };
        for space in 0..spaces {
            let resident = self.regions_of(space).iter().map(|r| r.resident).sum();
            add(self.body(space), resident);
        }
        // "The pool's body is its frames in order."
        add(self.pool.iter().copied().collect(), self.pool.len() as u64);
        words.extend(bodies);
        let bytes = words.iter().flat_map(|word| (*word as u32).to_le_bytes());
        bytes.collect()
    }

    // "13, buffer too short for the file, last"
    fn write_map(&self, room: u64) -> Answer {
        let file = self.map_file();
        if room < file.len() as u64 {
            return Answer::Refused(13, None);
        }
        Answer::Map(file)
    }
}
