// Writes the scripts that run.sh and speed.sh play, from fixed seeds:
//   scripts DIR             files DIR/<kind>-<seed>.txt, and beside some of them the answers that
//                           were found by hand, DIR/<kind>-<seed>.out
//   scripts --million FILE  one script of 1,000,000 lines of ordinary traffic
use std::path::Path;

mod broken;
mod corners;
mod traffic;

use corners::{INSIDE, OUTSIDE};
use traffic::{Script, Sizes, HUNGRY, MAPPED, MIXED, ORDINARY, PAGES, SPANS};

// ---- the kinds

const KINDS: &[(&str, u64, fn(&mut Script, u64))] = &[
    ("dense", 60, dense),
    ("wide", 50, wide),
    ("full", 5, full),
    ("uneven", 40, uneven),
    ("bytes", 50, bytes),
    ("exhausted", 40, exhausted),
    ("order", 40, order),
    ("starts", 40, starts),
    ("malformed", 60, malformed),
    ("long", 3, long),
    ("zeros", 40, zeros),
    ("maps", 60, maps),
    ("widest", 3, widest),
    ("handed", 40, handed),
];

// T at most 16, F at most 4: every refusal soon.
fn dense(s: &mut Script, seed: u64) {
    let spaces = s.draw.among(&[1, 1, 2, 2, 4]);
    let pages = 1 + s.draw.below(16 / spaces);
    let frames = 1 + s.draw.below(4);
    let page = s.draw.among(&[256, 256, 256, 512, 8_192]);
    s.too_early(seed % 3 * 8);
    s.stray = 16;
    s.reach = 3;
    s.start(Sizes(spaces, pages, frames, page));
    s.calls(370, &MIXED);
    s.lists();
}

// T = 1,024; from hardly any region to many, so that finds read every number of words.
fn wide(s: &mut Script, seed: u64) {
    let spaces = [1, 2, 4, 16, 64][seed as usize % 5];
    let frames = s.draw.among(&[128, 128, 100, 20, 5]);
    let many = s.draw.among(&[1, 3, 10, 40, 120]);
    s.reach = s.draw.among(&[4, 70, 300]);
    s.start(Sizes(spaces, 1_024 / spaces, frames, 256));
    s.marks(many);
    let mut mix = PAGES;
    if many < 10 {
        // else the few regions would soon be many
        mix[0] = 1;
    }
    s.calls(350, &mix);
    s.lists();
}

// Every page a start: the longest lists.
fn full(s: &mut Script, seed: u64) {
    let spaces = [1, 2, 4, 16, 64][seed as usize % 5];
    let pages = 1_024 / spaces;
    s.start(Sizes(spaces, pages, 128, 256));
    for place in 0..1_024 {
        let at = (place / pages, place % pages);
        s.line("mark", &[at.0, at.1]);
        s.left.mark(at);
    }
    s.lists();
    s.calls(200, &PAGES);
    s.lists();
}

// T that fills no word, and every page size that fits.
fn uneven(s: &mut Script, _: u64) {
    let shapes = [
        (1, 1),
        (1, 63),
        (1, 64),
        (1, 65),
        (5, 13),
        (64, 1),
        (2, 33),
        (7, 146),
        (13, 78),
        (3, 341),
        (63, 16),
        (1, 1_023),
    ];
    let rams = [
        (127, 256),
        (63, 512),
        (31, 1_024),
        (16, 2_048),
        (7, 4_096),
        (3, 8_192),
        (2, 16_384),
        (1, 32_768),
    ];
    let (spaces, pages) = s.draw.among(&shapes);
    let (frames, page) = s.draw.among(&rams);
    s.reach = s.draw.among(&[2, 6, 70]);
    s.start(Sizes(spaces, pages, frames, page));
    let many = s.draw.below(8);
    s.marks(many);
    s.calls(340, &MIXED);
    s.lists();
}

// Traffic of bytes in few regions, pages and frames side by side.
fn bytes(s: &mut Script, seed: u64) {
    let spaces = 1 + s.draw.below(3);
    let pages = 3 + s.draw.below(30);
    let (frames, page) = match seed % 5 {
        0 => s.draw.among(&[(32, 1_024), (9, 512), (4, 8_192)]),
        _ => (3 + s.draw.below(60), 256),
    };
    s.start(Sizes(spaces, pages, frames, page));
    let many = 1 + s.draw.below(4);
    s.marks(many);
    s.calls(360, &SPANS);
    s.lists();
}

// The pool is empty or nearly so: no frame for a page, one frame for a span over two.
fn exhausted(s: &mut Script, _: u64) {
    let frames = 1 + s.draw.below(6);
    let pages = 12 + s.draw.below(200);
    let spaces = 1 + s.draw.below(4);
    s.reach = 12;
    s.start(Sizes(spaces, pages, frames, 256));
    s.marks(4);
    s.calls(360, &HUNGRY);
    s.lists();
}

// The pool is emptied again and again after some releases, so that its order shows.
fn order(s: &mut Script, seed: u64) {
    let frames = s.draw.among(&[5, 24, 60, 128]);
    let spaces = [1, 2, 4, 16][seed as usize % 4];
    let many = s.draw.among(&[1, 2, 5, 10]);
    s.reach = s.draw.among(&[20, 100, 300]);
    s.stray = 200;
    s.start(Sizes(spaces, 1_024 / spaces, frames, 256));
    s.marks(many);
    // some rounds, however many frames there are
    let lines = 350.max(6 * frames);
    while s.lines < lines {
        s.empty_pool();
        for _ in 0..1 + s.draw.below(5) {
            s.release();
        }
        s.calls(2, &MIXED);
    }
    s.empty_pool();
}

// Several starts, accepted and refused; the RAM stays over each of them, and no new page shows it.
fn starts(s: &mut Script, _: u64) {
    s.too_early(3);
    while s.lines < 380 {
        let sizes = match s.draw.below(5) {
            0..=1 => s.draw.among(INSIDE),
            _ => s.draw.among(OUTSIDE),
        };
        s.start(sizes);
        s.marks(2);
        s.calls(9, &SPANS);
    }
}

// Frames full of bytes go back to the pool or are there at a start; mapped again, they are read whole: a new page has zeros but for
// what was stored since, a resident one has all of its bytes.
fn zeros(s: &mut Script, seed: u64) {
    let page = s.draw.among(&[256, 256, 512, 1_024]);
    s.stray = 60;
    while s.lines < 380 {
        let sizes = Sizes(
            1 + s.draw.below(2),
            2 + s.draw.below(8),
            2 + s.draw.below(4),
            page,
        );
        s.start(sizes);
        s.marks(3);
        for _ in 0..1 + seed % 3 {
            for _ in 0..3 {
                let near = s.near();
                s.fill_page(near);
            }
            s.release();
            s.map_some(3);
            s.read_all();
        }
    }
}

// Maps before a start and after calls of every kind, refused ones too; two starts and more.
fn maps(s: &mut Script, seed: u64) {
    s.line("map", &[]);
    while s.lines < 240 {
        let spaces = 1 + s.draw.below(4);
        let pages = 1 + s.draw.below(12);
        let frames = 1 + s.draw.below(9);
        let page = s.draw.among(&[256, 512, 1_024]);
        s.stray = 12;
        s.start(Sizes(spaces, pages, frames, page));
        s.line("map", &[]);
        s.marks(2);
        s.calls(60, &MAPPED);
        if seed % 2 == 0 {
            let outside = s.draw.among(OUTSIDE);
            s.start(outside);
            s.line("map", &[]);
        }
        s.empty_pool();
        s.line("map", &[]);
        s.release();
        s.line("map", &[]);
    }
}

// The longest map of a session: every page a start, every frame held; 14,108 bytes with 64 spaces.
fn widest(s: &mut Script, seed: u64) {
    let spaces = [1, 64, 16][seed as usize % 3];
    let pages = 1_024 / spaces;
    s.start(Sizes(spaces, pages, 128, 256));
    for place in 0..1_024 {
        let at = (place / pages, place % pages);
        s.line("mark", &[at.0, at.1]);
        s.left.mark(at);
    }
    s.line("map", &[]);
    for _ in 0..10 {
        s.empty_pool();
        s.line("map", &[]);
        s.calls(20, &MAPPED);
    }
}

// The regions of handed: each one's start, and the first page behind it.
const REGIONS: [((u64, u64), u64); 3] = [((0, 0), 6), ((0, 6), 12), ((1, 2), 12)];

// A page is handed back at every position of lists of one to five pages; what comes next shows the order of list and pool. In the
// end each region is emptied page by page, so that its start can be dropped, and a page of no region is handed back.
fn handed(s: &mut Script, seed: u64) {
    s.stray = 60;
    s.start(Sizes(2, 12, 6 + seed % 5, 256));
    for (start, _) in REGIONS {
        s.line("mark", &[start.0, start.1]);
        s.left.mark(start);
    }
    for long in 1..=5 {
        for position in 0..long {
            let (start, end) = s.draw.among(&REGIONS);
            s.make_room(long);
            s.fill_region(start, end, long);
            let page = s.left.list_of(start)[position as usize];
            s.give_page(page);
            s.show(start);
            s.give_page(page);
        }
    }
    for (start, _) in REGIONS {
        while let Some(page) = s.left.list_of(start).first().copied() {
            s.give_page(page);
            s.line("map", &[]);
        }
        s.line("drop", &[start.0, start.1]);
        s.left.drop(start);
        s.give_page(start);
    }
    s.marks(2);
    s.calls(20, &MAPPED);
}

// Lines that can't be read among others that can.
fn malformed(s: &mut Script, seed: u64) {
    s.zeros = 5;
    for _ in 0..12 {
        s.broken();
        s.too_early(1);
    }
    s.start(Sizes(2, 12, 5, 256));
    s.marks(5);
    while s.lines < 380 {
        s.broken();
        s.call(&MIXED);
        if s.draw.once_in(6) {
            s.longest();
        }
    }
    if seed % 2 == 0 {
        s.text.pop();
    }
}

// Input and output of more than 64 KiB, whatever buffers they go through.
fn long(s: &mut Script, _: u64) {
    s.stray = 100;
    s.reach = 20;
    s.start(Sizes(4, 256, 128, 256));
    s.marks(30);
    s.calls(5_000, &ORDINARY);
    s.lists();
}

fn million(s: &mut Script) {
    s.stray = 500;
    s.reach = 20;
    s.zeros = 1_000;
    s.most = 32;
    s.start(Sizes(4, 256, 128, 256));
    s.marks(40);
    while s.lines < 1_000_000 {
        s.call(&ORDINARY);
    }
}

// ---- files

fn put(dir: &Path, name: &str, text: impl AsRef<[u8]>) {
    std::fs::write(dir.join(name), text).unwrap();
}

fn drawn(dir: &Path) {
    for (k, (kind, many, lines)) in KINDS.iter().enumerate() {
        for seed in 1..=*many {
            let mut script = Script::new(1_000 * k as u64 + seed);
            lines(&mut script, seed);
            put(dir, &format!("{kind}-{seed}.txt"), script.text);
        }
    }
}

fn by_hand(dir: &Path) {
    let (mut text, mut answers) = (Vec::new(), String::new());
    for (line, answer) in corners::corners() {
        text.extend(line);
        text.push(b'\n');
        answers += &(answer + "\n");
    }
    put(dir, "corners-1.txt", text);
    put(dir, "corners-1.out", answers);
    for (k, (text, answers)) in corners::ends().into_iter().enumerate() {
        put(dir, &format!("ends-{}.txt", k + 1), text);
        put(dir, &format!("ends-{}.out", k + 1), answers);
    }
}

fn main() {
    let words: Vec<String> = std::env::args().skip(1).collect();
    match &words[..] {
        [dir] if !dir.starts_with("--") => {
            let dir = Path::new(dir);
            drawn(dir);
            by_hand(dir);
        }
        [flag, file] if flag == "--million" => {
            let mut script = Script::new(1);
            million(&mut script);
            std::fs::write(file, script.text).unwrap();
        }
        _ => {
            eprintln!("scripts DIR, or scripts --million FILE");
            std::process::exit(2);
        }
    }
}
