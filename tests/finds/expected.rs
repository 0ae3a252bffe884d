// Writes the lines that the program `finds_program` must write. It plays the same calls on a plain set of
// places and works from document 01's definitions: no layers, no words of bits.
use std::collections::BTreeSet;
use std::io::{BufWriter, StdoutLock, Write};

const ROOM: u64 = 4_200;
const SIZES: [u64; 10] = [1, 63, 64, 65, 4_095, 4_096, 4_097, 65_536, 262_143, 262_144];
const BORDERS: [u64; 12] = [0, 1, 62, 63, 64, 65, 127, 128, 4_094, 4_095, 4_096, 4_097];
const KINDS: u64 = 10;

// ---- the definitions

// "L is 1 for T up to 64, 2 up to 4,096, else 3"
fn layers(t: u64) -> u64 {
    match t {
        0..=64 => 1,
        65..=4_096 => 2,
        _ => 3,
    }
}

// "Layer 0 has ceil(T/64) words; each layer above has one bit for each word below .., until a
// layer has one word"
fn size(t: u64) -> u64 {
    let mut layer = t.div_ceil(64);
    let mut words = layer;
    while layer > 1 {
        layer = layer.div_ceil(64);
        words += layer;
    }
    words
}

// Refusal 1, for T.
fn check_places(t: u64) -> Result<(), u32> {
    if (1..=262_144).contains(&t) {
        Ok(())
    } else {
        Err(1)
    }
}

// Refusal 1, for T or a buffer of so many words.
fn check_size(words: u64, t: u64) -> Result<(), u32> {
    check_places(t)?;
    if size(t) <= words {
        Ok(())
    } else {
        Err(1)
    }
}

// Refusal 1, then 3.
fn check(words: u64, t: u64, p: u64) -> Result<(), u32> {
    check_size(words, t)?;
    if p < t {
        Ok(())
    } else {
        Err(3)
    }
}

// "the greatest start place at most p"
fn greatest(starts: &BTreeSet<u64>, p: u64) -> Option<u64> {
    starts.range(..=p).next_back().copied()
}

// "the smallest number such that the aligned block of 64^(u+1) places around p holds a start at
// most p. The find reads 1 + 2u words. If no such start exists it reads L"
fn words_read(starts: &BTreeSet<u64>, t: u64, p: u64) -> u64 {
    if greatest(starts, p).is_none() {
        return layers(t);
    }
    let holds = |u: u32| {
        let block = 64u64.pow(u + 1);
        starts.range(p / block * block..=p).next().is_some()
    };
    1 + 2 * u64::from((0..).find(|&u| holds(u)).unwrap())
}

// ---- the calls, each with the line that says what it answers

struct Play<'a> {
    out: BufWriter<StdoutLock<'a>>,
    starts: BTreeSet<u64>,
    // the words lent to a call
    lent: u64,
}

impl Play<'_> {
    fn line(&mut self, text: String) {
        writeln!(self.out, "{text}").unwrap();
    }

    fn size(&mut self, t: u64) {
        match check_places(t) {
            Ok(()) => self.line(format!("size {t} words {}", size(t))),
            Err(k) => self.line(format!("size {t} no {k}")),
        }
    }

    fn prepare(&mut self, t: u64) {
        match check_size(self.lent, t) {
            Ok(()) => {
                self.starts.clear();
                self.line(format!("prepare {t} done"));
            }
            Err(k) => self.line(format!("prepare {t} no {k}")),
        }
    }

    fn put_quietly(&mut self, t: u64, p: u64, v: bool) {
        if check(self.lent, t, p).is_ok() {
            if v {
                self.starts.insert(p);
            } else {
                self.starts.remove(&p);
            }
        }
    }

    fn put(&mut self, t: u64, p: u64, v: bool) {
        let call = if v { "set" } else { "clear" };
        match check(self.lent, t, p) {
            Ok(()) => {
                self.put_quietly(t, p, v);
                self.line(format!("{call} {p} done"));
            }
            Err(k) => self.line(format!("{call} {p} no {k}")),
        }
    }

    fn is_set(&mut self, t: u64, p: u64) -> bool {
        match check(self.lent, t, p) {
            Ok(()) => {
                let member = self.starts.contains(&p);
                self.line(format!(
                    "is {p} {}",
                    if member { "member" } else { "absent" }
                ));
                member
            }
            Err(k) => {
                self.line(format!("is {p} no {k}"));
                false
            }
        }
    }

    fn find(&mut self, t: u64, p: u64) {
        let answer = match check(self.lent, t, p) {
            Ok(()) => {
                let words = words_read(&self.starts, t, p);
                match greatest(&self.starts, p) {
                    Some(q) => format!("start {q} words {words}"),
                    None => format!("none words {words}"),
                }
            }
            Err(k) => format!("no {k} words 0"),
        };
        self.line(format!("find {p} {answer}"));
    }

    // After calls that are refused, put a place as it was, or undo each other.
    fn buffer_same(&mut self) {
        self.line("buffer same".to_string());
    }
}

// ---- the numbers drawn, and the buffer's first content

fn next(x: u64) -> u64 {
    (x * 1_103_515_245 + 12_345) % (1 << 31)
}

fn drawn(x: u64, t: u64) -> u64 {
    x / 8_192 % t
}

fn seed(t: u64, kind: u64, n: u64) -> u64 {
    t * 32 + kind * 2 + n
}

// The sum of the words after the first n, as they were before any call.
fn excess_sum(n: u64) -> u64 {
    let prime = (1 << 31) - 1;
    let word = |i: u64| 0xAAAA_AAAA_AAAA_AAAA ^ i;
    (n..ROOM).fold(0, |s, i| (s * 31 + word(i) % prime) % prime)
}

// ---- the calls played

impl Play<'_> {
    fn one_start(&mut self, t: u64, start: u64, places: [u64; 3]) {
        self.prepare(t);
        self.put(t, start, true);
        for p in places {
            self.find(t, p);
        }
    }

    // Document 01's sizes and finds.
    fn document(&mut self) {
        for t in [64, 65, 4_097, 262_144] {
            self.size(t);
        }
        self.prepare(64);
        self.find(64, 5);
        self.one_start(4_096, 0, [63, 64, 4_095]);
        self.one_start(4_097, 0, [63, 64, 4_096]);
        self.one_start(4_096, 70, [70, 69, 128]);
    }

    fn each_call(&mut self, lent: u64, t: u64, p: u64) {
        self.lent = lent;
        self.prepare(t);
        self.put(t, p, true);
        self.is_set(t, p);
        self.find(t, p);
        self.put(t, p, false);
        self.is_set(t, p);
        self.find(t, p);
        self.lent = ROOM;
    }

    fn refused_size(&mut self, t: u64) {
        self.size(t);
        self.each_call(ROOM, t, 0);
        self.buffer_same();
    }

    fn limits(&mut self, t: u64) {
        let n = size(t);
        self.each_call(n - 1, t, 0);
        self.buffer_same();
        for p in [t - 1, t, u64::MAX] {
            self.each_call(n, t, p);
        }
    }

    fn run(&mut self, t: u64, places: std::ops::Range<u64>, v: bool) {
        for p in places {
            self.put_quietly(t, p, v);
        }
    }

    fn scatter(&mut self, t: u64, seed: u64, n: u64, v: bool) {
        let mut x = seed;
        for _ in 0..n {
            x = next(x);
            self.put_quietly(t, drawn(x, t), v);
        }
    }

    fn fill(&mut self, t: u64, kind: u64, seed: u64) {
        self.starts.clear();
        match kind {
            // empty
            0 => {}
            // the first places; the last
            1 => self.run(t, 0..5, true),
            2 => self.run(t, t.saturating_sub(5)..t, true),
            // one start
            3 => self.put_quietly(t, 0, true),
            4 => self.put_quietly(t, t / 2, true),
            // dense
            5 => self.scatter(t, seed, t, true),
            // sparse; half of it cleared again
            6 => self.scatter(t, seed, 40, true),
            7 => {
                self.scatter(t, seed, 40, true);
                self.scatter(t, seed, 20, false);
            }
            // every place; the upper half cleared again
            8 => self.run(t, 0..t, true),
            _ => {
                self.run(t, 0..t, true);
                self.run(t, t / 2..t, false);
            }
        }
    }

    fn finds(&mut self, t: u64, seed: u64) {
        let mut x = seed;
        for k in 0..40 {
            x = next(x);
            let place = drawn(x, t);
            let word = place - place % 64;
            let block = place - place % 4_096;
            let p = match k {
                0..=11 => BORDERS[k],
                12 => t - 1,
                13 => t,
                14 => t / 2,
                15 => (t / 2).saturating_sub(1),
                16..=19 => word,
                20..=23 => word.saturating_sub(1),
                24..=27 => block,
                28..=31 => block.saturating_sub(1),
                _ => place,
            };
            self.find(t, p);
        }
    }

    fn changes(&mut self, t: u64, p: u64) {
        let member = self.is_set(t, p);
        self.put(t, p, member);
        self.buffer_same();
        self.put(t, p, !member);
        self.find(t, p);
        self.put(t, p, member);
        self.find(t, p);
        self.buffer_same();
    }

    fn play_set(&mut self, t: u64, kind: u64) {
        self.line(format!("T {t} set {kind}"));
        self.fill(t, kind, seed(t, kind, 0));
        self.finds(t, seed(t, kind, 1));
        for n in 0..2 {
            self.changes(t, drawn(next(seed(t, kind, n)), t));
        }
    }

    fn play_size(&mut self, t: u64) {
        self.size(t);
        self.limits(t);
        for kind in 0..KINDS {
            self.play_set(t, kind);
        }
        let n = size(t);
        self.line(format!("excess words {} sum {}", ROOM - n, excess_sum(n)));
    }
}

fn main() {
    let mut play = Play {
        out: BufWriter::new(std::io::stdout().lock()),
        starts: BTreeSet::new(),
        lent: ROOM,
    };
    play.document();
    for t in [0, 262_145, u64::MAX] {
        play.refused_size(t);
    }
    for t in SIZES {
        play.play_size(t);
    }
}
