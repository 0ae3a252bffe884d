// The session program of document 01, which says what the program `session_program` must answer: one line for
// each line of a script. Written from document 01 and requests W-201, W-202 and W-205, whose words stand in
// quotation marks; it plays the calls on the plain machine, ../plain/plain.rs, and knows no table and no layer.
// Built for `run.sh broken` it is wrong in one way, wrong.rs.
use std::io::{BufRead, BufReader, BufWriter, Result, Write};

#[path = "../plain/plain.rs"]
mod plain;
#[cfg(broken)]
mod wrong;

use plain::{Answer, Ask, Call, Machine, Sizes, ALL};

// "Its sizes are further limited to T at most 1,024 and F x P at most 32,768"
const PLACES: u64 = 1_024;
const RAM: u64 = 32_768;

// "count (at most 256)", "hex of at most 256 bytes"
const BYTES: usize = 256;

// "as do a number of more than 9 digits", whatever it starts with
const DIGITS: usize = 9;

// W-201: "no answer since a start depends on the RAM's starting contents": session_program's is 0, and this is not. A wrong one has 0 as
// well, so that it is found by what the calls leave.
const OLD: u8 = if cfg!(broken) { 0 } else { 0xA5 };

// ---- a line to a call; none for "a line it can't read"

fn number(word: &[u8]) -> Option<u64> {
    let is_number = (1..=DIGITS).contains(&word.len()) && word.iter().all(u8::is_ascii_digit);
    let add = |n: u64, digit: &u8| 10 * n + u64::from(digit - b'0');
    is_number.then(|| word.iter().fold(0, add))
}

fn count(word: &[u8]) -> Option<u64> {
    number(word).filter(|n| *n <= BYTES as u64)
}

fn digit(letter: u8) -> Option<u8> {
    match letter {
        b'0'..=b'9' => Some(letter - b'0'),
        b'a'..=b'f' => Some(letter - b'a' + 10),
        _ => None,
    }
}

// "bytes two lowercase hex digits each, run together". An empty span has no word for its bytes, so
// an empty word is none.
fn bytes(word: &[u8]) -> Option<Vec<u8>> {
    let pairs = word.chunks_exact(2);
    if !pairs.remainder().is_empty() || !(1..=BYTES).contains(&pairs.len()) {
        return None;
    }
    pairs
        .map(|pair| Some(16 * digit(pair[0])? + digit(pair[1])?))
        .collect()
}

fn sizes(words: [&[u8]; 4]) -> Option<Sizes> {
    Some(Sizes {
        spaces: number(words[0])?,
        pages: number(words[1])?,
        frames: number(words[2])?,
        page: number(words[3])?,
    })
}

fn ask(line: &[u8]) -> Option<Ask> {
    // "Words stand one space apart": a blank too many makes an empty word, which nothing takes.
    let words: Vec<&[u8]> = line.split(|byte| *byte == b' ').collect();
    Some(match words[..] {
        [b"start", s, n, f, p] => Ask::Start(sizes([s, n, f, p])?),
        [b"mark", space, page] => Ask::Mark(number(space)?, number(page)?),
        [b"drop", space, page] => Ask::Drop(number(space)?, number(page)?),
        [b"touch", space, page] => Ask::Touch(number(space)?, number(page)?),
        [b"look", space, page] => Ask::Look(number(space)?, number(page)?),
        [b"release", space, page] => Ask::Release(number(space)?, number(page)?),
        [b"free"] => Ask::Free,
        [b"translate", space, address] => Ask::Translate(number(space)?, number(address)?),
        [b"read", space, address, n] => Ask::Read(number(space)?, number(address)?, count(n)?),
        [b"write", space, address] => Ask::Write(number(space)?, number(address)?, Vec::new()),
        [b"write", space, address, hex] => {
            Ask::Write(number(space)?, number(address)?, bytes(hex)?)
        }
        // "with room for every region"
        [b"list", space] => Ask::List(number(space)?, PLACES),
        // with room for every file
        [b"map"] => Ask::WriteMap(u64::MAX),
        [b"give", space, page] => Ask::GiveBack(number(space)?, number(page)?),
        _ => return None,
    })
}

// ---- a call to its answer

// Numbers of 9 digits have products below 2^64.
fn is_beyond(sizes: &Sizes) -> bool {
    sizes.spaces * sizes.pages > PLACES || sizes.frames * sizes.page > RAM
}

fn answer(machine: &mut Machine, line: &[u8]) -> String {
    match ask(line) {
        None => "bad line".to_string(),
        // "A start beyond the limits gives `no 1`"
        Some(Ask::Start(sizes)) if is_beyond(&sizes) => Answer::Refused(1, None).line(),
        Some(ask) => {
            let call = Call { ask, lent: ALL };
            let answer = play(machine, &call);
            said(&call.ask, &answer)
        }
    }
}

// W-205: the answer of a hand-back is "done", where document 01's calls say `ok`.
fn said(ask: &Ask, answer: &Answer) -> String {
    match (ask, answer) {
        (Ask::GiveBack(..), Answer::Done) => "done".to_string(),
        _ => answer.line(),
    }
}

#[cfg(broken)]
use wrong::play;

#[cfg(not(broken))]
fn play(machine: &mut Machine, call: &Call) -> Answer {
    machine.play(call)
}

fn main() -> Result<()> {
    #[cfg(broken)]
    if wrong::is_asked_for_names() {
        return Ok(());
    }
    let mut input = BufReader::with_capacity(1 << 16, std::io::stdin().lock());
    let mut output = BufWriter::with_capacity(1 << 16, std::io::stdout().lock());
    // One RAM for the whole session: a start leaves it as it stands.
    let mut machine = Machine::new(vec![OLD; RAM as usize]);
    let mut line = Vec::new();
    // The last line may lack its LF; after a last LF there is no line.
    while input.read_until(b'\n', &mut line)? > 0 {
        let text = line.strip_suffix(b"\n").unwrap_or(&line);
        writeln!(output, "{}", answer(&mut machine, text))?;
        line.clear();
    }
    output.flush()
}
