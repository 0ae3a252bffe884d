// Lines that can't be read, made of lines that can, for scripts.rs.
use crate::traffic::{Draw, Script, MIXED, MOST};

type Break = fn(&mut Draw, &mut Vec<u8>);

// What is done to a line that could be read. Some of it leaves one that still can.
const BREAKS: &[Break] = &[
    |_, line| line.clear(),
    |_, line| line.insert(0, b' '),
    |_, line| line.push(b' '),
    |_, line| line.push(b'\t'),
    |_, line| line.push(b'\r'),
    |_, line| line.extend(b" 0"),
    |_, line| line[0] = line[0].to_ascii_uppercase(),
    |draw, line| blank_as(draw, line, b"  "),
    |draw, line| blank_as(draw, line, b"\t"),
    |draw, line| blank_as(draw, line, b""),
    |draw, line| blank_as(draw, line, b" -"),
    |draw, line| blank_as(draw, line, b" +"),
    |draw, line| blank_as(draw, line, b" 0x"),
    |_, line| line.extend(b"\0"),
    |_, line| line.splice(0..0, *b"\xef\xbb\xbf").for_each(drop),
    drop_word,
    cut,
    odd_byte_more,
    odd_byte_instead,
    high_bit,
    ten_digits,
    ten_digits,
    bad_read,
    bad_hex,
    bad_hex,
    long_line,
];

// Neighbours of digits and letters, signs, blanks that aren't a space, bytes that aren't text.
const ODD: &[u8] = b"/:`g@G+-.,_x\0\t\x0b\x0c\r\x1b\x7f\x80\x85\xa0\xc3\xe9\xff";

fn blank_as(draw: &mut Draw, line: &mut Vec<u8>, other: &[u8]) {
    let blanks: Vec<usize> = (0..line.len()).filter(|at| line[*at] == b' ').collect();
    if !blanks.is_empty() {
        let at = draw.among(&blanks);
        line.splice(at..=at, other.iter().copied());
    }
}

fn drop_word(_: &mut Draw, line: &mut Vec<u8>) {
    let at = line.iter().rposition(|byte| *byte == b' ');
    line.truncate(at.unwrap_or(0));
}

fn cut(draw: &mut Draw, line: &mut Vec<u8>) {
    line.truncate(draw.place(line));
}

fn odd_byte_more(draw: &mut Draw, line: &mut Vec<u8>) {
    line.insert(draw.place(line), draw.among(ODD));
}

fn odd_byte_instead(draw: &mut Draw, line: &mut Vec<u8>) {
    let at = draw.below(line.len() as u64) as usize;
    line[at] = draw.among(ODD);
}

fn high_bit(draw: &mut Draw, line: &mut Vec<u8>) {
    let at = draw.below(line.len() as u64) as usize;
    line[at] |= 0x80;
}

// A last number that is small in 9 digits, 32 bits or 64 bits.
fn ten_digits(draw: &mut Draw, line: &mut Vec<u8>) {
    drop_word(draw, line);
    let small = draw.below(8);
    line.extend(
        match draw.below(5) {
            0 => format!(" {small:010}"),
            1 => format!(" {}", 1_000_000_000 + small),
            2 => format!(" {}", (1 << 32) + small),
            3 => format!(" {}", (1 << 64) + u128::from(small)),
            _ => format!(" {small:040}"),
        }
        .bytes(),
    );
}

fn bad_read(draw: &mut Draw, line: &mut Vec<u8>) {
    let count = draw.among(&[257, 258, 300, 512, 65_536, MOST]);
    *line = format!("read 0 0 {count}").into_bytes();
}

fn bad_hex(draw: &mut Draw, line: &mut Vec<u8>) {
    let digits = draw.among(&[0, 1, 3, 9, 511, 513, 514, 515, 1_024]);
    let bytes = draw.among(&[1, 2, 5, 256]);
    let hex = match draw.below(4) {
        0 => draw.hex(2 * bytes) + " 00",
        1 => draw.hex(2 * bytes).to_uppercase() + "AB",
        _ => draw.hex(digits),
    };
    *line = format!("write 0 0 {hex}").into_bytes();
}

// A call with much before or behind it, also as much as a buffer may hold.
fn long_line(draw: &mut Draw, line: &mut Vec<u8>) {
    let many = draw.among(&[512, 538, 539, 540, 600, 1_024, 4_096, 8_192, 10_000, 65_536]);
    let some: &[u8] = draw.among(&[b"0", b" ", b"x", b"\0", b"\r", b"free ", b"\xff"]);
    let much = some.iter().copied().cycle().take(many);
    let at = draw.among(&[0, line.len()]);
    line.splice(at..at, much);
}

impl Script {
    // A call's line that counts as not said.
    fn sample(&mut self) -> Vec<u8> {
        let (left, length) = (self.left.clone(), self.text.len());
        self.call(&MIXED);
        self.left = left;
        self.lines -= 1;
        let mut line = self.text.split_off(length);
        line.pop();
        line
    }

    pub fn broken(&mut self) {
        let mut line = self.sample();
        let change = self.draw.among(BREAKS);
        change(&mut self.draw, &mut line);
        self.raw(&line);
    }

    // A write of 256 bytes, as long as a line can be, or of one byte more.
    pub fn longest(&mut self) {
        let bytes = self.draw.among(&[255, 256, 256, 257]);
        let (space, page) = self.near();
        let address = page * self.left.sizes.3;
        let hex = self.draw.hex(2 * bytes);
        self.raw(format!("write {space:09} {address:09} {hex}").as_bytes());
        if bytes <= 256 {
            self.wrote(space, address, bytes);
        }
    }
}
