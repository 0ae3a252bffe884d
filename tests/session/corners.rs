// Scripts whose answers were found by hand, for scripts.rs: document 01 and the rules of a line, as
// an adversary would read them. They hold the independent program to the rules, and so `session_program` too.
use crate::traffic::{Sizes, MOST};

// A line and its answer.
pub type Said = (Vec<u8>, String);

fn said(table: &[(&str, &str)]) -> Vec<Said> {
    let owned = |(line, answer): &(&str, &str)| (line.as_bytes().to_vec(), answer.to_string());
    table.iter().map(owned).collect()
}

fn all_bad(lines: &[Vec<u8>]) -> Vec<Said> {
    let bad = |line: &Vec<u8>| (line.clone(), "bad line".to_string());
    lines.iter().map(bad).collect()
}

// Every call before a start. A line that can't be read is no call.
const EARLY: &[(&str, &str)] = &[
    ("free", "no 1"),
    ("mark 0 0", "no 1"),
    ("drop 0 0", "no 1"),
    ("touch 0 0", "no 1 0"),
    ("look 0 0", "no 1 0"),
    ("release 0 0", "no 1"),
    ("translate 0 0", "no 1"),
    ("read 0 0 0", "no 1"),
    ("read 999999999 999999999 256", "no 1"),
    ("read 0 0 257", "bad line"),
    ("write 0 0", "no 1"),
    ("write 0 0 00", "no 1"),
    ("write 0 0 0", "bad line"),
    ("list 0", "no 1"),
    ("list 99", "no 1"),
    ("map", "no 1"),
    ("map 0", "bad line"),
    ("give 0 0", "no 1"),
    ("give 999999999 999999999", "no 1"),
    ("give 0", "bad line"),
    ("touch 999999999 999999999", "no 1 0"),
    ("start 0 8 3 256", "no 1"),
    ("start 1 8 129 256", "no 1"),
    ("free", "no 1"),
    ("look 0 0", "no 1 0"),
];

// Two spaces of four pages, three frames; then starts over what the RAM holds.
const CALLS: &[(&str, &str)] = &[
    ("start 2 004 3 000000256", "ok"),
    ("free", "free 3"),
    ("list 0", "regions 0"),
    ("list 000000001", "regions 0"),
    ("list 2", "no 2"),
    ("list 999999999", "no 2"),
    ("read 0 0 0", "bytes"),
    ("read 0 1024 0", "bytes"),
    ("read 0 1025 0", "no 3"),
    ("read 1 1024 1", "no 3"),
    ("read 1 769 256", "no 3"),
    ("read 1 768 256", "no 4"),
    ("read 2 1025 0", "no 2"),
    ("read 0 0 1", "no 4"),
    ("write 0 0", "ok"),
    ("write 0 1024", "ok"),
    ("write 0 1025", "no 3"),
    ("write 2 1025", "no 2"),
    ("write 0 999999999", "no 3"),
    ("write 0 1024 00", "no 3"),
    ("write 0 1023 00", "no 4"),
    ("translate 0 1024", "no 3"),
    ("translate 0 1023", "no 4"),
    ("translate 2 1024", "no 2"),
    ("look 0 3", "no 4 1"),
    ("touch 0 3", "no 4 1"),
    ("touch 0 4", "no 3 0"),
    ("touch 2 4", "no 2 0"),
    ("look 999999999 999999999", "no 2 0"),
    ("mark 0 001", "ok"),
    ("mark 0 1", "no 6"),
    ("mark 1 0", "ok"),
    ("mark 1 4", "no 3"),
    ("drop 0 0", "no 5"),
    ("release 0 0", "no 5"),
    ("release 0 1", "pages 0"),
    ("look 0 1", "absent 1"),
    ("look 0 0", "no 4 1"),
    ("translate 0 256", "no 10"),
    ("read 0 256 1", "no 10"),
    ("read 0 255 2", "no 4"),
    ("write 0 255 0102", "no 4"),
    ("free", "free 3"),
    ("write 0 511 0a0b", "ok"),
    ("translate 0 511", "at 255"),
    ("translate 0 512", "at 256"),
    ("read 0 511 2", "bytes 0a0b"),
    ("read 0 510 000000004", "bytes 000a0b00"),
    ("read 0 767 2", "no 10"),
    ("free", "free 1"),
    ("write 1 255 0102", "no 8"),
    ("look 1 0", "absent 1"),
    ("free", "free 1"),
    ("touch 1 0", "frame 2 new 1"),
    ("touch 1 1", "no 8 1"),
    ("look 1 1", "absent 1"),
    ("write 1 255 01", "ok"),
    ("write 1 256", "ok"),
    ("write 1 256 01", "no 8"),
    ("touch 1 0", "frame 2 old 0"),
    ("look 1 0", "resident 2 0"),
    ("mark 1 2", "no 7"),
    ("drop 1 0", "no 7"),
    ("list 0", "regions 1 1 3 2"),
    ("list 1", "regions 1 0 4 1"),
    ("release 0 1", "pages 2"),
    ("touch 0 3", "frame 1 new 1"),
    ("read 0 768 2", "bytes 0000"),
    ("mark 0 2", "no 7"),
    ("release 0 1", "pages 1"),
    ("mark 0 2", "ok"),
    ("list 0", "regions 2 1 1 0 2 2 0"),
    ("drop 0 1", "ok"),
    ("look 0 1", "no 4 1"),
    ("drop 0 2", "ok"),
    ("list 0", "regions 0"),
    ("start 1 1025 3 256", "no 1"),
    ("start 65 1 3 256", "no 1"),
    ("start 1 8 3 257", "no 1"),
    ("touch 1 0", "frame 2 old 0"),
    ("read 1 255 1", "bytes 01"),
    ("start 1 1024 128 256", "ok"),
    ("free", "free 128"),
    ("list 0", "regions 0"),
    ("list 1", "no 2"),
    ("look 0 1023", "no 4 2"),
    ("mark 0 0", "ok"),
    ("look 0 63", "absent 1"),
    ("look 0 64", "absent 3"),
    ("touch 0 1023", "frame 0 new 3"),
    ("read 0 262143 1", "bytes 00"),
    ("start 64 16 1 32768", "ok"),
    ("mark 63 15", "ok"),
    ("look 63 15", "absent 1"),
    ("look 63 14", "no 4 2"),
    ("mark 62 0", "ok"),
    ("look 63 14", "no 4 1"),
    ("write 63 524287 ff", "ok"),
    ("translate 63 524287", "at 32767"),
    ("read 63 524286 3", "no 3"),
    ("read 63 524286 2", "bytes 00ff"),
    ("read 63 491774 4", "bytes 00000000"),
];

// Lines that can't be read, before a start and after.
const BAD: &[&str] = &[
    "",
    " ",
    "\t",
    "\r",
    "\0",
    "0",
    "ok",
    "bad line",
    "no 1",
    "quit",
    "# free",
    "fre",
    "frees",
    "fr ee",
    "Free",
    "FREE",
    "free ",
    " free",
    "free\r",
    "free\t",
    "free\0",
    "\0free",
    "free\u{b}",
    "free\u{a0}",
    "free\u{2028}",
    "\u{feff}free",
    "free 0",
    "free free",
    "free;",
    "list",
    "list ",
    "list 0 ",
    "list 0 0",
    "list  0",
    " list 0",
    "list\t0",
    "list 0\t",
    "list 0\r",
    "list -0",
    "list +0",
    "list 0x0",
    "list 0.",
    "list 1e0",
    "list 1_0",
    "list 1,0",
    "list a",
    "list /",
    "list :",
    "list 0\0",
    "list \0",
    "list \u{660}",
    "list \u{ff10}",
    "list \u{b2}",
    "list 0000000000",
    "list 0000000001",
    "list 1000000000",
    "list 4294967296",
    "list 18446744073709551616",
    "list0",
    "lists 0",
    "map ",
    " map",
    "map 0",
    "map  ",
    "map map",
    "map 0 0",
    "map 00",
    "map\t",
    "map\r",
    "map\0",
    "map;",
    "map0",
    "maps",
    "ma",
    "ma p",
    "mapx",
    "Map",
    "MAP",
    "give",
    "give ",
    "give 0",
    "give 0 ",
    "give 0 0 0",
    "give 0 0 ",
    "give 0 0 00",
    "give  0 0",
    "give 0  0",
    " give 0 0",
    "give 0,0",
    "give\t0 0",
    "give 0\t0",
    "give 0 0\r",
    "give 0 0\0",
    "give 0 -1",
    "give 0 +1",
    "give 0 0x0",
    "give 0 a",
    "give 0 0000000000",
    "give 0 4294967296",
    "give 4294967296 0",
    "give0 0",
    "give0",
    "gives 0 0",
    "giv 0 0",
    "giv",
    "gi ve 0 0",
    "Give 0 0",
    "GIVE 0 0",
    "give back 0 0",
    "give_back 0 0",
    "giveback 0 0",
    "start",
    "start 1 8 3",
    "start 1 8 3 ",
    "start 1 8 3 256 ",
    "start 1 8 3 256 0",
    "start 1  8 3 256",
    "start 1 8 3 0x100",
    "start 1 8 3 -256",
    "start -1 8 3 256",
    "start 1 8 3 1000000000",
    "start 0000000001 8 3 256",
    "start 0 0 0 0 0",
    "Start 1 8 3 256",
    "start1 8 3 256",
    "start 18 3 256",
    "mark",
    "mark 0",
    "mark 0 ",
    "mark 0 0 0",
    "mark 0 0 ",
    "mark 0  0",
    "mark 0,0",
    "mark 0 -1",
    "mark 0 4294967296",
    "marks 0 0",
    "mar 0 0",
    "mark0 0",
    "drop 0",
    "drop 0 0 0",
    "drop 0 0\r",
    "Drop 0 0",
    "touch 0",
    "touch 0 5 0",
    "touch 0 5 # five",
    "touch 0\t5",
    "touch 0 05.0",
    "touch 0 0000000005",
    "toucH 0 5",
    "look 0",
    "look 0 5 0",
    "look 0 5\0",
    "look 5000000000 5",
    "release 0",
    "release 0 0 0",
    "release  0 0",
    "release 0 0x",
    "translate 0",
    "translate 0 0 0",
    "translate 0 1099511627776",
    "translate 0 -1",
    "translat 0 0",
    "read 0 0",
    "read 0 0 ",
    "read 0 0 -1",
    "read 0 0 257",
    "read 0 0 000000257",
    "read 0 0 0000000256",
    "read 0 0 999999999",
    "read 0 0 4294967297",
    "read 99 999999999 257",
    "read 0 0 1 0",
    "read 0 0 ff",
    "read 0 0 1h",
    "write",
    "write 0",
    "write 0 ",
    "write 0 0 ",
    "write 0 0  ",
    "write 0  0",
    "write  0 0",
    "write 0 0\r",
    "write 0 0 \r",
    "write 0 0 a",
    "write 0 0 abc",
    "write 0 0 AB",
    "write 0 0 aB",
    "write 0 0 0g",
    "write 0 0 g0",
    "write 0 0 /0",
    "write 0 0 0:",
    "write 0 0 `0",
    "write 0 0 0@",
    "write 0 0 0x",
    "write 0 0 0x00",
    "write 0 0 -1",
    "write 0 0 00 ",
    "write 0 0  00",
    "write 0 0 00 00",
    "write 0 0 00\r",
    "write 0 0 00\0",
    "write 0 0 \0\0",
    "write 0 0 \u{e9}",
    "write 0 1000000000 00",
    "write 99 999999999 0",
    "mark 0 0;mark 0 4",
    "mark 0 0\rmark 0 4",
];

// The same where text can't say it, or not briefly.
fn bad_lines() -> Vec<Vec<u8>> {
    let mut lines: Vec<Vec<u8>> = BAD.iter().map(|line| line.as_bytes().to_vec()).collect();
    lines.push(b"\xff".to_vec());
    lines.push(b"free\xff".to_vec());
    lines.push(b"\xe6ree".to_vec());
    lines.push(b"list \xb0".to_vec());
    lines.push(b"write 0 0 \xe1\xe1".to_vec());
    for digits in [511, 513, 514, 515, 1_024, 10_000] {
        lines.push(["write 0 0 ", &"0".repeat(digits)].concat().into());
    }
    for many in [
        507, 508, 533, 534, 535, 1_020, 4_092, 8_188, 10_000, 65_532, 65_536,
    ] {
        lines.push(["free", &" ".repeat(many)].concat().into());
        lines.push([&"x".repeat(many), "free"].concat().into());
        lines.push(["list ", &"0".repeat(many)].concat().into());
    }
    lines
}

// The longest line that is a call, and lines a byte longer.
fn longest_lines() -> Vec<Said> {
    let hex: String = (0..256).map(|byte| format!("{byte:02x}")).collect();
    let zeros = "00".repeat(254);
    let ok = |line: String| (line.into_bytes(), "ok".to_string());
    let mut lines = said(&[
        ("start 000000001 000000008 000000003 000000256", "ok"),
        ("mark 0 0", "ok"),
    ]);
    lines.push(ok(format!("write 000000000 000000256 {hex}")));
    lines.push((b"read 0 256 256".to_vec(), format!("bytes {hex}")));
    lines.push((
        b"read 000000000 000000511 001".to_vec(),
        "bytes ff".to_string(),
    ));
    lines.push((
        format!("write 999999999 999999999 {hex}").into(),
        "no 2".to_string(),
    ));
    lines.push((format!("write 0 1793 {hex}").into(), "no 3".to_string()));
    lines.push(ok(format!("write 0 1792 {hex}")));
    lines.push(ok(format!("write 0 511 abcd{zeros}")));
    lines.push((b"translate 0 767".to_vec(), "at 767".to_string()));
    lines.push((b"read 0 511 256".to_vec(), format!("bytes abcd{zeros}")));
    lines.push((b"read 0 510 3".to_vec(), "bytes feabcd".to_string()));
    let longer = ["0", " ", "\r", "\0", "00", " 00"];
    lines.extend(all_bad(
        &longer.map(|more| format!("write 000000000 000000256 {hex}{more}").into()),
    ));
    lines.push((b"read 0 256 1".to_vec(), "bytes 00".to_string()));
    lines
}

// All frames in one region: taken in order, given back newest first.
fn whole_pool() -> Vec<Said> {
    let mut lines = said(&[("start 1 1024 128 256", "ok"), ("mark 0 0", "ok")]);
    for k in 0..128 {
        // the start is in the first block of 64 only
        let words = if k < 64 { 1 } else { 3 };
        let answer = format!("frame {k} new {words}");
        lines.push((format!("touch 0 {k}").into(), answer));
    }
    lines.extend(said(&[
        ("free", "free 0"),
        ("touch 0 128", "no 8 3"),
        ("list 0", "regions 1 0 1024 128"),
        ("release 0 0", "pages 128"),
        ("free", "free 128"),
    ]));
    for k in 0..128 {
        let answer = format!("frame {} new 3", 127 - k);
        lines.push((format!("touch 0 {}", 896 + k).into(), answer));
    }
    lines.extend(said(&[("touch 0 895", "no 8 3"), ("look 0 0", "absent 1")]));
    lines
}

// Bytes by their hex, with how often each is said.
fn hex(parts: &[(&str, usize)]) -> String {
    parts
        .iter()
        .map(|(byte, many)| byte.repeat(*many))
        .collect()
}

// W-201: "all P bytes of its frame are set to 0 before anything is stored". Frames full of bytes are
// given back, mapped by each call that can, and read whole: two spaces of four pages, three frames.
fn new_pages() -> Vec<Said> {
    let full = hex(&[("e7", 256)]);
    let mut lines = said(&[
        ("start 2 4 3 256", "ok"),
        ("mark 0 0", "ok"),
        ("mark 0 2", "ok"),
        ("mark 1 1", "ok"),
    ]);
    let mut say = |line: &str, answer: &str| lines.push((line.into(), answer.to_string()));
    let bytes = |parts: &[(&str, usize)]| format!("bytes {}", hex(parts));
    for address in [0, 256, 512] {
        say(&format!("write 0 {address} {full}"), "ok");
    }
    // neither a touch of a resident page clears it nor a refused write a page of its span
    say("touch 0 0", "frame 0 old 0");
    say("write 0 767 0102", "no 8");
    say("write 1 255 0102", "no 4");
    for address in [0, 256, 512] {
        say(&format!("read 0 {address} 256"), &bytes(&[("e7", 256)]));
    }
    // nor a write its resident pages
    say("write 0 255 0102", "ok");
    say("read 0 0 256", &bytes(&[("e7", 255), ("01", 1)]));
    say("read 0 256 256", &bytes(&[("02", 1), ("e7", 255)]));
    // mapped again by a touch, and by a write into a part
    say("release 0 0", "pages 2");
    say("touch 0 1", "frame 1 new 1");
    say("read 0 256 256", &bytes(&[("00", 256)]));
    say("write 0 10 0304", "ok");
    say(
        "read 0 0 256",
        &bytes(&[("00", 10), ("0304", 1), ("00", 244)]),
    );
    say("read 0 512 256", &bytes(&[("e7", 256)]));
    // a resident page before the new one
    say(&format!("write 0 256 {full}"), "ok");
    say("release 0 2", "pages 1");
    say("write 0 510 05060708", "ok");
    say("read 0 256 256", &bytes(&[("e7", 254), ("0506", 1)]));
    say("read 0 512 256", &bytes(&[("0708", 1), ("00", 254)]));
    // and one behind it
    say("release 0 0", "pages 2");
    say("touch 0 1", "frame 0 new 1");
    say(&format!("write 0 256 {full}"), "ok");
    say("write 0 254 090a0b0c", "ok");
    say("read 0 0 256", &bytes(&[("00", 254), ("090a", 1)]));
    say("read 0 256 256", &bytes(&[("0b0c", 1), ("e7", 254)]));
    // two new pages, then a whole one; an empty span has none
    say("release 0 0", "pages 2");
    say(&format!("write 0 200 {full}"), "ok");
    say("translate 0 0", "at 256");
    say("read 0 0 256", &bytes(&[("00", 200), ("e7", 56)]));
    say("read 0 256 256", &bytes(&[("e7", 200), ("00", 56)]));
    say("release 0 0", "pages 2");
    say(&format!("write 0 0 {full}"), "ok");
    say("read 0 0 256", &bytes(&[("e7", 256)]));
    say("write 0 300", "ok");
    say("look 0 1", "absent 1");
    // later starts, over frames that were full and not given back
    say(&format!("write 0 256 {full}"), "ok");
    say(&format!("write 0 512 {full}"), "ok");
    say("start 1 2 1 512", "ok");
    say("mark 0 0", "ok");
    say("touch 0 1", "frame 0 new 1");
    say("read 0 512 256", &bytes(&[("00", 256)]));
    say("read 0 768 256", &bytes(&[("00", 256)]));
    say("start 1 4 3 256", "ok");
    say("mark 0 0", "ok");
    say("touch 0 3", "frame 0 new 1");
    say("write 0 255 0d0e", "ok");
    say("read 0 0 256", &bytes(&[("00", 255), ("0d", 1)]));
    say("translate 0 256", "at 512");
    say("read 0 256 256", &bytes(&[("0e", 1), ("00", 255)]));
    lines
}

// A map's line by its words.
fn map_line(words: &[u32]) -> String {
    let bytes = words.iter().flat_map(|word| word.to_le_bytes());
    let hex: String = bytes.map(|byte| format!("{byte:02x}")).collect();
    format!("map {hex}")
}

// W-202: maps after calls that are accepted and refused, word by word. Two spaces of four pages, three frames; the fourth one is the
// example of docs/MAP.md, with pages in another order than their numbers and frames in another than they were given out.
fn maps() -> Vec<Said> {
    let mut lines = Vec::new();
    let mut say = |line: &str, answer: &str| lines.push((line.into(), answer.to_string()));
    let empty = map_line(&[2, 4, 3, 256, 13, 0, 0, 13, 0, 0, 13, 3, 3, 0, 1, 2]);
    say("start 2 4 3 256", "ok");
    say("map", &empty);
    say("touch 0 0", "no 4 1");
    say("release 1 0", "no 5");
    say("map", &empty);
    say("mark 0 0", "ok");
    say("mark 0 2", "ok");
    let marked = [
        2, 4, 3, 256, 13, 6, 0, 19, 0, 0, 19, 3, 3, 0, 2, 0, 2, 2, 0, 0, 1, 2,
    ];
    say("map", &map_line(&marked));
    say("touch 0 2", "frame 0 new 1");
    say("touch 0 3", "frame 1 new 1");
    say("release 0 2", "pages 2");
    say("touch 0 3", "frame 1 new 1");
    say("write 0 512 6869", "ok");
    let example = map_line(&[
        2, 4, 3, 256, 13, 10, 2, 23, 0, 0, 23, 1, 1, 0, 2, 0, 2, 2, 2, 3, 1, 2, 0, 2,
    ]);
    say("map", &example);
    // nothing of this changes the state
    say("touch 0 3", "frame 1 old 0");
    say("mark 0 3", "no 7");
    say("drop 0 2", "no 7");
    say("write 0 255 000000", "no 8");
    say("release 0 0", "pages 0");
    say("write 1 0 00", "no 4");
    say("read 0 512 2", "bytes 6869");
    say("start 1 8 129 256", "no 1");
    say("map ", "bad line");
    say("map", &example);
    // the pool empty: its body starts at the file's end
    say("mark 1 3", "ok");
    say("touch 1 3", "frame 2 new 1");
    let full = [
        2, 4, 3, 256, 13, 10, 2, 23, 5, 1, 28, 0, 0, 0, 2, 0, 2, 2, 2, 3, 1, 2, 0, 3, 1, 1, 3, 2,
    ];
    say("map", &map_line(&full));
    say("touch 1 3", "frame 2 old 0");
    say("touch 0 0", "no 8 1");
    // newest first, at the front
    say("release 0 2", "pages 2");
    say("drop 0 0", "ok");
    let released = [
        2, 4, 3, 256, 13, 3, 0, 16, 5, 1, 21, 2, 2, 2, 2, 0, 3, 1, 1, 3, 2, 0, 1,
    ];
    say("map", &map_line(&released));
    // a second start, of other sizes
    say("start 1 1 1 32768", "ok");
    say("map", &map_line(&[1, 1, 1, 32_768, 10, 0, 0, 10, 1, 1, 0]));
    say("mark 0 0", "ok");
    say("touch 0 0", "frame 0 new 1");
    let one = [1, 1, 1, 32_768, 10, 5, 1, 15, 0, 0, 0, 1, 1, 0, 0];
    say("map", &map_line(&one));
    lines
}

// W-205: "the page leaves its region's list, the region's newest page takes its position there, and the frame goes to the front of the
// pool". One space of eight pages, five frames; a region from page 1 on and one from page 5 on. Beside a line the lists and the pool
// that it leaves, as page:frame.
fn hand_backs() -> Vec<Said> {
    let mut lines = said(&[
        ("start 1 8 5 256", "ok"),
        ("give 0 0", "no 4"),
        ("give 0 7", "no 4"),
        ("give 1 0", "no 2"),
        ("give 0 8", "no 3"),
        ("give 1 8", "no 2"),
        ("give 0 999999999", "no 3"),
        ("give 999999999 999999999", "no 2"),
        ("mark 0 1", "ok"),
        ("mark 0 5", "ok"),
        ("give 0 0", "no 4"),
        ("give 0 1", "no 10"),
        ("give 0 7", "no 10"),
        ("touch 0 3", "frame 0 new 1"),
        ("touch 0 1", "frame 1 new 1"),
        ("touch 0 4", "frame 2 new 1"),
        ("touch 0 6", "frame 3 new 1"),
        // refused: no region, a start that is absent, absent beside resident ones
        ("give 0 0", "no 4"),
        ("give 0 5", "no 10"),
        ("give 0 2", "no 10"),
        ("free", "free 1"),
    ]);
    let mut say = |line: &str, answer: &str| lines.push((line.into(), answer.to_string()));
    // 3:0 1:1 4:2, 6:3, pool 4
    let mapped = [
        1, 8, 5, 256, 10, 14, 4, 24, 1, 1, 1, 4, 3, 3, 0, 1, 1, 4, 2, 5, 3, 1, 6, 3, 4,
    ];
    say("map", &map_line(&mapped));
    // the oldest of three: 4:2 1:1, 6:3, pool 0 4
    say("give 0 003", "done");
    say("give 0 3", "no 10");
    say("free", "free 2");
    say("look 0 3", "absent 1");
    say("translate 0 768", "no 10");
    let oldest = [
        1, 8, 5, 256, 10, 12, 3, 22, 2, 2, 1, 4, 2, 4, 2, 1, 1, 5, 3, 1, 6, 3, 0, 4,
    ];
    say("map", &map_line(&oldest));
    say("list 0", "regions 2 1 4 2 5 3 1");
    // the page that was moved keeps its frame, and the frame handed back is the next to go
    say("touch 0 4", "frame 2 old 0");
    say("touch 0 1", "frame 1 old 0");
    say("touch 0 2", "frame 0 new 1");
    // the one before the newest of three, 4:2 1:1 2:0, which is a start: 4:2 2:0, 6:3, pool 1 4
    say("give 0 1", "done");
    let before = [
        1, 8, 5, 256, 10, 12, 3, 22, 2, 2, 1, 4, 2, 4, 2, 2, 0, 5, 3, 1, 6, 3, 1, 4,
    ];
    say("map", &map_line(&before));
    // "newest means last in the list": pool 0 2 1 4
    say("release 0 1", "pages 2");
    say("touch 0 1", "frame 0 new 1");
    say("touch 0 2", "frame 2 new 1");
    say("touch 0 3", "frame 1 new 1");
    say("touch 0 4", "frame 4 new 1");
    // an empty pool is no reason
    say("touch 0 7", "no 8 1");
    say("give 0 7", "no 10");
    say("give 0 0", "no 4");
    // one in the middle of 1:0 2:2 3:1 4:4, then the newest of 1:0 4:4 3:1: 1:0 4:4, 6:3, pool 1 2
    say("give 0 2", "done");
    say("give 0 3", "done");
    let newest = [
        1, 8, 5, 256, 10, 12, 3, 22, 2, 2, 1, 4, 2, 1, 0, 4, 4, 5, 3, 1, 6, 3, 1, 2,
    ];
    say("map", &map_line(&newest));
    // mapped again it is the newest again, and takes the frame that it had: 1:0 4:4 3:1, pool 2
    say("touch 0 3", "frame 1 new 1");
    say("give 0 3", "done");
    say("map", &map_line(&newest));
    say("release 0 1", "pages 2");
    // 6:3, pool 4 0 1 2
    let released = [
        1, 8, 5, 256, 10, 8, 1, 18, 4, 4, 1, 4, 0, 5, 3, 1, 6, 3, 4, 0, 1, 2,
    ];
    say("map", &map_line(&released));
    // the only one: the region is empty and its start stays; pool 3 4 0 1 2
    say("mark 0 6", "no 7");
    say("drop 0 5", "no 7");
    say("give 0 6", "done");
    say("give 0 6", "no 10");
    say("list 0", "regions 2 1 4 0 5 3 0");
    say("mark 0 5", "no 6");
    say("release 0 5", "pages 0");
    say("mark 0 6", "ok");
    say("drop 0 6", "ok");
    let emptied = [
        1, 8, 5, 256, 10, 6, 0, 16, 5, 5, 1, 4, 0, 5, 3, 0, 3, 4, 0, 1, 2,
    ];
    say("map", &map_line(&emptied));
    say("drop 0 5", "ok");
    say("give 0 6", "no 10");
    say("touch 0 6", "frame 3 new 1");
    say("mark 0 5", "no 7");
    say("give 0 6", "done");
    say("drop 0 1", "ok");
    say("give 0 6", "no 4");
    say("free", "free 5");
    lines
}

// W-205: "a byte now also ends with an accepted hand-back of its page", and with no other page's. Two spaces of four pages, three
// frames.
const HANDED_BYTES: &[(&str, &str)] = &[
    ("start 2 4 3 256", "ok"),
    ("mark 0 0", "ok"),
    ("mark 1 0", "ok"),
    ("write 0 0 a1", "ok"),
    ("write 0 256 a2", "ok"),
    ("write 0 512 a3", "ok"),
    ("give 1 0", "no 10"),
    ("give 0 3", "no 10"),
    ("read 0 0 1", "bytes a1"),
    // frames 2 and 1 are left, of pages 2 and 1
    ("give 0 0", "done"),
    ("read 0 0 1", "no 10"),
    ("read 0 256 1", "bytes a2"),
    ("read 0 512 1", "bytes a3"),
    ("translate 0 512", "at 512"),
    ("read 0 255 2", "no 10"),
    // over a border, into the frame that came back
    ("write 0 767 b3b4", "ok"),
    ("translate 0 768", "at 0"),
    ("read 0 767 3", "bytes b3b400"),
    ("read 0 512 1", "bytes a3"),
    ("write 1 256 c1", "no 8"),
    ("give 0 1", "done"),
    ("write 1 256 c1", "ok"),
    ("translate 1 256", "at 256"),
    ("read 0 256 1", "no 10"),
    ("give 1 1", "done"),
    ("read 0 512 1", "bytes a3"),
    ("read 0 768 1", "bytes b4"),
    // a page that comes back shows zeros
    ("touch 0 1", "frame 1 new 1"),
    ("read 0 256 1", "bytes 00"),
    ("read 0 511 2", "bytes 00a3"),
];

// All frames in one region; the oldest page is handed back, the newest is then the oldest, and its frame the last of those released.
fn whole_region() -> Vec<Said> {
    let mut lines = said(&[("start 1 1024 128 256", "ok"), ("mark 0 0", "ok")]);
    let words = |page: u64| if page < 64 { 1 } else { 3 };
    for k in 0..128 {
        let answer = format!("frame {k} new {}", words(k));
        lines.push((format!("touch 0 {k}").into(), answer));
    }
    lines.extend(said(&[
        ("give 0 0", "done"),
        ("give 0 128", "no 10"),
        ("list 0", "regions 1 0 1024 127"),
        ("release 0 0", "pages 127"),
        ("free", "free 128"),
    ]));
    let frames = (1..127).rev().chain([127, 0]);
    for (k, frame) in frames.enumerate() {
        let answer = format!("frame {frame} new {}", words(k as u64));
        lines.push((format!("touch 0 {k}").into(), answer));
    }
    // every page on its own, from the first on: the last frame handed back is the first to go
    for k in 0..128 {
        lines.push((format!("give 0 {k}").into(), "done".to_string()));
    }
    lines.extend(said(&[
        ("free", "free 128"),
        ("release 0 0", "pages 0"),
        ("touch 0 5", "frame 0 new 1"),
        ("touch 0 6", "frame 127 new 1"),
        ("touch 0 7", "frame 1 new 1"),
        ("touch 0 8", "frame 2 new 1"),
    ]));
    lines
}

pub fn corners() -> Vec<Said> {
    let bad = all_bad(&bad_lines());
    let mut lines = said(EARLY);
    lines.extend(bad.clone());
    lines.extend(said(&[("free", "no 1")]));
    lines.extend(said(CALLS));
    lines.extend(bad);
    lines.extend(said(&[
        ("read 63 524286 2", "bytes 00ff"),
        ("list 63", "regions 1 15 1 1"),
    ]));
    lines.extend(longest_lines());
    lines.extend(whole_pool());
    lines.extend(new_pages());
    lines.extend(maps());
    lines.extend(hand_backs());
    lines.extend(said(HANDED_BYTES));
    lines.extend(whole_region());
    lines.extend(limits());
    lines
}

// Starts at the limits, accepted.
pub const INSIDE: &[Sizes] = &[
    Sizes(1, 1, 1, 256),
    Sizes(1, 8, 3, 256),
    Sizes(2, 6, 40, 256),
    Sizes(3, 4, 9, 512),
    Sizes(64, 16, 128, 256),
    Sizes(64, 1, 127, 256),
    Sizes(1, 1_024, 64, 512),
    Sizes(2, 512, 32, 1_024),
    Sizes(3, 341, 16, 2_048),
    Sizes(4, 5, 8, 4_096),
    Sizes(63, 16, 4, 8_192),
    Sizes(1, 2, 2, 16_384),
    Sizes(1, 1, 1, 32_768),
];

// Starts beyond them. The last ones have products that are small in 32 bits.
pub const OUTSIDE: &[Sizes] = &[
    Sizes(0, 8, 3, 256),
    Sizes(65, 8, 3, 256),
    Sizes(MOST, 8, 3, 256),
    Sizes(1, 0, 3, 256),
    Sizes(1, 1_025, 3, 256),
    Sizes(2, 513, 3, 256),
    Sizes(5, 205, 3, 256),
    Sizes(64, 17, 3, 256),
    Sizes(1, 262_144, 3, 256),
    Sizes(1, 262_145, 3, 256),
    Sizes(1, MOST, 3, 256),
    Sizes(1, 8, 0, 256),
    Sizes(1, 8, 129, 256),
    Sizes(1, 8, 65, 512),
    Sizes(1, 8, 5, 8_192),
    Sizes(1, 8, 2, 32_768),
    Sizes(1, 8, 65_536, 256),
    Sizes(1, 8, 65_537, 256),
    Sizes(1, 8, MOST, 256),
    Sizes(1, 8, 3, 0),
    Sizes(1, 8, 3, 1),
    Sizes(1, 8, 3, 128),
    Sizes(1, 8, 3, 255),
    Sizes(1, 8, 3, 257),
    Sizes(1, 8, 3, 300),
    Sizes(1, 8, 3, 768),
    Sizes(1, 8, 1, 65_536),
    Sizes(1, 8, 1, 131_072),
    Sizes(1, 8, 3, MOST),
    Sizes(0, 0, 0, 0),
    Sizes(MOST, MOST, MOST, MOST),
    Sizes(16, 268_435_456, 3, 256),
    Sizes(16, 268_435_457, 3, 256),
    Sizes(65_536, 65_536, 3, 256),
    Sizes(1, 8, 65_536, 65_536),
    Sizes(1, 8, 16_777_216, 256),
    Sizes(1, 8, 16_777_217, 256),
];

// A start at each limit, and that a refused one leaves what was.
fn limits() -> Vec<Said> {
    let line = |s: &Sizes| format!("start {} {} {} {}", s.0, s.1, s.2, s.3);
    let mut lines = Vec::new();
    for sizes in INSIDE {
        lines.push((line(sizes).into(), "ok".to_string()));
        lines.push((b"free".to_vec(), format!("free {}", sizes.2)));
        for outside in OUTSIDE {
            lines.push((line(outside).into(), "no 1".to_string()));
        }
        lines.push((b"free".to_vec(), format!("free {}", sizes.2)));
    }
    lines
}

// How an input can end, with its answers.
pub fn ends() -> Vec<Said> {
    let mut ends = said(ENDS);
    let long = "x".repeat(70_000);
    ends.push((long.clone().into(), "bad line\n".to_string()));
    ends.push((
        format!("free\n{long}").into(),
        "no 1\nbad line\n".to_string(),
    ));
    // a last line that fills the program's buffer and no more
    for bytes in [65_536, 131_072] {
        ends.push(("x".repeat(bytes).into(), "bad line\n".to_string()));
    }
    let write = format!("write 000000000 000000000 {}", "ab".repeat(256));
    let text = format!("start 1 8 3 256\nmark 0 0\n{write}");
    ends.push((text.into(), "ok\nok\nok\n".to_string()));
    // a border of a buffer right behind a line, inside one, and before one
    for size in [256, 512, 1_024, 4_096, 8_192, 32_768, 65_536] {
        let lines = size / 256;
        let text = (long[..255].to_string() + "\n").repeat(lines);
        let answers = "bad line\n".repeat(lines);
        ends.push((format!("{text}free").into(), answers.clone() + "no 1\n"));
        ends.push((format!("{}x", text.trim_end()).into(), answers.clone()));
        ends.push((text.into(), answers));
    }
    ends
}

const ENDS: &[(&str, &str)] = &[
    ("", ""),
    ("\n", "bad line\n"),
    ("\n\n\n", "bad line\nbad line\nbad line\n"),
    ("free", "no 1\n"),
    ("free\n", "no 1\n"),
    ("free\n\n", "no 1\nbad line\n"),
    ("free\nfree", "no 1\nno 1\n"),
    ("free\n ", "no 1\nbad line\n"),
    ("free\n\r", "no 1\nbad line\n"),
    ("free\r\n", "bad line\n"),
    ("free\rfree\n", "bad line\n"),
    ("\nfree", "bad line\nno 1\n"),
    ("\0", "bad line\n"),
    ("\0\n", "bad line\n"),
    ("free\0\nfree\n", "bad line\nno 1\n"),
    ("free\n\0", "no 1\nbad line\n"),
    ("touch 0", "bad line\n"),
    ("start 1 8 3 256\nfree", "ok\nfree 3\n"),
    ("start 1 8 3 256\nwrite 0 0", "ok\nok\n"),
    ("start 1 8 3 256\nwrite 0 0 ", "ok\nbad line\n"),
    ("start 1 8 3 256\nread 0 0 0", "ok\nbytes\n"),
    ("start 1 8 3 256\nread 0 0 0\n", "ok\nbytes\n"),
    ("start 1 8 3 256\ngive 0 0", "ok\nno 4\n"),
    ("start 1 8 3 256\ngive 0 0 ", "ok\nbad line\n"),
    ("start 1 8 3 256", "ok\n"),
    ("start 1 8 3 25", "no 1\n"),
    ("\u{1a}", "bad line\n"),
];
