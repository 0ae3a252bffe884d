//! Every method and function of the Rust module, accepted and refused, on memory full of garbage.
use corwystal::{
    Looked, Memory, Needs, Pager, Refusal, Refused, Region, Sizes, Touched, contents_bytes,
    how_full, index_words, map_bytes,
};

const SIZES: Sizes = Sizes {
    spaces: 2,
    pages: 40,
    frames: 4,
    page: 256,
};

const GARBAGE: u8 = 0x5a;

// The map after the write over two pages: sizes, a row for each space and the pool, their bodies.
const MAP: [u32; 26] = [
    2, 40, 4, 256, 13, 5, 1, 18, 7, 2, 25, 1, 1, 10, 30, 1, 12, 0, 0, 40, 2, 0, 1, 1, 2, 3,
];

struct Buffers {
    index: Vec<u64>,
    words: [Vec<u32>; 6],
    ram: Vec<u8>,
}

impl Buffers {
    fn new(needs: Needs) -> Buffers {
        let table = |n| vec![0xdead_beefu32; n];
        Buffers {
            index: vec![u64::MAX; needs.index],
            words: [
                table(needs.places),
                table(needs.places),
                table(needs.places),
                table(needs.places),
                table(needs.places),
                table(needs.link),
            ],
            ram: vec![GARBAGE; needs.ram],
        }
    }

    fn memory(&mut self) -> Memory<'_> {
        let [count, table, helper, stack, cache, link] = &mut self.words;
        Memory {
            index: &mut self.index,
            count,
            table,
            helper,
            stack,
            cache,
            link,
            ram: &mut self.ram,
        }
    }
}

// All that a page shows.
fn page(pager: &Pager<'_>, space: u32, page: usize) -> [u8; 256] {
    let mut bytes = [GARBAGE; 256];
    assert_eq!(pager.read(space, page * 256, &mut bytes), Ok(()));
    bytes
}

const NO_REGION: Refused = Refused {
    refusal: Refusal::NoRegion,
    words: 1,
};

// A pager that has just read the map: it writes the same bytes, and maps a new page to the one frame that is left.
fn maps(pager: &mut Pager<'_>, map: &[u8]) {
    let mut file = [0; 104];
    assert_eq!(pager.write_map(&mut file), Ok(map));
    assert_eq!(pager.free_count(), Ok(1));
    assert_eq!(pager.look(0, 12), Ok(Looked::Resident { frame: 0 }));
    assert_eq!(pager.look(1, 1), Ok(Looked::Resident { frame: 2 }));
    assert_eq!(pager.look(1, 2), Ok(Looked::Absent { words: 1 }));
    assert_eq!(pager.touch(1, 2), Ok(Touched::New { frame: 3, words: 1 }));
    assert_eq!(page(pager, 1, 2), [0; 256]);
    assert_eq!(pager.release(1, 0), Ok(3));
    assert_eq!(pager.free_count(), Ok(3));
}

// The words of the map from one on: of space 0's one region its pairs, then the pool.
fn map_words(pager: &Pager<'_>, from: usize) -> Vec<u32> {
    let mut file = [0; map_bytes(2, 80, 4)];
    let map = pager.write_map(&mut file).expect("a map");
    map[4 * from..]
        .chunks(4)
        .map(|word| u32::from_le_bytes(word.try_into().expect("four bytes")))
        .collect()
}

fn four_pages(pager: &mut Pager<'_>) {
    for page in 5..9 {
        assert!(matches!(pager.touch(0, page), Ok(Touched::New { .. })));
    }
}

// A pager that has just started: its pages are given back one by one, and a map tells the list and the pool after each.
fn hand_backs(pager: &mut Pager<'_>) {
    // behind the contents and the region's start, length and count
    const LIST: usize = 13 + 3;
    assert_eq!(pager.mark(0, 0), Ok(()));
    for page in 0..4 {
        let frame = page;
        assert_eq!(pager.touch(0, page), Ok(Touched::New { frame, words: 1 }));
    }
    assert_eq!(pager.write(0, 256 + 9, b"d"), Ok(()));
    assert_eq!(pager.give_back(2, 0), Err(Refusal::NoSpace));
    assert_eq!(pager.give_back(0, 40), Err(Refusal::NoPage));
    assert_eq!(pager.give_back(1, 0), Err(Refusal::NoRegion));
    assert_eq!(pager.give_back(0, 4), Err(Refusal::NotResident));
    assert_eq!(map_words(pager, LIST), [0, 0, 1, 1, 2, 2, 3, 3]);

    // The newest page takes the position of one in the middle; the bytes stay, and the next new page gets the frame.
    assert_eq!(pager.give_back(0, 1), Ok(()));
    assert_eq!(map_words(pager, LIST), [0, 0, 3, 3, 2, 2, 1]);
    assert_eq!(pager.give_back(0, 1), Err(Refusal::NotResident));
    assert_eq!(pager.look(0, 1), Ok(Looked::Absent { words: 1 }));
    assert_eq!(pager.frame(1).map(|bytes| bytes[9]), Some(b'd'));
    assert_eq!(pager.touch(0, 9), Ok(Touched::New { frame: 1, words: 1 }));
    assert_eq!(page(pager, 0, 9), [0; 256]);
    // The newest itself, the one before it, the oldest, the only one; the start stays.
    assert_eq!(pager.give_back(0, 9), Ok(()));
    assert_eq!(map_words(pager, LIST), [0, 0, 3, 3, 2, 2, 1]);
    assert_eq!(pager.give_back(0, 3), Ok(()));
    assert_eq!(map_words(pager, LIST), [0, 0, 2, 2, 3, 1]);
    assert_eq!(pager.give_back(0, 0), Ok(()));
    assert_eq!(map_words(pager, LIST), [2, 2, 0, 3, 1]);
    assert_eq!(pager.give_back(0, 2), Ok(()));
    assert_eq!(map_words(pager, LIST), [2, 0, 3, 1]);
    assert_eq!(pager.mark(0, 0), Err(Refusal::StartAlready));
    assert_eq!(pager.free_count(), Ok(4));

    // A release goes by the list, the newest page first: after a hand-back in the middle, and after one more just before the newest.
    four_pages(pager);
    assert_eq!(pager.give_back(0, 6), Ok(()));
    assert_eq!(map_words(pager, LIST), [5, 2, 8, 1, 7, 3, 0]);
    assert_eq!(pager.release(0, 0), Ok(3));
    assert_eq!(map_words(pager, LIST), [3, 1, 2, 0]);
    four_pages(pager);
    assert_eq!(pager.give_back(0, 6), Ok(()));
    assert_eq!(pager.give_back(0, 8), Ok(()));
    assert_eq!(map_words(pager, LIST), [5, 3, 7, 2, 0, 1]);
    assert_eq!(pager.release(0, 0), Ok(2));
    assert_eq!(map_words(pager, LIST), [2, 3, 0, 1]);
}

fn main() {
    let needs = SIZES.needs().expect("sizes within their limits");
    assert_eq!(needs.index, index_words(80));
    assert_eq!((needs.places, needs.link, needs.ram), (80, 4, 1024));
    assert_eq!(needs.map, map_bytes(2, 80, 4));
    assert_eq!(Sizes { page: 300, ..SIZES }.needs(), None);

    // A start is refused for any buffer that is too short, also those that only later calls are lent.
    let mut buffers = Buffers::new(needs);
    for short in 0..6 {
        let mut shorter = Buffers::new(needs);
        shorter.words[short].pop();
        assert_eq!(
            Pager::start(shorter.memory(), SIZES).err(),
            Some(Refusal::Size)
        );
    }
    let mut shorter = Buffers::new(needs);
    shorter.ram.pop();
    assert_eq!(
        Pager::start(shorter.memory(), SIZES).err(),
        Some(Refusal::Size)
    );

    let mut pager = Pager::start(buffers.memory(), SIZES).expect("a start");
    assert_eq!(
        pager.restart(Sizes {
            spaces: 65,
            ..SIZES
        }),
        Err(Refusal::Size)
    );
    assert_eq!(pager.free_count(), Ok(4));
    assert_eq!(pager.mark(0, 10), Ok(()));
    assert_eq!(pager.mark(0, 10), Err(Refusal::StartAlready));
    assert_eq!(pager.mark(2, 10), Err(Refusal::NoSpace));
    assert_eq!(pager.mark(0, 40), Err(Refusal::NoPage));
    assert_eq!(pager.mark(1, 0), Ok(()));
    assert_eq!(pager.drop_start(0, 11), Err(Refusal::NoStart));

    let below = Refused {
        refusal: Refusal::NoRegion,
        words: 2,
    };
    assert_eq!(pager.touch(0, 9), Err(below));
    assert_eq!(pager.look(0, 9), Err(below));
    assert_eq!(pager.look(0, 12), Ok(Looked::Absent { words: 1 }));
    assert_eq!(pager.touch(0, 12), Ok(Touched::New { frame: 0, words: 1 }));
    assert_eq!(page(&pager, 0, 12), [0; 256]);
    assert_eq!(pager.touch(0, 12), Ok(Touched::Old { frame: 0 }));
    assert_eq!(pager.look(0, 12), Ok(Looked::Resident { frame: 0 }));
    assert_eq!(pager.mark(0, 20), Err(Refusal::ResidentPages));
    assert_eq!(pager.translate(0, 12 * 256 + 7), Ok(7));
    assert_eq!(pager.translate(0, 13 * 256), Err(Refusal::NotResident));

    // A write over two pages; the last byte of the first and the first of the second.
    assert_eq!(pager.write(1, 255, b"ab"), Ok(()));
    let mut two = [0; 2];
    assert_eq!(pager.read(1, 255, &mut two), Ok(()));
    assert_eq!(&two, b"ab");
    // Before and behind what was written, the new pages are zeros.
    let mut lower = [0; 256];
    let mut upper = [0; 256];
    lower[255] = b'a';
    upper[0] = b'b';
    assert_eq!(page(&pager, 1, 0), lower);
    assert_eq!(page(&pager, 1, 1), upper);
    assert_eq!(pager.frame(1).map(|bytes| bytes[255]), Some(b'a'));
    assert_eq!(pager.frame(3), Some(&[GARBAGE; 256][..]));
    assert_eq!(pager.frame(4), None);
    assert_eq!(pager.read(1, 511, &mut two), Err(Refusal::NotResident));
    assert_eq!(&two, b"ab");
    assert_eq!(pager.write(1, 4 * 256, &[1; 512]), Err(Refusal::NoFrame));
    assert_eq!(pager.write(1, usize::MAX, &[1]), Err(Refusal::NoPage));
    assert_eq!(pager.write(1, 40 * 256, &[]), Ok(()));

    let mut records = [Region {
        start: 9,
        length: 9,
        resident: 9,
    }; 3];
    let expected = [Region {
        start: 10,
        length: 30,
        resident: 1,
    }];
    assert_eq!(pager.list(0, &mut records), Ok(&expected[..]));
    assert_eq!(records[1].start, 9);
    assert_eq!(pager.list(0, &mut []), Err(Refusal::NoRoom));

    let map: Vec<u8> = MAP.iter().flat_map(|word| word.to_le_bytes()).collect();
    let mut file = vec![GARBAGE; needs.map];
    assert_eq!(pager.write_map(&mut file), Ok(&map[..]));
    assert!(file[map.len()..].iter().all(|&byte| byte == GARBAGE));
    let mut short = vec![GARBAGE; map.len() - 1];
    assert_eq!(pager.write_map(&mut short), Err(Refusal::NoMapRoom));
    assert!(short.iter().all(|&byte| byte == GARBAGE));

    // How full each space is, from the contents alone or all of the file; without their last byte they tell nothing.
    let contents = &map[..contents_bytes(2)];
    for bytes in [contents, &map[..]] {
        assert_eq!(how_full(0, bytes), Ok(1));
        assert_eq!(how_full(1, bytes), Ok(2));
        assert_eq!(how_full(2, bytes), Err(Refusal::NoSpace));
        assert_eq!(how_full(u32::MAX, bytes), Err(Refusal::NoSpace));
    }
    assert_eq!(how_full(0, &contents[..51]), Err(Refusal::Size));
    assert_eq!(how_full(2, &[]), Err(Refusal::Size));
    assert_eq!(how_full(0, &[GARBAGE; 1_000]), Err(Refusal::Size));

    assert_eq!(pager.release(1, 0), Ok(2));
    assert_eq!(pager.release(1, 1), Err(Refusal::NoStart));
    assert_eq!(pager.free_count(), Ok(3));
    // A release leaves the bytes, and no page shows them: neither one mapped by touch nor one mapped by write.
    assert_eq!(pager.frame(1), Some(&lower[..]));
    assert_eq!(pager.frame(2), Some(&upper[..]));
    assert!(matches!(pager.touch(0, 20), Ok(Touched::New { .. })));
    assert_eq!(page(&pager, 0, 20), [0; 256]);
    assert_eq!(pager.write(0, 21 * 256 + 9, b"c"), Ok(()));
    let mut middle = [0; 256];
    middle[9] = b'c';
    assert_eq!(page(&pager, 0, 21), middle);
    assert_eq!(pager.free_count(), Ok(1));
    assert_eq!(pager.drop_start(1, 0), Ok(()));

    // A refused map leaves the pager; one that is read takes it back to where the map was written, with the RAM as it stands.
    assert_eq!(pager.read_map(&map[..103]), Err(Refusal::NoMap));
    assert_eq!(pager.read_map(&file), Err(Refusal::NoMap));
    assert_eq!(pager.free_count(), Ok(1));
    assert_eq!(pager.look(1, 0), Err(NO_REGION));
    assert_eq!(pager.read_map(&map), Ok(()));
    maps(&mut pager, &map);
    let mut elsewhere = Buffers::new(needs);
    let mut pager = Pager::from_map(elsewhere.memory(), &map).expect("a map");
    assert_eq!(page(&pager, 1, 0), [GARBAGE; 256]);
    maps(&mut pager, &map);

    // Its sizes ask for buffers that are long enough, the RAM too; contents that are cut short come before that.
    for short in 0..6 {
        let mut shorter = Buffers::new(needs);
        shorter.words[short].pop();
        assert_eq!(
            Pager::from_map(shorter.memory(), &map).err(),
            Some(Refusal::Size)
        );
    }
    let mut shorter = Buffers::new(needs);
    shorter.ram.pop();
    assert_eq!(
        Pager::from_map(shorter.memory(), &map).err(),
        Some(Refusal::Size)
    );
    assert_eq!(
        Pager::from_map(shorter.memory(), &map[..51]).err(),
        Some(Refusal::NoMap)
    );
    assert_eq!(
        Pager::from_map(shorter.memory(), &[]).err(),
        Some(Refusal::NoMap)
    );

    assert_eq!(pager.restart(SIZES), Ok(()));
    hand_backs(&mut pager);

    for number in 1..=13 {
        let said = REFUSALS[number - 1];
        assert_eq!(said.number() as usize, number);
        assert!(!said.to_string().is_empty());
    }
    println!("bindings: every method and function of the Rust module answers as it should");
}

const REFUSALS: [Refusal; 13] = [
    Refusal::Size,
    Refusal::NoSpace,
    Refusal::NoPage,
    Refusal::NoRegion,
    Refusal::NoStart,
    Refusal::StartAlready,
    Refusal::ResidentPages,
    Refusal::NoFrame,
    Refusal::NotOurs,
    Refusal::NotResident,
    Refusal::NoRoom,
    Refusal::NoMap,
    Refusal::NoMapRoom,
];
