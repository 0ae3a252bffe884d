// What the header and the entrance say of sizes, held to document 01's numbers.
use crate::draw::Draw;
use crate::entrance::{self, library, Answer, Head, Needs, Region};
use crate::plain::Sizes;
use std::mem::{offset_of, size_of};

extern "C" {
    static header_layout: [usize; 19];
    static header_kinds: [u32; 11];
    fn header_index_words(places: usize) -> usize;
}

// "T = 64 takes 1 word, T = 65 takes 3, T = 4,097 takes 68, T = 262,144 takes 4,161"
const INDEX_WORDS: [(u64, u64); 4] = [(64, 1), (65, 3), (4_097, 68), (262_144, 4_161)];

// The declarations of entrance.rs are those of the header.
#[rustfmt::skip]
fn layout() -> Result<(), String> {
    let here = [
        size_of::<Head>(), offset_of!(Head, pages), offset_of!(Head, frames), offset_of!(Head, page_shift),
        offset_of!(Head, first), offset_of!(Head, many), offset_of!(Head, fresh),
        size_of::<Region>(), offset_of!(Region, length), offset_of!(Region, resident),
        size_of::<Answer>(), offset_of!(Answer, words), offset_of!(Answer, value),
        size_of::<Needs>(), offset_of!(Needs, index), offset_of!(Needs, places), offset_of!(Needs, link),
        offset_of!(Needs, ram), offset_of!(Needs, map),
    ];
    let kinds = [
        entrance::DONE, entrance::OLD, entrance::NEW, entrance::RESIDENT, entrance::ABSENT,
        entrance::PAGES, entrance::FRAMES, entrance::AT, entrance::BYTES, entrance::REGIONS,
        entrance::MAP,
    ];
    let (header, its_kinds) = unsafe { (header_layout, header_kinds) };
    match header == here && its_kinds == kinds {
        true => Ok(()),
        false => Err(format!("the header has {header:?} {its_kinds:?}, the trials {here:?} {kinds:?}")),
    }
}

// W-202: contents of 3S + 7 words, three words for a region, two for a frame that a page holds, at most a region a place.
fn longest_map(sizes: &Sizes) -> usize {
    let Sizes {
        spaces,
        pages,
        frames,
        ..
    } = *sizes;
    4 * (3 * spaces + 7 + 3 * spaces * pages + 2 * frames) as usize
}

fn needs(sizes: &Sizes) -> Needs {
    if !sizes.within_limits() {
        return Needs {
            refusal: 1,
            index: 0,
            places: 0,
            link: 0,
            ram: 0,
            map: 0,
        };
    }
    let [index, places, .., link, ram] = sizes.needed().map(|entries| entries as usize);
    Needs {
        refusal: 0,
        index,
        places,
        link,
        ram,
        map: longest_map(sizes),
    }
}

fn hold(sizes: &Sizes) -> Result<(), String> {
    let Sizes {
        spaces,
        pages,
        frames,
        page,
    } = *sizes;
    let [s, n, f, p] = [spaces, pages, frames, page].map(|size| size as u32);
    let (told, should) = (
        unsafe { library::corwystal_sizes(s, n, f, p) },
        needs(sizes),
    );
    match told == should {
        true => Ok(()),
        false => Err(format!(
            "sizes {s} {n} {f} {p}: pager {told:?}, document 01 {should:?}"
        )),
    }
}

// Each limit and its neighbours, each with each, and any numbers; answers how many.
pub fn compare() -> Result<u64, String> {
    layout()?;
    for (places, words) in INDEX_WORDS {
        let sizes = Sizes {
            spaces: 1,
            pages: places,
            frames: 1,
            page: 256,
        };
        if sizes.needed()[0] != words {
            return Err(format!(
                "the plain machine's index of {places} places has not {words} words"
            ));
        }
    }
    for places in 1..=262_144 {
        let sizes = Sizes {
            spaces: 1,
            pages: places,
            frames: 1,
            page: 256,
        };
        let (told, should) = (
            unsafe { header_index_words(places as usize) },
            sizes.needed()[0],
        );
        if told as u64 != should {
            return Err(format!(
                "CORWYSTAL_INDEX_WORDS({places}) is {told}, not {should}"
            ));
        }
    }
    let no = u64::from(u32::MAX);
    let mut made = 0;
    for spaces in [0, 1, 2, 3, 63, 64, 65, 1 << 16, no] {
        for pages in [
            0,
            1,
            63,
            64,
            65,
            4_095,
            4_096,
            4_097,
            87_381,
            87_382,
            262_143,
            262_144,
            262_145,
            1 << 26,
            no,
        ] {
            for frames in [0, 1, 65_535, 65_536, 65_537, no] {
                for page in [
                    0, 1, 128, 255, 256, 257, 384, 512, 4_096, 65_535, 65_536, 65_537, 131_072, no,
                ] {
                    hold(&Sizes {
                        spaces,
                        pages,
                        frames,
                        page,
                    })?;
                    made += 1;
                }
            }
        }
    }
    let mut draw = Draw::new(9);
    for _ in 0..100_000 {
        let [spaces, pages, frames] = [7, 19, 17].map(|bits| draw.any_size(bits));
        let page = draw.any_size(32);
        let page = draw.among(&[page, 256 << (page % 10)]);
        hold(&Sizes {
            spaces,
            pages,
            frames,
            page,
        })?;
        made += 1;
    }
    Ok(made)
}
