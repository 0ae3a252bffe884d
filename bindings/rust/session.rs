//! Document 01's session through the Rust module: each call's answer on a line of its own, as the session program writes it.
//! Build: bindings/build
use corwystal::{Looked, Memory, Pager, Refusal, Refused, Sizes, Touched, index_words};

const SIZES: Sizes = Sizes {
    spaces: 1,
    pages: 8,
    frames: 3,
    page: 256,
};
const PLACES: usize = 8;

fn done(answer: Result<(), Refusal>) -> String {
    match answer {
        Ok(()) => "ok".to_string(),
        Err(refusal) => format!("no {}", refusal.number()),
    }
}

fn touched(answer: Result<Touched, Refused>) -> String {
    match answer {
        Ok(Touched::Old { frame }) => format!("frame {frame} old 0"),
        Ok(Touched::New { frame, words }) => format!("frame {frame} new {words}"),
        Err(refused) => format!("no {} {}", refused.refusal.number(), refused.words),
    }
}

fn looked(answer: Result<Looked, Refused>) -> String {
    match answer {
        Ok(Looked::Resident { frame }) => format!("resident {frame} 0"),
        Ok(Looked::Absent { words }) => format!("absent {words}"),
        Err(refused) => format!("no {} {}", refused.refusal.number(), refused.words),
    }
}

fn released(answer: Result<u32, Refusal>) -> String {
    match answer {
        Ok(pages) => format!("pages {pages}"),
        Err(refusal) => format!("no {}", refusal.number()),
    }
}

fn main() -> Result<(), Refusal> {
    // Whatever it all held before: a start prepares index and counts only, and a page is cleared when it is mapped.
    let memory = Memory {
        index: &mut [u64::MAX; index_words(PLACES)],
        count: &mut [7; PLACES],
        table: &mut [7; PLACES],
        helper: &mut [7; PLACES],
        stack: &mut [7; PLACES],
        cache: &mut [7; PLACES],
        link: &mut [7; 3],
        ram: &mut [7; 3 * 256],
    };
    let mut pager = Pager::start(memory, SIZES)?;
    println!("ok");
    println!("{}", done(pager.mark(0, 0)));
    println!("{}", done(pager.mark(0, 4)));
    println!("{}", touched(pager.touch(0, 5)));
    println!("{}", touched(pager.touch(0, 1)));
    println!("{}", touched(pager.touch(0, 6)));
    println!("{}", touched(pager.touch(0, 5)));
    println!("{}", touched(pager.touch(0, 7)));
    println!("{}", done(pager.mark(0, 6)));
    println!("{}", released(pager.release(0, 4)));
    println!("{}", looked(pager.look(0, 5)));
    println!("{}", touched(pager.touch(0, 2)));
    println!("{}", looked(pager.look(0, 9)));
    println!("{}", done(pager.drop_start(0, 4)));
    println!("{}", touched(pager.touch(0, 7)));
    println!("{}", released(pager.release(0, 0)));
    println!("{}", done(pager.mark(0, 0)));
    Ok(())
}
