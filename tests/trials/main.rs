// Trials of the pager's C entrance at full size, against the plain machine of ../plain/plain.rs, in pairs of
// runs on memories that held different things, and on memory that no call left. run.sh builds and runs it:
//     trials gate                  the fixed seeds
//     trials alike                 of these the pairs of runs
//     trials any                   of these the calls on any memory
//     trials checked               a few on the heap, for an address checker
//     trials long SEED MINUTES     other seeds, from SEED on
mod alike;
mod anything;
#[cfg(broken)]
mod broken;
mod cases;
mod dishonest;
mod draw;
mod entrance;
mod garbage;
mod honest;
mod largest;
mod memory;
#[path = "../plain/plain.rs"]
mod plain;
mod runs;
mod sizes;
mod story;
mod tally;
mod traffic;
mod watch;

use dishonest::{Count, Scale};
use honest::Trial;
use std::time::{Duration, Instant};
use tally::{Tally, CALLS};

fn fail(what: String) -> ! {
    eprintln!("trials: {what}");
    std::process::exit(1)
}

fn honest((plan, course): &(honest::Plan, story::Course), tally: &mut Tally) {
    let played = Trial::new(*plan, tally).play(course);
    played.unwrap_or_else(|e| fail(e));
}

fn dishonest(seed: u64, scale: Scale, calls: u64, count: &mut Count) {
    let played = dishonest::play(seed, scale, calls, count);
    played.unwrap_or_else(|e| fail(e));
}

// Every call has been refused with 1 to 3 and has got past them; touches and writes have cleared; hand-backs have been done and refused.
fn tell(count: &Count, how: &str) {
    for (name, outcomes) in CALLS.iter().zip(&count.outcomes) {
        if outcomes.contains(&0) {
            fail(format!("{name} was never refused, or always"));
        }
    }
    if count.cleared.contains(&0) || count.short == 0 {
        let Count { cleared, short, .. } = count;
        fail(format!(
            "{cleared:?} touches and writes cleared a frame, {short} touches lacked RAM alone"
        ));
    }
    if count.handed.contains(&0) {
        let [done, four, nine, ten] = count.handed;
        fail(format!("{done} pages were handed back, {four} hand-backs refused with 4, {nine} with 9, {ten} with 10"));
    }
    let Count {
        calls,
        rounds,
        nines,
        ..
    } = count;
    println!("trials: {calls} calls in {rounds} rounds on any memory {how}, {nines} of them refused with 9");
}

fn alike() {
    let mut met = alike::Met::default();
    for seed in 0..120 {
        alike::play(seed, &mut met).unwrap_or_else(|e| fail(e));
    }
    let missing = met.missing();
    if !missing.is_empty() {
        fail(format!("never came about in two runs: {missing:?}"));
    }
    println!(
        "trials: {} calls in {} pairs of runs are answered alike, {} reads of new pages whose frames held different bytes",
        met.calls, met.runs, met.reads
    );
}

fn gate() {
    let sets = sizes::compare().unwrap_or_else(|e| fail(e));
    println!("trials: {sets} sets of sizes agree");
    let mut tally = Tally::default();
    for plan in runs::sessions() {
        let played = Trial::new(plan, &mut tally).play_script(runs::session());
        played.unwrap_or_else(|e| fail(e));
    }
    for run in runs::table() {
        honest(&run, &mut tally);
    }
    for seed in 100..170 {
        honest(&runs::drawn(seed), &mut tally);
    }
    let missing = tally.missing();
    if !missing.is_empty() {
        fail(format!("never came about: {missing:?}"));
    }
    println!(
        "trials: {} calls in {} runs agree, every answer of every call among them",
        tally.calls, tally.runs
    );
    alike();
    let last = largest::play().unwrap_or_else(|e| fail(e));
    println!("trials: the last {last} of 65,536 frames of 65,536 bytes are cleared when a page comes to them, and no byte beside them");
    any();
}

fn any() {
    let mut count = Count::default();
    for seed in 0..4_000 {
        dishonest(seed, Scale::Small, 40, &mut count);
    }
    for seed in 0..20 {
        dishonest(seed, Scale::Large, 40, &mut count);
    }
    tell(&count, "end and stay inside their buffers");
}

fn checked() {
    let mut count = Count::default();
    for seed in 0..1_000 {
        // an address checker knows of no seed; the last line does
        println!("seed {seed}");
        dishonest(seed, Scale::Tiny, 40, &mut count);
    }
    tell(&count, "pass the address checker");
}

fn long(first: u64, minutes: u64) {
    let begun = Instant::now();
    let (mut tally, mut count) = (Tally::default(), Count::default());
    let mut met = alike::Met::default();
    let mut seed = first;
    while begun.elapsed() < Duration::from_secs(60 * minutes) || seed == first {
        honest(&runs::drawn(seed), &mut tally);
        for round in 0..30 {
            dishonest(30 * seed + round, Scale::Small, 40, &mut count);
        }
        dishonest(seed, Scale::Large, 20, &mut count);
        alike::play(seed, &mut met).unwrap_or_else(|e| fail(e));
        seed += 1;
    }
    println!(
        "trials: seeds {first} to {}: {} calls in {} runs agree, {} calls in {} pairs of runs are answered alike",
        seed - 1,
        tally.calls,
        tally.runs,
        met.calls,
        met.runs
    );
    tell(&count, "end and stay inside their buffers");
}

fn main() {
    watch::stand_by();
    let words: Vec<String> = std::env::args().skip(1).collect();
    let words: Vec<&str> = words.iter().map(String::as_str).collect();
    let number = |text: &str| {
        text.parse()
            .unwrap_or_else(|_| fail(format!("{text} is no number")))
    };
    match words[..] {
        ["gate"] => gate(),
        ["alike"] => alike(),
        ["any"] => any(),
        ["checked"] => checked(),
        ["long", seed, minutes] => long(number(seed), number(minutes)),
        #[cfg(broken)]
        ["faults"] => println!("{}", broken::names().join("\n")),
        _ => fail("gate, alike, any, checked, or long SEED MINUTES".to_string()),
    }
}
