//! The Rust module's file as a module of a program that uses little of it; writes each refusal's sentence, a line each.
#[path = "../../bindings/rust/corwystal.rs"]
mod corwystal;

use corwystal::{Refusal, Sizes};

fn main() {
    let sizes = Sizes {
        spaces: 1,
        pages: 8,
        frames: 3,
        page: 256,
    };
    assert_eq!(sizes.needs().map(|needs| needs.ram), Some(768));
    for refusal in [
        Refusal::Size,
        Refusal::NoSpace,
        Refusal::NoPage,
        Refusal::NoRegion,
        Refusal::NoStart,
        Refusal::StartAlready,
        Refusal::ResidentPages,
        Refusal::NoFrame,
        Refusal::NotOurs,
        Refusal::NotResident,
        Refusal::NoRoom,
        Refusal::NoMap,
        Refusal::NoMapRoom,
    ] {
        println!("{refusal}");
    }
}
