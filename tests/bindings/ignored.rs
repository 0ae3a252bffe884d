//! What the Rust module answers ignored, one a line: rustc must warn of each. Compiled, never run.
use corwystal::{Pager, Refusal, Region, Sizes, contents_bytes, how_full, index_words, map_bytes};

pub fn ignore(pager: &mut Pager<'_>, sizes: Sizes, bytes: &mut [u8], records: &mut [Region]) {
    index_words(8);
    map_bytes(1, 8, 3);
    contents_bytes(1);
    how_full(0, bytes);
    sizes.needs();
    Refusal::Size.number();
    pager.restart(sizes);
    pager.mark(0, 0);
    pager.drop_start(0, 0);
    pager.touch(0, 0);
    pager.look(0, 0);
    pager.look(0, 0).unwrap();
    pager.release(0, 0);
    pager.give_back(0, 0);
    pager.free_count();
    pager.translate(0, 0);
    pager.read(0, 0, bytes);
    pager.write(0, 0, bytes);
    pager.list(0, records);
    pager.write_map(bytes);
    pager.read_map(bytes);
    pager.frame(0);
}
