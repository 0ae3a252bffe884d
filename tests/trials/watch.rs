// Memory between inaccessible pages, the pages of it that were written, and the two ends that a
// wrong call can come to: a step outside its buffers, or none at all.
//
// To compare all memory after each call is too slow at full size. So a page can be watched: it is
// read-only until its first write faults, and then it counts as written. Only written pages are
// compared, after every call, and nothing is left out.
use std::sync::atomic::{AtomicPtr, AtomicU64, AtomicUsize, Ordering::Relaxed};
use std::sync::OnceLock;

pub const PAGE: usize = 4_096;

// ---- the C library's calls, for Linux on 64 bits

const NONE: i32 = 0;
const READ: i32 = 1;
const READ_WRITE: i32 = 3;
const PRIVATE_ANONYMOUS_NORESERVE: i32 = 0x4022;
const SIGBUS: i32 = 7;
const SIGSEGV: i32 = 11;
const SIGALRM: i32 = 14;
const SIGINFO_ONSTACK: i32 = 0x0800_0004;

#[repr(C)]
struct Action {
    handler: usize,
    mask: [u64; 16],
    flags: i32,
    restorer: usize,
}

// The first fields of siginfo_t.
#[repr(C)]
struct Info {
    numbers: [i32; 4],
    address: usize,
}

type Handler = extern "C" fn(i32, *const Info, *mut u8);

extern "C" {
    fn mmap(at: *mut u8, bytes: usize, access: i32, flags: i32, file: i32, from: i64) -> *mut u8;
    fn munmap(at: *mut u8, bytes: usize) -> i32;
    fn mprotect(at: *mut u8, bytes: usize, access: i32) -> i32;
    fn sigaction(signal: i32, action: *const Action, before: *mut Action) -> i32;
    fn alarm(seconds: u32) -> u32;
    fn _exit(status: i32) -> !;
}

fn reserve(bytes: usize) -> *mut u8 {
    let flags = PRIVATE_ANONYMOUS_NORESERVE;
    let at = unsafe { mmap(std::ptr::null_mut(), bytes, NONE, flags, -1, 0) };
    assert!(at as isize != -1, "no memory for a trial");
    at
}

fn protect(at: *mut u8, bytes: usize, access: i32) {
    let status = unsafe { mprotect(at, bytes, access) };
    assert!(status == 0, "no access can be set");
}

// Where a buffer of so many bytes could lie that no call may look at.
pub const UNREACHABLE: usize = 1 << 36;

pub fn unreachable() -> *mut u8 {
    static ONCE: OnceLock<usize> = OnceLock::new();
    *ONCE.get_or_init(|| reserve(UNREACHABLE) as usize) as *mut u8
}

// ---- what a handler knows

// The watched arena: its first byte, its number of pages, the state of each, the open ones.
static BASE: AtomicUsize = AtomicUsize::new(0);
static PAGES: AtomicUsize = AtomicUsize::new(0);
static STATES: AtomicPtr<u8> = AtomicPtr::new(std::ptr::null_mut());
static OPEN: AtomicPtr<u32> = AtomicPtr::new(std::ptr::null_mut());
static OPEN_MANY: AtomicUsize = AtomicUsize::new(0);

// A page's states; a closed one is inaccessible or of no concern.
const CLOSED: u8 = 0;
const WATCHED: u8 = 1;
const WRITTEN: u8 = 2;

// The calls made so far, and what tells of the call that is being made.
static CALLS: AtomicU64 = AtomicU64::new(0);
static SEEN: AtomicU64 = AtomicU64::new(u64::MAX);
static TELLING: AtomicPtr<u8> = AtomicPtr::new(std::ptr::null_mut());

const PATIENCE: u32 = 10;

// Only a call of the pager is interrupted here, so telling may allocate.
fn give_up(what: &str) -> ! {
    let telling = TELLING.load(Relaxed) as *const &dyn Fn() -> String;
    match telling.is_null() {
        true => eprintln!("trials: {what}, outside every call"),
        false => eprintln!("trials: {}: {what}", unsafe { (*telling)() }),
    }
    unsafe { _exit(1) }
}

extern "C" fn on_fault(_: i32, info: *const Info, _: *mut u8) {
    let address = unsafe { (*info).address };
    let page = address.wrapping_sub(BASE.load(Relaxed)) / PAGE;
    unsafe {
        if page < PAGES.load(Relaxed) && *STATES.load(Relaxed).add(page) == WATCHED {
            *STATES.load(Relaxed).add(page) = WRITTEN;
            *OPEN.load(Relaxed).add(OPEN_MANY.fetch_add(1, Relaxed)) = page as u32;
            mprotect((address & !(PAGE - 1)) as *mut u8, PAGE, READ_WRITE);
            return;
        }
    }
    give_up("a step outside the buffers lent")
}

// A call that is still the same one as at the alarm before doesn't end.
extern "C" fn on_alarm(_: i32, _: *const Info, _: *mut u8) {
    let calls = CALLS.load(Relaxed);
    if !TELLING.load(Relaxed).is_null() && SEEN.swap(calls, Relaxed) == calls {
        give_up("the call doesn't end");
    }
    unsafe { alarm(PATIENCE) };
}

fn handle(signal: i32, handler: Handler) {
    let action = Action {
        handler: handler as *const () as usize,
        mask: [0; 16],
        flags: SIGINFO_ONSTACK,
        restorer: 0,
    };
    let status = unsafe { sigaction(signal, &action, std::ptr::null_mut()) };
    assert!(status == 0, "no handler can be set");
}

pub fn stand_by() {
    handle(SIGSEGV, on_fault);
    handle(SIGBUS, on_fault);
    handle(SIGALRM, on_alarm);
    unsafe { alarm(PATIENCE) };
}

// Makes one call, which is told of if it faults or doesn't end.
pub fn during<A>(telling: &dyn Fn() -> String, call: impl FnOnce() -> A) -> A {
    CALLS.fetch_add(1, Relaxed);
    TELLING.store(&telling as *const _ as *mut u8, Relaxed);
    let answer = call();
    TELLING.store(std::ptr::null_mut(), Relaxed);
    answer
}

// ---- buffers between inaccessible pages

#[derive(Clone, Copy)]
pub struct Wanted {
    pub bytes: usize,
    // right before an inaccessible page, else right after one
    pub ends_at_guard: bool,
    // inaccessible pages after it
    pub beyond: usize,
}

// The bytes of a buffer in its arena, and the whole pages they lie in.
#[derive(Clone, Copy)]
pub struct Slot {
    pub first: usize,
    pub bytes: usize,
    pub pages: (usize, usize),
}

pub struct Arena {
    base: *mut u8,
    pages: usize,
    states: Vec<u8>,
    open: Vec<u32>,
    pub slots: Vec<Slot>,
}

impl Arena {
    pub fn new(wanted: &[Wanted]) -> Arena {
        let mut slots = Vec::new();
        let mut page = 1;
        for w in wanted {
            let many = w.bytes.div_ceil(PAGE);
            let spare = many * PAGE - w.bytes;
            let lead = if w.ends_at_guard { spare } else { 0 };
            slots.push(Slot {
                first: page * PAGE + lead,
                bytes: w.bytes,
                pages: (page, page + many),
            });
            page += many + w.beyond.max(1);
        }
        let base = reserve(page * PAGE);
        for slot in &slots {
            let many = slot.pages.1 - slot.pages.0;
            protect(
                unsafe { base.add(slot.pages.0 * PAGE) },
                many * PAGE,
                READ_WRITE,
            );
        }
        let (states, open) = (vec![CLOSED; page], vec![0; page]);
        Arena {
            base,
            pages: page,
            states,
            open,
            slots,
        }
    }

    pub fn at(&self, byte: usize) -> *mut u8 {
        assert!(byte <= self.pages * PAGE);
        unsafe { self.base.add(byte) }
    }

    // Whole pages of a slot.
    pub fn bytes(&self, pages: std::ops::Range<usize>) -> &[u8] {
        unsafe { std::slice::from_raw_parts(self.at(pages.start * PAGE), pages.len() * PAGE) }
    }

    // The trial's own bytes: a watched page counts as written by them too.
    pub fn fill(&mut self, first: usize, bytes: &[u8]) {
        let at = self.at(first + bytes.len()).wrapping_sub(bytes.len());
        unsafe { std::ptr::copy_nonoverlapping(bytes.as_ptr(), at, bytes.len()) }
    }

    // From now on every page of every slot is watched.
    pub fn watch(&mut self) {
        for (from, to) in self.slots.iter().map(|slot| slot.pages) {
            self.states[from..to].fill(WATCHED);
            protect(self.at(from * PAGE), (to - from) * PAGE, READ);
        }
        BASE.store(self.base as usize, Relaxed);
        PAGES.store(self.pages, Relaxed);
        STATES.store(self.states.as_mut_ptr(), Relaxed);
        OPEN.store(self.open.as_mut_ptr(), Relaxed);
        OPEN_MANY.store(0, Relaxed);
    }

    // The pages that were written and are not watched again yet.
    pub fn written(&self) -> Vec<u32> {
        self.open[..OPEN_MANY.load(Relaxed)].to_vec()
    }

    // Watches the written pages again, but for the latest few, which the next calls write too.
    pub fn watch_again(&mut self, few: usize) {
        let many = OPEN_MANY.load(Relaxed);
        if many <= 2 * few {
            return;
        }
        let mut pages = self.open[..many - few].to_vec();
        self.open.copy_within(many - few..many, 0);
        OPEN_MANY.store(few, Relaxed);
        pages.sort_unstable();
        for run in pages.chunk_by(|a, b| a + 1 == *b) {
            let (from, to) = (run[0] as usize, run[0] as usize + run.len());
            self.states[from..to].fill(WATCHED);
            protect(self.at(from * PAGE), run.len() * PAGE, READ);
        }
    }
}

impl Drop for Arena {
    fn drop(&mut self) {
        if BASE.load(Relaxed) == self.base as usize {
            PAGES.store(0, Relaxed);
            OPEN_MANY.store(0, Relaxed);
        }
        unsafe { munmap(self.base, self.pages * PAGE) };
    }
}
