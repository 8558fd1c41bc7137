//! examples/purangsa.rs, all of it: each call served and refused, a table that is kept and brought back, and one that is dropped, whose
//! memory is looked at when it is given back; and that each call is followed by a wipe. tests/examples builds and runs this. The last line
//! is 'N passed, M failed'. `wrapper words` prints the refusals instead, for tests/header.

#[path = "../examples/purangsa.rs"]
mod purangsa;

use purangsa::*;
use std::alloc::{GlobalAlloc, Layout, System};
use std::sync::atomic::{AtomicUsize, Ordering};

/// Counts the tables whose memory is given back, and those that are not all zero then.
struct Watching;
static GIVEN_BACK: AtomicUsize = AtomicUsize::new(0);
static UNCLEARED: AtomicUsize = AtomicUsize::new(0);

unsafe impl GlobalAlloc for Watching {
    unsafe fn alloc(&self, layout: Layout) -> *mut u8 {
        unsafe { System.alloc(layout) }
    }
    unsafe fn dealloc(&self, at: *mut u8, layout: Layout) {
        if layout.size() == TABLE_LENGTH {
            GIVEN_BACK.fetch_add(1, Ordering::Relaxed);
            if (0..TABLE_LENGTH).any(|i| unsafe { at.add(i).read_volatile() } != 0) {
                UNCLEARED.fetch_add(1, Ordering::Relaxed);
            }
        }
        unsafe { System.dealloc(at, layout) }
    }
}

#[global_allocator]
static ALLOCATOR: Watching = Watching;

/// The linker puts this in the place of the library's (--wrap=purangsa_wipe), so that wipes are counted.
static WIPES: AtomicUsize = AtomicUsize::new(0);
extern "C" {
    fn __real_purangsa_wipe();
}
#[no_mangle]
extern "C" fn __wrap_purangsa_wipe() {
    WIPES.fetch_add(1, Ordering::Relaxed);
    unsafe { __real_purangsa_wipe() }
}

#[derive(Default)]
struct Tally {
    passed: u32,
    failed: u32,
}

impl Tally {
    fn note(&mut self, held: bool, name: &str) {
        if held {
            self.passed += 1;
        } else {
            self.failed += 1;
            println!("failed: {name}");
        }
    }

    fn refused<T>(&mut self, told: Result<Served<T>, Refusal>, reason: Refusal) {
        let held = matches!(told, Err(refusal) if refusal == reason);
        self.note(held, &format!("refused with {reason}"));
    }
}

/// The call is followed by one wipe, served or not.
fn wiped<T>(tally: &mut Tally, name: &str, call: impl FnOnce() -> Result<Served<T>, Refusal>) {
    let before = WIPES.load(Ordering::Relaxed);
    let _ = call();
    tally.note(WIPES.load(Ordering::Relaxed) == before + 1, &format!("{name} is followed by a wipe"));
}

fn wipes(tally: &mut Tally) {
    let (mut table, entropy, nonce, handle) = (Table::new(), [0xaa; 32], [0x55; 8], Handle(16));
    wiped(tally, "open", || table.open(&opening(Mechanism::HmacDrbg, &entropy, &nonce)));
    wiped(tally, "reseed", || table.reseed(handle, &entropy, b""));
    wiped(tally, "draw", || table.draw(handle, 128, b"", &mut [0; 16]));
    wiped(tally, "fresh draw", || table.fresh_draw(handle, 128, &entropy, b"", &mut [0; 16]));
    wiped(tally, "inquire", || table.inquire(handle));
    wiped(tally, "close", || table.close(handle));
    wiped(tally, "a refused draw", || table.draw(handle, 128, b"", &mut [0; 16]));
}

fn opening<'a>(mechanism: Mechanism, entropy: &'a [u8], nonce: &'a [u8]) -> Opening<'a> {
    Opening { mechanism, strength: 128, interval: 2, fresh: true, entropy, nonce, personalization: b"" }
}

/// All calls on one generator, served; then what the same calls are refused for.
fn calls(tally: &mut Tally, mechanism: Mechanism) -> Result<(), Refusal> {
    let mut table = Table::default();
    let (entropy, nonce) = ([0xaa; 32], [0x55; 8]);
    let opened = table.open(&opening(mechanism, &entropy, &nonce))?;
    let handle = opened.value;
    tally.note(handle == Handle(16), "the first handle is 16");
    tally.note(opened.blocks == if mechanism == Mechanism::HmacDrbg { 18 } else { 6 }, "the blocks of an opening");
    tally.note(table.inquire(handle)?.value == 2, "two draws are left");

    let kept = Table::from_bytes(table.bytes());
    let mut output = [0; 40];
    table.draw(handle, 128, b"more", &mut output)?;
    tally.note(output != [0; 40], "a draw fills the output");
    tally.note(kept.inquire(handle)?.value == 2, "a table that is kept does not move with the other");
    table.draw(handle, 0, b"", &mut [])?;
    let before = output;
    tally.refused(table.draw(handle, 128, b"", &mut output), Refusal::RESEED_DUE);
    tally.note(output == before, "a refused draw leaves the output as it was");
    table.fresh_draw(handle, 128, &entropy, b"", &mut output)?;
    tally.note(output != before, "a fresh draw fills the output");
    table.reseed(handle, &entropy, b"more")?;
    tally.note(table.inquire(handle)?.value == 2, "a reseed gives the draws anew");

    let long = [0; MOST_ADDITIONAL + 1];
    tally.refused(table.open(&Opening { strength: MOST_STRENGTH + 1, ..opening(mechanism, &entropy, &nonce) }), Refusal::BAD_STRENGTH);
    tally.refused(table.open(&Opening { interval: MOST_INTERVAL + 1, ..opening(mechanism, &entropy, &nonce) }), Refusal::BAD_INTERVAL);
    tally.refused(
        table.open(&Opening { personalization: &long[..MOST_PERSONALIZATION + 1], ..opening(mechanism, &entropy, &nonce) }),
        Refusal::LONG_PERSONALIZATION,
    );
    tally.refused(table.open(&opening(mechanism, &entropy[..15], &nonce)), Refusal::BAD_ENTROPY);
    tally.refused(table.open(&opening(mechanism, &long[..MOST_ENTROPY + 1], &nonce)), Refusal::BAD_ENTROPY);
    for strength in [0, 112, 113, 128, 129, 192, 193, MOST_STRENGTH] {
        let least = least_nonce(strength);
        tally.note(least_entropy(strength) == 2 * least, "the least nonce is half the least entropy");
        let short = Opening { strength, ..opening(mechanism, &long[..2 * least], &long[..least - 1]) };
        tally.refused(table.open(&short), Refusal::BAD_NONCE);
        let opened = table.open(&Opening { nonce: &long[..least], ..short })?;
        table.close(opened.value)?;
    }
    tally.refused(table.open(&opening(mechanism, &entropy, &long[..MOST_NONCE + 1])), Refusal::BAD_NONCE);
    tally.refused(table.reseed(handle, &entropy, &long), Refusal::LONG_ADDITIONAL);
    tally.refused(table.draw(handle, 129, b"", &mut output), Refusal::BAD_STRENGTH);
    tally.refused(table.draw(handle, 128, b"", &mut vec![0; MOST_REQUEST + 1]), Refusal::LONG_REQUEST);
    let plain = table.open(&Opening { fresh: false, ..opening(mechanism, &entropy, &nonce) })?.value;
    tally.refused(table.fresh_draw(plain, 128, &entropy, b"", &mut output), Refusal::NO_FRESH_RIGHT);
    table.close(handle)?;
    tally.refused(table.close(handle), Refusal::NO_SUCH_GENERATOR);
    while table.open(&opening(mechanism, &entropy, &nonce)).is_ok() {}
    tally.refused(table.open(&opening(mechanism, &entropy, &nonce)), Refusal::NO_FREE_SLOT);
    let unsound = Table::from_bytes(&[0xff; TABLE_LENGTH]);
    tally.refused(unsound.inquire(handle), Refusal::TABLE_UNSOUND);
    let most = table.draw(plain, 0, b"", &mut vec![0; MOST_REQUEST])?.blocks;
    tally.note(most <= MOST_BLOCKS, "no call reports more than the most blocks");
    Ok(())
}

const REFUSALS: [Refusal; 14] = [
    Refusal::TABLE_UNSOUND,
    Refusal::NO_SUCH_GENERATOR,
    Refusal::BAD_MECHANISM,
    Refusal::BAD_STRENGTH,
    Refusal::BAD_INTERVAL,
    Refusal::LONG_PERSONALIZATION,
    Refusal::LONG_ADDITIONAL,
    Refusal::BAD_ENTROPY,
    Refusal::BAD_NONCE,
    Refusal::LONG_REQUEST,
    Refusal::NO_FRESH_RIGHT,
    Refusal::RESEED_DUE,
    Refusal::NO_FREE_SLOT,
    Refusal::SERIALS_USED_UP,
];

fn main() {
    if std::env::args().nth(1).as_deref() == Some("words") {
        for refusal in REFUSALS {
            println!("{} {}", refusal.number(), refusal.words());
        }
        return;
    }
    let mut tally = Tally::default();
    tally.note(purangsa::self_test().is_ok(), "the library tests itself");
    wipes(&mut tally);
    for mechanism in [Mechanism::HmacDrbg, Mechanism::HashDrbg] {
        let ended = calls(&mut tally, mechanism);
        tally.note(ended.is_ok(), "all calls that are to be served are");
    }
    tally.note(GIVEN_BACK.load(Ordering::Relaxed) == 7, "seven tables are given back");
    tally.note(UNCLEARED.load(Ordering::Relaxed) == 0, "a table that is dropped is all zero");
    println!("{} passed, {} failed", tally.passed, tally.failed);
    std::process::exit(if tally.failed == 0 { 0 } else { 1 });
}
