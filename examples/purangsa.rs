//! Purangsa for Rust: a safe wrapper of libpurangsa.a in one file, with no other crates. Take it into a program by `mod purangsa;` and
//! link the library. include/purangsa.h says what each call promises; here a `Table` owns its bytes, a refusal is an `Err`, and no
//! `unsafe` is left for the program.
//!
//! After each call the dead stack and the registers are cleared (purangsa_wipe), and a table's bytes are when it is dropped. The
//! strings that are lent and the bytes that are drawn are the program's own.

#![deny(unsafe_op_in_unsafe_fn)]
#![allow(unsafe_code)] // all that a program needs is here
#![allow(dead_code)] // and it may use a part only

use std::fmt;
use std::ptr::write_volatile;
use std::sync::atomic::{compiler_fence, Ordering};

/// The functions of include/purangsa.h.
mod c {
    extern "C" {
        pub fn purangsa_open(
            table: *mut u8, table_length: usize,
            mechanism: u64, strength: u64, interval: u64, fresh: u64,
            entropy: *const u8, entropy_length: usize,
            nonce: *const u8, nonce_length: usize,
            personalization: *const u8, personalization_length: usize,
            blocks: *mut u64, value: *mut u64,
        ) -> u64;
        pub fn purangsa_reseed(
            table: *mut u8, table_length: usize, handle: u64,
            entropy: *const u8, entropy_length: usize,
            additional: *const u8, additional_length: usize,
            blocks: *mut u64, value: *mut u64,
        ) -> u64;
        pub fn purangsa_draw(
            table: *mut u8, table_length: usize, handle: u64, strength: u64,
            additional: *const u8, additional_length: usize,
            output: *mut u8, output_length: usize,
            blocks: *mut u64, value: *mut u64,
        ) -> u64;
        pub fn purangsa_fresh_draw(
            table: *mut u8, table_length: usize, handle: u64, strength: u64,
            entropy: *const u8, entropy_length: usize,
            additional: *const u8, additional_length: usize,
            output: *mut u8, output_length: usize,
            blocks: *mut u64, value: *mut u64,
        ) -> u64;
        pub fn purangsa_close(
            table: *mut u8, table_length: usize, handle: u64,
            blocks: *mut u64, value: *mut u64,
        ) -> u64;
        pub fn purangsa_inquire(
            table: *const u8, table_length: usize, handle: u64,
            blocks: *mut u64, value: *mut u64,
        ) -> u64;
        pub fn purangsa_self_test() -> u64;
        pub fn purangsa_wipe();
    }
}

/// Known-answer tests (SP 800-90A, 11.3): `Err` holds the number of the first case that came out wrong, which is the fault of the
/// machine, or of what compiled, linked or changed the library: draw nothing then.
pub fn self_test() -> Result<(), u64> {
    // it takes no pointer, and asks nothing of its caller
    match unsafe { c::purangsa_self_test() } {
        0 => Ok(()),
        case => Err(case),
    }
}

/// The limits, in bytes but for strength, interval and blocks.
pub const MOST_STRENGTH: u64 = 256;
pub const MOST_INTERVAL: u64 = 1 << 48;
pub const MOST_ENTROPY: usize = 1024;
pub const MOST_NONCE: usize = 64;
pub const MOST_PERSONALIZATION: usize = 512;
pub const MOST_ADDITIONAL: usize = 1024;
pub const MOST_REQUEST: usize = 65536;
pub const MOST_BLOCKS: u64 = 8288;
pub const TABLE_LENGTH: usize = 2148;

/// The strength of a generator that is opened at this one. Above `MOST_STRENGTH` it is refused.
pub const fn rounded_strength(strength: u64) -> u64 {
    match strength {
        0..=112 => 112,
        113..=128 => 128,
        129..=192 => 192,
        _ => 256,
    }
}

/// The least bytes of entropy that serve at this strength.
pub const fn least_entropy(strength: u64) -> usize {
    rounded_strength(strength) as usize / 8
}

/// The least bytes of nonce that serve at this strength.
pub const fn least_nonce(strength: u64) -> usize {
    rounded_strength(strength) as usize / 16
}

#[derive(Clone, Copy, Debug, PartialEq, Eq)]
pub enum Mechanism {
    HmacDrbg = 1,
    HashDrbg = 2,
}

/// Names a generator of its table until it is closed, and nothing ever after.
#[derive(Clone, Copy, Debug, PartialEq, Eq, Hash)]
pub struct Handle(pub u64);

/// Why a call was refused: an answer from 1 to 14. A refused call has changed nothing.
#[derive(Clone, Copy, PartialEq, Eq)]
pub struct Refusal(u64);

impl Refusal {
    pub const TABLE_UNSOUND: Refusal = Refusal(1);
    pub const NO_SUCH_GENERATOR: Refusal = Refusal(2);
    pub const BAD_MECHANISM: Refusal = Refusal(3);
    pub const BAD_STRENGTH: Refusal = Refusal(4);
    pub const BAD_INTERVAL: Refusal = Refusal(5);
    pub const LONG_PERSONALIZATION: Refusal = Refusal(6);
    pub const LONG_ADDITIONAL: Refusal = Refusal(7);
    pub const BAD_ENTROPY: Refusal = Refusal(8);
    pub const BAD_NONCE: Refusal = Refusal(9);
    pub const LONG_REQUEST: Refusal = Refusal(10);
    pub const NO_FRESH_RIGHT: Refusal = Refusal(11);
    pub const RESEED_DUE: Refusal = Refusal(12);
    pub const NO_FREE_SLOT: Refusal = Refusal(13);
    pub const SERIALS_USED_UP: Refusal = Refusal(14);

    pub fn number(self) -> u64 {
        self.0
    }

    pub fn words(self) -> &'static str {
        match self {
            Refusal::TABLE_UNSOUND => "table unsound",
            Refusal::NO_SUCH_GENERATOR => "no such generator",
            Refusal::BAD_MECHANISM => "mechanism neither 1 (HMAC_DRBG) nor 2 (Hash_DRBG)",
            Refusal::BAD_STRENGTH => "strength above 256 at opening, or above the generator's own at a draw",
            Refusal::BAD_INTERVAL => "interval not 1 to 2^48",
            Refusal::LONG_PERSONALIZATION => "personalization above 512 bytes",
            Refusal::LONG_ADDITIONAL => "additional input above 1,024 bytes",
            Refusal::BAD_ENTROPY => "entropy below strength/8 bytes or above 1,024",
            Refusal::BAD_NONCE => "nonce below strength/16 bytes or above 64",
            Refusal::LONG_REQUEST => "request above 65,536 bytes",
            Refusal::NO_FRESH_RIGHT => "fresh draw on a generator opened without that right",
            Refusal::RESEED_DUE => "reseed due",
            Refusal::NO_FREE_SLOT => "no free slot",
            Refusal::SERIALS_USED_UP => "serials used up",
            _ => "unknown answer",
        }
    }
}

impl fmt::Display for Refusal {
    fn fmt(&self, to: &mut fmt::Formatter) -> fmt::Result {
        write!(to, "answer {}: {}", self.number(), self.words())
    }
}

/// The same, so that a `main` that returns one tells its words.
impl fmt::Debug for Refusal {
    fn fmt(&self, to: &mut fmt::Formatter) -> fmt::Result {
        fmt::Display::fmt(self, to)
    }
}

impl std::error::Error for Refusal {}

/// What a served call tells: the SHA-256 blocks that the standard's definition takes, and the call's own value.
#[derive(Clone, Copy, Debug, PartialEq, Eq)]
pub struct Served<T> {
    pub blocks: u64,
    pub value: T,
}

/// What a generator is opened with.
pub struct Opening<'a> {
    pub mechanism: Mechanism,
    /// In bits; it is rounded up to 112, 128, 192 or 256.
    pub strength: u64,
    /// The draws from one reseed to the next.
    pub interval: u64,
    /// The right to fresh draws.
    pub fresh: bool,
    pub entropy: &'a [u8],
    pub nonce: &'a [u8],
    pub personalization: &'a [u8],
}

/// A table of 16 generators. Its bytes stand in one place for as long as it lives, so that moving it leaves no copy behind. It can't be
/// cloned: two copies would draw the same bytes.
pub struct Table {
    bytes: Box<[u8; TABLE_LENGTH]>,
}

/// What every call tells, as it comes from C.
fn told<T>(number: u64, blocks: u64, value: T) -> Result<Served<T>, Refusal> {
    if number == 0 {
        Ok(Served { blocks, value })
    } else {
        Err(Refusal(number))
    }
}

// Rust's references keep what a call asks of its pointers: they are good for their lengths, and what is written overlaps nothing else. Each
// wipe is made from the frame that made the call.
impl Table {
    /// The fresh table: 16 free slots.
    pub fn new() -> Table {
        Table { bytes: Box::new([0; TABLE_LENGTH]) }
    }

    /// A table that was kept: any bytes, sound or not. The caller's copy stays, and is as secret as what is drawn.
    pub fn from_bytes(bytes: &[u8; TABLE_LENGTH]) -> Table {
        let mut table = Table::new();
        table.bytes.copy_from_slice(bytes);
        unsafe { c::purangsa_wipe() };
        table
    }

    /// For keeping: whoever has a copy can draw what this table draws.
    pub fn bytes(&self) -> &[u8; TABLE_LENGTH] {
        &self.bytes
    }

    /// Opens a generator in the lowest free slot. Refused: 1, 4, 5, 6, 8, 9, 13, 14.
    pub fn open(&mut self, with: &Opening) -> Result<Served<Handle>, Refusal> {
        let (mut blocks, mut value) = (0, 0);
        let number = unsafe {
            let number = c::purangsa_open(
                self.bytes.as_mut_ptr(), TABLE_LENGTH, with.mechanism as u64, with.strength, with.interval, with.fresh.into(),
                with.entropy.as_ptr(), with.entropy.len(), with.nonce.as_ptr(), with.nonce.len(),
                with.personalization.as_ptr(), with.personalization.len(), &mut blocks, &mut value,
            );
            c::purangsa_wipe();
            number
        };
        told(number, blocks, Handle(value))
    }

    /// Reseeds the generator. Refused: 1, 2, 7, 8.
    pub fn reseed(&mut self, handle: Handle, entropy: &[u8], additional: &[u8]) -> Result<Served<()>, Refusal> {
        let (mut blocks, mut value) = (0, 0);
        let number = unsafe {
            let number = c::purangsa_reseed(
                self.bytes.as_mut_ptr(), TABLE_LENGTH, handle.0, entropy.as_ptr(), entropy.len(),
                additional.as_ptr(), additional.len(), &mut blocks, &mut value,
            );
            c::purangsa_wipe();
            number
        };
        told(number, blocks, ())
    }

    /// Fills the output; refused, it is as it was. A plain draw never reseeds. Refused: 1, 2, 10, 4, 7, 12.
    pub fn draw(&mut self, handle: Handle, strength: u64, additional: &[u8], output: &mut [u8]) -> Result<Served<()>, Refusal> {
        let (mut blocks, mut value) = (0, 0);
        let number = unsafe {
            let number = c::purangsa_draw(
                self.bytes.as_mut_ptr(), TABLE_LENGTH, handle.0, strength, additional.as_ptr(), additional.len(),
                output.as_mut_ptr(), output.len(), &mut blocks, &mut value,
            );
            c::purangsa_wipe();
            number
        };
        told(number, blocks, ())
    }

    /// A reseed with the entropy and the additional input, then a draw, as one call: all or nothing. Refused: 1, 2, 10, 4, 7, 11, 8.
    pub fn fresh_draw(
        &mut self, handle: Handle, strength: u64, entropy: &[u8], additional: &[u8], output: &mut [u8],
    ) -> Result<Served<()>, Refusal> {
        let (mut blocks, mut value) = (0, 0);
        let number = unsafe {
            let number = c::purangsa_fresh_draw(
                self.bytes.as_mut_ptr(), TABLE_LENGTH, handle.0, strength, entropy.as_ptr(), entropy.len(),
                additional.as_ptr(), additional.len(), output.as_mut_ptr(), output.len(), &mut blocks, &mut value,
            );
            c::purangsa_wipe();
            number
        };
        told(number, blocks, ())
    }

    /// Ends the generator: every byte of its slot goes to zero. Refused: 1, 2.
    pub fn close(&mut self, handle: Handle) -> Result<Served<()>, Refusal> {
        let (mut blocks, mut value) = (0, 0);
        let number = unsafe {
            let number = c::purangsa_close(self.bytes.as_mut_ptr(), TABLE_LENGTH, handle.0, &mut blocks, &mut value);
            c::purangsa_wipe();
            number
        };
        told(number, blocks, ())
    }

    /// The draws that are left before a reseed is due. Refused: 1, 2.
    pub fn inquire(&self, handle: Handle) -> Result<Served<u64>, Refusal> {
        let (mut blocks, mut value) = (0, 0);
        let number = unsafe {
            let number = c::purangsa_inquire(self.bytes.as_ptr(), TABLE_LENGTH, handle.0, &mut blocks, &mut value);
            c::purangsa_wipe();
            number
        };
        told(number, blocks, value)
    }
}

impl Default for Table {
    fn default() -> Table {
        Table::new()
    }
}

impl Drop for Table {
    /// Volatile, as a compiler drops stores to memory that is given back.
    fn drop(&mut self) {
        for byte in self.bytes.iter_mut() {
            unsafe { write_volatile(byte, 0) };
        }
        compiler_fence(Ordering::SeqCst);
    }
}
