//! Labels from Purangsa, a first program in Rust: opens a generator, draws labels of 16 bytes until a reseed is due, reseeds,
//! draws one more, closes the generator and tries the closed handle. examples/labels.c is the same program in C.
//!
//!     library/build
//!     rustc --edition 2021 -o labels examples/labels.rs -L target/library -l static=purangsa && ./labels
//!
//! or, after ./install PREFIX with PREFIX/lib/pkgconfig in PKG_CONFIG_PATH:
//!
//!     rustc --edition 2021 -o labels examples/labels.rs -C link-args="$(pkg-config --libs purangsa)" && ./labels

#![deny(unsafe_code)]

mod purangsa;

use purangsa::{Handle, Mechanism, Opening, Refusal, Table};

// EXAMPLE STRINGS, fixed so that everybody sees the same labels: whoever knows them knows every label. A real program takes
// entropy from a source, as getrandom, anew for each opening and each reseed, and never the same nonce twice.
const ENTROPY: &[u8] = b"this is an example, not entropy!";
const MORE_ENTROPY: &[u8] = b"nor is this: take a real source.";
const NONCE: &[u8] = b"example nonce 01";
const PERSONALIZATION: &[u8] = b"labels of volumes";

/// A label is a draw of 16 bytes. A refused draw leaves the output as it was.
fn draw_label(table: &mut Table, handle: Handle) {
    let mut label = [0; 16];
    match table.draw(handle, 128, b"", &mut label) {
        Ok(served) => {
            print!("draw: answer 0, {} blocks, label ", served.blocks);
            for byte in label {
                print!("{byte:02x}");
            }
            println!();
        }
        Err(refusal) => println!("draw: answer {}, 0 blocks", refusal.number()),
    }
}

fn main() -> Result<(), Refusal> {
    if let Err(case) = purangsa::self_test() {
        eprintln!("the library's test of itself fails in case {case}: nothing is drawn");
        std::process::exit(1);
    }
    let mut table = Table::new();

    let opened = table.open(&Opening {
        mechanism: Mechanism::HmacDrbg,
        strength: 128,
        interval: 3,
        fresh: false,
        entropy: ENTROPY,
        nonce: NONCE,
        personalization: PERSONALIZATION,
    })?;
    let handle = opened.value;
    println!("open: answer 0, {} blocks, handle {}", opened.blocks, handle.0);

    draw_label(&mut table, handle);
    draw_label(&mut table, handle);
    draw_label(&mut table, handle);
    draw_label(&mut table, handle); // the fourth: Refusal::RESEED_DUE

    let reseeded = table.reseed(handle, MORE_ENTROPY, b"")?;
    println!("reseed: answer 0, {} blocks", reseeded.blocks);
    draw_label(&mut table, handle);

    let closed = table.close(handle)?;
    println!("close: answer 0, {} blocks", closed.blocks);
    draw_label(&mut table, handle); // Refusal::NO_SUCH_GENERATOR, now and ever after
    Ok(())
}
