//! Inputs that ask for much work a byte, and the deepest ones.
use crate::inputs::{filled, BIG};
use crate::library::check_value;
use crate::measure::nanoseconds;
use rustbus::wire::util::{pad_to_align, write_signature};
use std::hint::black_box;

struct Hard {
    what: &'static str,
    sig: String,
    buf: Vec<u8>,
}

fn hard(bytes: usize) -> [Hard; 3] {
    let zeros = |align: usize| filled(align, bytes, |b| b.resize(b.len() + 8, 0));
    let inner = format!("({})", "y".repeat(253));
    let variant = |b: &mut Vec<u8>| {
        write_signature(&inner, b);
        pad_to_align(8, b);
        b.extend([1; 253]);
    };
    [
        // each empty array is its length and the padding to its elements' 8
        Hard {
            what: "empty arrays of a 252-byte type",
            sig: format!("aa({})", "y".repeat(250)),
            buf: empty_arrays(bytes),
        },
        Hard {
            what: "structs of an empty deep array",
            sig: format!("a{}y{}", "(a".repeat(30), ")".repeat(30)),
            buf: zeros(8),
        },
        Hard {
            what: "variants with 255-byte signatures",
            sig: "av".into(),
            buf: filled(1, bytes, variant),
        },
    ]
}

// The first begins at 4: its length, and no padding.
fn empty_arrays(bytes: usize) -> Vec<u8> {
    let mut buf = vec![0; bytes / 8 * 8];
    let length = (buf.len() - 4) as u32;
    buf[..4].copy_from_slice(&length.to_le_bytes());
    buf
}

/// The cost of a byte must not grow with the size.
pub fn worst(rounds: usize) {
    println!("{:34} {:>9} {:>12}", "hard input", "bytes", "ns a byte");
    for bytes in [BIG / 10, BIG] {
        for Hard { what, sig, buf } in hard(bytes) {
            assert_eq!(check_value(&buf, sig.as_bytes()), buf.len(), "{what}");
            let call = || check_value(black_box(&buf), black_box(sig.as_bytes()));
            let (least, _) = nanoseconds(&[&call], rounds)[0];
            println!(
                "{what:34} {:9} {:12.2}",
                buf.len(),
                least / buf.len() as f64
            );
        }
    }
}

const NESTED: usize = 31;
const VARIANTS: usize = 16;

// The arrays inside of a variant, and in the innermost the next variant, or at last a byte.
fn nest(buf: &mut Vec<u8>, dicts: bool, levels: usize, variants: usize) {
    match (levels, variants) {
        (0, 0) => buf.push(7),
        (0, _) => variant(buf, dicts, variants),
        _ => {
            pad_to_align(4, buf);
            let at = buf.len();
            buf.extend([0; 4]);
            pad_to_align(8, buf);
            let first = buf.len();
            if dicts {
                buf.push(1);
            }
            nest(buf, dicts, levels - 1, variants);
            let length = (buf.len() - first) as u32;
            buf[at..at + 4].copy_from_slice(&length.to_le_bytes());
        }
    }
}

fn variant(buf: &mut Vec<u8>, dicts: bool, variants: usize) {
    let (open, close) = if dicts { ("a{y", "}") } else { ("a(", ")") };
    let inside = if variants == 1 { "y" } else { "v" };
    write_signature(
        &format!("{}{inside}{}", open.repeat(NESTED), close.repeat(NESTED)),
        buf,
    );
    nest(buf, dicts, NESTED, variants - 1);
}

/// Checks the deepest values on a thread with that much stack: 16 variants, and in each 31 arrays with a struct as their element, or 31 dicts.
pub fn stack(kib: usize) {
    let check = || {
        for dicts in [false, true] {
            let mut buf = vec![];
            variant(&mut buf, dicts, VARIANTS);
            assert_eq!(check_value(&buf, b"v"), buf.len());
        }
    };
    std::thread::Builder::new()
        .stack_size(kib * 1024)
        .spawn(check)
        .unwrap()
        .join()
        .unwrap();
}
