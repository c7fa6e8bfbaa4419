//! The cases: what is asked of the crate and of the library (and of libdbus), on the same input.
use crate::inputs::{array, call, signal, string, text, ARRAYS, BIG, TEXTS};
use crate::libdbus;
use crate::library::{self, Room};
use crate::written::{Body, Writer, BODIES};
use rustbus::signature::Type;
use rustbus::wire::unmarshal::{
    unmarshal_dynamic_header, unmarshal_header, unmarshal_next_message,
};
use rustbus::wire::validate_raw::validate_marshalled;
use rustbus::ByteOrder::LittleEndian as LE;
use std::cell::RefCell;
use std::hint::black_box;

/// Does the thing once; answers how many bytes it went through.
pub type Side = Box<dyn Fn() -> usize>;

enum What {
    Text(&'static str),
    Array(&'static str),
    Message(fn() -> Vec<u8>),
    Body(&'static str),
}

pub struct Case {
    pub group: String,
    /// The input has about that many bytes.
    pub bytes: usize,
    /// Whether it is in the table, and not in the plot alone.
    pub listed: bool,
    what: What,
}

const SIZES: [usize; 8] = [8, 16, 64, 256, 1024, 4096, 16384, BIG];
const LISTED: [usize; 4] = [8, 64, 1024, BIG];

/// The groups of the plot: texts, and some arrays.
pub const PLOTTED: [&str; 6] = [
    "s ASCII",
    "s mixed",
    "s two-byte",
    "a{s(yx)}",
    "a(qqn)",
    "ai",
];

pub fn cases() -> Vec<Case> {
    let mut cases = vec![];
    let mut case = |group: String, bytes, listed, what| {
        cases.push(Case {
            group,
            bytes,
            listed,
            what,
        })
    };
    for kind in TEXTS {
        for bytes in SIZES {
            let listed = LISTED.contains(&bytes);
            case(format!("s {kind}"), bytes, listed, What::Text(kind));
        }
    }
    for (sig, least) in ARRAYS {
        let from = if PLOTTED.contains(&sig) { least } else { BIG };
        for bytes in SIZES.into_iter().filter(|bytes| *bytes >= from) {
            case(sig.into(), bytes, bytes == BIG, What::Array(sig));
        }
    }
    case("message signal".into(), BIG, true, What::Message(signal));
    case(
        "message call".into(),
        call().len(),
        true,
        What::Message(call),
    );
    for name in BODIES {
        case(format!("write {name}"), BIG, true, What::Body(name));
    }
    cases
}

impl Case {
    /// A word of its own.
    pub fn id(&self) -> String {
        format!("{}/{}", self.group.replace(' ', "-"), self.bytes)
    }

    pub fn names(&self) -> Vec<&'static str> {
        let third = matches!(self.what, What::Message(_)) && libdbus::demarshal().is_some();
        ["crate", "library", "libdbus"][..2 + third as usize].to_vec()
    }

    /// In the order of the names. Each was tried once, and all said the same.
    pub fn sides(&self) -> Vec<Side> {
        let sides = match self.what {
            What::Text(kind) => value("s", string(&text(kind, self.bytes))),
            What::Array(sig) => value(sig, array(sig, self.bytes)),
            What::Message(make) => message(make()),
            What::Body(name) => writing(name),
        };
        let answers: Vec<usize> = sides.iter().map(|side| side()).collect();
        assert!(
            answers.iter().all(|answer| *answer == answers[0]),
            "{}: {answers:?}",
            self.id()
        );
        sides
    }
}

// The crate is given the type; the library reads it from the signature.
fn value(sig: &'static str, buf: Vec<u8>) -> Vec<Side> {
    let of = Type::parse_description(sig).unwrap().remove(0);
    let also = buf.clone();
    let by_crate = move || validate_marshalled(LE, 0, black_box(&buf), &of).unwrap();
    let by_library = move || library::check_value(black_box(&also), black_box(sig.as_bytes()));
    vec![Box::new(by_crate), Box::new(by_library)]
}

// The crate's four steps to a checked message, as its users take them.
fn unmarshal(buf: &[u8]) -> usize {
    let (fixed, header) = unmarshal_header(buf, 0).unwrap();
    let (fields, dynamic) = unmarshal_dynamic_header(&header, buf, fixed).unwrap();
    let (rest, message) = unmarshal_next_message(&header, dynamic, buf, fixed + fields).unwrap();
    message.body.validate().unwrap();
    black_box(&message);
    fixed + fields + rest
}

fn message(buf: Vec<u8>) -> Vec<Side> {
    let side = |f: fn(&[u8]) -> usize| -> Side {
        let buf = buf.clone();
        Box::new(move || f(black_box(&buf)))
    };
    [
        Some(unmarshal as fn(&[u8]) -> usize),
        Some(library::read_header),
        libdbus::demarshal(),
    ]
    .into_iter()
    .flatten()
    .map(side)
    .collect()
}

fn writing(name: &str) -> Vec<Side> {
    let (mut vec, mut room) = (
        vec![],
        Room {
            buf: vec![0; 2 * BIG],
            place: 0,
        },
    );
    let body = Body::new(name);
    body.write(&mut vec);
    body.write(&mut room);
    assert!(vec == room.written(), "written differently: {name}");
    vec![writer(Body::new(name), vec), writer(body, room)]
}

fn writer(body: Body, w: impl Writer + 'static) -> Side {
    let w = RefCell::new(w);
    Box::new(move || black_box(&body).write(&mut *w.borrow_mut()))
}
