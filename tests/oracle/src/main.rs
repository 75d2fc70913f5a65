//! The oracle: the text that the Rust sources of ion-rust give for a tape. See README.md.
#![allow(dead_code, unused_imports, unused_macros, non_camel_case_types, private_interfaces)]
#![allow(unexpected_cfgs, clippy::all)]

// The external crates of ion-rust, by their own names (see crates.rs).
extern crate self as arrayvec;
extern crate self as base64;
extern crate self as delegate;
extern crate self as hashbrown;
extern crate self as ice_code;
extern crate self as itoa;
extern crate self as num_bigint;
extern crate self as num_integer;
extern crate self as num_traits;
extern crate self as rustc_hash;

pub mod crates;
pub use crates::arrayvec::ArrayString;
pub use crates::base64::{encode, encode_config_slice, STANDARD};
pub(crate) use crates::delegate::delegate_to_self as delegate;
pub use crates::hashbrown::{hash_table, HashTable};
pub(crate) use crates::ice_code::ice;
pub use crates::itoa::Buffer;
pub use crates::num::{BigInt, BigUint, Integer, Num, Pow, Sign, ToPrimitive, Zero};
pub use crates::rustc_hash::FxHasher;

// The modules of ion-rust: its files and stand-ins (see build.rs).
include!(concat!(env!("OUT_DIR"), "/ion_root.rs"));

// ... and the names that its crate root gives.
pub use element::{Annotations, Element, Sequence, Value};
pub use lazy::encoder::value_writer::{ContextWriter, ValueWriterConfig};
pub use lazy::encoding::Encoding;
pub use raw_symbol_ref::RawSymbolRef;
pub use result::{IonError, IonResult};
pub use symbol_ref::SymbolRef;
pub use types::bytes::Bytes;
pub use types::decimal::Decimal;
pub use types::integer::Int;
pub use types::list::List;
pub use types::lob::{Blob, Clob};
pub use types::null::Null;
pub use types::r#struct::Struct;
pub use types::sexp::SExp;
pub use types::string::Str;
pub use types::symbol::Symbol;
pub use types::timestamp::Timestamp;
pub use types::{IonType, SymbolId};
pub use write_config::WriteConfig;

pub mod v1_0 {
    pub use crate::lazy::encoding::TextEncoding_1_0 as Text;
}

#[derive(Debug, Clone, Copy, PartialEq, Eq, Default)]
pub enum TextFormat {
    #[default]
    Compact,
    Lines,
    Pretty,
}

mod drive;
mod tape;

use drive::Mode;
use std::io::{self, Read, Write};
use std::process::ExitCode;
use tape::Layout5;

fn main() -> ExitCode {
    // The deepest tapes have 64 containers; debug builds want room for them.
    let run = std::thread::Builder::new().stack_size(256 << 20).spawn(run).unwrap();
    match run.join().unwrap() {
        Ok(()) => ExitCode::SUCCESS,
        Err(message) => {
            eprintln!("oracle: {message}");
            ExitCode::FAILURE
        }
    }
}

const USAGE: &str = "usage: oracle [--atto] tree|0|1|2|inherent0|inherent1|inherent2 < tape > text
       oracle [--atto] batch < frames > frames
       oracle [--atto] bench tree|display|0|1|2 FILE N";

fn run() -> Result<(), String> {
    let mut args: Vec<String> = std::env::args().skip(1).collect();
    let layout = if args.first().is_some_and(|a| a == "--atto") {
        args.remove(0);
        Layout5::Atto
    } else {
        Layout5::Nano
    };
    let args: Vec<&str> = args.iter().map(String::as_str).collect();
    let io = |e: io::Error| e.to_string();
    match args.as_slice() {
        ["batch"] => batch(layout),
        ["bench", mode, file, n] => {
            let n = n.parse().map_err(|e| format!("{n}: {e}"))?;
            let tape = std::fs::read(file).map_err(|e| format!("{file}: {e}"))?;
            drive::bench(mode.parse()?, &tape, layout, n)
        }
        [mode] => {
            let mode: Mode = mode.parse()?;
            let mut tape = Vec::new();
            io::stdin().read_to_end(&mut tape).map_err(io)?;
            let text = drive::text(mode, &tape, layout)?;
            io::stdout().write_all(&text).map_err(io)
        }
        _ => Err(USAGE.to_string()),
    }
}

/// In: mode byte (0, 1, 2 layouts, 3 tree), u32 length, tape. Out: u32 length, text. A tape that
/// the decoder cannot take, or that the Rust has no text for, gives the length 0xFFFFFFFF alone.
fn batch(layout: Layout5) -> Result<(), String> {
    let io = |e: io::Error| e.to_string();
    let mut frames = Vec::new();
    io::stdin().read_to_end(&mut frames).map_err(io)?;
    let mut output = io::BufWriter::new(io::stdout().lock());
    let mut rest = frames.as_slice();
    while !rest.is_empty() {
        let (head, tail) = rest.split_at_checked(5).ok_or("cut frame")?;
        let len = u32::from_le_bytes(head[1..].try_into().unwrap()) as usize;
        let (tape, tail) = tail.split_at_checked(len).ok_or("cut frame")?;
        rest = tail;
        let mode = match head[0] {
            3 => Mode::Tree,
            n => Mode::layout(n)?,
        };
        match drive::text(mode, tape, layout) {
            Ok(text) => {
                output.write_all(&(text.len() as u32).to_le_bytes()).map_err(io)?;
                output.write_all(&text).map_err(io)?;
            }
            Err(message) => {
                eprintln!("oracle: {message}");
                output.write_all(&u32::MAX.to_le_bytes()).map_err(io)?;
            }
        }
    }
    output.flush().map_err(io)
}
