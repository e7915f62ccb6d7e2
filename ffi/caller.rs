//! A caller in Rust, over the same library: it reads a document from standard input, makes the calls that its words
//! name, and writes what they answer, as caller.c does.
use std::io::{Read, Write};

mod jiter_c {
    //! What `jiter_c.h` declares.
    #[repr(C)]
    #[derive(Default, Clone, Copy)]
    pub struct Fault {
        pub kind: u32,
        pub expected: u32,
        pub actual: u32,
        pub index: usize,
    }

    #[repr(C)]
    #[derive(Default)]
    pub struct Position {
        pub line: usize,
        pub column: usize,
    }

    #[repr(C)]
    #[derive(Clone, Copy)]
    pub struct RawText {
        pub bytes: *const u8,
        pub length: usize,
    }

    #[repr(C)]
    #[derive(Clone, Copy)]
    pub struct RawReader {
        pub bytes: *const u8,
        pub length: usize,
        pub index: usize,
        pub allow_inf_nan: bool,
        pub allow_partial_strings: bool,
    }

    unsafe extern "C" {
        pub fn jiter_parse(b: *const u8, n: usize, names: bool, mode: u32, fault: &mut Fault) -> bool;
        pub fn jiter_print(
            b: *const u8, n: usize, names: bool, mode: u32, out: *mut u8, room: usize, whole: &mut usize,
            fault: &mut Fault,
        ) -> bool;
        pub fn jiter_peek(reader: &mut RawReader, start: &mut u32, fault: &mut Fault) -> bool;
        pub fn jiter_next_null(reader: &mut RawReader, fault: &mut Fault) -> bool;
        pub fn jiter_next_bool(reader: &mut RawReader, value: &mut bool, fault: &mut Fault) -> bool;
        pub fn jiter_next_int(reader: &mut RawReader, fits: &mut bool, value: &mut i64, fault: &mut Fault) -> bool;
        pub fn jiter_next_number(reader: &mut RawReader, text: &mut RawText, fault: &mut Fault) -> bool;
        pub fn jiter_next_bytes(reader: &mut RawReader, text: &mut RawText, fault: &mut Fault) -> bool;
        pub fn jiter_next_str(
            reader: &mut RawReader, out: *mut u8, room: usize, whole: &mut usize, fault: &mut Fault,
        ) -> bool;
        pub fn jiter_next_array(reader: &mut RawReader, more: &mut bool, fault: &mut Fault) -> bool;
        pub fn jiter_array_step(reader: &mut RawReader, more: &mut bool, fault: &mut Fault) -> bool;
        pub fn jiter_next_object(
            reader: &mut RawReader, more: &mut bool, out: *mut u8, room: usize, whole: &mut usize, fault: &mut Fault,
        ) -> bool;
        pub fn jiter_next_key(
            reader: &mut RawReader, more: &mut bool, out: *mut u8, room: usize, whole: &mut usize, fault: &mut Fault,
        ) -> bool;
        pub fn jiter_next_object_bytes(
            reader: &mut RawReader, more: &mut bool, key: &mut RawText, fault: &mut Fault,
        ) -> bool;
        pub fn jiter_next_key_bytes(reader: &mut RawReader, more: &mut bool, key: &mut RawText, fault: &mut Fault)
        -> bool;
        pub fn jiter_next_skip(reader: &mut RawReader, fault: &mut Fault) -> bool;
        pub fn jiter_count(reader: &RawReader, count: &mut u64, fault: &mut Fault) -> bool;
        pub fn jiter_item(reader: &mut RawReader, number: u64, found: &mut bool, fault: &mut Fault) -> bool;
        pub fn jiter_member(
            reader: &mut RawReader, name: *const u8, length: usize, found: &mut bool, fault: &mut Fault,
        ) -> bool;
        pub fn jiter_finish(reader: &mut RawReader, fault: &mut Fault) -> bool;
        pub fn jiter_describe(
            b: *const u8, n: usize, fault: &Fault, out: *mut u8, room: usize, whole: &mut usize,
        ) -> bool;
        pub fn jiter_position(b: *const u8, n: usize, index: usize, position: &mut Position);
    }
}

use jiter_c::{Fault, Position, RawReader, RawText};

/// A reader that borrows its bytes: what a Rust caller uses.
#[derive(Clone, Copy)]
struct Reader<'j> {
    raw: RawReader,
    bytes: &'j [u8],
}

type Answer<T> = Result<T, Fault>;
type Call = unsafe extern "C" fn(&mut RawReader, &mut Fault) -> bool;
type Step = unsafe extern "C" fn(&mut RawReader, &mut bool, &mut Fault) -> bool;
type TextCall = unsafe extern "C" fn(&mut RawReader, &mut RawText, &mut Fault) -> bool;
type KeyCall = unsafe extern "C" fn(&mut RawReader, &mut bool, *mut u8, usize, &mut usize, &mut Fault) -> bool;
type RawKeyCall = unsafe extern "C" fn(&mut RawReader, &mut bool, &mut RawText, &mut Fault) -> bool;

const NO_TEXT: RawText = RawText { bytes: b"".as_ptr(), length: 0 };

impl<'j> Reader<'j> {
    fn new(bytes: &'j [u8], setting: &str) -> Self {
        let raw = RawReader {
            bytes: bytes.as_ptr(),
            length: bytes.len(),
            index: 0,
            allow_inf_nan: setting == "names",
            allow_partial_strings: setting == "partial",
        };
        Reader { raw, bytes }
    }

    fn call(&mut self, call: Call) -> Answer<()> {
        let mut fault = Fault::default();
        if unsafe { call(&mut self.raw, &mut fault) } { Ok(()) } else { Err(fault) }
    }

    fn step(&mut self, call: Step) -> Answer<bool> {
        let (mut more, mut fault) = (false, Fault::default());
        if unsafe { call(&mut self.raw, &mut more, &mut fault) } { Ok(more) } else { Err(fault) }
    }

    fn peek(&mut self) -> Answer<u32> {
        let (mut start, mut fault) = (0, Fault::default());
        if unsafe { jiter_c::jiter_peek(&mut self.raw, &mut start, &mut fault) } { Ok(start) } else { Err(fault) }
    }

    /// The integer, or none where 64 signed bits do not hold it.
    fn int(&mut self) -> Answer<Option<i64>> {
        let (mut fits, mut value, mut fault) = (false, 0, Fault::default());
        let given = unsafe { jiter_c::jiter_next_int(&mut self.raw, &mut fits, &mut value, &mut fault) };
        if given { Ok(fits.then_some(value)) } else { Err(fault) }
    }

    /// Bytes that lie in the document.
    fn text(&mut self, call: TextCall) -> Answer<&'j [u8]> {
        let (mut text, mut fault) = (NO_TEXT, Fault::default());
        let given = unsafe { call(&mut self.raw, &mut text, &mut fault) };
        if given { Ok(unsafe { std::slice::from_raw_parts(text.bytes, text.length) }) } else { Err(fault) }
    }

    fn raw_key(&mut self, call: RawKeyCall) -> Answer<Option<Vec<u8>>> {
        let (mut more, mut text, mut fault) = (false, NO_TEXT, Fault::default());
        let given = unsafe { call(&mut self.raw, &mut more, &mut text, &mut fault) };
        let key = || unsafe { std::slice::from_raw_parts(text.bytes, text.length) }.to_vec();
        if given { Ok(more.then(key)) } else { Err(fault) }
    }

    fn str(&mut self) -> Answer<Vec<u8>> {
        let (mut out, mut whole, mut fault) = (vec![0; self.bytes.len()], 0, Fault::default());
        let call = jiter_c::jiter_next_str;
        let given = unsafe { call(&mut self.raw, out.as_mut_ptr(), out.len(), &mut whole, &mut fault) };
        out.truncate(whole);
        if given { Ok(out) } else { Err(fault) }
    }

    fn key(&mut self, call: KeyCall) -> Answer<Option<Vec<u8>>> {
        let (mut out, mut whole) = (vec![0; self.bytes.len()], 0);
        let (mut more, mut fault) = (false, Fault::default());
        let given = unsafe { call(&mut self.raw, &mut more, out.as_mut_ptr(), out.len(), &mut whole, &mut fault) };
        out.truncate(whole);
        if given { Ok(more.then_some(out)) } else { Err(fault) }
    }

    fn first_key(&mut self, raw: bool) -> Answer<Option<Vec<u8>>> {
        if raw { self.raw_key(jiter_c::jiter_next_object_bytes) } else { self.key(jiter_c::jiter_next_object) }
    }

    fn next_key(&mut self, raw: bool) -> Answer<Option<Vec<u8>>> {
        if raw { self.raw_key(jiter_c::jiter_next_key_bytes) } else { self.key(jiter_c::jiter_next_key) }
    }

    /// How many items or members come.
    fn count(&self) -> Answer<u64> {
        let (mut count, mut fault) = (0, Fault::default());
        if unsafe { jiter_c::jiter_count(&self.raw, &mut count, &mut fault) } { Ok(count) } else { Err(fault) }
    }

    /// Whether there is an item with this number, to which the reader moves.
    fn item(&mut self, number: u64) -> Answer<bool> {
        let (mut found, mut fault) = (false, Fault::default());
        let given = unsafe { jiter_c::jiter_item(&mut self.raw, number, &mut found, &mut fault) };
        if given { Ok(found) } else { Err(fault) }
    }

    /// Whether there is a member of this name, to the last of which the reader moves.
    fn member(&mut self, name: &[u8]) -> Answer<bool> {
        let (mut found, mut fault) = (false, Fault::default());
        let call = jiter_c::jiter_member;
        let given = unsafe { call(&mut self.raw, name.as_ptr(), name.len(), &mut found, &mut fault) };
        if given { Ok(found) } else { Err(fault) }
    }
}

fn show(out: &mut Vec<u8>, text: &[u8]) {
    out.push(b'\'');
    out.extend_from_slice(text);
    out.push(b'\'');
}

/// The value that comes next.
fn walk(out: &mut Vec<u8>, reader: &mut Reader<'_>, raw: bool) -> Answer<()> {
    match reader.peek()? {
        1 => {
            reader.call(jiter_c::jiter_next_null)?;
            out.extend_from_slice(b"null");
        }
        2 => {
            let truth = reader.step(jiter_c::jiter_next_bool)?;
            out.extend_from_slice(if truth { b"true" } else { b"false" });
        }
        5 if raw => show(out, reader.text(jiter_c::jiter_next_bytes)?),
        5 => show(out, &reader.str()?),
        6 => walk_array(out, reader, raw)?,
        7 => walk_object(out, reader, raw)?,
        _ => walk_number(out, reader)?,
    }
    Ok(())
}

fn walk_array(out: &mut Vec<u8>, reader: &mut Reader<'_>, raw: bool) -> Answer<()> {
    out.push(b'[');
    let mut more = reader.step(jiter_c::jiter_next_array)?;
    while more {
        walk(out, reader, raw)?;
        more = reader.step(jiter_c::jiter_array_step)?;
        if more {
            out.push(b',');
        }
    }
    out.push(b']');
    Ok(())
}

fn walk_object(out: &mut Vec<u8>, reader: &mut Reader<'_>, raw: bool) -> Answer<()> {
    out.push(b'{');
    let mut key = reader.first_key(raw)?;
    while let Some(name) = key {
        show(out, &name);
        out.push(b':');
        walk(out, reader, raw)?;
        key = reader.next_key(raw)?;
        if key.is_some() {
            out.push(b',');
        }
    }
    out.push(b'}');
    Ok(())
}

/// An integer by its value, where it has 64 bits; else a number by its own bytes, from the place where it stands.
fn walk_number(out: &mut Vec<u8>, reader: &mut Reader<'_>) -> Answer<()> {
    let before = *reader;
    if let Ok(Some(value)) = reader.int() {
        out.extend_from_slice(value.to_string().as_bytes());
        return Ok(());
    }
    *reader = before;
    let text = reader.text(jiter_c::jiter_next_number)?;
    out.extend_from_slice(b"number ");
    out.extend_from_slice(text);
    Ok(())
}

fn mode_of(word: &str) -> u32 {
    match word {
        "off" => 0,
        "on" => 1,
        _ => 2,
    }
}

fn print(bytes: &[u8], mode: u32) -> Answer<Vec<u8>> {
    let (mut out, mut whole, mut fault) = (vec![0; 6 * bytes.len() + 64], 0, Fault::default());
    let (at, length, room) = (bytes.as_ptr(), bytes.len(), out.len());
    let given =
        unsafe { jiter_c::jiter_print(at, length, false, mode, out.as_mut_ptr(), room, &mut whole, &mut fault) };
    out.truncate(whole);
    if given { Ok(out) } else { Err(fault) }
}

fn parse(bytes: &[u8], mode: u32) -> Answer<()> {
    let mut fault = Fault::default();
    let given = unsafe { jiter_c::jiter_parse(bytes.as_ptr(), bytes.len(), false, mode, &mut fault) };
    if given { Ok(()) } else { Err(fault) }
}

fn described(bytes: &[u8], fault: &Fault) -> Vec<u8> {
    let (mut text, mut whole) = (vec![0; 200], 0);
    let room = text.len();
    let known =
        unsafe { jiter_c::jiter_describe(bytes.as_ptr(), bytes.len(), fault, text.as_mut_ptr(), room, &mut whole) };
    assert!(known);
    text.truncate(whole);
    text
}

/// The call that the words name.
fn answer(out: &mut Vec<u8>, reader: &mut Reader<'_>, word: &str, more: &str) -> Answer<()> {
    match word {
        "parse" => {
            parse(reader.bytes, mode_of(more))?;
            out.extend_from_slice(b"document");
        }
        "print" => out.extend_from_slice(&print(reader.bytes, mode_of(more))?),
        "walk" | "raw" => {
            walk(out, reader, word == "raw")?;
            reader.call(jiter_c::jiter_finish)?;
            out.extend_from_slice(b" whole");
        }
        "skip" => {
            reader.call(jiter_c::jiter_next_skip)?;
            out.extend_from_slice(b"skipped");
        }
        "null" => {
            reader.call(jiter_c::jiter_next_null)?;
            out.extend_from_slice(b"null");
        }
        "bool" => {
            let truth = reader.step(jiter_c::jiter_next_bool)?;
            out.extend_from_slice(if truth { b"true" } else { b"false" });
        }
        "int" => match reader.int()? {
            Some(value) => out.extend_from_slice(format!("fits {value}").as_bytes()),
            None => out.extend_from_slice(b"too long 0"),
        },
        "string" => show(out, &reader.str()?),
        "count" => out.extend_from_slice(format!("{} parts", reader.count()?).as_bytes()),
        "item" if !reader.item(more.parse().unwrap_or(0))? => out.extend_from_slice(b"no item"),
        "member" if !reader.member(more.as_bytes())? => out.extend_from_slice(b"no member"),
        _ => walk(out, reader, false)?,
    }
    Ok(())
}

fn main() -> std::io::Result<()> {
    let words: Vec<String> = std::env::args().collect();
    let word = words.get(1).map_or("walk", String::as_str);
    let more = words.get(2).map_or("off", String::as_str);
    let mut bytes = Vec::new();
    std::io::stdin().read_to_end(&mut bytes)?;
    let mut reader = Reader::new(&bytes, more);
    let mut out = Vec::new();
    if let Err(fault) = answer(&mut out, &mut reader, word, more) {
        let Fault { kind, expected, actual, index } = fault;
        out.extend_from_slice(format!("fault {kind} {expected} {actual} at {index}: ").as_bytes());
        out.extend_from_slice(&described(&bytes, &fault));
    }
    let (index, mut position) = (reader.raw.index, Position::default());
    unsafe { jiter_c::jiter_position(bytes.as_ptr(), bytes.len(), index, &mut position) };
    let Position { line, column } = position;
    out.extend_from_slice(format!(" then {index}, line {line} column {column}\n").as_bytes());
    std::io::stdout().write_all(&out)
}
