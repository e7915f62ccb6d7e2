//! JSON by libjiter: [`Reader`], [`Document`], [`Walk`] and [`Parser`]. The library is proved; this wrapper is not.
//!
//! ```
//! use jiter_c::{Document, Type};
//!
//! let document = Document::parse(br#"{"server": {"ports": [80, 443]}}"#)?;
//! let port = document.at("/server/ports/1", &[]).filter(|it| it.kind == Type::Int);
//! assert_eq!(port.map(|it| it.integer), Some(443));
//! # Ok::<(), jiter_c::Error>(())
//! ```
use std::borrow::Cow;
use std::cell::RefCell;
use std::marker::PhantomData;

mod error;
mod raw;
mod walk;

pub use error::{Error, Result};
use error::{DUPLICATE_KEY, told};
use raw::Place;
pub use walk::{Children, Node, Walk};

/// Whether a truncated document is accepted.
#[derive(Clone, Copy, Debug, PartialEq, Eq)]
pub enum Mode {
    /// No.
    Off = 0,
    /// Yes; a truncated string is left out.
    On = 1,
    /// Yes; a truncated string keeps its complete characters.
    TrailingStrings = 2,
}

/// The type of a value.
#[derive(Clone, Copy, Debug, PartialEq, Eq)]
pub enum Type {
    /// `null`
    Null,
    /// `true` or `false`
    Bool,
    /// An integer that 64 signed bits hold.
    Int,
    /// A number with a point or an exponent.
    Float,
    /// A string.
    String,
    /// An array.
    Array,
    /// An object.
    Object,
    /// A number, whichever it is.
    Number,
    /// Any other integer.
    BigInt,
}

fn type_of(number: u32) -> Option<Type> {
    use Type::*;
    [Null, Bool, Int, Float, String, Array, Object, Number, BigInt].get((number as usize).wrapping_sub(1)).copied()
}

/// Calls until the room is long enough.
fn text(first: usize, call: impl Fn(*mut u8, usize, &mut usize, &mut raw::Fault) -> bool) -> Result<String> {
    let mut out = vec![0; first];
    loop {
        let (mut whole, mut fault) = (0, raw::Fault::default());
        told(call(out.as_mut_ptr(), out.len(), &mut whole, &mut fault), (), fault)?;
        if whole <= out.len() {
            out.truncate(whole);
            return Ok(utf8(out));
        }
        out.resize(whole, 0);
    }
}

fn utf8(bytes: Vec<u8>) -> String {
    String::from_utf8(bytes).expect("libjiter writes UTF-8")
}

/// A number.
#[derive(Clone, Debug, PartialEq)]
pub enum Number<'j> {
    /// An integer that 64 signed bits hold.
    Int(i64),
    /// The digits of any other integer.
    BigInt(&'j str),
    /// The nearest double, and the source text.
    Float(f64, &'j str),
}

/// A pull reader: it reads a document one value or one step at a time. A copy is another reader.
///
/// ```
/// let mut reader = jiter_c::Reader::new(b"[1, 2.5]");
/// let (mut sum, mut more) = (0.0, reader.array()?);
/// while more {
///     sum += reader.double()?;
///     more = reader.item()?;
/// }
/// reader.finish()?;
/// assert_eq!(sum, 3.5);
/// # Ok::<(), jiter_c::Error>(())
/// ```
#[derive(Clone, Copy)]
pub struct Reader<'j> {
    raw: raw::Reader,
    bytes: PhantomData<&'j [u8]>,
}

// SAFETY: the pointer is that of the borrowed slice, whose bytes are only read. So it moves and is shared as `&[u8]` is.
unsafe impl Send for Reader<'_> {}
unsafe impl Sync for Reader<'_> {}

const NO_TEXT: raw::Text = raw::Text { bytes: b"".as_ptr(), length: 0 };

impl<'j> Reader<'j> {
    /// Returns a reader at the first byte.
    pub fn new(bytes: &'j [u8]) -> Reader<'j> {
        let raw = raw::Reader {
            bytes: bytes.as_ptr(),
            length: bytes.len(),
            index: 0,
            allow_inf_nan: false,
            allow_partial_strings: false,
        };
        Reader { raw, bytes: PhantomData }
    }

    /// Allows `NaN`, `Infinity` and `-Infinity`.
    pub fn allow_inf_nan(mut self) -> Self {
        self.raw.allow_inf_nan = true;
        self
    }

    /// Returns the position: a byte index.
    pub fn index(&self) -> usize {
        self.raw.index
    }

    // The bytes are those that `new` borrowed, or none.
    fn slice(text: raw::Text) -> &'j [u8] {
        unsafe { std::slice::from_raw_parts(text.bytes, text.length) }
    }

    /// Returns the type of the next value, or `None` if no value begins there.
    pub fn peek(&mut self) -> Result<Option<Type>> {
        let (mut start, mut fault) = (0, raw::Fault::default());
        let given = unsafe { raw::jiter_peek(&mut self.raw, &mut start, &mut fault) };
        told(given, type_of(start), fault)
    }

    /// Reads `null`.
    pub fn null(&mut self) -> Result<()> {
        let mut fault = raw::Fault::default();
        told(unsafe { raw::jiter_next_null(&mut self.raw, &mut fault) }, (), fault)
    }

    fn step(&mut self, step: raw::Step) -> Result<bool> {
        let (mut more, mut fault) = (false, raw::Fault::default());
        let given = unsafe { step(&mut self.raw, &mut more, &mut fault) };
        told(given, more, fault)
    }

    /// Reads `true` or `false`.
    pub fn bool(&mut self) -> Result<bool> {
        self.step(raw::jiter_next_bool)
    }

    /// Reads a number as the nearest double.
    pub fn double(&mut self) -> Result<f64> {
        let (mut value, mut finite, mut fault) = (0.0, false, raw::Fault::default());
        let given = unsafe { raw::jiter_next_double(&mut self.raw, &mut value, &mut finite, &mut fault) };
        told(given, value, fault)
    }

    /// Reads a number, whichever it is.
    pub fn number(&mut self) -> Result<Number<'j>> {
        let mut number = raw::Number { kind: 0, integer: 0, text: NO_TEXT };
        let mut fault = raw::Fault::default();
        let given = unsafe { raw::jiter_next_any_number(&mut self.raw, &mut number, &mut fault) };
        told(given, (), fault)?;
        let text = std::str::from_utf8(Self::slice(number.text)).expect("a number is ASCII");
        Ok(match number.kind {
            3 => Number::Int(number.integer),
            9 => Number::BigInt(text),
            _ => Number::Float(double_of(text), text),
        })
    }

    /// Reads a string: borrowed where it has no escape, otherwise decoded.
    pub fn string(&mut self) -> Result<Cow<'j, str>> {
        let before = self.raw;
        let (mut found, mut fault) = (NO_TEXT, raw::Fault::default());
        told(unsafe { raw::jiter_next_bytes(&mut self.raw, &mut found, &mut fault) }, (), fault)?;
        let bytes = Self::slice(found);
        if let Some(text) = unescaped(bytes) {
            return Ok(Cow::Borrowed(text));
        }
        self.raw = before;
        let (mut out, mut whole) = (vec![0; bytes.len()], 0);
        let given = unsafe { raw::jiter_next_str(&mut self.raw, out.as_mut_ptr(), out.len(), &mut whole, &mut fault) };
        told(given, (), fault)?;
        out.truncate(whole);
        Ok(Cow::Owned(utf8(out)))
    }

    /// Steps into the next array. Returns whether it has an item, which comes next.
    pub fn array(&mut self) -> Result<bool> {
        self.step(raw::jiter_next_array)
    }

    /// Moves past an item. Returns whether another one comes next.
    pub fn item(&mut self) -> Result<bool> {
        self.step(raw::jiter_array_step)
    }

    fn keyed(&mut self, raw_step: raw::RawKeyStep, step: raw::KeyStep) -> Result<Option<Cow<'j, str>>> {
        let before = self.raw;
        let (mut more, mut key, mut fault) = (false, NO_TEXT, raw::Fault::default());
        told(unsafe { raw_step(&mut self.raw, &mut more, &mut key, &mut fault) }, (), fault)?;
        let bytes = Self::slice(key);
        if !more {
            return Ok(None);
        }
        if let Some(text) = unescaped(bytes) {
            return Ok(Some(Cow::Borrowed(text)));
        }
        self.raw = before;
        let (mut out, mut whole) = (vec![0; bytes.len()], 0);
        let given = unsafe { step(&mut self.raw, &mut more, out.as_mut_ptr(), out.len(), &mut whole, &mut fault) };
        told(given, (), fault)?;
        out.truncate(whole);
        Ok(Some(Cow::Owned(utf8(out))))
    }

    /// Steps into the next object and returns its first key, if it has one; its value comes next.
    pub fn object(&mut self) -> Result<Option<Cow<'j, str>>> {
        self.keyed(raw::jiter_next_object_bytes, raw::jiter_next_object)
    }

    /// Moves past a member and returns the next key, if there is one; its value comes next.
    pub fn key(&mut self) -> Result<Option<Cow<'j, str>>> {
        self.keyed(raw::jiter_next_key_bytes, raw::jiter_next_key)
    }

    /// Moves past the next value, whatever it is. Strings are not checked for UTF-8.
    pub fn skip(&mut self) -> Result<()> {
        let mut fault = raw::Fault::default();
        told(unsafe { raw::jiter_next_skip(&mut self.raw, &mut fault) }, (), fault)
    }

    /// Checks that only whitespace is left.
    pub fn finish(&mut self) -> Result<()> {
        let mut fault = raw::Fault::default();
        told(unsafe { raw::jiter_finish(&mut self.raw, &mut fault) }, (), fault)
    }
}

/// The bytes as text, if they have no backslash and are UTF-8.
fn unescaped(bytes: &[u8]) -> Option<&str> {
    if bytes.contains(&b'\\') { None } else { std::str::from_utf8(bytes).ok() }
}

/// The double nearest to a number's text.
fn double_of(text: &str) -> f64 {
    let (mut value, mut finite) = (f64::NAN, false);
    unsafe { raw::jiter_double(text.as_ptr(), text.len(), &mut value, &mut finite) };
    value
}

/// Memory of the library, freed with it. Even a look needs the handle to itself: the cell sees to it.
struct Handle(RefCell<raw::Handle>);

// SAFETY: the memory is from malloc, this is its only owner, and the library keeps nothing else: no static, no thread's own
// data. So another thread may call it and free it. It is not `Sync`: the library takes one call at a time of a handle.
unsafe impl Send for Handle {}

impl Handle {
    fn new() -> Result<Handle> {
        let mut pointer = std::ptr::null_mut();
        if !unsafe { raw::jiter_handle_new(&mut pointer) } {
            return Err(Error::memory());
        }
        Ok(Handle(RefCell::new(raw::Handle { pointer })))
    }
}

impl Drop for Handle {
    fn drop(&mut self) {
        let pointer = self.0.get_mut().pointer;
        unsafe { raw::jiter_handle_free(raw::Handle { pointer }) };
    }
}

/// What a document has at a place.
#[derive(Clone, Debug, PartialEq)]
pub struct Value {
    /// The type, never `Number`.
    pub kind: Type,
    /// The `bool` of a `Bool`.
    pub truth: bool,
    /// The integer of an `Int`.
    pub integer: i64,
    /// How many items, members or bytes of text it has.
    pub length: usize,
}

impl Value {
    fn of(raw::Value { kind, truth, integer, length }: raw::Value) -> Value {
        Value { kind: type_of(kind).expect("a type"), truth, integer, length }
    }
}

/// The value of a document. It borrows nothing, and may move to another thread: it is `Send`. It is not `Sync`, since the
/// library takes one call at a time of a handle.
///
/// ```
/// let document = jiter_c::Document::parse(br#"{"a": [1, "b"]}"#)?;
/// assert_eq!(document.text("/a/1", &[])?, "b");
/// assert_eq!(document.print("/a", &[])?, r#"[1,"b"]"#);
/// let error = document.text("/a/7", &[]).unwrap_err();
/// assert_eq!(error.to_string(), r#"the document has no such value at "/a/7", steps []"#);
/// # Ok::<(), jiter_c::Error>(())
/// ```
pub struct Document(Handle);

impl Document {
    /// Parses a document.
    pub fn parse(bytes: &[u8]) -> Result<Document> {
        Document::parse_with(bytes, false, Mode::Off, false)
    }

    /// Parses a document. With `unique` a repeated key is an error, which names the key.
    ///
    /// ```
    /// use jiter_c::{Document, Mode};
    ///
    /// let error = Document::parse_with(br#"{"a": 1, "a": 2}"#, false, Mode::Off, true).err().unwrap();
    /// assert_eq!(error.to_string(), r#"Detected duplicate key "a" at index 13"#);
    /// let cut = Document::parse_with(br#"{"a": ["b"#, false, Mode::TrailingStrings, true)?;
    /// assert_eq!(cut.print("", &[])?, r#"{"a":["b"]}"#);
    /// # Ok::<(), jiter_c::Error>(())
    /// ```
    pub fn parse_with(bytes: &[u8], allow_inf_nan: bool, mode: Mode, unique: bool) -> Result<Document> {
        let (mut document, mut fault) = (Document(Handle::new()?), raw::Fault::default());
        let (start, length, handle) = (bytes.as_ptr(), bytes.len(), document.0.0.get_mut());
        let given = unsafe {
            raw::jiter_document_read(handle, start, length, allow_inf_nan, mode as u32, unique, &mut fault)
        };
        match told(given, (), fault) {
            Ok(()) => Ok(document),
            Err(error) if error.kind == DUPLICATE_KEY => Err(error.of_key(&document.text("", &[])?)),
            Err(error) => Err(error),
        }
    }

    /// Returns what is at a place: where the JSON Pointer leads, and from there one part for each step, by its index.
    pub fn at(&self, pointer: &str, steps: &[usize]) -> Option<Value> {
        let mut value = raw::Value::default();
        let (path, place, handle) = (pointer.as_ptr(), steps.as_ptr(), &mut self.0.0.borrow_mut());
        let found = unsafe {
            raw::jiter_document_at(handle, path, pointer.len(), place, steps.len(), &mut value)
        };
        found.then(|| Value::of(value))
    }

    fn text_by(
        &self,
        Place(pointer, steps): Place<'_>,
        call: impl Fn(&mut raw::Handle, *const u8, usize, *const usize, usize, *mut u8, usize, &mut usize, &mut raw::Fault) -> bool,
    ) -> Result<String> {
        let (path, count, place, depth) = (pointer.as_ptr(), pointer.len(), steps.as_ptr(), steps.len());
        let found = text(64, |out, room, whole, fault| {
            call(&mut self.0.0.borrow_mut(), path, count, place, depth, out, room, whole, fault)
        });
        found.map_err(|error| if error.is_absent() { Error::absent(Place(pointer, steps)) } else { error })
    }

    /// Returns the string at a place, or the text of a number that is no `Int`. It fails where there is neither.
    pub fn text(&self, pointer: &str, steps: &[usize]) -> Result<String> {
        self.text_by(Place(pointer, steps), |handle, path, count, place, depth, out, room, whole, fault| unsafe {
            raw::jiter_document_text(handle, path, count, place, depth, out, room, whole, fault)
        })
    }

    /// Returns the key of a member of the object at a place. It fails where there is no such member.
    pub fn key(&self, pointer: &str, steps: &[usize], index: usize) -> Result<String> {
        self.text_by(Place(pointer, steps), |handle, path, count, place, depth, out, room, whole, fault| unsafe {
            raw::jiter_document_key(handle, path, count, place, depth, index, out, room, whole, fault)
        })
    }

    /// Returns the compact JSON text of the value at a place. It fails where there is none.
    pub fn print(&self, pointer: &str, steps: &[usize]) -> Result<String> {
        self.text_by(Place(pointer, steps), |handle, path, count, place, depth, out, room, whole, fault| unsafe {
            raw::jiter_document_print(handle, path, count, place, depth, out, room, whole, fault)
        })
    }

    /// Returns the double at a place, whichever number it is. It fails where there is no number.
    pub fn double(&self, pointer: &str, steps: &[usize]) -> Result<f64> {
        let (mut value, mut finite, mut fault) = (0.0, false, raw::Fault::default());
        let (path, place, handle) = (pointer.as_ptr(), steps.as_ptr(), &mut self.0.0.borrow_mut());
        let given = unsafe {
            raw::jiter_document_double(
                handle, path, pointer.len(), place, steps.len(), &mut value, &mut finite, &mut fault)
        };
        if given { Ok(value) } else { Err(Error::absent(Place(pointer, steps))) }
    }

    /// Returns a walk through the values of the document, each step in constant time. It owns what it shows.
    ///
    /// ```
    /// let walk = jiter_c::Document::parse(br#"{"a": [1, 2.5], "b": "c"}"#)?.walk()?;
    /// let members: Vec<_> = walk.root().children().map(|it| (it.key(), it.value().length)).collect();
    /// assert_eq!(members, [(Some("a"), 2), (Some("b"), 1)]);
    /// # Ok::<(), jiter_c::Error>(())
    /// ```
    pub fn walk(&self) -> Result<Walk> {
        Walk::of(&self.0)
    }
}

/// A document in chunks. It may move to another thread.
///
/// ```
/// let mut parser = jiter_c::Parser::new(false, jiter_c::Mode::TrailingStrings)?;
/// parser.push(br#"{"answer": "It de"#)?;
/// assert_eq!(parser.value()?, r#"{"answer":"It de"}"#);
/// parser.push(br#"pends"}"#)?;
/// assert_eq!(parser.finish()?.text("/answer", &[])?, "It depends");
/// # Ok::<(), jiter_c::Error>(())
/// ```
pub struct Parser(Handle);

impl Parser {
    /// Returns a parser that reads the bytes so far in this mode.
    pub fn new(allow_inf_nan: bool, mode: Mode) -> Result<Parser> {
        let mut parser = Parser(Handle::new()?);
        unsafe { raw::jiter_parser_begin(parser.0.0.get_mut(), allow_inf_nan, mode as u32) };
        Ok(parser)
    }

    /// Takes a chunk, cut anywhere. If memory runs out, `position` returns how many bytes were taken.
    pub fn push(&mut self, chunk: &[u8]) -> Result<()> {
        let handle = self.0.0.get_mut();
        let done = unsafe { raw::jiter_parser_push(handle, chunk.as_ptr(), chunk.len()) };
        if done { Ok(()) } else { Err(Error::memory()) }
    }

    /// Returns how many bytes were taken.
    pub fn position(&self) -> usize {
        unsafe { raw::jiter_parser_position(&mut self.0.0.borrow_mut()) }
    }

    /// Returns the compact text of the value so far.
    pub fn value(&self) -> Result<String> {
        text(256, |out, room, whole, fault| unsafe {
            raw::jiter_parser_value(&mut self.0.0.borrow_mut(), out, room, whole, fault)
        })
    }

    /// Returns the error that `finish` would return now, if the bytes so far are no complete document.
    pub fn error(&self) -> Option<Error> {
        let mut fault = raw::Fault::default();
        let failed = unsafe { raw::jiter_parser_error(&mut self.0.0.borrow_mut(), &mut fault) };
        failed.then(|| Error::of(fault))
    }

    /// Returns the value of the document.
    pub fn finish(mut self) -> Result<Document> {
        let mut fault = raw::Fault::default();
        let given = unsafe { raw::jiter_parser_finish(self.0.0.get_mut(), &mut fault) };
        told(given, (), fault)?;
        Ok(Document(self.0))
    }
}
