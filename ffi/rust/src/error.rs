//! Why a call failed.
use crate::raw::{self, Place};
use std::fmt;

/// Why a call failed: a kind of jiter_c.h, and the byte index.
///
/// ```
/// let bytes = b"[1,\n 2,]";
/// let error = jiter_c::Document::parse(bytes).err().unwrap();
/// assert_eq!(error.to_string(), "trailing comma at index 7");
/// assert_eq!(error.line_and_column(bytes), (2, 4));
/// ```
#[derive(Clone, Debug, PartialEq, Eq)]
pub struct Error {
    /// The kind, by the numbers of jiter_c.h.
    pub kind: u32,
    /// The byte index; 0 if the error is not about a byte.
    pub index: usize,
    cause: String,
}

/// The result of a call.
pub type Result<T> = std::result::Result<T, Error>;

const OUT_OF_MEMORY: u32 = 22;
pub(crate) const DUPLICATE_KEY: u32 = 23;
const MISUSE: u32 = 101;
pub(crate) const ABSENT: u32 = 102;

pub(crate) fn told<T>(given: bool, value: T, fault: raw::Fault) -> Result<T> {
    if given { Ok(value) } else { Err(Error::of(fault)) }
}

impl Error {
    pub(crate) fn of(fault: raw::Fault) -> Error {
        let (mut text, mut whole) = (vec![0; 200], 0);
        let known = unsafe { raw::jiter_cause(&fault, text.as_mut_ptr(), text.len(), &mut whole) };
        text.truncate(whole);
        let cause = if known { String::from_utf8_lossy(&text).into_owned() } else { format!("error {}", fault.kind) };
        Error { kind: fault.kind, index: fault.index, cause }
    }

    pub(crate) fn memory() -> Error {
        Error { kind: OUT_OF_MEMORY, index: 0, cause: "out of memory".into() }
    }

    pub(crate) fn of_key(self, key: &str) -> Error {
        Error { cause: format!("Detected duplicate key {key:?}"), ..self }
    }

    pub(crate) fn absent(Place(pointer, steps): Place<'_>) -> Error {
        let cause = match wrong(pointer) {
            Some(why) => format!("{pointer:?} is not a JSON Pointer: {why}"),
            None => format!("the document has no such value at {pointer:?}, steps {steps:?}"),
        };
        Error { kind: ABSENT, index: 0, cause }
    }

    /// Returns whether the document has nothing of the wanted type at a place. The place may also be a text that is not a
    /// JSON Pointer: the error then says why.
    ///
    /// ```
    /// let document = jiter_c::Document::parse(br#"{"a": 1}"#)?;
    /// let error = document.double("a", &[]).unwrap_err();
    /// assert!(error.is_absent());
    /// assert_eq!(error.to_string(), r#""a" is not a JSON Pointer: it must be empty or begin with `/`"#);
    /// # Ok::<(), jiter_c::Error>(())
    /// ```
    pub fn is_absent(&self) -> bool {
        self.kind == ABSENT
    }

    /// Returns whether memory ran out. Such an error says nothing about the bytes.
    ///
    /// ```
    /// assert!(!jiter_c::Document::parse(b"[1,]").err().unwrap().is_memory());
    /// ```
    pub fn is_memory(&self) -> bool {
        self.kind == OUT_OF_MEMORY
    }

    /// Returns the line and the column in bytes. Pass the bytes that were read.
    pub fn line_and_column(&self, bytes: &[u8]) -> (usize, usize) {
        let mut position = raw::Position::default();
        unsafe { raw::jiter_position(bytes.as_ptr(), bytes.len(), self.index, &mut position) };
        (position.line, position.column)
    }
}

/// Why a text is not a JSON Pointer (RFC 6901, 3), if it is none.
fn wrong(pointer: &str) -> Option<&'static str> {
    if !pointer.is_empty() && !pointer.starts_with('/') {
        return Some("it must be empty or begin with `/`");
    }
    let escaped = |rest: &str| rest.starts_with(['0', '1']);
    if pointer.split('~').skip(1).all(escaped) { None } else { Some("a `~` must be followed by `0` or `1`") }
}

impl fmt::Display for Error {
    fn fmt(&self, f: &mut fmt::Formatter<'_>) -> fmt::Result {
        match self.kind {
            OUT_OF_MEMORY | MISUSE | ABSENT => f.write_str(&self.cause),
            _ => write!(f, "{} at index {}", self.cause, self.index),
        }
    }
}

impl std::error::Error for Error {}
