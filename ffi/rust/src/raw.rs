//! What jiter_c.h declares, as far as the wrapper calls it.
#[repr(C)]
#[derive(Default, Clone, Copy)]
pub struct Fault {
    pub kind: u32,
    pub expected: u32,
    pub actual: u32,
    pub index: usize,
}

#[repr(C)]
#[derive(Default)]
pub struct Position {
    pub line: usize,
    pub column: usize,
}

#[repr(C)]
#[derive(Clone, Copy)]
pub struct Text {
    pub bytes: *const u8,
    pub length: usize,
}

#[repr(C)]
#[derive(Clone, Copy)]
pub struct Reader {
    pub bytes: *const u8,
    pub length: usize,
    pub index: usize,
    pub allow_inf_nan: bool,
    pub allow_partial_strings: bool,
}

#[repr(C)]
pub struct Number {
    pub kind: u32,
    pub integer: i64,
    pub text: Text,
}

#[repr(C)]
#[derive(Default, Clone, Copy)]
pub struct Value {
    pub kind: u32,
    pub truth: bool,
    pub integer: i64,
    pub length: usize,
}

#[repr(C)]
#[derive(Default, Clone, Copy)]
pub struct Node {
    pub kind: u32,
    pub truth: u32,
    pub integer: i64,
    pub next: usize,
    pub text: usize,
    pub key_length: usize,
}

#[repr(C)]
pub struct Handle {
    pub pointer: *mut u8,
}

/// A place in a document: a JSON Pointer and steps.
#[derive(Clone, Copy)]
pub struct Place<'a>(pub &'a str, pub &'a [usize]);

pub type Step = unsafe extern "C" fn(&mut Reader, &mut bool, &mut Fault) -> bool;
pub type KeyStep = unsafe extern "C" fn(&mut Reader, &mut bool, *mut u8, usize, &mut usize, &mut Fault) -> bool;
pub type RawKeyStep = unsafe extern "C" fn(&mut Reader, &mut bool, &mut Text, &mut Fault) -> bool;

#[rustfmt::skip]
extern "C" {
    pub fn jiter_peek(reader: &mut Reader, start: &mut u32, fault: &mut Fault) -> bool;
    pub fn jiter_next_null(reader: &mut Reader, fault: &mut Fault) -> bool;
    pub fn jiter_next_bool(reader: &mut Reader, value: &mut bool, fault: &mut Fault) -> bool;
    pub fn jiter_next_double(reader: &mut Reader, value: &mut f64, finite: &mut bool, fault: &mut Fault) -> bool;
    pub fn jiter_next_any_number(reader: &mut Reader, number: &mut Number, fault: &mut Fault) -> bool;
    pub fn jiter_double(bytes: *const u8, length: usize, value: &mut f64, finite: &mut bool) -> bool;
    pub fn jiter_next_bytes(reader: &mut Reader, text: &mut Text, fault: &mut Fault) -> bool;
    pub fn jiter_next_str(reader: &mut Reader, out: *mut u8, room: usize, whole: &mut usize, fault: &mut Fault) -> bool;
    pub fn jiter_next_array(reader: &mut Reader, more: &mut bool, fault: &mut Fault) -> bool;
    pub fn jiter_array_step(reader: &mut Reader, more: &mut bool, fault: &mut Fault) -> bool;
    pub fn jiter_next_object(
        reader: &mut Reader, more: &mut bool, out: *mut u8, room: usize, whole: &mut usize, fault: &mut Fault) -> bool;
    pub fn jiter_next_key(
        reader: &mut Reader, more: &mut bool, out: *mut u8, room: usize, whole: &mut usize, fault: &mut Fault) -> bool;
    pub fn jiter_next_object_bytes(reader: &mut Reader, more: &mut bool, key: &mut Text, fault: &mut Fault) -> bool;
    pub fn jiter_next_key_bytes(reader: &mut Reader, more: &mut bool, key: &mut Text, fault: &mut Fault) -> bool;
    pub fn jiter_next_skip(reader: &mut Reader, fault: &mut Fault) -> bool;
    pub fn jiter_finish(reader: &mut Reader, fault: &mut Fault) -> bool;
    pub fn jiter_cause(fault: &Fault, out: *mut u8, room: usize, whole: &mut usize) -> bool;
    pub fn jiter_position(bytes: *const u8, length: usize, index: usize, position: &mut Position);
    pub fn jiter_handle_new(pointer: &mut *mut u8) -> bool;
    pub fn jiter_handle_free(handle: Handle);
    pub fn jiter_parser_begin(handle: &mut Handle, allow_inf_nan: bool, mode: u32) -> bool;
    pub fn jiter_parser_push(handle: &mut Handle, chunk: *const u8, length: usize) -> bool;
    pub fn jiter_parser_position(handle: &mut Handle) -> usize;
    pub fn jiter_parser_value(
        handle: &mut Handle, out: *mut u8, room: usize, whole: &mut usize, fault: &mut Fault) -> bool;
    pub fn jiter_parser_error(handle: &mut Handle, fault: &mut Fault) -> bool;
    pub fn jiter_parser_finish(handle: &mut Handle, fault: &mut Fault) -> bool;
    pub fn jiter_document_read(
        handle: &mut Handle, bytes: *const u8, length: usize, allow_inf_nan: bool, mode: u32, unique: bool,
        fault: &mut Fault) -> bool;
    pub fn jiter_document_at(
        handle: &mut Handle, pointer: *const u8, length: usize, steps: *const usize, depth: usize, value: &mut Value,
    ) -> bool;
    pub fn jiter_document_text(
        handle: &mut Handle, pointer: *const u8, length: usize, steps: *const usize, depth: usize, out: *mut u8,
        room: usize, whole: &mut usize, fault: &mut Fault) -> bool;
    pub fn jiter_document_key(
        handle: &mut Handle, pointer: *const u8, length: usize, steps: *const usize, depth: usize, index: usize,
        out: *mut u8, room: usize, whole: &mut usize, fault: &mut Fault) -> bool;
    pub fn jiter_document_print(
        handle: &mut Handle, pointer: *const u8, length: usize, steps: *const usize, depth: usize, out: *mut u8,
        room: usize, whole: &mut usize, fault: &mut Fault) -> bool;
    pub fn jiter_document_double(
        handle: &mut Handle, pointer: *const u8, length: usize, steps: *const usize, depth: usize, value: &mut f64,
        finite: &mut bool, fault: &mut Fault) -> bool;
    pub fn jiter_document_count(handle: &mut Handle, nodes: &mut usize, bytes: &mut usize) -> bool;
    pub fn jiter_document_nodes(
        handle: &mut Handle, nodes: *mut Node, count: usize, texts: *mut u8, length: usize) -> bool;
}
