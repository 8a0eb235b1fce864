//! The C boundary, as include/fringewell.h declares it: what the Rust programs of diff and bench call, and what is answered.

use std::mem::{offset_of, size_of};

#[repr(C)]
#[derive(Clone, Copy)]
pub struct Verdict {
    pub number: u32,
    pub place: usize,
    pub count: usize,
}

#[repr(C)]
#[derive(Clone, Copy)]
pub struct Value {
    pub number: u32,
    pub tag: u8,
    pub place: usize,
    pub framed_offset: usize,
    pub framed_size: usize,
    pub bits: u64,
    pub offset: usize,
    pub size: usize,
    pub offset2: usize,
    pub size2: usize,
}

#[repr(C)]
#[derive(Clone, Copy)]
pub struct Stepped {
    pub number: u32,
    pub tag: u8,
    pub ended: bool,
    pub place: usize,
    pub next: usize,
    pub key_offset: usize,
    pub key_size: usize,
    pub framed_offset: usize,
    pub framed_size: usize,
}

#[repr(C)]
#[derive(Clone, Copy)]
pub struct Element {
    pub value: Value,
    pub key_offset: usize,
    pub key_size: usize,
    pub next: usize,
    pub ended: bool,
}

#[repr(C)]
#[derive(Clone, Copy)]
pub struct Written {
    pub number: u32,
    pub used: usize,
}

/// The writer's state, whose words are the library's own.
#[repr(C)]
pub struct State {
    words: [u32; 406],
}

/// The sizes and offsets that the header holds C to.
macro_rules! laid_out {
    ($($type:ident $bytes:literal { $($field:ident $at:literal),* })*) => {
        const _: () = {
            $(
                assert!(size_of::<$type>() == $bytes);
                $(assert!(offset_of!($type, $field) == $at);)*
            )*
        };
    };
}

laid_out! {
    Verdict 24 { number 0, place 8, count 16 }
    Value 72 { number 0, tag 4, place 8, framed_offset 16, framed_size 24, bits 32, offset 40, size 48, offset2 56, size2 64 }
    Stepped 56 { number 0, tag 4, ended 5, place 8, next 16, key_offset 24, key_size 32, framed_offset 40, framed_size 48 }
    Element 104 { value 0, key_offset 72, key_size 80, next 88, ended 96 }
    Written 16 { number 0, used 8 }
    State 1624 { words 0 }
}

/// The calls that read: a document, and then what each is named for.
macro_rules! reading {
    ($($name:ident($($given:ident: $type:ty),*) -> $answer:ty;)*) => {
        extern "C" {
            $(pub fn $name(document: *const u8, length: usize $(, $given: $type)*) -> $answer;)*
        }
    };
}

reading! {
    fringewell_check() -> Verdict;
    fringewell_check_under(limit: usize) -> Verdict;
    fringewell_check_strict() -> Verdict;
    fringewell_check_strict_under(limit: usize) -> Verdict;
    fringewell_is_empty() -> Verdict;
    fringewell_lookup(key: *const u8, key_length: usize) -> Value;
    fringewell_lookup_under(key: *const u8, key_length: usize, limit: usize) -> Value;
    fringewell_lookup_typed(key: *const u8, key_length: usize, tag: u8) -> Value;
    fringewell_lookup_typed_under(key: *const u8, key_length: usize, tag: u8, limit: usize) -> Value;
    fringewell_path(path: *const u8, path_length: usize) -> Value;
    fringewell_path_under(path: *const u8, path_length: usize, limit: usize) -> Value;
    fringewell_path_typed(path: *const u8, path_length: usize, tag: u8) -> Value;
    fringewell_path_typed_under(path: *const u8, path_length: usize, tag: u8, limit: usize) -> Value;
    fringewell_next(offset: usize, ended: bool) -> Element;
    fringewell_next_under(offset: usize, ended: bool, limit: usize) -> Element;
    fringewell_step(offset: usize, ended: bool) -> Stepped;
    fringewell_step_under(offset: usize, ended: bool, limit: usize) -> Stepped;
    fringewell_read(place: usize) -> Value;
    fringewell_read_under(place: usize, limit: usize) -> Value;
}

extern "C" {
    pub fn fringewell_state_new() -> State;
    pub fn fringewell_state_open(state: *mut State, out: *mut u8, room: usize) -> Written;
    pub fn fringewell_state_close(state: *mut State, out: *mut u8, room: usize) -> Written;
}

/// The writer's calls that take a key: state, buffer, key, and then what each is named for.
macro_rules! keyed {
    ($($name:ident($($given:ident: $type:ty),*);)*) => {
        extern "C" {
            $(pub fn $name(
                state: *mut State, out: *mut u8, room: usize, key: *const u8, key_length: usize $(, $given: $type)*
            ) -> Written;)*
        }
    };
}

keyed! {
    fringewell_state_open_document();
    fringewell_state_open_array();
    fringewell_state_append_double(bits: u64);
    fringewell_state_append_bool(b: bool);
    fringewell_state_append_int32(n: i32);
    fringewell_state_append_int64(n: i64);
    fringewell_state_append_datetime(n: i64);
    fringewell_state_append_timestamp(increment: u32, seconds: u32);
    fringewell_state_append_null();
    fringewell_state_append_undefined();
    fringewell_state_append_min_key();
    fringewell_state_append_max_key();
    fringewell_state_append_string(text: *const u8, length: usize);
    fringewell_state_append_code(text: *const u8, length: usize);
    fringewell_state_append_symbol(text: *const u8, length: usize);
    fringewell_state_append_binary(subtype: u8, contents: *const u8, length: usize);
    fringewell_state_append_regex(pattern: *const u8, pattern_length: usize, options: *const u8, options_length: usize);
    fringewell_state_append_dbpointer(name_space: *const u8, length: usize, id: *const u8);
    fringewell_state_append_object_id(id: *const u8);
    fringewell_state_append_decimal128(bits: *const u8);
}
