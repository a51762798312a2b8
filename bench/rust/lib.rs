//! Plain Rust for the calls of the face, to compare the proved code with: the same answers in the same order, safe code over slices. Only this file takes
//! pointers: it makes slices of them and hands them on. The driver lends no null pointers.
use std::slice::{from_raw_parts, from_raw_parts_mut};

mod der;
mod face;
mod front;
mod numbers;
mod reader;
mod signature;
mod text;
mod walk;
mod why;
mod writer;

use face::{Date, Dated, Filled, Hashed, Header, Integer, Numbered, Reading, Reason, Start, Step, Where};

#[no_mangle]
pub unsafe extern "C" fn rust_read(
    seal: *const u8,
    n: usize,
    table: *mut usize,
    numbers: usize,
    text: *mut u8,
    room: usize,
) -> Reading {
    reader::read(from_raw_parts(seal, n), from_raw_parts_mut(table, numbers), from_raw_parts_mut(text, room))
}

#[no_mangle]
pub unsafe extern "C" fn rust_judge(seal: *const u8, n: usize) -> Reading {
    reader::judge(from_raw_parts(seal, n))
}

#[no_mangle]
pub unsafe extern "C" fn rust_why(seal: *const u8, n: usize) -> Reason {
    why::why(from_raw_parts(seal, n))
}

#[no_mangle]
pub unsafe extern "C" fn rust_walk_open(seal: *const u8, n: usize) -> Start {
    walk::open(from_raw_parts(seal, n))
}

#[no_mangle]
pub unsafe extern "C" fn rust_walk_next(seal: *const u8, n: usize, at: usize) -> Step {
    walk::next(from_raw_parts(seal, n), at)
}

#[no_mangle]
pub unsafe extern "C" fn rust_shown(
    main: *const u8,
    n: usize,
    extension: *const u8,
    extension_n: usize,
    tag: usize,
) -> Where {
    walk::shown(from_raw_parts(main, n), from_raw_parts(extension, extension_n), tag)
}

#[no_mangle]
pub unsafe extern "C" fn rust_write(
    header: Header,
    text: *const u8,
    characters: usize,
    rows: *const usize,
    numbers: usize,
    values: *const u8,
    size: usize,
    signature: *const u8,
    raw: usize,
    out: *mut u8,
    room: usize,
) -> Filled {
    let (text, rows, values) =
        (from_raw_parts(text, characters), from_raw_parts(rows, numbers), from_raw_parts(values, size));
    Filled::of(writer::write(
        &header,
        text,
        rows,
        values,
        from_raw_parts(signature, raw),
        from_raw_parts_mut(out, room),
    ))
}

#[no_mangle]
pub unsafe extern "C" fn rust_c40_read(bytes: *const u8, n: usize, out: *mut u8, room: usize) -> Filled {
    Filled::of(text::read(from_raw_parts(bytes, n), from_raw_parts_mut(out, room)))
}

#[no_mangle]
pub unsafe extern "C" fn rust_c40_write(text: *const u8, n: usize, out: *mut u8, room: usize) -> Filled {
    Filled::of(text::write(from_raw_parts(text, n), from_raw_parts_mut(out, room)))
}

#[no_mangle]
pub extern "C" fn rust_date_from_number(number: usize) -> Dated {
    match Date::from_number(number) {
        Some(date) => Dated { date, ..Dated::default() },
        None => Dated { number: 6, ..Dated::default() },
    }
}

#[no_mangle]
pub extern "C" fn rust_date_to_number(date: Date) -> Numbered {
    if date.is_day() {
        Numbered { value: date.number(), ..Numbered::default() }
    } else {
        Numbered { number: 22, ..Numbered::default() }
    }
}

#[no_mangle]
pub unsafe extern "C" fn rust_integer_read(bytes: *const u8, n: usize) -> Integer {
    match numbers::read(from_raw_parts(bytes, n)) {
        Some(value) => Integer { value, ..Integer::default() },
        None => Integer { number: 65, ..Integer::default() },
    }
}

#[no_mangle]
pub unsafe extern "C" fn rust_integer_write(value: i64, out: *mut u8, room: usize) -> Filled {
    Filled::of(numbers::write(value, from_raw_parts_mut(out, room)))
}

#[no_mangle]
pub unsafe extern "C" fn rust_signature_to_der(
    n: usize,
    raw: *const u8,
    length: usize,
    out: *mut u8,
    room: usize,
) -> Filled {
    Filled::of(signature::to_der(n, from_raw_parts(raw, length), from_raw_parts_mut(out, room)))
}

#[no_mangle]
pub unsafe extern "C" fn rust_signature_to_raw(
    n: usize,
    der: *const u8,
    length: usize,
    out: *mut u8,
    room: usize,
) -> Filled {
    Filled::of(signature::to_raw(n, from_raw_parts(der, length), from_raw_parts_mut(out, room)))
}

#[no_mangle]
pub extern "C" fn rust_hash(n: usize) -> Hashed {
    match signature::hash_bits(n) {
        Some(bits) => Hashed { bits, ..Hashed::default() },
        None => Hashed { number: 60, ..Hashed::default() },
    }
}
