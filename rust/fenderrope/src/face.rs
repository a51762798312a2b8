//! The calls of include/fenderrope.h, each as one safe function. No other module of this crate may hold unsafe code.
//!
//! Why each `unsafe` is sound: a slice's pointer is never null and is good for its length, what is lent for writing
//! overlaps nothing else that is lent (the borrow checker sees to both), every pointer and length below comes from one
//! slice, and the library is proved to keep inside the lengths, to keep no pointer, and to answer every input.

use crate::layout::{Date, Dated, Filled, Hashed, Header, Integer, Numbered, Reading, Reason, Start, Step, Where};

extern "C" {
    fn fr_read(
        seal: *const u8,
        seal_length: usize,
        table: *mut usize,
        table_length: usize,
        text: *mut u8,
        text_length: usize,
    ) -> Reading;
    fn fr_judge(seal: *const u8, seal_length: usize) -> Reading;
    fn fr_why(seal: *const u8, seal_length: usize) -> Reason;
    fn fr_item_name(item: usize, out: *mut u8, out_length: usize) -> Filled;
    fn fr_rule_words(rule: usize, out: *mut u8, out_length: usize) -> Filled;
    fn fr_walk_open(seal: *const u8, seal_length: usize) -> Start;
    fn fr_walk_next(seal: *const u8, seal_length: usize, at: usize) -> Step;
    fn fr_shown(
        main_seal: *const u8,
        main_seal_length: usize,
        extension: *const u8,
        extension_length: usize,
        tag: usize,
    ) -> Where;
    fn fr_write(
        header: Header,
        text: *const u8,
        text_length: usize,
        rows: *const usize,
        rows_length: usize,
        values: *const u8,
        values_length: usize,
        signature: *const u8,
        signature_length: usize,
        out: *mut u8,
        out_length: usize,
    ) -> Filled;
    fn fr_c40_read(bytes: *const u8, bytes_length: usize, out: *mut u8, out_length: usize) -> Filled;
    fn fr_c40_write(text: *const u8, text_length: usize, out: *mut u8, out_length: usize) -> Filled;
    fn fr_date_from_number(number: usize) -> Dated;
    fn fr_date_to_number(date: Date) -> Numbered;
    fn fr_integer_read(bytes: *const u8, bytes_length: usize) -> Integer;
    fn fr_integer_write(value: i64, out: *mut u8, out_length: usize) -> Filled;
    fn fr_signature_to_der(n: usize, raw: *const u8, raw_length: usize, out: *mut u8, out_length: usize) -> Filled;
    fn fr_signature_to_raw(n: usize, der: *const u8, der_length: usize, out: *mut u8, out_length: usize) -> Filled;
    fn fr_hash(n: usize) -> Hashed;
    fn fr_words(number: usize, out: *mut u8, out_length: usize) -> Filled;
}

/// Reads a seal; see [`crate::read`].
pub fn read(seal: &[u8], table: &mut [usize], text: &mut [u8]) -> Reading {
    unsafe { fr_read(seal.as_ptr(), seal.len(), table.as_mut_ptr(), table.len(), text.as_mut_ptr(), text.len()) }
}

/// The verdict on a seal; see [`crate::judge`].
pub fn judge(seal: &[u8]) -> Reading {
    unsafe { fr_judge(seal.as_ptr(), seal.len()) }
}

/// Why a seal is refused; see [`crate::why`].
pub fn why(seal: &[u8]) -> Reason {
    unsafe { fr_why(seal.as_ptr(), seal.len()) }
}

/// The name of an item; see [`crate::item_name`].
pub fn item_name(item: usize, out: &mut [u8]) -> Filled {
    unsafe { fr_item_name(item, out.as_mut_ptr(), out.len()) }
}

/// The words of a rule; see [`crate::rule_words`].
pub fn rule_words(rule: usize, out: &mut [u8]) -> Filled {
    unsafe { fr_rule_words(rule, out.as_mut_ptr(), out.len()) }
}

/// Opens a walk over the features of a seal: the verdict, and where the first step is made; see [`crate::walk`].
pub fn walk_open(seal: &[u8]) -> Start {
    unsafe { fr_walk_open(seal.as_ptr(), seal.len()) }
}

/// A step at any place of any bytes: 0 and the feature that stands there, whatever the seal is, or 51; see
/// [`crate::Walk`].
pub fn walk_next(seal: &[u8], at: usize) -> Step {
    unsafe { fr_walk_next(seal.as_ptr(), seal.len(), at) }
}

/// The value for a tag out of two seals; see [`crate::shown`].
pub fn shown(main: &[u8], extension: &[u8], tag: usize) -> Where {
    unsafe { fr_shown(main.as_ptr(), main.len(), extension.as_ptr(), extension.len(), tag) }
}

/// Writes a seal; see [`crate::write`].
pub fn write(header: &Header, text: &[u8], rows: &[usize], values: &[u8], signature: &[u8], out: &mut [u8]) -> Filled {
    unsafe {
        fr_write(
            *header,
            text.as_ptr(),
            text.len(),
            rows.as_ptr(),
            rows.len(),
            values.as_ptr(),
            values.len(),
            signature.as_ptr(),
            signature.len(),
            out.as_mut_ptr(),
            out.len(),
        )
    }
}

/// Text from C40 bytes; see [`crate::c40_read`].
pub fn c40_read(bytes: &[u8], out: &mut [u8]) -> Filled {
    unsafe { fr_c40_read(bytes.as_ptr(), bytes.len(), out.as_mut_ptr(), out.len()) }
}

/// C40 bytes from text; see [`crate::c40_write`].
pub fn c40_write(text: &[u8], out: &mut [u8]) -> Filled {
    unsafe { fr_c40_write(text.as_ptr(), text.len(), out.as_mut_ptr(), out.len()) }
}

/// A date from its number MMDDYYYY; see [`Date::from_number`].
pub fn date_from_number(number: usize) -> Dated {
    unsafe { fr_date_from_number(number) }
}

/// A date's number MMDDYYYY; see [`Date::number`].
pub fn date_to_number(date: Date) -> Numbered {
    unsafe { fr_date_to_number(date) }
}

/// The value of one whole DER INTEGER; see [`crate::integer_read`].
pub fn integer_read(bytes: &[u8]) -> Integer {
    unsafe { fr_integer_read(bytes.as_ptr(), bytes.len()) }
}

/// The DER INTEGER of a value; see [`crate::integer_write`].
pub fn integer_write(value: i64, out: &mut [u8]) -> Filled {
    unsafe { fr_integer_write(value, out.as_mut_ptr(), out.len()) }
}

/// A raw signature as DER; see [`crate::signature_to_der`].
pub fn signature_to_der(n: usize, raw: &[u8], out: &mut [u8]) -> Filled {
    unsafe { fr_signature_to_der(n, raw.as_ptr(), raw.len(), out.as_mut_ptr(), out.len()) }
}

/// A DER signature as raw bytes; see [`crate::signature_to_raw`].
pub fn signature_to_raw(n: usize, der: &[u8], out: &mut [u8]) -> Filled {
    unsafe { fr_signature_to_raw(n, der.as_ptr(), der.len(), out.as_mut_ptr(), out.len()) }
}

/// The hash that goes with size n; see [`crate::hash`].
pub fn hash(n: usize) -> Hashed {
    unsafe { fr_hash(n) }
}

/// The words of a number; see [`crate::words`].
pub fn words(number: usize, out: &mut [u8]) -> Filled {
    unsafe { fr_words(number, out.as_mut_ptr(), out.len()) }
}
