//! Reads the structs and calls of the face out of Rattle's sources, or out of this crate's own.

use crate::model::{add_number, Call, Face, Named, Numbers};
use crate::tokens::{without_comments, Tokens};

/// The face that a source declares: each `pub struct`, each `pub extern "C" fn`, each function of an `extern "C"`
/// block. `prefix` is what the struct's names begin with: `Fr` in Rattle, nothing in Rust.
pub fn face(text: &str, prefix: &str) -> Result<Face, String> {
    let text = without_comments(text);
    let (mut tokens, mut face) = (Tokens::of(&text), Face::default());
    while !tokens.done() {
        if tokens.take("pub struct") {
            let forms = ["#[repr(C)]", "#[repr(C)] #[derive(Clone, Copy)]"];
            let laid_out = forms.iter().any(|form| tokens.came_before(form, 2));
            let name = tokens.next()?;
            if !laid_out {
                return Err(format!("{name} is not repr(C)"));
            }
            face.add_struct(word(name, prefix), fields(&mut tokens, prefix)?)?;
        } else if tokens.take("extern \"C\" fn") {
            let plain = tokens.came_before("#[unsafe(no_mangle)] pub", 5);
            let (name, call) = call(&mut tokens, prefix)?;
            if !plain {
                return Err(format!("{name} is not `#[unsafe(no_mangle)] pub`"));
            }
            face.add_call(name, call)?;
        } else if tokens.take("extern \"C\" {") {
            while tokens.take("fn") {
                let (name, call) = call(&mut tokens, prefix)?;
                tokens.must(";")?;
                face.add_call(name, call)?;
            }
            tokens.must("}")?;
        } else {
            tokens.next()?;
        }
    }
    Ok(face)
}

/// The numbers that this crate names: each `pub const NAME: usize = 9;`.
pub fn numbers(text: &str) -> Result<Numbers, String> {
    let text = without_comments(text);
    let (mut tokens, mut numbers) = (Tokens::of(&text), Numbers::new());
    while !tokens.done() {
        if tokens.take("pub const") {
            let name = tokens.next()?;
            tokens.must(": usize =")?;
            add_number(&mut numbers, name, tokens.next()?)?;
            tokens.must(";")?;
        } else {
            tokens.next()?;
        }
    }
    Ok(numbers)
}

/// The numbers of an enum of this crate, each written out: `pub enum Item { Tag = 12, }`. The names are turned into the
/// header's: `SignerAndLength` is SIGNER_AND_LENGTH, `OneTo254` is ONE_TO_254.
pub fn enumerated(text: &str, name: &str) -> Result<Numbers, String> {
    let text = without_comments(text);
    let (mut tokens, mut numbers) = (Tokens::of(&text), Numbers::new());
    while !tokens.take(&format!("pub enum {name} {{")) {
        tokens.next()?;
    }
    while !tokens.take("}") {
        let name = tokens.next()?;
        tokens.must("=")?;
        add_number(&mut numbers, &in_capitals(name), tokens.next()?)?;
        tokens.must(",")?;
    }
    Ok(numbers)
}

/// A name in capitals, with `_` before each word of it but the first, and before digits.
fn in_capitals(name: &str) -> String {
    let begins = |c: char, before: Option<char>| {
        c.is_uppercase() || (c.is_ascii_digit() && !before.is_some_and(|before| before.is_ascii_digit()))
    };
    let (mut capitals, mut before) = (String::new(), None);
    for c in name.chars() {
        if before.is_some() && begins(c, before) {
            capitals.push('_');
        }
        capitals.extend(c.to_uppercase());
        before = Some(c);
    }
    capitals
}

fn fields(tokens: &mut Tokens, prefix: &str) -> Result<Vec<Named>, String> {
    let mut fields = Vec::new();
    tokens.must("{")?;
    while tokens.take("pub") {
        fields.push(named(tokens, prefix)?);
        tokens.must(",")?;
    }
    tokens.must("}")?;
    Ok(fields)
}

/// A call's name, parameters and result. A slice is a pointer and a length, as in C.
fn call(tokens: &mut Tokens, prefix: &str) -> Result<(String, Call), String> {
    let name = tokens.next()?.to_string();
    let mut parameters = Vec::new();
    tokens.must("(")?;
    while !tokens.take(")") {
        let (name, kind) = named(tokens, prefix)?;
        let slice = kind.strip_prefix("slice ");
        let length = slice.map(|_| (format!("{name}_length"), "usize".to_string()));
        parameters.push((name, slice.unwrap_or(&kind).to_string()));
        parameters.extend(length);
        if !tokens.take(",") {
            tokens.must(")")?;
            break;
        }
    }
    tokens.must("->")?;
    Ok((name, (parameters, kind(tokens, prefix)?)))
}

fn named(tokens: &mut Tokens, prefix: &str) -> Result<Named, String> {
    let name = tokens.next()?.to_string();
    tokens.must(":")?;
    Ok((name, kind(tokens, prefix)?))
}

/// A type; a slice is marked for `call`.
fn kind(tokens: &mut Tokens, prefix: &str) -> Result<String, String> {
    if tokens.take("&mut [") {
        let inside = word(tokens.next()?, prefix);
        tokens.must("]")?;
        Ok(format!("slice *mut {inside}"))
    } else if tokens.take("&[") {
        let inside = word(tokens.next()?, prefix);
        tokens.must("]")?;
        Ok(format!("slice *const {inside}"))
    } else if tokens.take("[") {
        let inside = word(tokens.next()?, prefix);
        tokens.must(";")?;
        let length = tokens.next()?;
        tokens.must("]")?;
        Ok(format!("[{inside}; {length}]"))
    } else if tokens.take("*const") {
        Ok(format!("*const {}", word(tokens.next()?, prefix)))
    } else if tokens.take("*mut") {
        Ok(format!("*mut {}", word(tokens.next()?, prefix)))
    } else {
        Ok(word(tokens.next()?, prefix))
    }
}

/// A struct's name in small letters without the prefix: `FrDate` is date. Numbers' names stay, and so does a name
/// without it.
fn word(name: &str, prefix: &str) -> String {
    match name.strip_prefix(prefix) {
        Some(bare) if bare.starts_with(char::is_uppercase) => bare.to_lowercase(),
        _ => name.to_string(),
    }
}
