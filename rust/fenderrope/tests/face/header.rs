//! Reads include/fenderrope.h: `typedef struct`s, prototypes, enums with the words in their comments, defined sizes,
//! and nothing else.

use std::collections::BTreeMap;

use crate::model::{add_number, Face, Named, Numbers};
use crate::tokens::{without_comments, Tokens};

/// The structs and calls of a header.
pub fn face(text: &str) -> Result<Face, String> {
    let text = declarations(&without_comments(text));
    let (mut tokens, mut face) = (Tokens::of(&text), Face::default());
    while !tokens.done() {
        if tokens.take("typedef struct") {
            let name = tokens.next()?;
            let fields = fields(&mut tokens)?;
            tokens.must(&format!("{name} ;"))?;
            face.add_struct(word(name), fields)?;
        } else if tokens.take("enum") {
            tokens.next()?;
            enumerated(&mut tokens, "FR_")?;
        } else {
            let (name, result) = declared(&mut tokens)?;
            let parameters = parameters(&mut tokens)?;
            face.add_call(name, (parameters, result))?;
        }
    }
    Ok(face)
}

/// The numbers of an enum of the header by name, without the front that they share; none where it has no such enum.
pub fn numbers(text: &str, name: &str, front: &str) -> Result<Numbers, String> {
    let text = declarations(&without_comments(text));
    let mut tokens = Tokens::of(&text);
    while !tokens.done() {
        if tokens.take(&format!("enum {name}")) {
            return enumerated(&mut tokens, front);
        }
        tokens.next()?;
    }
    Ok(Numbers::new())
}

/// The numbers of an enum, each written out: `{ FR_DONE = 0, FR_TAG_USED = 9 };`.
fn enumerated(tokens: &mut Tokens, front: &str) -> Result<Numbers, String> {
    let mut numbers = Numbers::new();
    tokens.must("{")?;
    while !tokens.take("}") {
        let name = tokens.next()?;
        tokens.must("=")?;
        let bare = name.strip_prefix(front).ok_or(format!("{name} does not begin with {front}"))?;
        add_number(&mut numbers, bare, tokens.next()?)?;
        if !tokens.take(",") {
            tokens.must("}")?;
            break;
        }
    }
    tokens.must(";")?;
    Ok(numbers)
}

/// The words of an enum of the header, by number: `FR_ITEM_TAG = 12, /* tag */` is 12 and `tag`.
pub fn words(text: &str, name: &str) -> BTreeMap<usize, String> {
    let after = text.split_once(&format!("enum {name} {{")).map_or("", |(_, after)| after);
    let inside = after.split_once("};").map_or("", |(inside, _)| inside);
    let entries = inside.split(" = ").skip(1).filter_map(|entry| {
        let (number, rest) = entry.split_once([',', ' '])?;
        let words = rest.split_once("/* ")?.1.split_once(" */")?.0;
        Some((number.parse().ok()?, words.split_whitespace().collect::<Vec<_>>().join(" ")))
    });
    entries.collect()
}

/// The text without preprocessor lines and without what is for C++ alone.
fn declarations(text: &str) -> String {
    let mut kept = String::new();
    let mut for_cplusplus = false;
    for line in text.lines() {
        match line.trim() {
            "#ifdef __cplusplus" => for_cplusplus = true,
            "#endif" => for_cplusplus = false,
            line if line.starts_with('#') || for_cplusplus => {}
            line => kept = kept + line + "\n",
        }
    }
    kept
}

fn fields(tokens: &mut Tokens) -> Result<Vec<Named>, String> {
    let mut fields = Vec::new();
    tokens.must("{")?;
    while !tokens.take("}") {
        fields.push(declared(tokens)?);
        tokens.must(";")?;
    }
    Ok(fields)
}

fn parameters(tokens: &mut Tokens) -> Result<Vec<Named>, String> {
    tokens.must("(")?;
    let mut parameters = vec![declared(tokens)?];
    while tokens.take(",") {
        parameters.push(declared(tokens)?);
    }
    tokens.must(") ;")?;
    Ok(parameters)
}

/// One declaration: `const uint8_t *seal`, `size_t n`, `uint8_t country[3]`.
fn declared(tokens: &mut Tokens) -> Result<Named, String> {
    let constant = tokens.take("const");
    let mut kind = word(tokens.next()?);
    match (constant, tokens.take("*")) {
        (true, true) => kind = format!("*const {kind}"),
        (false, true) => kind = format!("*mut {kind}"),
        (true, false) => return Err(format!("const {kind} without a pointer")),
        (false, false) => {}
    }
    let name = tokens.next()?.to_string();
    if tokens.take("[") {
        kind = format!("[{kind}; {}]", tokens.next()?);
        tokens.must("]")?;
    }
    Ok((name, kind))
}

/// A type's name: `size_t` is usize, `uint8_t` is u8, `int64_t` is i64, `fr_date` is date; any other stays and is
/// unlike.
fn word(name: &str) -> String {
    let bits = name.strip_suffix("_t").unwrap_or_default();
    if name == "size_t" {
        "usize".to_string()
    } else if let Some(bits) = bits.strip_prefix("uint") {
        format!("u{bits}")
    } else if let Some(bits) = bits.strip_prefix("int") {
        format!("i{bits}")
    } else {
        name.strip_prefix("fr_").unwrap_or(name).to_string()
    }
}

/// What the header defines, by name: `FR_SEAL_MOST` is 4096.
pub fn defined(text: &str) -> BTreeMap<String, String> {
    let text = without_comments(text);
    let lines = text.lines().filter_map(|line| line.strip_prefix("#define "));
    let pairs = lines.filter_map(|line| line.trim().split_once(' '));
    pairs.map(|(name, what)| (name.to_string(), what.trim().to_string())).collect()
}
