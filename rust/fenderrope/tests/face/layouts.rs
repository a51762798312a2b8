//! The numbers that the compiler holds the structs to: tests/c/layout.h for C, src/layout.rs for Rust. They are the
//! same.

use std::collections::BTreeMap;

use crate::tokens::{without_comments, Tokens};
use crate::{in_repository, text_of};

/// A struct's size and alignment, and the place of each field.
#[derive(Debug, Default, PartialEq, Eq)]
struct Layout {
    size: String,
    align: String,
    fields: Vec<(String, String)>,
}

type Layouts = BTreeMap<String, Layout>;

/// What the C test asserts: `LAYOUT(fr_date, 24);` and `FIELD(fr_date, month, 0, 8);`. All structs there align to 8.
fn in_c(text: &str) -> Result<Layouts, String> {
    let text = without_comments(text);
    let text = text.lines().filter(|line| !line.starts_with('#')).collect::<Vec<_>>().join("\n");
    let (mut tokens, mut layouts) = (Tokens::of(&text), Layouts::new());
    while !tokens.done() {
        if tokens.take("LAYOUT (") {
            let layout = layouts.entry(bare(tokens.next()?)).or_default();
            tokens.must(",")?;
            (layout.size, layout.align) = (tokens.next()?.to_string(), "8".to_string());
        } else if tokens.take("FIELD (") {
            let layout = layouts.entry(bare(tokens.next()?)).or_default();
            tokens.must(",")?;
            let field = tokens.next()?.to_string();
            tokens.must(",")?;
            layout.fields.push((field, tokens.next()?.to_string()));
        } else {
            tokens.next()?;
        }
    }
    Ok(layouts)
}

/// `fr_date` is date.
fn bare(name: &str) -> String {
    name.strip_prefix("fr_").unwrap_or(name).to_string()
}

/// What this crate asserts: `laid_out!(Date: size 24, align 8, month at 0, …);`.
fn in_rust(text: &str) -> Result<Layouts, String> {
    let text = without_comments(text);
    let (mut tokens, mut layouts) = (Tokens::of(&text), Layouts::new());
    while !tokens.done() {
        if !tokens.take("laid_out!(") {
            tokens.next()?;
            continue;
        }
        let name = tokens.next()?.to_lowercase();
        let mut layout = Layout::default();
        tokens.must(": size")?;
        layout.size = tokens.next()?.to_string();
        tokens.must(", align")?;
        layout.align = tokens.next()?.to_string();
        while tokens.take(",") {
            let field = tokens.next()?.to_string();
            tokens.must("at")?;
            layout.fields.push((field, tokens.next()?.to_string()));
        }
        tokens.must(");")?;
        layouts.insert(name, layout);
    }
    Ok(layouts)
}

fn c_text() -> String {
    text_of(&in_repository("tests/c/layout.h"))
}

fn rust_text() -> String {
    text_of(&in_repository("rust/fenderrope/src/layout.rs"))
}

#[test]
fn the_c_test_and_this_crate_assert_the_same_numbers() {
    let layouts = in_rust(&rust_text()).expect("a source that is understood");
    assert_eq!((layouts.len(), layouts.values().map(|layout| layout.fields.len()).sum::<usize>()), (14, 55));
    assert_eq!(Ok(layouts), in_c(&c_text()));
}

#[test]
fn another_number_is_noticed() {
    let c = in_c(&c_text());
    for (old, new) in [("size 88", "size 80"), ("ends at 104", "ends at 96"), ("day at 8", "day at 16")] {
        assert_ne!(in_rust(&rust_text().replace(old, new)), c, "{new}");
    }
    assert_ne!(in_rust(&rust_text().replace("size 16, align 8", "size 16, align 4")), c);
}
