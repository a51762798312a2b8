//! A face as plain lists, in which a header and a source can be compared.

use std::collections::BTreeMap;

/// A name and its type, as Rust writes it: `usize`, `u8`, `[u8; 3]`, `*const u8`, or a struct's name in small letters.
pub type Named = (String, String);

/// The parameters of a call, and its result.
pub type Call = (Vec<Named>, String);

/// The numbers that a call answers, by name.
pub type Numbers = BTreeMap<String, usize>;

/// Adds a number as it stands in a text.
pub fn add_number(numbers: &mut Numbers, name: &str, digits: &str) -> Result<(), String> {
    let number = digits.parse().map_err(|_| format!("{name}: {digits} is no number"))?;
    match numbers.insert(name.to_string(), number) {
        Some(_) => Err(format!("number {name} twice")),
        None => Ok(()),
    }
}

/// What a text says of the face: structs with their fields, and calls, by name.
#[derive(Debug, Default)]
pub struct Face {
    pub structs: BTreeMap<String, Vec<Named>>,
    pub calls: BTreeMap<String, Call>,
}

impl Face {
    pub fn add_struct(&mut self, name: String, fields: Vec<Named>) -> Result<(), String> {
        let twice = self.structs.insert(name.clone(), fields).is_some();
        if twice {
            Err(format!("struct {name} twice"))
        } else {
            Ok(())
        }
    }

    pub fn add_call(&mut self, name: String, call: Call) -> Result<(), String> {
        let twice = self.calls.insert(name.clone(), call).is_some();
        if twice {
            Err(format!("call {name} twice"))
        } else {
            Ok(())
        }
    }

    /// Each struct and each call that the two texts do not say alike.
    pub fn differences(&self, other: &Face) -> Vec<String> {
        let mut found = unlike(&self.structs, &other.structs);
        found.extend(unlike(&self.calls, &other.calls));
        found
    }
}

/// Each name that is on one side alone or says something else there.
fn unlike<T: PartialEq + std::fmt::Debug>(left: &BTreeMap<String, T>, right: &BTreeMap<String, T>) -> Vec<String> {
    let only_right = right.keys().filter(|name| !left.contains_key(*name));
    let names = left.keys().chain(only_right).filter(|name| left.get(*name) != right.get(*name));
    names.map(|name| format!("{name}: {:?} is not {:?}", left.get(name), right.get(name))).collect()
}
