//! Words and signs of a text, and a reader over them.

/// The text without `/* */` and `//` comments.
pub fn without_comments(text: &str) -> String {
    let (mut kept, mut rest) = (String::new(), text);
    while let Some(at) = rest.find("/*").into_iter().chain(rest.find("//")).min() {
        kept.push_str(&rest[..at]);
        kept.push(' ');
        let end = if rest[at..].starts_with("/*") { "*/" } else { "\n" };
        rest = rest[at..].find(end).map_or("", |length| &rest[at + length + end.len()..]);
    }
    kept + rest
}

/// A reader over words (letters, digits and `_`) and single signs.
pub struct Tokens<'a> {
    all: Vec<&'a str>,
    at: usize,
}

impl<'a> Tokens<'a> {
    pub fn of(text: &'a str) -> Tokens<'a> {
        let (mut all, mut rest) = (Vec::new(), text.trim_start());
        while let Some(first) = rest.chars().next() {
            let in_word = |c: char| c.is_alphanumeric() || c == '_';
            let word = rest.find(|c| !in_word(c)).unwrap_or(rest.len());
            let length = if in_word(first) { word } else { first.len_utf8() };
            all.push(&rest[..length]);
            rest = rest[length..].trim_start();
        }
        Tokens { all, at: 0 }
    }

    /// Whether all is read.
    pub fn done(&self) -> bool {
        self.at >= self.all.len()
    }

    /// The next word or sign, whatever it is.
    pub fn next(&mut self) -> Result<&'a str, String> {
        let token = self.all.get(self.at).ok_or("the text ends too early")?;
        self.at += 1;
        Ok(token)
    }

    /// Whether the next ones are these; if so they are read.
    pub fn take(&mut self, these: &str) -> bool {
        let these = Tokens::of(these).all;
        let found = self.all[self.at..].starts_with(&these);
        self.at += if found { these.len() } else { 0 };
        found
    }

    /// Reads these, which must be next.
    pub fn must(&mut self, these: &str) -> Result<(), String> {
        if self.take(these) {
            return Ok(());
        }
        let found = self.all[self.at..].iter().take(6).copied().collect::<Vec<_>>().join(" ");
        Err(format!("`{these}` is missing before `{found}`"))
    }

    /// Whether these were read last, before `length` others.
    pub fn came_before(&self, these: &str, length: usize) -> bool {
        self.all[..self.at - length].ends_with(&Tokens::of(these).all)
    }
}
