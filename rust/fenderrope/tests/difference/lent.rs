//! Memory lent to a call: the middle of a larger buffer, so that a touch outside of what was lent is seen.

use std::ops::Range;

/// A buffer with guards before and behind, and how it was when it was lent.
pub struct Lent<T> {
    all: Vec<T>,
    before: Vec<T>,
    middle: Range<usize>,
}

impl<T: Copy + PartialEq> Lent<T> {
    /// The content between guards that go by their place. The front guard's length varies, and so does the alignment of
    /// bytes.
    pub fn of(content: &[T], guard: impl Fn(usize) -> T) -> Lent<T> {
        let from = 16 + content.len() % 9;
        let middle = from..from + content.len();
        let mut all = Vec::with_capacity(middle.end + 16);
        all.extend((0..from).map(&guard));
        all.extend_from_slice(content);
        all.extend((middle.end..middle.end + 16).map(&guard));
        Lent { before: all.clone(), all, middle }
    }

    pub fn content(&self) -> &[T] {
        &self.all[self.middle.clone()]
    }

    pub fn content_mut(&mut self) -> &mut [T] {
        &mut self.all[self.middle.clone()]
    }

    /// Whether not one element changed, the content included.
    pub fn stays(&self) -> bool {
        self.all == self.before
    }

    /// Whether the guards are as they were.
    pub fn guards_stay(&self) -> bool {
        let Range { start, end } = self.middle;
        self.all[..start] == self.before[..start] && self.all[end..] == self.before[end..]
    }
}

/// Bytes between guards.
pub fn bytes(content: &[u8]) -> Lent<u8> {
    Lent::of(content, |place| (place * 73) as u8 ^ 0xC3)
}

/// Numbers between guards.
pub fn numbers(content: &[usize]) -> Lent<usize> {
    Lent::of(content, |place| usize::MAX / 3 - place)
}

#[test]
fn a_touched_guard_is_seen() {
    for place in 0..4 {
        let mut lent = bytes(b"seal");
        lent.content_mut()[place] ^= 1;
        assert!(lent.guards_stay() && !lent.stays());
    }
    let size = bytes(b"seal").all.len();
    for place in (0..size).filter(|place| !bytes(b"seal").middle.contains(place)) {
        let mut lent = bytes(b"seal");
        lent.all[place] ^= 1;
        assert!(!lent.guards_stay() && !lent.stays());
    }
}
