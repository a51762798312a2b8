//! What is known of an accepted seal with nothing lent.

use crate::layout::{self, Ends, Header, Part};
use crate::refusal::Refusal;
use crate::sizes::ROW;

/// What [`crate::judge`] says of a good seal: plain fields, and the room that a reading of it needs.
#[derive(Debug, Clone, Copy, PartialEq, Eq, Hash)]
#[must_use]
pub struct Verdict {
    /// The header.
    pub header: Header,
    /// The ends of the three zones. The signed bytes are the seal's first `ends.message` bytes.
    pub ends: Ends,
    /// Where the raw signature stands: r, then s.
    pub signature: Part,
    /// How many features there are.
    pub count: usize,
}

impl Verdict {
    /// The fields of a plain answer, or its refusal.
    pub(crate) fn of(answer: layout::Reading) -> Result<Verdict, Refusal> {
        let layout::Reading { number, place, header, ends, signature, count, front } = answer;
        let verdict = Refusal::unless(number, place, Verdict { header, ends, signature, count });
        verdict.map_err(|refusal| Refusal { front, ..refusal })
    }

    /// How many numbers a reading needs in its table: a row a feature.
    #[must_use]
    pub fn table_room(&self) -> usize {
        self.count.saturating_mul(ROW)
    }

    /// How many bytes a reading needs for its text: the signer's four characters, and the reference.
    #[must_use]
    pub fn text_room(&self) -> usize {
        self.header.length.saturating_add(4)
    }
}
