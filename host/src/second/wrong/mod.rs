//! Wrong readings. A [`Reader`] reads as the documents say, or misreads one rule in a way that a
//! person might: a [`Wrong`] is a switch, consulted where the rule stands. Where more than a yes or
//! no is wanted, the rooms here answer: as the rule says, but for the wrong readings they name.

mod alt;
mod answers;
mod conflicts;
mod definitions;
mod folding;
mod images;
mod labels;
mod lines;
mod marking;
mod page;
mod parameters;
mod rows;
mod sheets;
mod switches;
mod text;

pub use parameters::{Gap, Held, IllFormed, Purpose, Spot, Within, Written};
pub use switches::Wrong;

/// Who reads: by the rules, or with one of them misread.
#[derive(Clone, Copy, Debug, PartialEq, Eq)]
pub struct Reader {
    wrong: Option<Wrong>,
}

impl Reader {
    /// The reader by the documents.
    pub const RIGHT: Reader = Reader { wrong: None };

    /// The reader that misreads one rule.
    pub fn misreading(wrong: Wrong) -> Reader {
        Reader { wrong: Some(wrong) }
    }

    pub(in super::super) fn misreads(self, wrong: Wrong) -> bool {
        self.wrong == Some(wrong)
    }

    /// A limit, which two wrong readings miss by one.
    pub(in super::super) fn limit(self, right: usize, one_less: Wrong, one_more: Wrong) -> usize {
        right + usize::from(self.misreads(one_more)) - usize::from(self.misreads(one_less))
    }
}
