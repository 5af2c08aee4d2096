//! Why there is no edit.
#![forbid(unsafe_code)]

use crate::answer::Path;
use crate::script::SCRIPT_LIMIT;
use std::fmt;
use std::ops::Range;

/// Why there is no edit.
#[derive(Clone, Debug, PartialEq, Eq)]
pub enum Error {
    /// A change, a mapping, an order or the edit as a whole was refused.
    Refused {
        /// Which rule it breaks.
        refusal: Refusal,
        /// The numbers of the lines that it is about, from 1.
        lines: Vec<usize>,
        /// The same for people to read. It may change.
        sentence: String,
    },
    /// A line of the script is bad. The scripts of [`Script`](crate::Script) have no bad line, those of
    /// [`edit`](crate::edit) may.
    BadScript {
        /// The number of the line, from 1; 0 if the script is too long or isn't UTF-8.
        line: usize,
        /// What is wrong, for people to read. It may change.
        sentence: String,
    },
    /// Memory ran out.
    Failed,
    /// The answer is not one that this crate knows: the library is another version.
    Unknown(String),
    /// A path leads to no element of its tree.
    NoElement(Path),
    /// A path leads to a token, and a node is needed.
    NotANode(Path),
    /// A position is before or after the root of a tree.
    BesideRoot,
    /// An element or a word is another script's.
    OtherScript,
    /// No call recorded a line of this number, or it was taken back.
    NoLine(usize),
    /// A node of another parser's tree, which overlaps one before it, is not in the one above it, or begins or ends within
    /// a character.
    Misplaced {
        /// Its kind, as the parser names it.
        kind: String,
        /// Where it says that it is, in bytes.
        range: Range<usize>,
    },
    /// With this line the script would have more than [`SCRIPT_LIMIT`] bytes. The line was left out.
    TooLong,
}

impl fmt::Display for Error {
    fn fmt(&self, f: &mut fmt::Formatter<'_>) -> fmt::Result {
        match self {
            Error::Refused { sentence, .. } | Error::BadScript { sentence, .. } => {
                f.write_str(sentence)
            }
            Error::Failed => f.write_str("memory ran out"),
            Error::Unknown(answer) => write!(f, "the answer {answer:?} is not known to this crate"),
            Error::NoElement(path) => write!(f, "the tree has no element at the path {path:?}"),
            Error::NotANode(path) => {
                write!(f, "a node is needed, and a token is at the path {path:?}")
            }
            Error::BesideRoot => f.write_str("nothing can stand beside a root"),
            Error::OtherScript => f.write_str("an element or a word is of another script"),
            Error::NoLine(line) => write!(f, "no call recorded line {line}, or it was taken back"),
            Error::Misplaced { kind, range } => write!(
                f,
                "{kind} at {}..{} overlaps what is before it, or is not in what is above it",
                range.start, range.end
            ),
            Error::TooLong => write!(f, "the script would have more than {SCRIPT_LIMIT} bytes"),
        }
    }
}

impl std::error::Error for Error {}

/// Which rule a refused call breaks: the table of refusals of docs/SCRIPTS.md. Changes are numbered from 0 in the order
/// in which they were recorded.
#[derive(Clone, Copy, Debug, PartialEq, Eq)]
pub enum Refusal {
    /// A position or a target of a change isn't in the edited tree.
    Foreign,
    /// The two elements of a range aren't siblings in this order.
    BadRange,
    /// The root can't be deleted.
    DeletesRoot,
    /// The root can be replaced by one node only.
    RootReplacement,
    /// The copy of a mapping isn't a child of its parent.
    NotAChild,
    /// The tree of a copy isn't newer than that of the node.
    NotYounger,
    /// A copy differs from its node in more than the texts of the tokens.
    OtherShape,
    /// Two changes replace the same element.
    Intersecting {
        /// The number of the one change.
        first: usize,
        /// The number of the other.
        second: usize,
    },
    /// A change is inside a node that another change replaces by a node, and no mapping says where it goes.
    MissingMapping {
        /// The number of the change inside.
        change: usize,
        /// The number of the change that replaces the node.
        owner: usize,
    },
    /// The order doesn't list each change that isn't dropped exactly once.
    NotEachOnce,
    /// In the order, a change inside a node comes after the change that replaces the node.
    OwnerTooEarly,
    /// In the order, of two inserts at one place the one recorded first comes first.
    GapOutOfOrder,
    /// In the order, an insert after a token comes after the replacement of the token.
    TokenTooEarly,
    /// A text would have more than 4,294,967,295 bytes.
    TooLong,
}

impl Refusal {
    /// The one that is spelled like this, as `Intersecting 0 1`.
    pub(crate) fn read(text: &str) -> Option<Refusal> {
        let mut fields = text.split(' ');
        let name = fields.next()?;
        let mut numbers = Vec::new();
        for field in fields {
            numbers.push(field.parse().ok()?);
        }
        Some(match (name, &numbers[..]) {
            ("Foreign", []) => Refusal::Foreign,
            ("BadRange", []) => Refusal::BadRange,
            ("DeletesRoot", []) => Refusal::DeletesRoot,
            ("RootReplacement", []) => Refusal::RootReplacement,
            ("NotAChild", []) => Refusal::NotAChild,
            ("NotYounger", []) => Refusal::NotYounger,
            ("OtherShape", []) => Refusal::OtherShape,
            ("Intersecting", &[first, second]) => Refusal::Intersecting { first, second },
            ("MissingMapping", &[change, owner]) => Refusal::MissingMapping { change, owner },
            ("NotEachOnce", []) => Refusal::NotEachOnce,
            ("OwnerTooEarly", []) => Refusal::OwnerTooEarly,
            ("GapOutOfOrder", []) => Refusal::GapOutOfOrder,
            ("TokenTooEarly", []) => Refusal::TokenTooEarly,
            ("TooLong", []) => Refusal::TooLong,
            _ => return None,
        })
    }
}

#[cfg(test)]
mod tests {
    use super::*;
    use std::path::Path;

    // Each name of the table in docs/SCRIPTS.md, with the numbers that it shows.
    #[test]
    fn every_refusal_of_the_docs_is_read() {
        let docs = Path::new(env!("CARGO_MANIFEST_DIR")).join("../../docs/SCRIPTS.md");
        let docs = std::fs::read_to_string(docs).unwrap();
        let table = &docs[docs.find("| refusal |").unwrap()..];
        let rows = table
            .lines()
            .skip(2)
            .take_while(|line| line.starts_with('|'));
        let names = rows.flat_map(|row| row.split('|').nth(1).unwrap().split(','));
        let mut count = 0;
        for name in names {
            let name = name
                .trim()
                .trim_matches('`')
                .replace('A', "3")
                .replace('B', "5");
            let name = name
                .replace("Not3Child", "NotAChild")
                .replace("5adRange", "BadRange");
            let refusal = Refusal::read(&name).unwrap_or_else(|| panic!("{name}"));
            let first = name.split(' ').next().unwrap();
            assert!(format!("{refusal:?}").starts_with(first), "{name}");
            count += 1;
        }
        assert_eq!(count, 14);
    }
}
