//! Edits of syntax trees: a safe wrapper of the library `syned`.
//!
//! A [`Script`] gets trees, then one edit with its changes; [`Editing::finish`] carries all changes out at once, and
//! gives the new text, the edits of the old text and the paths of what changed, or an [`Error`] that says why not.
//!
//! ```
//! use syned::{Kind, Script, Tree};
//!
//! // The list `(1, 2, 3)`.
//! let literal = |number: &str| Tree::new(Kind::Literal).token(Kind::IntNumber, number);
//! let next = |list: Tree| list.token(Kind::Comma, ",").token(Kind::Whitespace, " ");
//! let arguments = next(Tree::new(Kind::ArgList).token(Kind::LParen, "(").node(literal("1")));
//! let arguments = next(arguments.node(literal("2"))).node(literal("3")).token(Kind::RParen, ")");
//! let mut script = Script::new();
//! let list = script.tree(&arguments)?;
//! let mut editing = script.edit(&list)?;
//! let [first, second, third] = [1, 4, 7].map(|slot| editing.root().child(slot));
//! editing.replace(&first, &second)?;
//! editing.replace(&second, &first)?;
//! editing.remove(&third, Kind::Comma)?;
//! let edit = editing.finish()?;
//! assert_eq!(edit.text, "(2, 1)");
//! assert_eq!(edit.changed, [[1], [4]]);
//! assert_eq!(edit.ranges[&[1][..]], 1..2);
//! assert_eq!(syned::apply(&edit.edits, "(1, 2, 3)"), Some(edit.text));
//! # Ok::<(), syned::Error>(())
//! ```
//!
//! Scripts that are text already go to [`edit`], or to [`run`] and [`explain`], which give the bytes of the answer.
//! The format of scripts and answers is docs/SCRIPTS.md of the repository. All calls may be made by several threads at
//! a time; none keeps anything.

// Only `ffi` calls into C.
#![deny(unsafe_code)]
#![warn(missing_docs)]

mod answer;
mod error;
#[allow(unsafe_code)]
mod ffi;
mod kind;
mod nodes;
mod run;
mod script;
mod tree;

pub use answer::{apply, edit, edit_for, Edit, Note, Path, TextEdit};
pub use error::{Error, Refusal};
pub use kind::{Kind, OwnKind};
pub use nodes::{pieces, SourceNode};
pub use run::{explain, explain_for, library_version, run, run_for, Dialect, Status};
pub use script::{Editing, Element, Ordered, Position, Script, Word, SCRIPT_LIMIT};
pub use tree::Tree;
