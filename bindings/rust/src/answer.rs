//! Answers, read.
#![forbid(unsafe_code)]

use crate::error::{Error, Refusal};
use crate::run::{explain_for, run_for, Dialect, Status};
use crate::script::Word;
use crate::tree::{read_text, Tree};
use std::collections::BTreeMap;
use std::ops::Range;

/// The way to an element of the new tree: the number of a child for each step from the root down, counted from 0.
/// That of the root is empty.
pub type Path = Vec<usize>;

/// An edit that was made. Of a script that is text already, the last three fields have what it asks to show.
#[derive(Clone, Debug, PartialEq, Eq)]
pub struct Edit {
    /// The text of the new tree.
    pub text: String,
    /// The topmost elements that a change put in, in document order.
    pub changed: Vec<Path>,
    /// What the script asked about, in the order of the first use of each word.
    pub notes: Vec<Note>,
    /// The edits of the old text that make the new one of it, in order. None overlaps another.
    pub edits: Vec<TextEdit>,
    /// Where the element of each path of `changed` and `notes` stands in the new text, in bytes.
    pub ranges: BTreeMap<Path, Range<usize>>,
    /// The new tree, which [`Editing::finish_with_tree`](crate::Editing::finish_with_tree) asks for.
    pub tree: Option<Tree>,
}

/// An edit of a text.
#[derive(Clone, Debug, PartialEq, Eq)]
pub struct TextEdit {
    /// What is replaced, in bytes of the text.
    pub range: Range<usize>,
    /// What stands there afterwards.
    pub text: String,
}

/// A text with its edits made. They are in order, as [`Edit::edits`] are.
///
/// ```
/// use syned::{apply, TextEdit};
///
/// let edits = [(0..2, "e"), (3..3, "!")].map(|(range, text)| TextEdit { range, text: text.into() });
/// assert_eq!(apply(&edits, "éa").as_deref(), Some("ea!"));
/// assert_eq!(apply(&edits, "ae"), None);
/// ```
///
/// `None` if an edit overlaps the one before it, is not in the text, or begins or ends within a character.
pub fn apply(edits: &[TextEdit], text: &str) -> Option<String> {
    let mut out = String::with_capacity(text.len());
    let mut copied = 0;
    for edit in edits {
        out.push_str(text.get(copied..edit.range.start)?);
        text.get(edit.range.clone())?;
        out.push_str(&edit.text);
        copied = edit.range.end;
    }
    out.push_str(&text[copied..]);
    Some(out)
}

/// Where the elements of a word are in the new tree.
#[derive(Clone, Debug, PartialEq, Eq)]
pub struct Note {
    /// The word, as the script has it.
    pub word: String,
    /// The elements, note by note, and in document order for each note. An element that is gone has no path.
    pub paths: Vec<Path>,
}

impl Edit {
    /// The paths of the elements of a word of the edit's own script: none if all are gone, or if it has no note.
    pub fn paths_of(&self, word: Word) -> &[Path] {
        let name = word.name();
        let note = self.notes.iter().find(|note| note.word == name);
        note.map_or(&[], |note| &note.paths)
    }
}

/// Carries out a script that is text already, and gives its answer read.
///
/// ```
/// use syned::{edit, Error, Refusal};
///
/// let tree = "tree A (ARG_LIST COMMA\",\")\nedit R A\n";
/// let done = edit(format!("{tree}note comma R/0\nfinish\n").as_bytes())?;
/// assert_eq!(done.text, ",");
/// assert_eq!((&done.notes[0].word[..], &done.notes[0].paths[..]), ("comma", &[vec![0]][..]));
///
/// let refused = edit(format!("{tree}delete R\nfinish\n").as_bytes());
/// assert!(matches!(refused, Err(Error::Refused { refusal: Refusal::DeletesRoot, .. })));
/// # Ok::<(), Error>(())
/// ```
pub fn edit(script: &[u8]) -> Result<Edit, Error> {
    edit_for(Dialect::Syned, script)
}

/// The same for a script of a dialect.
///
/// ```
/// use syned::{edit_for, Dialect};
///
/// let done = edit_for(Dialect::Wide, b"kinds call\ntree A (call COMMA\",\")\nedit R A\nfinish\n")?;
/// assert_eq!(done.text, ",");
/// # Ok::<(), syned::Error>(())
/// ```
pub fn edit_for(dialect: Dialect, script: &[u8]) -> Result<Edit, Error> {
    let (status, answer) = run_for(dialect, script);
    let answer = String::from_utf8_lossy(&answer);
    let unknown = || Error::Unknown(answer.clone().into_owned());
    match status {
        Status::Done => read_edit(&answer).ok_or_else(unknown),
        Status::Refused => {
            let refusal = read_refusal(&answer).ok_or_else(unknown)?;
            let sentence = explain_for(dialect, script).unwrap_or_default();
            let lines = lines_of(&sentence);
            Err(Error::Refused {
                refusal,
                lines,
                sentence,
            })
        }
        Status::BadScript => {
            let line = read_bad_line(&answer).ok_or_else(unknown)?;
            let sentence = explain_for(dialect, script).unwrap_or_default();
            Err(Error::BadScript { line, sentence })
        }
        Status::Failed => Err(Error::Failed),
    }
}

fn read_refusal(answer: &str) -> Option<Refusal> {
    Refusal::read(answer.strip_prefix("refused ")?.strip_suffix('\n')?)
}

// The numbers behind the word `line`.
fn lines_of(sentence: &str) -> Vec<usize> {
    let mut numbers = Vec::new();
    for part in sentence.split("line ").skip(1) {
        let digits = part.split(|c: char| !c.is_ascii_digit()).next();
        numbers.extend(digits.and_then(|digits| digits.parse::<usize>().ok()));
    }
    numbers
}

fn read_bad_line(answer: &str) -> Option<usize> {
    let number = answer
        .strip_prefix("bad script line ")?
        .strip_suffix('\n')?;
    number.parse().ok()
}

fn read_edit(answer: &str) -> Option<Edit> {
    let mut lines = answer.strip_suffix('\n')?.split('\n');
    let text = read_quoted(lines.next()?.strip_prefix("text ")?)?;
    let mut changed = lines.next()?.split(' ');
    if changed.next() != Some("changed") {
        return None;
    }
    let mut ranges = BTreeMap::new();
    let mut edit = Edit {
        text,
        changed: read_paths(changed, &mut ranges)?,
        notes: Vec::new(),
        edits: Vec::new(),
        ranges,
        tree: None,
    };
    for line in lines {
        match line.split_once(' ')? {
            ("note", note) if edit.edits.is_empty() && edit.tree.is_none() => {
                let note = read_note(note, &mut edit.ranges)?;
                edit.notes.push(note);
            }
            ("edit", text_edit) if edit.tree.is_none() => {
                edit.edits.push(read_text_edit(text_edit)?);
            }
            ("tree", tree) if edit.tree.is_none() => edit.tree = Some(Tree::read(tree)?),
            _ => return None,
        }
    }
    Some(edit)
}

fn read_note(line: &str, ranges: &mut BTreeMap<Path, Range<usize>>) -> Option<Note> {
    let mut fields = line.split(' ');
    let word = fields.next()?.to_string();
    let paths = read_paths(fields, ranges)?;
    Some(Note { word, paths })
}

fn read_text_edit(line: &str) -> Option<TextEdit> {
    let (start, rest) = line.split_once(' ')?;
    let (end, text) = rest.split_once(' ')?;
    Some(TextEdit {
        range: read_number(start)?..read_number(end)?,
        text: read_quoted(text)?,
    })
}

// The paths of these fields. Those with a range put it into the ranges.
fn read_paths<'a>(
    fields: impl Iterator<Item = &'a str>,
    ranges: &mut BTreeMap<Path, Range<usize>>,
) -> Option<Vec<Path>> {
    let mut paths = Vec::new();
    for field in fields {
        let (path, range) = match field.split_once('@') {
            Some((path, range)) => (read_path(path)?, Some(range.split_once("..")?)),
            None => (read_path(field)?, None),
        };
        if let Some((start, end)) = range {
            ranges.insert(path.clone(), read_number(start)?..read_number(end)?);
        }
        paths.push(path);
    }
    Some(paths)
}

fn read_path(field: &str) -> Option<Path> {
    if field == "." {
        return Some(Vec::new());
    }
    field.split('/').map(read_number).collect()
}

fn read_number(digits: &str) -> Option<usize> {
    let is_number = digits.bytes().all(|byte| byte.is_ascii_digit());
    digits.parse().ok().filter(|_| is_number)
}

// A text between two quotes.
fn read_quoted(field: &str) -> Option<String> {
    let (text, rest) = read_text(field.strip_prefix('"')?)?;
    rest.is_empty().then_some(text)
}

#[cfg(test)]
mod tests {
    use super::*;

    #[test]
    fn all_that_an_answer_may_have_is_read() {
        let lines = [
            "text \"a\"",
            "changed .@0..1",
            "note w 0@0..1 .@0..1",
            "note v",
        ];
        let rest = [
            "edit 0 2 \"a\\t\"",
            "edit 2 2 \"\"",
            "tree (A b\"\\\"\" (C))",
        ];
        let answer = format!("{}\n{}\n", lines.join("\n"), rest.join("\n"));
        let edit = read_edit(&answer).unwrap();
        assert_eq!((edit.text.as_str(), edit.changed), ("a", vec![vec![]]));
        let words: Vec<_> = edit.notes.iter().map(|note| &note.word[..]).collect();
        assert_eq!(words, ["w", "v"]);
        assert_eq!(edit.notes[0].paths, [vec![0], vec![]]);
        let texts: Vec<_> = edit
            .edits
            .iter()
            .map(|edit| (edit.range.clone(), &edit.text[..]))
            .collect();
        assert_eq!(texts, [(0..2, "a\t"), (2..2, "")]);
        assert_eq!(
            edit.ranges,
            BTreeMap::from([(vec![], 0..1), (vec![0], 0..1)])
        );
        let mut written = String::new();
        edit.tree.unwrap().write(&mut written);
        assert_eq!(written, "(A b\"\\\"\" (C))");
    }

    #[test]
    fn answers_of_other_formats_are_not_read() {
        for answer in [
            "",
            "text \"\"",
            "text \"\"\n",
            "text \"\"\nchange\n",
            "text \"\\x\"\nchanged\n",
            "text \"\\\"\nchanged\n",
            "text \"\"\nchanged a\n",
            "text \"\"\nchanged\nnotes w\n",
            "text \"\"\nchanged \n",
            "text \"\"\"\nchanged\n",
        ] {
            assert_eq!(read_edit(answer), None, "{answer:?}");
        }
        for place in [
            "", "+1", "0/", "0@", "0@1", "0@1..", "0@..1", "@0..1", "0@1...2", "0  1",
        ] {
            let answer = format!("text \"\"\nchanged {place}\n");
            assert_eq!(read_edit(&answer), None, "{answer:?}");
        }
        for line in [
            "",
            "note",
            "note w ",
            "note w a",
            "edit",
            "edit 1 2",
            "edit 1 2 x",
            "edit 1 2 \"",
            "edit 1 2 \"\"\"",
            "edit a 2 \"\"",
            "edit 1  2 \"\"",
            "edit 1 2 \"\\\"",
            "tree",
            "tree ",
            "tree A",
            "tree A\"a\"",
            "tree ()",
            "tree (A",
            "tree (A))",
            "tree (A) (A)",
            "tree (A) ",
            "tree )",
            "tree (A a)",
            "tree (A a\"\\x\")",
            "tree (A a\")",
            "tree (A -)",
            "tree (é)",
            "tree (A a \"b\")",
            "tree (A)\ntree (A)",
            "tree (A)\nedit 0 0 \"\"",
            "tree (A)\nnote w",
            "edit 0 0 \"\"\nnote w",
        ] {
            let answer = format!("text \"\"\nchanged\n{line}\n");
            assert_eq!(read_edit(&answer), None, "{answer:?}");
        }
        for answer in [
            "refused\n",
            "refused Foreign 1\n",
            "refused Intersecting 1\n",
            "refused Foreign",
        ] {
            assert_eq!(read_refusal(answer), None, "{answer:?}");
        }
        assert_eq!(read_bad_line("bad script line x\n"), None);
    }
}
