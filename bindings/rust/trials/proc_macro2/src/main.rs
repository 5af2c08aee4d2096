//! Makes a tree of each Rust file that is named, of the tokens that proc-macro2 finds, renames each seventh identifier, and
//! compares with the same edit of the plain text.

use proc_macro2::{LineColumn, TokenStream, TokenTree};
use std::ops::Range;
use std::str::FromStr;
use syned::{apply, Element, Error, Kind, Script, SourceNode, Tree};

// Where each line of a source begins.
struct Lines<'a> {
    source: &'a str,
    starts: Vec<usize>,
}

impl Lines<'_> {
    fn offset(&self, at: LineColumn) -> usize {
        let start = self.starts[at.line - 1];
        let mut before = self.source[start..].char_indices();
        before.nth(at.column).map_or(self.source.len(), |(byte, _)| start + byte)
    }
}

// A token tree, or the whole stream.
struct Found<'a> {
    tree: Option<TokenTree>,
    stream: TokenStream,
    lines: &'a Lines<'a>,
}

impl SourceNode for Found<'_> {
    fn kind(&self) -> String {
        let kind = match &self.tree {
            None => "file",
            Some(TokenTree::Group(_)) => "group",
            Some(TokenTree::Ident(_)) => "ident",
            Some(TokenTree::Punct(_)) => "punct",
            Some(TokenTree::Literal(_)) => "literal",
        };
        kind.to_string()
    }

    fn range(&self) -> Option<Range<usize>> {
        let Some(tree) = &self.tree else {
            return Some(0..self.lines.source.len());
        };
        let span = tree.span();
        Some(self.lines.offset(span.start())..self.lines.offset(span.end()))
    }

    // The tokens of a doc comment all stand where it does: the first stands for them.
    fn children(&self) -> Vec<Self> {
        let mut children: Vec<Self> = Vec::new();
        for tree in self.stream.clone() {
            let stream = match &tree {
                TokenTree::Group(group) => group.stream(),
                _ => TokenStream::new(),
            };
            let child = Found { tree: Some(tree), stream, lines: self.lines };
            let end = children.last().and_then(Self::range).map_or(0, |range| range.end);
            if child.range().is_some_and(|range| range.start >= end) {
                children.push(child);
            }
        }
        children
    }
}

fn identifiers(element: &Element, found: &mut Vec<Element>) {
    if element.kind().is_some_and(|kind| kind.name() == "ident") {
        found.push(element.clone());
    }
    for child in element.children() {
        identifiers(&child, found);
    }
}

// How many identifiers were renamed, if all is as in the plain text.
fn renamed(source: &str) -> Result<Option<usize>, Error> {
    let starts = std::iter::once(0).chain(source.match_indices('\n').map(|(at, _)| at + 1)).collect();
    let lines = Lines { source, starts };
    let stream = TokenStream::from_str(source).expect("no Rust");
    let tree = Tree::from_nodes(source, &Found { tree: None, stream, lines: &lines })?;
    let mut script = Script::new();
    let file = script.tree(&tree)?;
    let mut editing = script.edit(&file)?;
    let new = editing.tree(&Tree::new(Kind::Name).token(Kind::Ident, "renamed"))?;
    let mut all = Vec::new();
    identifiers(&editing.root(), &mut all);
    let (mut wanted, mut count) = (source.to_string(), 0);
    for ident in all.iter().step_by(7).rev() {
        let range = ident.range().expect("no range");
        wanted.replace_range(range, "renamed");
        editing.replace(ident, &new.child(0))?;
        count += 1;
    }
    let edit = editing.finish()?;
    let is_right = tree.text() == source && edit.text == wanted && apply(&edit.edits, source) == Some(wanted);
    Ok(is_right.then_some(count))
}

fn main() {
    let (mut right, mut wrong, mut idents) = (0, 0, 0);
    for path in std::env::args().skip(1) {
        let source = std::fs::read_to_string(&path).expect("no such file");
        match renamed(&source) {
            Ok(Some(count)) => {
                right += 1;
                idents += count;
            }
            other => {
                wrong += 1;
                println!("wrong: {path}: {other:?}");
            }
        }
    }
    println!("rust: {right} of {} files as in plain text by proc-macro2, {idents} identifiers renamed", right + wrong);
    std::process::exit(i32::from(wrong > 0 || right == 0));
}
