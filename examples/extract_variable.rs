//! The assist 'extract variable' in a Rust source file: the expression at the bytes START to END becomes the name NAME,
//! and `let NAME = EXPRESSION;` comes before its statement. The edits of the file are printed, each with its bytes, and
//! where the cursors go: to both new names, in bytes of the new text.
//!
//! From `bindings/rust`: `cargo run --example extract_variable -- FILE START END NAME`
//!
//! The parser knows statements, blocks and other brackets, in which it finds the statement of an expression. Braces
//! that have a comma or `=>` but no `;` of their own are no block, so an arm of a match is a part of the match's
//! statement.

#[allow(dead_code)]
#[path = "rename.rs"]
mod rename;

use rename::tokens;
use std::error::Error;
use std::ops::Range;
use std::process::ExitCode;
use syned::{Edit, Element, Kind, Position, Script, TextEdit, Tree};

// The first words of statements that have no semicolon.
const ENDED_BY_BRACES: [&str; 14] = [
    "{", "enum", "fn", "for", "if", "impl", "loop", "match", "mod", "pub", "struct", "trait",
    "unsafe", "while",
];

/// The tree of a source text, whose text is the same.
pub fn parsed(source: &str) -> Tree {
    let mut parser = Parser {
        tokens: tokens(source),
        at: 0,
    };
    let mut file = Tree::new(Kind::SourceFile);
    while parser.at < parser.tokens.len() {
        parser.statements(&mut file);
        // What closes nothing.
        parser.push_next(&mut file);
    }
    file
}

struct Parser<'a> {
    tokens: Vec<(Kind, &'a str)>,
    at: usize,
}

impl Parser<'_> {
    // The kind of the next token, or of the one that comes so many later.
    fn next(&self, later: usize) -> Option<&Kind> {
        self.tokens.get(self.at + later).map(|(kind, _)| kind)
    }

    // The next token that is neither whitespace nor a comment.
    fn next_word(&self) -> Option<&(Kind, &str)> {
        self.tokens[self.at..]
            .iter()
            .find(|(kind, _)| !is_trivia(kind))
    }

    fn push_next(&mut self, tree: &mut Tree) {
        if let Some((kind, text)) = self.tokens.get(self.at) {
            tree.push_token(kind.clone(), *text);
            self.at += 1;
        }
    }

    // All up to a bracket that closes.
    fn statements(&mut self, list: &mut Tree) {
        while let Some(kind) = self.next(0).filter(|kind| !is_closing(kind)) {
            if is_trivia(kind) {
                self.push_next(list);
            } else {
                list.push_node(self.statement());
            }
        }
    }

    fn statement(&mut self) -> Tree {
        let first = self.tokens[self.at].1;
        let mut statement = Tree::new(match first {
            "let" => Kind::LetStmt,
            _ => Kind::ExprStmt,
        });
        // What lies behind its last word is no part of it.
        while self.next_word().is_some_and(|(kind, _)| !is_closing(kind)) {
            let pushed = self.next(0).cloned();
            self.push_element(&mut statement);
            let goes_on = self.next_word().is_some_and(|(_, text)| *text == "else");
            match pushed {
                Some(Kind::Semicolon) => break,
                Some(Kind::LCurly) if ENDED_BY_BRACES.contains(&first) && !goes_on => break,
                _ => {}
            }
        }
        statement
    }

    // A token, or brackets with all that is in them.
    fn push_element(&mut self, tree: &mut Tree) {
        match self.next(0) {
            Some(Kind::LParen | Kind::LBrack | Kind::LCurly) => tree.push_node(self.brackets()),
            _ => self.push_next(tree),
        }
    }

    fn brackets(&mut self) -> Tree {
        let is_block = self.is_block();
        let mut tree = Tree::new(if is_block {
            Kind::StmtList
        } else {
            Kind::TupleExpr
        });
        self.push_next(&mut tree);
        if is_block {
            self.statements(&mut tree);
        }
        while self.next(0).is_some_and(|kind| !is_closing(kind)) {
            self.push_element(&mut tree);
        }
        self.push_next(&mut tree);
        tree
    }

    // Whether the next brackets are those of a block.
    fn is_block(&self) -> bool {
        if self.next(0) != Some(&Kind::LCurly) {
            return false;
        }
        let (mut open, mut is_list) = (0, false);
        for (at, (kind, _)) in self.tokens[self.at..].iter().enumerate() {
            open += usize::from(is_opening(kind));
            open -= usize::from(is_closing(kind));
            match kind {
                _ if open == 0 => break,
                Kind::Semicolon if open == 1 => return true,
                Kind::Comma if open == 1 => is_list = true,
                Kind::Eq if open == 1 => is_list |= self.next(at + 1) == Some(&Kind::RAngle),
                _ => {}
            }
        }
        !is_list
    }
}

fn is_opening(kind: &Kind) -> bool {
    matches!(kind, Kind::LParen | Kind::LBrack | Kind::LCurly)
}

fn is_closing(kind: &Kind) -> bool {
    matches!(kind, Kind::RParen | Kind::RBrack | Kind::RCurly)
}

fn is_trivia(kind: &Kind) -> bool {
    matches!(kind, Kind::Whitespace | Kind::Comment | Kind::DocComment)
}

// The first and the last of the siblings that stand at these bytes, if they can be an expression.
fn expression_at(root: &Element, range: &Range<usize>) -> Option<(Element, Element)> {
    let inner = root.covering(range.clone())?;
    let kind = inner.kind()?;
    let is_statement = matches!(kind, Kind::ExprStmt | Kind::LetStmt);
    if inner.range()? == *range && !is_statement {
        let fits = is_end(&kind) && is_part(&inner);
        return fits.then(|| (inner.clone(), inner));
    }
    let is_within = |it: &Element| {
        let own = it.range().unwrap_or_default();
        range.start <= own.start && own.end <= range.end
    };
    let siblings: Vec<Element> = inner.children().filter(is_within).collect();
    let (first, last) = (siblings.first()?, siblings.last()?);
    let is_whole = first.range()?.start == range.start && last.range()?.end == range.end;
    let has_ends = is_end(&first.kind()?) && is_end(&last.kind()?);
    let fits = is_whole && has_ends && siblings.iter().all(is_part);
    fits.then(|| (first.clone(), last.clone()))
}

// Whether an expression can begin or end with this.
fn is_end(kind: &Kind) -> bool {
    !is_trivia(kind) && !matches!(kind, Kind::Comma | Kind::Eq | Kind::Plus)
}

// Whether an expression can have this as a part of it: no statement, and no bracket without the other one.
fn is_part(element: &Element) -> bool {
    use Kind::{ExprStmt, LetKw, LetStmt, Semicolon, SourceFile};
    let kind = element.kind();
    let is_bracket = kind
        .as_ref()
        .is_some_and(|kind| is_opening(kind) || is_closing(kind));
    !is_bracket
        && !matches!(
            kind,
            Some(ExprStmt | LetKw | LetStmt | Semicolon | SourceFile)
        )
}

// The statement of a block that an element is in.
fn statement_of(element: &Element) -> Option<Element> {
    let mut statement = element.parent()?;
    while statement.parent()?.kind() != Some(Kind::StmtList) {
        statement = statement.parent()?;
    }
    Some(statement)
}

// The whitespace before a statement, of several lines the last one.
fn line_before(statement: &Element) -> Option<String> {
    let list = statement.parent()?;
    let before = list.children().take_while(|it| it != statement).last()?;
    let text = before.text()?;
    let line = text.rfind('\n').unwrap_or(0);
    let line = line - usize::from(text[..line].ends_with('\r'));
    let is_whitespace = before.kind() == Some(Kind::Whitespace);
    is_whitespace.then(|| text[line..].to_string())
}

// `let NAME = EXPRESSION;`, and whitespace after it.
fn let_statement(name: &str, expression: &str, after: Option<String>) -> Tree {
    let mut statement = Tree::new(Kind::LetStmt)
        .token(Kind::LetKw, "let")
        .token(Kind::Whitespace, " ")
        .node(Tree::new(Kind::Name).token(Kind::Ident, name))
        .token(Kind::Whitespace, " ")
        .token(Kind::Eq, "=")
        .token(Kind::Whitespace, " ");
    for (kind, text) in tokens(expression) {
        statement.push_token(kind, text);
    }
    let statement = statement.token(Kind::Semicolon, ";");
    let list = Tree::new(Kind::StmtList).node(statement);
    match after {
        Some(line) => list.token(Kind::Whitespace, line),
        None => list,
    }
}

/// An expression taken out.
pub struct Extracted {
    /// The edit of the file.
    pub edit: Edit,
    /// Where the new names are in the new text.
    pub names: Vec<Range<usize>>,
}

/// Takes out the expression at these bytes.
pub fn extracted(
    source: &str,
    range: Range<usize>,
    name: &str,
) -> Result<Extracted, Box<dyn Error>> {
    if tokens(name) != [(Kind::Ident, name)] {
        return Err(format!("{name:?} is no identifier").into());
    }
    let mut script = Script::new();
    let file = script.tree(&parsed(source))?;
    let mut editing = script.edit(&file)?;
    let (first, last) = expression_at(&editing.root(), &range)
        .ok_or_else(|| format!("no expression is at {}..{}", range.start, range.end))?;
    let statement = statement_of(&first).ok_or("the expression is in no block")?;
    let new = let_statement(name, &source[range], line_before(&statement));
    let new = editing.tree(&new)?;
    let used = editing.tree(&Tree::new(Kind::NameRef).token(Kind::Ident, name))?;
    let elements: Vec<Element> = new.children().collect();
    editing.insert_all_with_whitespace(Position::Before(&statement), &elements)?;
    editing.replace_all(&first, &last, std::slice::from_ref(&used))?;
    let cursor = editing.word();
    editing.note(cursor, &new.at(&[0, 2]))?;
    editing.note(cursor, &used)?;
    let edit = editing.finish()?;
    let names = edit.paths_of(cursor).iter();
    let names = names.map(|path| edit.ranges[path].clone()).collect();
    Ok(Extracted { edit, names })
}

fn extracted_in_file(arguments: &[String]) -> Result<String, Box<dyn Error>> {
    let [file, start, end, name] = arguments else {
        return Err(
            "call it with a file, the first byte and the one behind the last, and a name".into(),
        );
    };
    let in_file = |error: Box<dyn Error>| format!("{file}: {error}");
    let source = std::fs::read_to_string(file).map_err(|error| in_file(error.into()))?;
    let found = extracted(&source, start.parse()?..end.parse()?, name).map_err(in_file)?;
    let mut out = String::new();
    for TextEdit { range, text } in found.edit.edits {
        out += &format!("edit {} {} {text:?}\n", range.start, range.end);
    }
    for range in found.names {
        out += &format!("cursor {} {}\n", range.start, range.end);
    }
    Ok(out)
}

fn main() -> ExitCode {
    let arguments: Vec<String> = std::env::args().skip(1).collect();
    match extracted_in_file(&arguments) {
        Ok(text) => {
            print!("{text}");
            ExitCode::SUCCESS
        }
        Err(error) => {
            eprintln!("{error}");
            ExitCode::FAILURE
        }
    }
}
