//! A rename in a Rust source file: each identifier OLD becomes NEW, in one edit of the tree of the file's tokens. The
//! new text is printed. Strings and comments stay as they are, and so do the names of lifetimes.
//!
//! From `bindings/rust`: `cargo run --example rename -- FILE OLD NEW`

use std::error::Error;
use std::process::ExitCode;
use syned::{Kind, Script, Tree};

/// The tokens of a source text, in order. Their texts together are the text, whatever it is: a character that begins
/// nothing known is a token of its own, and what lacks its end goes to the end of the text.
pub fn tokens(source: &str) -> Vec<(Kind, &str)> {
    let mut tokens = Vec::new();
    let mut rest = source;
    while let Some(first) = rest.chars().next() {
        let (kind, length) = first_token(rest, first);
        let (token, others) = rest.split_at(length);
        tokens.push((kind, token));
        rest = others;
    }
    tokens
}

// The kind and the length of the token at the beginning.
fn first_token(text: &str, first: char) -> (Kind, usize) {
    if first.is_whitespace() {
        return (Kind::Whitespace, run_of(text, char::is_whitespace));
    }
    if text.starts_with("//") {
        let length = text.find('\n').unwrap_or(text.len());
        return (comment_kind(text), length);
    }
    if text.starts_with("/*") {
        return (comment_kind(text), block_comment(text));
    }
    if let Some(length) = literal(text) {
        return (Kind::Literal, length);
    }
    if first == '\'' {
        return (Kind::LifetimeIdent, 1 + run_of(&text[1..], is_in_name));
    }
    if first.is_ascii_digit() {
        return (Kind::IntNumber, number(text));
    }
    if is_in_name(first) {
        let hashes = if text.starts_with("r#") { 2 } else { 0 };
        let length = hashes + run_of(&text[hashes..], is_in_name);
        return (word_kind(&text[..length]), length);
    }
    (punctuation_kind(first), first.len_utf8())
}

fn is_in_name(c: char) -> bool {
    c == '_' || c.is_alphanumeric()
}

// How many bytes at the beginning are characters of this sort.
fn run_of(text: &str, is_one: impl Fn(char) -> bool) -> usize {
    text.find(|c| !is_one(c)).unwrap_or(text.len())
}

fn comment_kind(text: &str) -> Kind {
    let is_doc = ["///", "//!", "/**", "/*!"]
        .iter()
        .any(|start| text.starts_with(start));
    if is_doc {
        Kind::DocComment
    } else {
        Kind::Comment
    }
}

// Block comments may be within each other.
fn block_comment(text: &str) -> usize {
    let (mut at, mut open) = (0, 0);
    while at < text.len() {
        let here = &text.as_bytes()[at..];
        let step = if here.starts_with(b"/*") {
            open += 1;
            2
        } else if here.starts_with(b"*/") {
            open -= 1;
            2
        } else {
            1
        };
        at += step;
        if open == 0 {
            return at;
        }
    }
    text.len()
}

// A string or a character, with its prefix.
fn literal(text: &str) -> Option<usize> {
    for prefix in ["", "b", "c", "r", "br", "cr"] {
        let Some(rest) = text.strip_prefix(prefix) else {
            continue;
        };
        let length = match prefix {
            "r" | "br" | "cr" => raw_string(rest),
            _ if rest.starts_with('"') || is_character(rest) => Some(quoted(rest)),
            _ => None,
        };
        if let Some(length) = length {
            return Some(prefix.len() + length);
        }
    }
    None
}

// Up to the quote that the text begins with; what follows a backslash is no end.
fn quoted(text: &str) -> usize {
    let quote = text.as_bytes()[0];
    let mut at = 1;
    while at < text.len() {
        match text.as_bytes()[at] {
            b'\\' => at += 2,
            byte if byte == quote => return at + 1,
            _ => at += 1,
        }
    }
    text.len()
}

fn raw_string(text: &str) -> Option<usize> {
    let hashes = run_of(text, |c| c == '#');
    let inside = text[hashes..].strip_prefix('"')?;
    let end = format!("\"{}", &text[..hashes]);
    let length = inside.find(&end).map(|at| hashes + 1 + at + end.len());
    Some(length.unwrap_or(text.len()))
}

// Whether a character begins here, and not a lifetime.
fn is_character(text: &str) -> bool {
    let mut chars = text.chars();
    chars.next() == Some('\'') && {
        let (inside, after) = (chars.next(), chars.next());
        inside == Some('\\') || after == Some('\'')
    }
}

// `1..2` is two numbers, `1.5` is one.
fn number(text: &str) -> usize {
    let whole = run_of(text, is_in_name);
    match text[whole..].strip_prefix('.') {
        Some(rest) if rest.starts_with(|c: char| c.is_ascii_digit()) => {
            whole + 1 + run_of(rest, is_in_name)
        }
        _ => whole,
    }
}

fn word_kind(word: &str) -> Kind {
    match word {
        "_" => Kind::Underscore,
        "true" => Kind::TrueKw,
        "let" => Kind::LetKw,
        "fn" => Kind::FnKw,
        "use" => Kind::UseKw,
        // So are the keywords that have no kind.
        _ => Kind::Ident,
    }
}

fn punctuation_kind(first: char) -> Kind {
    match first {
        ';' => Kind::Semicolon,
        ',' => Kind::Comma,
        '(' => Kind::LParen,
        ')' => Kind::RParen,
        '{' => Kind::LCurly,
        '}' => Kind::RCurly,
        '[' => Kind::LBrack,
        ']' => Kind::RBrack,
        '<' => Kind::LAngle,
        '>' => Kind::RAngle,
        '&' => Kind::Amp,
        '=' => Kind::Eq,
        '+' => Kind::Plus,
        // There is no kind for the others.
        _ => Kind::Pound,
    }
}

/// The source text with the identifier `new` for each `old`.
pub fn renamed(source: &str, old: &str, new: &str) -> Result<String, Box<dyn Error>> {
    for name in [old, new] {
        if tokens(name) != [(Kind::Ident, name)] {
            return Err(format!("{name:?} is no identifier").into());
        }
    }
    let tokens = tokens(source);
    let mut tree = Tree::new(Kind::SourceFile);
    for (kind, text) in &tokens {
        tree.push_token(kind.clone(), *text);
    }
    let mut script = Script::new();
    let file = script.tree(&tree)?;
    let mut editing = script.edit(&file)?;
    let root = editing.root();
    let new = editing
        .tree(&Tree::new(Kind::NameRef).token(Kind::Ident, new))?
        .child(0);
    for (number, token) in tokens.iter().enumerate() {
        if *token == (Kind::Ident, old) {
            editing.replace(&root.child(number), &new)?;
        }
    }
    Ok(editing.finish()?.text)
}

fn renamed_file(arguments: &[String]) -> Result<String, Box<dyn Error>> {
    let [file, old, new] = arguments else {
        return Err("call it with a file, an old name and a new one".into());
    };
    let renamed = match std::fs::read_to_string(file) {
        Ok(source) => renamed(&source, old, new),
        Err(error) => Err(error.into()),
    };
    renamed.map_err(|error| format!("{file}: {error}").into())
}

fn main() -> ExitCode {
    let arguments: Vec<String> = std::env::args().skip(1).collect();
    match renamed_file(&arguments) {
        Ok(text) => {
            print!("{text}");
            ExitCode::SUCCESS
        }
        Err(error) => {
            eprintln!("{error}");
            ExitCode::FAILURE
        }
    }
}
