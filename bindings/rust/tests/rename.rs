//! The example `rename`, on source files of this crate: a scan for words, which knows no tokens, gives the same for
//! each name that no string and no comment has. Then texts whose strings and comments do have the name.
#![forbid(unsafe_code)]

#[allow(dead_code)]
#[path = "../../../examples/rename.rs"]
mod rename;

use rename::{renamed, tokens};
use std::collections::BTreeSet;
use std::fs;
use std::path::PathBuf;
use syned::Kind;

const FILES: [&str; 11] = [
    "build.rs",
    "src/answer.rs",
    "src/error.rs",
    "src/ffi.rs",
    "src/kind.rs",
    "src/run.rs",
    "src/script.rs",
    "src/tree.rs",
    "tests/builder.rs",
    "tests/rows.rs",
    "../../examples/rename.rs",
];

fn source(file: &str) -> String {
    let path = PathBuf::from(env!("CARGO_MANIFEST_DIR")).join(file);
    fs::read_to_string(&path).unwrap_or_else(|error| panic!("{}: {error}", path.display()))
}

// Each `old` that is no part of a longer word becomes `new`; so many of them.
fn scanned(text: &str, old: &str, new: &str) -> (String, usize) {
    let is_in_word = |byte: &u8| byte.is_ascii_alphanumeric() || *byte == b'_';
    let bytes = text.as_bytes();
    let (mut out, mut count, mut copied) = (String::new(), 0, 0);
    for (at, _) in text.match_indices(old) {
        let before = at.checked_sub(1).and_then(|before| bytes.get(before));
        let after = bytes.get(at + old.len());
        if !before.is_some_and(is_in_word) && !after.is_some_and(is_in_word) {
            out.push_str(&text[copied..at]);
            out.push_str(new);
            copied = at + old.len();
            count += 1;
        }
    }
    out.push_str(&text[copied..]);
    (out, count)
}

fn words(line: &str) -> impl Iterator<Item = &str> {
    line.split(|c: char| !c.is_alphanumeric() && c != '_')
}

// The words of a text that are only in lines without a string, a character, a lifetime or a comment.
fn plain_words(text: &str) -> BTreeSet<&str> {
    let is_plain = |line: &&str| {
        !["\"", "'", "//", "/*"]
            .iter()
            .any(|sign| line.contains(sign))
    };
    let (plain, others): (Vec<&str>, Vec<&str>) = text.lines().partition(is_plain);
    let others: BTreeSet<&str> = others.into_iter().flat_map(words).collect();
    let plain = plain.into_iter().flat_map(words);
    plain.filter(|word| !others.contains(word)).collect()
}

#[test]
fn a_scan_for_words_gives_the_same() {
    for file in FILES {
        let text = source(file);
        let mut compared = 0;
        for old in plain_words(&text) {
            if tokens(old) == [(Kind::Ident, old)] {
                let (wanted, count) = scanned(&text, old, "another_name");
                assert!(count > 0, "{file}: {old}");
                assert_eq!(
                    renamed(&text, old, "another_name").unwrap(),
                    wanted,
                    "{file}: {old}"
                );
                compared += 1;
            }
        }
        assert!(compared > 3, "{file}");
    }
}

#[test]
fn a_name_that_the_file_lacks_changes_nothing() {
    for file in FILES {
        let text = source(file);
        assert_eq!(renamed(&text, "no_such_name", "x").unwrap(), text, "{file}");
    }
}

#[test]
fn strings_comments_and_lifetimes_stay() {
    for (text, wanted) in [
        ("a + aa + a", "b + aa + b"),
        ("\"a\" a \"\\\"a\" a", "\"a\" b \"\\\"a\" b"),
        ("r\"a\\\" a r#\"a\"a\"# a", "r\"a\\\" b r#\"a\"a\"# b"),
        (
            "b\"a\" br##\"a\"#a\"## c\"a\" a",
            "b\"a\" br##\"a\"#a\"## c\"a\" b",
        ),
        ("'a' 'a: &'a a b'a' '\\'' a", "'a' 'a: &'a b b'a' '\\'' b"),
        (
            "a // a\na /* a /* a */ a */ a",
            "b // a\nb /* a /* a */ a */ b",
        ),
        ("/// a\nfn a() {}", "/// a\nfn b() {}"),
        ("1a 1.a(2) 1..a x.0.a", "1a 1.b(2) 1..b x.0.b"),
        ("r#a a", "r#a b"),
        ("\"a", "\"a"),
        ("a /* a", "b /* a"),
        ("ä a é", "ä b é"),
        ("'ä' a '\\u{e4}' a \"\\ä\" a", "'ä' b '\\u{e4}' b \"\\ä\" b"),
        ("", ""),
        ("a\r\n\ta", "b\r\n\tb"),
    ] {
        assert_eq!(renamed(text, "a", "b").unwrap(), wanted, "{text}");
    }
}

#[test]
fn kinds_of_tokens() {
    let wanted = [
        (Kind::FnKw, "fn"),
        (Kind::Whitespace, " "),
        (Kind::Ident, "f"),
        (Kind::LAngle, "<"),
        (Kind::LifetimeIdent, "'a"),
        (Kind::RAngle, ">"),
        (Kind::LParen, "("),
        (Kind::Underscore, "_"),
        (Kind::Comma, ","),
        (Kind::IntNumber, "1.5"),
        (Kind::RParen, ")"),
        (Kind::Literal, "'x'"),
        (Kind::DocComment, "/// d"),
    ];
    assert_eq!(tokens("fn f<'a>(_,1.5)'x'/// d"), wanted);
}

#[test]
fn what_is_no_identifier_is_refused() {
    for name in ["", "1", "a b", "fn", "_", "\"a\"", "'a", "a-b"] {
        assert!(renamed("a", "a", name).is_err(), "{name}");
        assert!(renamed("a", name, "a").is_err(), "{name}");
    }
}

#[test]
fn a_long_file_has_no_limit() {
    let line = |name: &str| format!("{name} // {}\n", "x".repeat(1000));
    let renamed = renamed(&line("a").repeat(2000), "a", "b").unwrap();
    assert_eq!(renamed, line("b").repeat(2000));
}
