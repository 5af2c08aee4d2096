//! The example `extract_variable`: its edits are those of plain text at the same places.
#![forbid(unsafe_code)]

#[allow(dead_code)]
#[path = "../../../examples/extract_variable.rs"]
mod extract_variable;

use extract_variable::{extracted, parsed, Extracted};
use std::path::PathBuf;
use syned::apply;

// A text in which `<<` and `>>` stand round an expression, and `^` before its statement: the text without the marks,
// and where they are.
fn marked(text: &str) -> (String, usize, usize, usize) {
    let (mut plain, mut places) = (text.to_string(), Vec::new());
    for mark in ["^", "<<", ">>"] {
        let at = plain.find(mark).expect(mark);
        plain.replace_range(at..at + mark.len(), "");
        places.push(at);
    }
    (plain, places[0], places[1], places[2])
}

// Compares with a plain text edit: what comes before the new statement and after it is given.
#[track_caller]
fn check(text: &str, before: &str, after: &str) {
    let (source, statement, start, end) = marked(text);
    let new = format!("{before}let new_name = {};{after}", &source[start..end]);
    let wanted = [
        &source[..statement],
        &new,
        &source[statement..start],
        "new_name",
        &source[end..],
    ]
    .concat();
    let Extracted { edit, names } = extracted(&source, start..end, "new_name").unwrap();
    assert_eq!(edit.text, wanted);
    assert_eq!(apply(&edit.edits, &source).as_ref(), Some(&wanted));
    let first = statement + before.len() + "let ".len();
    let second = start + new.len();
    assert_eq!(names, [first..first + 8, second..second + 8]);
    for name in names {
        assert_eq!(&wanted[name], "new_name");
    }
}

#[test]
fn plain_text_edits_give_the_same() {
    let line = "\n    ";
    for text in [
        "fn f() {\n    ^g(<<a + b>>);\n}",
        "fn f() {\n    ^let x = <<g(a, [b])>> * 2;\n}",
        "fn f() {\n    a;\n\n    // c\n    ^<<a>>\n}\n",
        "fn f() {\n    ^<<g(1)>>\n}",
        "fn f() {\n    ^if <<a.b>> { c } else { d }\n    e;\n}",
        "fn f() {\n    if a { c } else { d }\n    ^h(\"é;}\", <<x>>);\n}",
        "fn f() {\n    let y = S { a: 1, b: 2 };\n    ^let x = S { a: <<1 + 2>>, b };\n}",
        "fn f() {\n    ^match x { A => <<1>>, B => 2 }\n}",
        "mod m { fn f() {\n    loop { }\n    ^return g::<A, B>(|| <<(a, b)>>);\n} }",
    ] {
        check(text, "", line);
    }
    check("fn f() { ^<<a>> }", "", " ");
    check("fn f() {\r\n  ^g(<<a>>);\r\n}\r\n", "", "\r\n  ");
    check(
        "fn f() {\n    if a {\n        ^<<b>>\n    }\n}",
        "",
        "\n        ",
    );
    check("fn f() { g(|| {\r\n  a; ^<<b>>; c }) }", "", " ");
}

// Where no whitespace stands before the statement, the editor puts it.
#[test]
fn whitespace_that_the_editor_puts() {
    check("fn f() {^<<a>>}", "\n    ", " ");
    check("fn f() {\n    if a {^<<b>>}\n}", "\n        ", " ");
    check("fn f() {a;^<<b>>;}", " ", " ");
    check("fn f() {\n    a; /* c */^<<b>>;\n}", " ", " ");
}

#[test]
fn what_is_no_expression_of_a_block() {
    let source = "fn f() {\n    let x = g(a + b);\n    c;\n}\nconst C: u8 = 1 + 2;\n";
    let at = |text: &str| {
        let start = source.find(text).unwrap();
        start..start + text.len()
    };
    for range in [
        at("a + "),
        at("+ b"),
        at("+"),
        at(" g(a + b)"),
        at(" "),
        at("let x"),
        at("g(a + b);"),
        at("a + b)"),
        at("(a + b"),
        at("("),
        at("c;"),
        at(";\n    c"),
        at("1 + 2"),
        at("fn f"),
        0..0,
        9..9,
        0..source.len(),
        0..1000,
    ] {
        assert!(extracted(source, range.clone(), "x").is_err(), "{range:?}");
    }
    for name in ["", "1", "a b", "let", "_"] {
        assert!(extracted(source, at("a + b"), name).is_err(), "{name}");
    }
    assert!(extracted("fn f() { \"é\" }", 10..11, "x").is_err());
}

#[test]
fn texts_come_back() {
    for file in [
        "src/answer.rs",
        "src/script.rs",
        "tests/builder.rs",
        "../../examples/rename.rs",
    ] {
        let path = PathBuf::from(env!("CARGO_MANIFEST_DIR")).join(file);
        let source = std::fs::read_to_string(&path).unwrap();
        assert_eq!(parsed(&source).text(), source, "{file}");
    }
    for source in ["", "}", "{", "a}b{c", "( ] ;", " "] {
        assert_eq!(parsed(source).text(), source);
    }
}
