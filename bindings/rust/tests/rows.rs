//! Each script of the folder SYNED_ROWS, which bindings/scripts.py fills, has the status, the answer and the sentence
//! that the program `syned` gave; on 8 threads at a time, each over all scripts. Those in its folder `wide` are of the
//! wide dialect.
#![forbid(unsafe_code)]

use std::path::{Path, PathBuf};
use std::{env, fs, thread};
use syned::{edit_for, explain_for, run_for, Dialect, Edit, Error, Script, Status, Tree};

const THREADS: usize = 8;

#[derive(Clone)]
struct Row {
    dialect: Dialect,
    script: Vec<u8>,
    answer: Vec<u8>,
    said: String,
    status: String,
}

fn read(folder: &Path, number: usize, ending: &str) -> Vec<u8> {
    let path = folder.join(format!("{number}.{ending}"));
    fs::read(&path).unwrap_or_else(|error| panic!("{}: {error}", path.display()))
}

fn read_text(folder: &Path, number: usize, ending: &str) -> String {
    String::from_utf8(read(folder, number, ending)).expect("a text")
}

fn rows(dialect: Dialect, folder: &Path) -> Vec<Row> {
    let files = fs::read_dir(folder).expect("SYNED_ROWS names no folder");
    let paths = files.map(|file| file.expect("a file").path());
    let scripts = paths.filter(|path| path.extension().is_some_and(|ending| ending == "script"));
    let rows: Vec<Row> = (0..scripts.count())
        .map(|number| Row {
            dialect,
            script: read(folder, number, "script"),
            answer: read(folder, number, "answer"),
            said: read_text(folder, number, "said"),
            status: read_text(folder, number, "status"),
        })
        .collect();
    assert!(!rows.is_empty(), "SYNED_ROWS has no scripts");
    rows
}

fn check(number: usize, row: &Row) {
    let (status, answer) = run_for(row.dialect, &row.script);
    assert_eq!(
        status.code().to_string(),
        row.status.trim_end(),
        "{number}.status"
    );
    assert_eq!(answer, row.answer, "{number}.answer");
    let said = explain_for(row.dialect, &row.script);
    assert_eq!(said.is_none(), status == Status::Done, "{number}.said");
    assert_eq!(said.unwrap_or_default(), row.said, "{number}.said");
    check_read(number, row, status);
}

// The answer, read, says the same.
fn check_read(number: usize, row: &Row, status: Status) {
    let answer = String::from_utf8_lossy(&row.answer);
    let first = answer.lines().next().unwrap_or_default();
    match edit_for(row.dialect, &row.script) {
        Ok(edit) => {
            assert_eq!(status, Status::Done, "{number}");
            assert_eq!(written(&edit), answer, "{number}.answer");
        }
        Err(Error::Refused {
            refusal,
            lines,
            sentence,
        }) => {
            // Each is a line of the script, which may lack an end.
            let count = row.script.split(|byte| *byte == b'\n').count();
            assert_eq!(lines.len(), sentence.matches("line ").count(), "{number}");
            assert!(
                lines.iter().all(|line| (1..=count).contains(line)),
                "{number}"
            );
            assert_eq!(
                (status, &sentence),
                (Status::Refused, &row.said),
                "{number}"
            );
            let name = first.split(' ').nth(1).expect("a name");
            assert!(format!("{refusal:?}").starts_with(name), "{number}.answer");
        }
        Err(Error::BadScript { line, sentence }) => {
            assert_eq!(
                (status, &sentence),
                (Status::BadScript, &row.said),
                "{number}"
            );
            assert_eq!(format!("bad script line {line}"), first, "{number}.answer");
        }
        Err(error) => panic!("{number}: {error}"),
    }
}

// An answer that was read, written again.
fn written(edit: &Edit) -> String {
    let mut out = format!(
        "text {}\nchanged{}\n",
        quoted(&edit.text),
        paths(edit, &edit.changed)
    );
    for note in &edit.notes {
        out += &format!("note {}{}\n", note.word, paths(edit, &note.paths));
    }
    for text_edit in &edit.edits {
        let range = &text_edit.range;
        out += &format!(
            "edit {} {} {}\n",
            range.start,
            range.end,
            quoted(&text_edit.text)
        );
    }
    if let Some(tree) = &edit.tree {
        out += &format!("tree {}\n", expression(tree));
    }
    out
}

fn quoted(text: &str) -> String {
    let mut text = text.replace('\\', "\\\\");
    for (plain, escaped) in [("\n", "\\n"), ("\r", "\\r"), ("\t", "\\t"), ("\"", "\\\"")] {
        text = text.replace(plain, escaped);
    }
    format!("\"{text}\"")
}

// As a script has it: its second line makes the tree.
fn expression(tree: &Tree) -> String {
    let mut script = Script::new();
    script.tree(tree).expect("a tree");
    let line = script.text().lines().nth(1).expect("a line");
    line.strip_prefix("tree t0 ").expect("a tree").to_string()
}

fn paths(edit: &Edit, paths: &[Vec<usize>]) -> String {
    let place = |path: &Vec<usize>| match edit.ranges.get(path) {
        Some(range) => format!(" {}@{}..{}", way(path), range.start, range.end),
        None => format!(" {}", way(path)),
    };
    paths.iter().map(place).collect()
}

fn way(path: &[usize]) -> String {
    let steps: Vec<String> = path.iter().map(usize::to_string).collect();
    if steps.is_empty() {
        ".".to_string()
    } else {
        steps.join("/")
    }
}

#[test]
fn all_answers_are_those_of_the_program() {
    let folder = PathBuf::from(env::var_os("SYNED_ROWS").expect("SYNED_ROWS names no folder"));
    let rows = [
        rows(Dialect::Syned, &folder),
        rows(Dialect::Wide, &folder.join("wide")),
    ]
    .concat();
    thread::scope(|scope| {
        for _ in 0..THREADS {
            scope.spawn(|| {
                for (number, row) in rows.iter().enumerate() {
                    check(number, row);
                }
            });
        }
    });
}
