//! Scripts of calls by chance, the same ones in each run: no script of the builder is bad, and what the builder leaves
//! out would have been. The edits of the old text give the new one, and its tree has what the paths and ranges say.
#![forbid(unsafe_code)]

use syned::{
    apply, edit_for, Dialect, Edit, Editing, Element, Error, Kind, Position, Script, Tree,
};

struct Chance(u64);

impl Chance {
    // A number below `limit`: the high bits of Knuth's linear congruential generator.
    fn below(&mut self, limit: usize) -> usize {
        self.0 = self
            .0
            .wrapping_mul(6_364_136_223_846_793_005)
            .wrapping_add(1_442_695_040_888_963_407);
        (self.0 >> 33) as usize % limit
    }

    fn of<T: Clone>(&mut self, all: &[T]) -> T {
        all[self.below(all.len())].clone()
    }

    fn text(&mut self) -> String {
        const PARTS: [&str; 20] = [
            "    ", "\n    ", "a", " ", "\n", "\r", "\t", "\"", "\\", "\\n", "(", ")", "/", "#",
            "\0", "é", "\u{85}", "\u{2028}", "𝄞", "",
        ];
        (0..self.below(4)).map(|_| self.of(&PARTS)).collect()
    }

    fn tree(&mut self, depth: usize) -> Tree {
        let mut tree = Tree::new(self.of(&Kind::ALL));
        for _ in 0..self.below(4) {
            if depth > 0 && self.below(2) == 0 {
                tree.push_node(self.tree(depth - 1));
            } else {
                let kind = self.of(&Kind::ALL);
                let kind = self.of(&[kind, Kind::Whitespace]);
                tree.push_token(kind, self.text());
            }
        }
        tree
    }

    // Mostly an element of one of the trees.
    fn element(&mut self, roots: &[Element]) -> Element {
        let mut element = self.of(roots);
        for _ in 0..self.below(4) {
            element = element.child(self.below(3));
        }
        element
    }

    fn elements(&mut self, roots: &[Element]) -> Vec<Element> {
        (0..self.below(3)).map(|_| self.element(roots)).collect()
    }

    // The line of a call by chance, spelled here, and what the call gave.
    fn call(&mut self, editing: &mut Editing, roots: &[Element]) -> (String, Result<usize, Error>) {
        let (a, b, c) = (
            self.element(roots),
            self.element(roots),
            self.element(roots),
        );
        let many = self.elements(roots);
        let all: String = many.iter().map(|element| format!(" {element}")).collect();
        match self.below(11) {
            0 => (format!("map {a} {b} {c}"), editing.map(&a, &b, &c)),
            1 => (
                format!("insert first {a} {b}"),
                editing.insert(Position::First(&a), &b),
            ),
            2 => (
                format!("insert last {a}{all}"),
                editing.insert_all(Position::Last(&a), &many),
            ),
            3 => (
                format!("insert before {a}{all}"),
                editing.insert_all(Position::Before(&a), &many),
            ),
            4 => (
                format!("insert after {a} {b}"),
                editing.insert(Position::After(&a), &b),
            ),
            5 => (format!("delete {a}"), editing.delete(&a)),
            6 => (
                format!("replace {a}{all}"),
                editing.replace_with_many(&a, &many),
            ),
            7 => (
                format!("range {a} {b}{all}"),
                editing.replace_all(&a, &b, &many),
            ),
            8 => (
                format!("spaced after {a} {b}"),
                editing.insert_with_whitespace(Position::After(&a), &b),
            ),
            9 => (
                format!("spaced first {a}{all}"),
                editing.insert_all_with_whitespace(Position::First(&a), &many),
            ),
            _ => {
                let word = editing.word();
                (format!("note {} {a}", word.name()), editing.note(word, &a))
            }
        }
    }
}

// The text of a script with this line and an end.
fn with_line(script: &str, line: &str) -> String {
    format!("{script}{line}\nfinish\n")
}

// The edits make the new text of the old one, and each path has a range, which is that of its element in the new tree.
fn assert_whole(old: &str, edit: &Edit) {
    assert_eq!(apply(&edit.edits, old).as_ref(), Some(&edit.text));
    let noted = edit.notes.iter().flat_map(|note| &note.paths);
    for path in edit.changed.iter().chain(noted) {
        assert!(edit.ranges.contains_key(path), "{path:?}");
    }
    let Some(tree) = &edit.tree else { return };
    assert_eq!(tree.text(), edit.text);
    let root = Script::new().tree(tree).unwrap();
    for (path, range) in &edit.ranges {
        let element = root.at(path);
        assert_eq!(element.range().as_ref(), Some(range));
        assert_eq!(element.text().as_deref(), edit.text.get(range.clone()));
    }
}

// A script whose tree was made by `indent` and `dedent` has the texts that the builder knows.
#[test]
fn trees_further_in_and_out_are_those_of_the_library() {
    let mut chance = Chance(2);
    let mut other = 0;
    for _ in 0..300 {
        let mut script = Script::new();
        let first = script.tree(&chance.tree(3)).unwrap();
        let mut tree = first.clone();
        for _ in 0..3 {
            tree = match chance.below(2) {
                0 => script.indent(&tree).unwrap(),
                _ => script.dedent(&tree).unwrap(),
            };
        }
        let editing = script.edit(&tree).unwrap();
        let edit = editing.finish_with_tree().unwrap();
        assert_eq!(Some(&edit.text), tree.text().as_ref());
        assert_whole(&edit.text, &edit);
        other += usize::from(tree.text() != first.text());
    }
    assert!(other > 10, "{other}");
}

#[test]
fn no_script_is_bad_and_what_is_left_out_would_be() {
    let mut chance = Chance(1);
    let (mut done, mut refused, mut left_out) = (0, 0, 0);
    for _ in 0..3000 {
        let mut script = Script::new();
        let mut roots = vec![script.tree(&chance.tree(3)).unwrap()];
        let mut editing = script.edit(&roots[0]).unwrap();
        roots.push(editing.root());
        for _ in 0..chance.below(3) {
            roots.push(editing.tree(&chance.tree(2)).unwrap());
        }
        let of = chance.of(&roots);
        roots.extend(match chance.below(4) {
            0 => Some(editing.indent(&of).unwrap()),
            1 => Some(editing.dedent(&of).unwrap()),
            _ => None,
        });
        for _ in 0..chance.below(5) {
            let before = editing.text().to_string();
            let (line, result) = chance.call(&mut editing, &roots);
            match result {
                Ok(number) => {
                    assert_eq!(editing.text(), format!("{before}{line}\n"));
                    assert_eq!(number, before.lines().count() + 1);
                    // Taken back, it is an empty line, and one that is recorded again stands behind that.
                    if chance.below(8) == 0 {
                        editing.take_back(number).unwrap();
                        assert_eq!(editing.text(), format!("{before}\n"));
                        assert_eq!(editing.take_back(number), Err(Error::NoLine(number)));
                    }
                }
                Err(error) => {
                    left_out += 1;
                    assert_eq!(editing.text(), before);
                    // Unless a line before it is refused.
                    let number = before.lines().count() + 1;
                    match edit_for(Dialect::Wide, with_line(&before, &line).as_bytes()) {
                        Err(Error::BadScript { line, .. }) => assert_eq!(line, number, "{before}"),
                        Err(Error::Refused { .. }) => {}
                        answer => panic!("{before}{line}: {error}, {answer:?}"),
                    }
                }
            }
        }
        let text = editing.text().to_string();
        let checked = editing.check();
        assert_eq!(editing.text(), text);
        let old = editing.root().text().unwrap();
        let finished = match chance.below(2) {
            0 => editing.finish(),
            _ => editing.finish_with_tree(),
        };
        assert_eq!(checked.err(), finished.as_ref().err().cloned());
        match finished {
            Ok(edit) => {
                assert_whole(&old, &edit);
                done += 1;
            }
            Err(Error::Refused { .. }) => refused += 1,
            Err(error) => panic!("{text}{error}"),
        }
    }
    assert!(
        done > 500 && refused > 300 && left_out > 500,
        "{done} {refused} {left_out}"
    );
}
