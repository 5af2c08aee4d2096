//! The builder: one test for each word of a line, for each refusal, and for each error of its own. All answers were
//! worked out by hand.
#![forbid(unsafe_code)]

use std::fs;
use std::path::Path;
use syned::{
    apply, edit, Edit, Editing, Element, Error, Kind, Position, Refusal, Script, TextEdit, Tree,
};

fn number(text: &str) -> Tree {
    Tree::new(Kind::Literal).token(Kind::IntNumber, text)
}

// `(1, 2)`: its children are `(`, the node `1`, `,`, a space, the node `2` and `)`.
fn list() -> Tree {
    Tree::new(Kind::ArgList)
        .token(Kind::LParen, "(")
        .node(number("1"))
        .token(Kind::Comma, ",")
        .token(Kind::Whitespace, " ")
        .node(number("2"))
        .token(Kind::RParen, ")")
}

// An edit of `(1, 2)`, and its root.
fn list_edit() -> (Editing, Element) {
    edit_of(&list())
}

fn edit_of(tree: &Tree) -> (Editing, Element) {
    let mut script = Script::new();
    let file = script.tree(tree).unwrap();
    let editing = script.edit(&file).unwrap();
    let root = editing.root();
    (editing, root)
}

// A new token with this text.
fn name(editing: &mut Editing, text: &str) -> Element {
    let tree = Tree::new(Kind::SourceFile).token(Kind::Ident, text);
    editing.tree(&tree).unwrap().child(0)
}

#[track_caller]
fn assert_edit(edit: Result<Edit, Error>, text: &str, changed: &[&[usize]]) {
    let edit = edit.unwrap();
    assert_eq!(edit.text, text);
    assert_eq!(edit.changed, changed);
}

#[track_caller]
fn assert_refused(edit: Result<Edit, Error>, wanted: Refusal, said: &str) {
    let error = edit.unwrap_err();
    assert_eq!(error.to_string(), said);
    assert!(matches!(error, Error::Refused { refusal, .. } if refusal == wanted));
}

// Words of lines

#[test]
fn tree_escapes_texts() {
    let text = "\n\r\t\"\\é \u{2028}\0'";
    let (editing, _) = edit_of(&Tree::new(Kind::Attr).token(Kind::Comment, text));
    let wanted = "\ntree t0 (ATTR COMMENT\"\\n\\r\\t\\\"\\\\é \u{2028}\0'\")\nedit t1 t0\n";
    assert_eq!(editing.text(), wanted);
    assert_edit(editing.finish(), text, &[]);
}

#[test]
fn tree_of_nothing() {
    assert_edit(edit_of(&Tree::new(Kind::Attr)).0.finish(), "", &[]);
    let (editing, root) = edit_of(&Tree::new(Kind::Attr).token(Kind::Comma, ""));
    assert_eq!(root, editing.root());
    assert_edit(editing.finish(), "", &[]);
}

#[test]
fn edit_of_a_node_inside_is_one_of_a_copy() {
    let mut script = Script::new();
    let file = script.tree(&list()).unwrap();
    let mut editing = script.edit(&file.child(4)).unwrap();
    let root = editing.root();
    let x = name(&mut editing, "x");
    editing
        .insert(Position::Before(&root.child(0)), &x)
        .unwrap();
    assert_edit(editing.finish(), "x2", &[&[0]]);
}

#[test]
fn map_lets_changes_move() {
    assert_edit(rename_in_block().0.finish(), "{total+total};", &[&[0]]);
}

// `a+a;`, where `a+a` is put into a block; both names are replaced before that.
fn rename_in_block() -> (Editing, Element) {
    let name = |text: &str| Tree::new(Kind::NameRef).token(Kind::Ident, text);
    let sum = Tree::new(Kind::BinExpr)
        .node(name("a"))
        .token(Kind::Plus, "+")
        .node(name("a"));
    let block = Tree::new(Kind::BlockExpr)
        .token(Kind::LCurly, "{")
        .node(sum.clone())
        .token(Kind::RCurly, "}");
    let (mut editing, root) = edit_of(
        &Tree::new(Kind::ExprStmt)
            .node(sum)
            .token(Kind::Semicolon, ";"),
    );
    let new = editing.tree(&name("total")).unwrap();
    let block = editing.tree(&block).unwrap();
    editing
        .map(&block, &root.child(0), &block.child(1))
        .unwrap();
    editing.replace(&root.at(&[0, 0]), &new).unwrap();
    editing.replace(&root.at(&[0, 2]), &new).unwrap();
    editing.replace(&root.child(0), &block).unwrap();
    (editing, root)
}

#[test]
fn insert_at_each_position() {
    let (mut editing, root) = list_edit();
    let [x, y, z, w] = ["x", "y", "z", "w"].map(|text| name(&mut editing, text));
    editing.insert(Position::First(&root.child(1)), &x).unwrap();
    editing.insert(Position::Last(&root.child(1)), &y).unwrap();
    editing
        .insert(Position::Before(&root.child(2)), &z)
        .unwrap();
    editing.insert(Position::After(&root.child(2)), &w).unwrap();
    assert_edit(
        editing.finish(),
        "(x1yz,w 2)",
        &[&[1, 0], &[1, 2], &[2], &[4]],
    );
}

#[test]
fn insert_of_several_and_of_none() {
    let (mut editing, root) = list_edit();
    let elements = ["x", "y"].map(|text| name(&mut editing, text));
    editing
        .insert_all(Position::After(&root.child(0)), &elements)
        .unwrap();
    editing.insert_all(Position::First(&root), &[]).unwrap();
    assert_edit(editing.finish(), "(xy1, 2)", &[&[1], &[2]]);
}

#[test]
fn insert_with_whitespace_puts_spaces() {
    let (mut editing, root) = list_edit();
    let x = name(&mut editing, "x");
    editing
        .insert_with_whitespace(Position::After(&root.child(2)), &x)
        .unwrap();
    editing
        .insert_all_with_whitespace(Position::First(&root.child(4)), &[x, root.child(1)])
        .unwrap();
    editing
        .insert_all_with_whitespace(Position::Last(&root), &[])
        .unwrap();
    let script = editing.text().lines().skip(4).collect::<Vec<_>>();
    let wanted = [
        "spaced after t1/2 t2/0",
        "spaced first t1/4 t2/0 t1/1",
        "spaced last t1",
    ];
    assert_eq!(script, wanted);
    // A space stands after the first `x` already.
    assert_edit(
        editing.finish(),
        "(1, x x1 2)",
        &[&[3], &[4], &[6, 0], &[6, 1], &[6, 2]],
    );
}

#[test]
fn indent_and_dedent_make_trees() {
    let inner = Tree::new(Kind::StmtList)
        .token(Kind::Whitespace, "\n  \n    ")
        .token(Kind::Comment, "/*\n    */")
        .token(Kind::Whitespace, " ");
    let block = Tree::new(Kind::BlockExpr)
        .node(inner)
        .node(number("1"))
        .token(Kind::Whitespace, "\n    ");
    let mut script = Script::new();
    let block = script.tree(&block).unwrap();
    let further = script.indent(&block.child(0)).unwrap();
    assert_eq!(further.text().as_deref(), Some("\n  \n        /*\n    */ "));
    let mut editing = script.edit(&further).unwrap();
    let back = editing.dedent(&further).unwrap();
    assert_eq!(back.text(), block.child(0).text());
    let out = editing.dedent(&block).unwrap();
    assert_eq!(out.text().as_deref(), Some("\n  \n/*\n    */ 1\n"));
    let lines = editing.text().lines().skip(2).collect::<Vec<_>>();
    let wanted = [
        "indent t1 t0/0",
        "edit t2 t1",
        "dedent t3 t1",
        "dedent t4 t0",
    ];
    assert_eq!(lines, wanted);
    for line in 3..=6 {
        assert_eq!(editing.take_back(line), Err(Error::NoLine(line)));
    }
    editing
        .replace_with_many(&editing.root().child(0), &[out, back])
        .unwrap();
    assert_edit(
        editing.finish(),
        "\n  \n/*\n    */ 1\n\n  \n    /*\n    */ /*\n    */ ",
        &[&[0], &[1]],
    );
}

#[test]
fn finish_tells_edits_ranges_and_the_tree() {
    let (mut editing, root) = list_edit();
    let x = name(&mut editing, "é\n");
    let (two, whole) = (editing.word(), editing.word());
    editing.note(two, &root.at(&[4, 0])).unwrap();
    editing.note(whole, &root).unwrap();
    editing.replace(&root.child(1), &x).unwrap();
    editing.delete(&root.child(5)).unwrap();
    let ordered = editing.order(&[1, 0]).unwrap();
    let edit = ordered.finish_with_tree().unwrap();
    let edits = [(1..2, "é\n"), (5..6, "")].map(|(range, text)| TextEdit {
        range,
        text: text.to_string(),
    });
    assert_eq!(edit.edits, edits);
    assert_eq!(apply(&edit.edits, "(1, 2)"), Some(edit.text.clone()));
    assert_eq!(edit.ranges[&edit.changed[0]], 1..4);
    assert_eq!(edit.ranges[&edit.paths_of(two)[0]], 6..7);
    assert_eq!(edit.ranges[&edit.paths_of(whole)[0]], 0..7);
    let tree = Tree::new(Kind::ArgList)
        .token(Kind::LParen, "(")
        .token(Kind::Ident, "é\n")
        .token(Kind::Comma, ",")
        .token(Kind::Whitespace, " ")
        .node(number("2"));
    assert_eq!(edit.tree, Some(tree));
    assert_eq!(list_edit().0.finish().unwrap().tree, None);
    assert_eq!(list_edit().0.finish_with_tree().unwrap().tree, Some(list()));
}

#[test]
fn edits_that_are_none_of_a_text() {
    let apply = |ranges: &[(usize, usize)], text| {
        let edit = |&(start, end): &(usize, usize)| TextEdit {
            range: start..end,
            text: "x".to_string(),
        };
        let edits = ranges.iter().map(edit).collect::<Vec<_>>();
        apply(&edits, text)
    };
    for ranges in [
        &[(2, 0)][..],
        &[(0, 4)],
        &[(4, 4)],
        &[(0, 2), (0, 2)],
        &[(2, 3), (0, 2)],
        &[(1, 2)],
        &[(0, 1)],
    ] {
        assert_eq!(apply(ranges, "éa"), None, "{ranges:?}");
    }
    assert_eq!(apply(&[], "").as_deref(), Some(""));
    let several = apply(&[(1, 1), (1, 1), (1, 2)], "ab");
    assert_eq!(several.as_deref(), Some("axxx"));
}

#[test]
fn delete_takes_an_element_away() {
    let (mut editing, root) = list_edit();
    editing.delete(&root.child(4)).unwrap();
    assert_edit(editing.finish(), "(1, )", &[]);
}

#[test]
fn replace_by_one_by_several_and_by_none() {
    let (mut editing, root) = list_edit();
    let [x, y] = ["x", "y"].map(|text| name(&mut editing, text));
    editing.replace(&root.child(4), &x).unwrap();
    editing
        .replace_with_many(&root.child(1), &[y.clone(), x])
        .unwrap();
    editing.replace_with_many(&root.child(3), &[]).unwrap();
    assert_edit(editing.finish(), "(yx,x)", &[&[1], &[2], &[4]]);
}

#[test]
fn replace_of_the_root_by_a_node() {
    let (mut editing, root) = list_edit();
    let seven = editing.tree(&number("7")).unwrap();
    editing.replace(&root, &seven).unwrap();
    assert_edit(editing.finish(), "7", &[&[]]);
}

#[test]
fn range_deletes_or_replaces_siblings() {
    let (mut editing, root) = list_edit();
    editing.delete_all(&root.child(1), &root.child(3)).unwrap();
    assert_edit(editing.finish(), "(2)", &[]);

    let (mut editing, root) = list_edit();
    let x = name(&mut editing, "x");
    editing
        .replace_all(&root.child(1), &root.child(3), &[x])
        .unwrap();
    assert_edit(editing.finish(), "(x2)", &[&[1]]);
}

#[test]
fn remove_takes_a_separator_along() {
    let (mut editing, root) = list_edit();
    editing.remove(&root.child(1), Kind::Comma).unwrap();
    assert_edit(editing.finish(), "(2)", &[]);

    let (mut editing, root) = list_edit();
    editing.remove(&root.child(4), Kind::Comma).unwrap();
    assert_edit(editing.finish(), "(1)", &[]);

    let (mut editing, root) = list_edit();
    editing.remove(&root.child(4), Kind::Semicolon).unwrap();
    assert_edit(editing.finish(), "(1, )", &[]);
}

#[test]
fn notes_say_where_elements_are() {
    let (mut editing, root) = list_edit();
    let x = name(&mut editing, "x");
    let [moved, unused, gone, both] = [(); 4].map(|()| editing.word());
    editing.note(both, &root.child(5)).unwrap();
    editing.note(both, &root).unwrap();
    editing.note(moved, &root.at(&[4, 0])).unwrap();
    editing.note(gone, &root.child(1)).unwrap();
    editing.delete(&root.child(1)).unwrap();
    editing
        .insert_all(Position::After(&root.child(2)), &[x.clone(), x.clone()])
        .unwrap();
    editing.note(moved, &x).unwrap();
    let edit = editing.finish().unwrap();
    assert_eq!(edit.text, "(,xx 2)");
    assert_eq!(edit.paths_of(both), [vec![6], vec![]]);
    assert_eq!(edit.paths_of(moved), [vec![5, 0], vec![2], vec![3]]);
    assert_eq!(edit.paths_of(gone), [[0usize; 0]; 0]);
    assert_eq!(edit.paths_of(unused), [[0usize; 0]; 0]);
    let words = edit.notes.iter().map(|note| note.word.clone());
    assert_eq!(
        words.collect::<Vec<_>>(),
        [both.name(), moved.name(), gone.name()]
    );
}

#[test]
fn order_that_is_allowed() {
    let (mut editing, root) = list_edit();
    let [x, y] = ["x", "y"].map(|text| name(&mut editing, text));
    editing.insert(Position::After(&root.child(0)), &x).unwrap();
    editing.insert(Position::After(&root.child(0)), &y).unwrap();
    editing.delete(&root.child(4)).unwrap();
    let ordered = editing.order(&[2, 1, 0]).unwrap();
    assert!(ordered.text().ends_with("\norder 2 1 0\n"));
    assert_edit(ordered.finish(), "(xy1, )", &[&[1], &[2]]);
}

#[test]
fn finish_without_changes() {
    assert_edit(list_edit().0.finish(), "(1, 2)", &[]);
    assert_edit(list_edit().0.order(&[]).unwrap().finish(), "(1, 2)", &[]);
}

#[test]
fn finish_with_an_answer_much_longer_than_the_script() {
    let (mut editing, root) = list_edit();
    let long = name(&mut editing, &"é\n".repeat(1000));
    editing
        .insert_all(Position::First(&root), &vec![long; 1000])
        .unwrap();
    let edit = editing.finish().unwrap();
    assert_eq!(edit.text, "é\n".repeat(1_000_000) + "(1, 2)");
    assert_eq!(edit.changed.len(), 1000);
}

// Refusals

#[test]
fn foreign() {
    let (mut editing, _) = list_edit();
    let x = name(&mut editing, "x");
    editing.delete(&x).unwrap();
    assert_refused(
        editing.finish(),
        Refusal::Foreign,
        "refused Foreign: the position or the target is not in the edited tree; begin at the root that is edited: \
         line 5",
    );
}

#[test]
fn bad_range() {
    let (mut editing, root) = list_edit();
    editing.delete_all(&root.child(4), &root.child(1)).unwrap();
    assert_refused(
        editing.finish(),
        Refusal::BadRange,
        "refused BadRange: the ends of the range are not siblings in this order; give siblings, and not the last one first: \
         line 4",
    );
}

#[test]
fn deletes_root() {
    let (mut editing, root) = list_edit();
    editing.delete(&root).unwrap();
    assert_refused(
        editing.finish(),
        Refusal::DeletesRoot,
        "refused DeletesRoot: the root of the edited tree cannot be deleted; delete what is in it, or replace it by a node: \
         line 4",
    );
}

#[test]
fn root_replacement() {
    let (mut editing, root) = list_edit();
    let x = name(&mut editing, "x");
    editing.replace(&root, &x).unwrap();
    assert_refused(
        editing.finish(),
        Refusal::RootReplacement,
        "refused RootReplacement: the root of the edited tree can be replaced by one node only; give one node: \
         line 5",
    );
}

// An edit of `(1, 2)`, its root, and the tree of `(7)`.
fn two_trees() -> (Editing, Element, Element) {
    let (mut editing, root) = list_edit();
    let tree = Tree::new(Kind::TupleExpr)
        .token(Kind::LParen, "(")
        .node(number("7"))
        .token(Kind::RParen, ")");
    let tree = editing.tree(&tree).unwrap();
    (editing, root, tree)
}

#[test]
fn not_a_child() {
    let (mut editing, root, tree) = two_trees();
    editing.map(&tree, &root.child(1), &tree).unwrap();
    assert_refused(
        editing.finish(),
        Refusal::NotAChild,
        "refused NotAChild: the copy is not a child of the given parent; give the node that the copy is a child of: \
         line 5",
    );
}

#[test]
fn not_younger() {
    let (mut editing, root, tree) = two_trees();
    editing.map(&root, &tree.child(1), &root.child(1)).unwrap();
    assert_refused(
        editing.finish(),
        Refusal::NotYounger,
        "refused NotYounger: the tree of the copy is not newer than that of the node; make the tree of the copy after that of the node: \
         line 5",
    );
}

#[test]
fn other_shape() {
    let (mut editing, root, tree) = two_trees();
    editing.map(&tree, &root, &tree.child(1)).unwrap();
    assert_refused(
        editing.finish(),
        Refusal::OtherShape,
        "refused OtherShape: the copy differs from the node in more than the texts of its tokens; map nodes of one shape: \
         line 5",
    );
}

#[test]
fn intersecting() {
    let (mut editing, root) = list_edit();
    let x = name(&mut editing, "x");
    editing.replace(&root.child(1), &x).unwrap();
    editing.delete(&root.child(5)).unwrap();
    editing.delete_all(&root.child(1), &root.child(4)).unwrap();
    assert_refused(
        editing.finish(),
        Refusal::Intersecting {
            first: 0,
            second: 2,
        },
        "refused Intersecting 0 2: two changes replace or delete the same element; keep one of them: \
         changes 0 (line 5) and 2 (line 7)",
    );
}

#[test]
fn missing_mapping() {
    let (mut editing, root, tree) = two_trees();
    let seven = tree.child(1);
    editing.replace(&root, &tree).unwrap();
    editing.insert(Position::First(&root), &seven).unwrap();
    let error = editing.finish().unwrap_err();
    let said = error.to_string();
    assert!(said.starts_with("refused MissingMapping 1 0: "), "{said}");
    assert!(
        said.ends_with(": changes 1 (line 6) and 0 (line 5)"),
        "{said}"
    );
    let Error::Refused { refusal, lines, .. } = error else {
        panic!("{error}")
    };
    assert_eq!(
        refusal,
        Refusal::MissingMapping {
            change: 1,
            owner: 0
        }
    );
    assert_eq!(lines, [6, 5]);
}

#[track_caller]
fn assert_order_refused(editing: Editing, order: &[usize], wanted: Refusal) {
    let error = editing.order(order).unwrap().finish().unwrap_err();
    let Error::Refused {
        refusal, sentence, ..
    } = error
    else {
        panic!("{error}")
    };
    assert_eq!(refusal, wanted);
    assert!(
        sentence.starts_with(&format!("refused {wanted:?}: ")),
        "{sentence}"
    );
}

#[test]
fn not_each_once() {
    for order in [&[][..], &[0, 0], &[1]] {
        let (mut editing, root) = list_edit();
        editing.delete(&root.child(1)).unwrap();
        assert_order_refused(editing, order, Refusal::NotEachOnce);
    }
}

#[test]
fn owner_too_early() {
    assert_order_refused(rename_in_block().0, &[0, 2, 1], Refusal::OwnerTooEarly);
    let ordered = rename_in_block().0.order(&[1, 0, 2]).unwrap();
    assert_edit(ordered.finish(), "{total+total};", &[&[0]]);
}

#[test]
fn gap_out_of_order() {
    let (mut editing, root) = list_edit();
    let x = name(&mut editing, "x");
    editing.insert(Position::Last(&root), &x).unwrap();
    editing.insert(Position::After(&root.child(5)), &x).unwrap();
    assert_order_refused(editing, &[0, 1], Refusal::GapOutOfOrder);
}

#[test]
fn token_too_early() {
    let (mut editing, root) = list_edit();
    let x = name(&mut editing, "x");
    editing.delete(&root.child(2)).unwrap();
    editing.insert(Position::After(&root.child(2)), &x).unwrap();
    assert_order_refused(editing, &[0, 1], Refusal::TokenTooEarly);
}

#[test]
fn too_long() {
    // 8,600 times half a million bytes are some 5 million more than the largest text has.
    let (mut editing, root) = list_edit();
    let long = name(&mut editing, &"x".repeat(500_000));
    editing
        .insert_all(Position::First(&root), &vec![long; 8_600])
        .unwrap();
    let error = editing.finish().unwrap_err();
    assert!(
        matches!(
            error,
            Error::Refused {
                refusal: Refusal::TooLong,
                ..
            }
        ),
        "{error}"
    );
}

#[test]
fn a_refused_script_is_mended() {
    let (mut editing, root) = list_edit();
    let line = editing.delete(&root).unwrap();
    let before = editing.text().to_string();
    let refused = editing.check().unwrap_err();
    assert!(matches!(refused, Error::Refused { lines, .. } if lines == [line]));
    assert_eq!(editing.text(), before);
    editing.take_back(line).unwrap();
    assert_eq!(editing.check(), Ok(()));
    let next = editing.delete(&root.child(1)).unwrap();
    assert_eq!((line, next), (4, 5));
    for line in [0, 1, 2, 3, 4, 6, usize::MAX] {
        assert_eq!(editing.take_back(line), Err(Error::NoLine(line)));
    }
    assert_edit(editing.finish(), "(, 2)", &[]);
}

#[test]
fn elements_tell_what_they_are() {
    let (mut editing, root) = list_edit();
    assert_eq!(root.text().as_deref(), Some("(1, 2)"));
    let kinds: Vec<_> = root.children().map(|child| child.kind()).collect();
    let wanted = [
        Kind::LParen,
        Kind::Literal,
        Kind::Comma,
        Kind::Whitespace,
        Kind::Literal,
        Kind::RParen,
    ];
    assert_eq!(kinds, wanted.map(Some));
    let two = root.at(&[4, 0]);
    assert_eq!(
        (two.kind(), two.text().as_deref()),
        (Some(Kind::IntNumber), Some("2"))
    );
    assert_eq!(
        two.parent().and_then(|two| two.parent()),
        Some(root.clone())
    );
    assert_eq!((root.parent(), two.children().count()), (None, 0));
    assert_eq!(format!("{two:?}"), "Element(t1/4/0 Some(IntNumber))");
    let nowhere = two.child(0);
    assert_eq!(
        (nowhere.kind(), nowhere.text(), nowhere.children().count()),
        (None, None, 0)
    );
    // Other trees with the same children are others.
    let other = editing.tree(&list()).unwrap();
    assert_ne!(other.child(1), root.child(1));
    // The root of an inner node's copy has what is below that node.
    let mut script = Script::new();
    let file = script.tree(&list()).unwrap();
    let copy = script.edit(&file.child(4)).unwrap().root();
    assert_eq!((copy.text().as_deref(), copy.parent()), (Some("2"), None));
}

// Errors of the builder

#[test]
fn a_path_that_leads_nowhere() {
    let (mut editing, root) = list_edit();
    let before = editing.text().to_string();
    for path in [&[6][..], &[1, 1], &[0, 0], &[usize::MAX]] {
        let nowhere = root.at(path);
        let error = Err(Error::NoElement(path.to_vec()));
        assert_eq!(editing.delete(&nowhere), error);
        assert_eq!(editing.insert(Position::First(&nowhere), &root), error);
        assert_eq!(editing.insert(Position::After(&nowhere), &root), error);
        assert_eq!(editing.replace(&root, &nowhere), error);
        assert_eq!(editing.replace_all(&root, &nowhere, &[]), error);
        assert_eq!(editing.map(&root, &nowhere, &root), error);
        assert_eq!(editing.remove(&nowhere, Kind::Comma), error);
        let spaced = editing.insert_with_whitespace(Position::Last(&root), &nowhere);
        assert_eq!(spaced, error);
        for shifted in [editing.indent(&nowhere), editing.dedent(&nowhere)] {
            assert_eq!(shifted, Err(Error::NoElement(path.to_vec())));
        }
        let word = editing.word();
        assert_eq!(editing.note(word, &nowhere), error);
    }
    assert_eq!(editing.text(), before);
    assert_edit(editing.finish(), "(1, 2)", &[]);

    let mut script = Script::new();
    let file = script.tree(&list()).unwrap();
    let error = script.edit(&file.child(9)).unwrap_err();
    assert_eq!(error, Error::NoElement(vec![9]));
}

#[test]
fn a_token_for_a_node() {
    let (mut editing, root) = list_edit();
    let error = Err(Error::NotANode(vec![2]));
    let comma = root.child(2);
    assert_eq!(editing.insert(Position::First(&comma), &root), error);
    assert_eq!(editing.insert(Position::Last(&comma), &root), error);
    assert_eq!(editing.indent(&comma), Err(Error::NotANode(vec![2])));
    assert_eq!(editing.dedent(&comma), Err(Error::NotANode(vec![2])));
    for [parent, node, copy] in [
        [&comma, &root, &root],
        [&root, &comma, &root],
        [&root, &root, &comma],
    ] {
        assert_eq!(editing.map(parent, node, copy), error);
    }
    assert_edit(editing.finish(), "(1, 2)", &[]);

    let mut script = Script::new();
    let file = script.tree(&list()).unwrap();
    assert_eq!(
        script.edit(&file.child(2)).unwrap_err(),
        Error::NotANode(vec![2])
    );
}

#[test]
fn a_position_beside_a_root() {
    let (mut editing, root) = list_edit();
    let x = name(&mut editing, "x");
    assert_eq!(
        editing.insert(Position::Before(&root), &x),
        Err(Error::BesideRoot)
    );
    assert_eq!(
        editing.insert(Position::After(&root), &x),
        Err(Error::BesideRoot)
    );
    assert_eq!(
        editing.insert_with_whitespace(Position::After(&root), &x),
        Err(Error::BesideRoot)
    );
    assert_edit(editing.finish(), "(1, 2)", &[]);
}

#[test]
fn an_element_or_a_word_of_another_script() {
    let (mut editing, root) = list_edit();
    let (mut other, other_root) = list_edit();
    let word = other.word();
    assert_eq!(editing.delete(&other_root), Err(Error::OtherScript));
    assert_eq!(editing.indent(&other_root), Err(Error::OtherScript));
    assert_eq!(editing.note(word, &root), Err(Error::OtherScript));
    assert_eq!(Script::new().edit(&root).unwrap_err(), Error::OtherScript);
    assert_edit(editing.finish(), "(1, 2)", &[]);
}

#[test]
fn trees_of_any_depth_and_size() {
    let long = "x".repeat(2_000_000);
    let tree = (1..100_000).fold(
        Tree::new(Kind::Attr).token(Kind::Ident, &long),
        |tree, _| Tree::new(Kind::Attr).node(tree),
    );
    assert_eq!(tree, tree.clone());
    let (mut editing, root) = edit_of(&tree);
    assert_eq!(root.text().as_deref(), Some(&*long));
    let further = editing.indent(&root).unwrap();
    assert_eq!(further.text(), root.text());
    let edit = editing.finish_with_tree().unwrap();
    assert_eq!((edit.text, edit.tree), (long, Some(tree)));
}

#[test]
fn kinds_of_a_tree_s_own() {
    let kind = |name: &str| Kind::new(name).unwrap();
    let arguments = Tree::new(kind("arguments"))
        .token(Kind::Comma, ",")
        .token(kind("name"), "a");
    let call = Tree::new(kind("call"))
        .token(kind("name"), "f")
        .node(arguments);
    let (mut editing, root) = edit_of(&call);
    assert_eq!(root.child(0).kind(), Some(kind("name")));
    let new = Tree::new(kind("new")).token(kind("word"), "g");
    let new = editing.tree(&new).unwrap();
    editing.replace(&root.child(0), &new.child(0)).unwrap();
    editing.remove(&root.at(&[1, 1]), kind("comma")).unwrap();
    let first = editing.text().lines().next().unwrap();
    assert_eq!(first, "kinds call name arguments new word comma");
    assert_edit(editing.finish(), "g,", &[&[0]]);
    for name in ["", "+=", "a b", "é"] {
        assert_eq!(Kind::new(name), None);
    }
}

// What is written elsewhere

#[test]
fn bad_scripts_say_where() {
    let said = "line 1, column 8, at \"ATTR\": ";
    let Err(Error::BadScript { line, sentence }) = edit(b"tree A ATTR\n") else {
        panic!("it is no bad script")
    };
    assert_eq!(line, 1);
    assert!(sentence.starts_with(said), "{sentence}");
    for script in [&b"\xff"[..], &vec![b'\n'; 1_048_577]] {
        assert!(matches!(
            edit(script),
            Err(Error::BadScript { line: 0, .. })
        ));
    }
}

#[test]
fn kinds_are_those_of_the_docs() {
    let docs = Path::new(env!("CARGO_MANIFEST_DIR")).join("../../docs/SCRIPTS.md");
    let docs = fs::read_to_string(docs).unwrap();
    let kinds = &docs[docs.find("WHITESPACE COMMENT").unwrap()..];
    let kinds = kinds[..kinds.find("```").unwrap()].split_whitespace();
    let all = Kind::ALL.iter().map(Kind::name).collect::<Vec<_>>();
    assert_eq!(kinds.collect::<Vec<_>>(), all);
}

#[test]
fn every_kind_is_a_nodes_and_a_tokens() {
    let mut tree = Tree::new(Kind::SourceFile);
    for kind in Kind::ALL {
        let name = kind.to_string();
        tree.push_node(Tree::new(kind.clone()).token(kind, name));
    }
    assert_edit(
        edit_of(&tree).0.finish(),
        &Kind::ALL.iter().map(Kind::name).collect::<String>(),
        &[],
    );
}
