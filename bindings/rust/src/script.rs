//! Scripts that are built from trees and changes, so that nobody puts their text together by hand.
#![forbid(unsafe_code)]

use crate::answer::{edit_for, Edit};
use crate::error::Error;
use crate::kind::{Kind, OwnKind};
use crate::run::Dialect;
use crate::tree::{Child, Tree};
use std::collections::HashSet;
use std::fmt;
use std::hash::{Hash, Hasher};
use std::ops::Range;
use std::sync::atomic::{AtomicU64, Ordering};
use std::sync::Arc;

/// How many bytes a script may have.
pub const SCRIPT_LIMIT: usize = 4_294_967_295;

/// An element of a tree of a script: a node or a token. Whether there is one is looked at when it is used; of a path that
/// leads nowhere there is no kind, no text and no child. Two are equal if they stand at one place of one tree.
///
/// ```
/// use syned::{Error, Kind, Script, Tree};
///
/// let mut script = Script::new();
/// let file = script.tree(&Tree::new(Kind::Attr).node(Tree::new(Kind::Name).token(Kind::Ident, "a")))?;
/// let mut editing = script.edit(&file)?;
/// let ident = editing.root().at(&[0, 0]);
/// assert_eq!(ident, editing.root().child(0).child(0));
/// assert_eq!((ident.kind(), ident.text().as_deref()), (Some(Kind::Ident), Some("a")));
/// assert_eq!(ident.parent().map(|name| name.children().count()), Some(1));
/// assert_eq!(editing.delete(&ident.child(0)), Err(Error::NoElement(vec![0, 0, 0])));
/// editing.delete(&ident)?;
/// assert_eq!(editing.finish()?.text, "");
/// # Ok::<(), Error>(())
/// ```
#[derive(Clone)]
pub struct Element {
    script: u64,
    tree: usize,
    path: Vec<usize>,
    root: Arc<Child>,
}

impl Element {
    /// Its child of this number, counted from 0; tokens are children too.
    #[must_use]
    pub fn child(&self, number: usize) -> Element {
        self.at(&[number])
    }

    /// The element at the end of a path that begins here: the number of a child for each step down.
    #[must_use]
    pub fn at(&self, path: &[usize]) -> Element {
        let mut element = self.clone();
        element.path.extend_from_slice(path);
        element
    }

    /// The node above it; a root has none.
    pub fn parent(&self) -> Option<Element> {
        let mut parent = self.clone();
        parent.path.pop().map(|_| parent)
    }

    /// All its children, in order; a token has none.
    pub fn children(&self) -> impl Iterator<Item = Element> + '_ {
        let count = self.found().map_or(0, |found| found.children().len());
        (0..count).map(|number| self.child(number))
    }

    /// Its kind.
    pub fn kind(&self) -> Option<Kind> {
        self.found().map(|found| found.kind().clone())
    }

    /// The texts of all tokens below, one after the other, before the edit.
    pub fn text(&self) -> Option<String> {
        self.found().map(Child::text)
    }

    /// Where its text starts and ends in the text of the tree, in bytes.
    ///
    /// ```
    /// use syned::{Kind, Script, Tree};
    ///
    /// let tree = Tree::new(Kind::Name).token(Kind::Ident, "é").token(Kind::Ident, "b");
    /// let root = Script::new().tree(&tree)?;
    /// assert_eq!(root.child(1).range(), Some(2..3));
    /// assert_eq!(root.covering(0..2), Some(root.child(0)));
    /// assert_eq!((root.covering(1..3), root.covering(1..4)), (Some(root.clone()), None));
    /// # Ok::<(), syned::Error>(())
    /// ```
    pub fn range(&self) -> Option<Range<usize>> {
        let (mut here, mut start) = (&*self.root, 0);
        for &number in &self.path {
            let children = here.children();
            let next = children.get(number)?;
            start += children[..number].iter().map(Child::length).sum::<usize>();
            here = next;
        }
        Some(start..start + here.length())
    }

    /// The last element in document order, of this one and all below it, whose text contains these bytes of the text of
    /// the tree; where there are such bytes, it is the deepest. `None` if they are not within this one.
    pub fn covering(&self, range: Range<usize>) -> Option<Element> {
        let own = self.range()?;
        if range.start < own.start || range.end < range.start || own.end < range.end {
            return None;
        }
        let (mut found, mut start) = (self.clone(), own.start);
        while let Some((number, at)) = found.child_over(start, &range) {
            found.path.push(number);
            start = at;
        }
        Some(found)
    }

    // The last child whose text contains these bytes, with where it starts; this one starts at the first number.
    fn child_over(&self, start: usize, range: &Range<usize>) -> Option<(usize, usize)> {
        let (mut over, mut at) = (None, start);
        for (number, child) in self.found()?.children().iter().enumerate() {
            if at <= range.start && range.end <= at + child.length() {
                over = Some((number, at));
            }
            at += child.length();
        }
        over
    }

    fn found(&self) -> Option<&Child> {
        self.root.at(&self.path)
    }

    fn place(&self) -> (u64, usize, &[usize]) {
        (self.script, self.tree, &self.path)
    }
}

impl PartialEq for Element {
    fn eq(&self, other: &Element) -> bool {
        self.place() == other.place()
    }
}

impl Eq for Element {}

impl Hash for Element {
    fn hash<H: Hasher>(&self, state: &mut H) {
        self.place().hash(state);
    }
}

/// As its script refers to it, with its kind: no tree is printed.
impl fmt::Debug for Element {
    fn fmt(&self, f: &mut fmt::Formatter<'_>) -> fmt::Result {
        write!(f, "Element({self} {:?})", self.kind())
    }
}

/// How its script refers to it: the name of the tree, and each number on the way, as `t0/4/0`.
impl fmt::Display for Element {
    fn fmt(&self, f: &mut fmt::Formatter<'_>) -> fmt::Result {
        f.write_str(&name_of(self.tree))?;
        self.path.iter().try_for_each(|child| write!(f, "/{child}"))
    }
}

/// Where new elements are inserted.
#[derive(Clone, Copy, Debug)]
pub enum Position<'a> {
    /// Before the first child of a node.
    First(&'a Element),
    /// After the last child of a node.
    Last(&'a Element),
    /// Before an element that has a parent.
    Before(&'a Element),
    /// After an element that has a parent.
    After(&'a Element),
}

/// What notes are gathered under: [`Editing::word`] makes one.
#[derive(Clone, Copy, Debug, PartialEq, Eq, Hash)]
pub struct Word {
    script: u64,
    number: usize,
}

impl Word {
    /// How the script has it.
    pub fn name(&self) -> String {
        format!("w{}", self.number)
    }
}

/// A script of the wide dialect before its edit: it has trees only, and a first line for the kinds that have no name from
/// the start. The example of the [crate](crate) shows one whole.
#[derive(Debug)]
pub struct Script {
    lines: Lines,
}

/// A script with an edit: it takes changes, and more trees. A line that is an error is left out, and the script can go
/// on without it.
///
/// ```
/// use syned::{Kind, Position, Script, Tree};
///
/// // `x` comes before the comma, and two notes ask where both are.
/// let mut script = Script::new();
/// let file = script.tree(&Tree::new(Kind::ArgList).token(Kind::Comma, ","))?;
/// let mut editing = script.edit(&file)?;
/// let comma = editing.root().child(0);
/// let x = editing.tree(&Tree::new(Kind::NameRef).token(Kind::Ident, "x"))?;
/// let (old, new) = (editing.word(), editing.word());
/// editing.note(old, &comma)?;
/// editing.note(new, &x.child(0))?;
/// editing.insert(Position::Before(&comma), &x)?;
/// let edit = editing.finish()?;
/// assert_eq!(edit.text, "x,");
/// assert_eq!(edit.paths_of(old), [[1]]);
/// assert_eq!(edit.paths_of(new), [[0, 0]]);
/// # Ok::<(), syned::Error>(())
/// ```
#[derive(Debug)]
pub struct Editing {
    lines: Lines,
    root: Element,
    words: usize,
}

/// A script that also has an order, and only lacks its end.
#[derive(Debug)]
pub struct Ordered {
    lines: Lines,
}

impl Default for Script {
    fn default() -> Script {
        Script::new()
    }
}

impl Script {
    /// An empty script.
    pub fn new() -> Script {
        static NEXT: AtomicU64 = AtomicU64::new(0);
        Script {
            lines: Lines {
                script: NEXT.fetch_add(1, Ordering::Relaxed),
                text: "\n".to_string(),
                ends: vec![1],
                kinds: Vec::new(),
                roots: Vec::new(),
            },
        }
    }

    /// Makes a tree, and gives its root.
    ///
    /// Errors: [`Error::TooLong`].
    pub fn tree(&mut self, tree: &Tree) -> Result<Element, Error> {
        self.lines.tree(tree)
    }

    /// Makes a tree of a node, a level further in, and gives its root: each whitespace token with a newline ends with four
    /// spaces more.
    ///
    /// ```
    /// use syned::{Kind, Script, Tree};
    ///
    /// let lines = Tree::new(Kind::BlockExpr).token(Kind::LCurly, "{").token(Kind::Whitespace, "\n");
    /// let mut script = Script::new();
    /// let block = script.tree(&lines)?;
    /// let further = script.indent(&block)?;
    /// assert_eq!(further.text().as_deref(), Some("{\n    "));
    /// assert_eq!(script.dedent(&further)?.text(), block.text());
    /// # Ok::<(), syned::Error>(())
    /// ```
    ///
    /// Errors: [`Error::NoElement`], [`Error::NotANode`], [`Error::OtherScript`], [`Error::TooLong`].
    pub fn indent(&mut self, node: &Element) -> Result<Element, Error> {
        self.lines.indent(node)
    }

    /// The same a level further out: four spaces are taken after each newline of a whitespace token, where there are as
    /// many.
    ///
    /// Errors: as for [`indent`](Script::indent).
    pub fn dedent(&mut self, node: &Element) -> Result<Element, Error> {
        self.lines.dedent(node)
    }

    /// Begins the edit of a node. The elements to be changed are those below [`Editing::root`].
    ///
    /// Errors: [`Error::NoElement`], [`Error::NotANode`], [`Error::OtherScript`], [`Error::TooLong`].
    pub fn edit(mut self, node: &Element) -> Result<Editing, Error> {
        let edited = self.lines.found(node)?.clone();
        let mut line = Line::new("edit");
        line.word(&name_of(self.lines.roots.len()));
        line.node(&self.lines, node)?;
        self.lines.push(line)?;
        let root = self.lines.root(edited);
        Ok(Editing {
            lines: self.lines,
            root,
            words: 0,
        })
    }

    /// The text of the script so far.
    pub fn text(&self) -> &str {
        &self.lines.text
    }
}

/// Each call is a line of docs/SCRIPTS.md, which says what it does, and gives the number of the line, counted from 1, as
/// errors name it. All of them have the errors [`Error::NoElement`] for a path that leads nowhere,
/// [`Error::OtherScript`] for an element or a word of another script, and [`Error::TooLong`]. What the library refuses
/// only shows in [`check`](Editing::check) and [`finish`](Editing::finish).
impl Editing {
    /// The root that the changes refer to: the edited node itself if it has no parent, else the root of a copy.
    pub fn root(&self) -> Element {
        self.root.clone()
    }

    /// Makes another tree, and gives its root. New elements are taken from such trees.
    pub fn tree(&mut self, tree: &Tree) -> Result<Element, Error> {
        self.lines.tree(tree)
    }

    /// Makes a tree of a node as [`Script::indent`] does.
    pub fn indent(&mut self, node: &Element) -> Result<Element, Error> {
        self.lines.indent(node)
    }

    /// Makes a tree of a node as [`Script::dedent`] does.
    pub fn dedent(&mut self, node: &Element) -> Result<Element, Error> {
        self.lines.dedent(node)
    }

    /// `map`: says that `copy`, a child of the node `parent`, is a copy of `node`. If a change replaces `node` by a
    /// node that contains `copy`, changes inside `node` move into `copy`.
    ///
    /// Errors: also [`Error::NotANode`].
    pub fn map(
        &mut self,
        parent: &Element,
        node: &Element,
        copy: &Element,
    ) -> Result<usize, Error> {
        let mut line = Line::new("map");
        for node in [parent, node, copy] {
            line.node(&self.lines, node)?;
        }
        self.lines.push(line)
    }

    /// `insert` of one element.
    ///
    /// Errors: also [`Error::NotANode`] and [`Error::BesideRoot`], for the position.
    pub fn insert(&mut self, position: Position<'_>, element: &Element) -> Result<usize, Error> {
        self.insert_all(position, std::slice::from_ref(element))
    }

    /// `insert` of several elements, in order; of one it is [`insert`](Editing::insert). Of none it is a change too.
    ///
    /// Errors: also [`Error::NotANode`] and [`Error::BesideRoot`], for the position.
    pub fn insert_all(
        &mut self,
        position: Position<'_>,
        elements: &[Element],
    ) -> Result<usize, Error> {
        self.lines.insert("insert", position, elements)
    }

    /// `spaced` of one element: `insert` with whitespace before and after it where its neighbors ask for it.
    ///
    /// ```
    /// use syned::{Kind, Position, Script, Tree};
    ///
    /// let mut script = Script::new();
    /// let block = Tree::new(Kind::StmtList).token(Kind::LCurly, "{").token(Kind::RCurly, "}");
    /// let block = script.tree(&block)?;
    /// let statement = script.tree(&Tree::new(Kind::ExprStmt).token(Kind::Ident, "a"))?;
    /// let mut editing = script.edit(&block)?;
    /// let brace = editing.root().child(0);
    /// editing.insert_with_whitespace(Position::After(&brace), &statement)?;
    /// assert_eq!(editing.finish()?.text, "{\n    a }");
    /// # Ok::<(), syned::Error>(())
    /// ```
    ///
    /// Errors: also [`Error::NotANode`] and [`Error::BesideRoot`], for the position.
    pub fn insert_with_whitespace(
        &mut self,
        position: Position<'_>,
        element: &Element,
    ) -> Result<usize, Error> {
        self.insert_all_with_whitespace(position, std::slice::from_ref(element))
    }

    /// `spaced` of several elements, in order. Of none it is a change too.
    ///
    /// Errors: also [`Error::NotANode`] and [`Error::BesideRoot`], for the position.
    pub fn insert_all_with_whitespace(
        &mut self,
        position: Position<'_>,
        elements: &[Element],
    ) -> Result<usize, Error> {
        self.lines.insert("spaced", position, elements)
    }

    /// `delete`: deletes an element.
    pub fn delete(&mut self, element: &Element) -> Result<usize, Error> {
        let mut line = Line::new("delete");
        line.element(&self.lines, element)?;
        self.lines.push(line)
    }

    /// `replace` of an element by one.
    pub fn replace(&mut self, old: &Element, new: &Element) -> Result<usize, Error> {
        self.replace_with_many(old, std::slice::from_ref(new))
    }

    /// `replace` of an element by several, in order; by one it is [`replace`](Editing::replace). By none it deletes the
    /// element, as a change of its own.
    pub fn replace_with_many(&mut self, old: &Element, new: &[Element]) -> Result<usize, Error> {
        let mut line = Line::new("replace");
        line.element(&self.lines, old)?;
        line.elements(&self.lines, new)?;
        self.lines.push(line)
    }

    /// `range` without new elements: deletes the siblings from the first to the last.
    pub fn delete_all(&mut self, first: &Element, last: &Element) -> Result<usize, Error> {
        self.replace_all(first, last, &[])
    }

    /// `range` with new elements: replaces the siblings from the first to the last by them, in order; by none it is
    /// [`delete_all`](Editing::delete_all).
    pub fn replace_all(
        &mut self,
        first: &Element,
        last: &Element,
        new: &[Element],
    ) -> Result<usize, Error> {
        let mut line = Line::new("range");
        line.element(&self.lines, first)?;
        line.element(&self.lines, last)?;
        line.elements(&self.lines, new)?;
        self.lines.push(line)
    }

    /// `remove`: removes an element of a separated list, with a separator of this kind and the whitespace after it.
    pub fn remove(&mut self, element: &Element, separator: Kind) -> Result<usize, Error> {
        let mut line = Line::new("remove");
        line.element(&self.lines, element)?;
        line.word(separator.name());
        self.lines.name(std::iter::once(&separator))?;
        self.lines.push(line)
    }

    /// `wrap`: replaces a node by a new one of this kind, which has it between other elements. Changes inside the node move into
    /// the new one, with no [`map`](Editing::map).
    ///
    /// ```
    /// use syned::{Error, Kind, Script, Tree};
    ///
    /// let mut script = Script::new();
    /// let list = script.tree(&Tree::new(Kind::ArgList).node(Tree::new(Kind::Literal).token(Kind::IntNumber, "1")))?;
    /// let mut editing = script.edit(&list)?;
    /// let sides = editing.tree(&Tree::new(Kind::Name).token(Kind::LParen, "(").token(Kind::RParen, ")"))?;
    /// let one = editing.root().child(0);
    /// editing.wrap(&one, Kind::TupleExpr, &[sides.child(0)], &[sides.child(1)])?;
    /// editing.replace(&one.child(0), &sides.child(0))?;
    /// assert_eq!(editing.finish()?.text, "(()");
    /// # Ok::<(), Error>(())
    /// ```
    ///
    /// Errors: also [`Error::NotANode`].
    pub fn wrap(
        &mut self,
        node: &Element,
        kind: Kind,
        before: &[Element],
        after: &[Element],
    ) -> Result<usize, Error> {
        let mut line = Line::new("wrap");
        line.node(&self.lines, node)?;
        line.word(kind.name());
        line.elements(&self.lines, before)?;
        line.word("|");
        line.elements(&self.lines, after)?;
        self.lines.name(std::iter::once(&kind))?;
        self.lines.push(line)
    }

    /// A new word for notes. The script has no line for it: its notes have it.
    pub fn word(&mut self) -> Word {
        let number = self.words;
        self.words += 1;
        Word {
            script: self.lines.script,
            number,
        }
    }

    /// `note`: asks where an element is in the new tree, or where its copies are. One word may have several notes.
    /// [`Edit::paths_of`] has the answer.
    pub fn note(&mut self, word: Word, element: &Element) -> Result<usize, Error> {
        if word.script != self.lines.script {
            return Err(Error::OtherScript);
        }
        let mut line = Line::new("note");
        line.word(&word.name());
        line.element(&self.lines, element)?;
        self.lines.push(line)
    }

    /// `order`: the order in which the changes are carried out, one at a time, by their numbers. They count from 0 as
    /// recorded; a second replacement or deletion of one element may update the first one, and then has no number.
    pub fn order(mut self, numbers: &[usize]) -> Result<Ordered, Error> {
        let mut line = Line::new("order");
        for number in numbers {
            line.word(&number.to_string());
        }
        self.lines.push(line)?;
        Ok(Ordered { lines: self.lines })
    }

    /// Takes back the line of this number, which a call gave. It stays empty, so the other lines keep their numbers.
    ///
    /// ```
    /// use syned::{Error, Kind, Script, Tree};
    ///
    /// let mut script = Script::new();
    /// let file = script.tree(&Tree::new(Kind::Name).token(Kind::Ident, "a").token(Kind::Ident, "b"))?;
    /// let mut editing = script.edit(&file)?;
    /// let (a, b) = (editing.root().child(0), editing.root().child(1));
    /// let one = editing.replace(&a, &b)?;
    /// let both = editing.replace_all(&a, &b, &[])?;
    /// assert!(matches!(editing.check(), Err(Error::Refused { lines, .. }) if lines == [one, both]));
    /// editing.take_back(both)?;
    /// assert_eq!(editing.finish()?.text, "bb");
    /// # Ok::<(), Error>(())
    /// ```
    ///
    /// Errors: [`Error::NoLine`] if there is none, it makes a tree or begins the edit, or was taken back.
    pub fn take_back(&mut self, line: usize) -> Result<(), Error> {
        self.lines.take_back(line)
    }

    /// What [`finish`](Editing::finish) would refuse. The script stays as it is, and can be mended.
    ///
    /// Errors: those of `finish`.
    pub fn check(&self) -> Result<(), Error> {
        self.lines.finish(SHOWN).map(|_| ())
    }

    /// `finish`: carries all changes out at once.
    ///
    /// Errors: [`Error::Refused`], [`Error::Failed`], [`Error::TooLong`].
    pub fn finish(self) -> Result<Edit, Error> {
        self.lines.finish(SHOWN)
    }

    /// The same; the edit has the new tree too.
    ///
    /// ```
    /// use syned::{Kind, Script, Tree};
    ///
    /// let mut script = Script::new();
    /// let file = script.tree(&Tree::new(Kind::Name).token(Kind::Ident, "a").token(Kind::Ident, "b"))?;
    /// let mut editing = script.edit(&file)?;
    /// editing.delete(&editing.root().child(0))?;
    /// let edit = editing.finish_with_tree()?;
    /// assert_eq!(edit.tree, Some(Tree::new(Kind::Name).token(Kind::Ident, "b")));
    /// # Ok::<(), syned::Error>(())
    /// ```
    ///
    /// Errors: as for [`finish`](Editing::finish).
    pub fn finish_with_tree(self) -> Result<Edit, Error> {
        self.lines.finish(SHOWN_WITH_TREE)
    }

    /// The text of the script so far.
    pub fn text(&self) -> &str {
        &self.lines.text
    }
}

impl Ordered {
    /// `finish`: carries the changes out in the order.
    ///
    /// Errors: [`Error::Refused`], [`Error::Failed`], [`Error::TooLong`].
    pub fn finish(self) -> Result<Edit, Error> {
        self.lines.finish(SHOWN)
    }

    /// The same; the edit has the new tree too.
    ///
    /// Errors: as for [`finish`](Ordered::finish).
    pub fn finish_with_tree(self) -> Result<Edit, Error> {
        self.lines.finish(SHOWN_WITH_TREE)
    }

    /// The text of the script so far.
    pub fn text(&self) -> &str {
        &self.lines.text
    }
}

// A level of indentation.
const LEVEL: &str = "    ";

// What an answer has besides, and the end of a script.
const SHOWN: &str = "show edits\nshow ranges\nfinish\n";
const SHOWN_WITH_TREE: &str = "show edits\nshow ranges\nshow tree\nfinish\n";

// The lines of a script, whole, with the trees that they make.
#[derive(Debug)]
struct Lines {
    script: u64,
    text: String,
    // Where each line ends, behind its newline.
    ends: Vec<usize>,
    // Those that the first line names.
    kinds: Vec<OwnKind>,
    roots: Vec<Arc<Child>>,
}

impl Lines {
    fn tree(&mut self, tree: &Tree) -> Result<Element, Error> {
        let mut line = Line::new("tree");
        line.word(&name_of(self.roots.len()));
        line.tree(tree);
        let root = Child::Node(tree.clone());
        self.name(root.all().map(Child::kind))?;
        self.push(line)?;
        Ok(self.root(root))
    }

    fn indent(&mut self, node: &Element) -> Result<Element, Error> {
        self.shifted("indent", node, |text| format!("{text}{LEVEL}"))
    }

    fn dedent(&mut self, node: &Element) -> Result<Element, Error> {
        let line = format!("\n{LEVEL}");
        self.shifted("dedent", node, |text| text.replace(&line, "\n"))
    }

    // A tree of a node with other texts for whitespace that has a newline.
    fn shifted(
        &mut self,
        word: &str,
        node: &Element,
        shift: impl Fn(&str) -> String,
    ) -> Result<Element, Error> {
        let Child::Node(tree) = self.found(node)? else {
            return Err(Error::NotANode(node.path.clone()));
        };
        let tree = tree.with_texts(|kind, text| {
            let has_line = *kind == Kind::Whitespace && text.contains('\n');
            has_line.then(|| shift(text))
        });
        let mut line = Line::new(word);
        line.word(&name_of(self.roots.len()));
        line.node(self, node)?;
        self.push(line)?;
        Ok(self.root(Child::Node(tree)))
    }

    fn insert(
        &mut self,
        word: &str,
        position: Position<'_>,
        elements: &[Element],
    ) -> Result<usize, Error> {
        let mut line = Line::new(word);
        line.position(self, position)?;
        line.elements(self, elements)?;
        self.push(line)
    }

    // Has the first line name these kinds, where it has to.
    fn name<'a>(&mut self, kinds: impl Iterator<Item = &'a Kind>) -> Result<(), Error> {
        let known: HashSet<&OwnKind> = self.kinds.iter().collect();
        let mut new: Vec<&OwnKind> = Vec::new();
        let mut seen = HashSet::new();
        for kind in kinds {
            if let Kind::Own(kind) = kind {
                if !known.contains(kind) && seen.insert(kind) {
                    new.push(kind);
                }
            }
        }
        if new.is_empty() {
            return Ok(());
        }
        let mut names = String::from(if self.kinds.is_empty() { "kinds" } else { "" });
        for kind in &new {
            names.push(' ');
            names.push_str(kind.name());
        }
        if self.text.len() + names.len() > SCRIPT_LIMIT {
            return Err(Error::TooLong);
        }
        let new: Vec<OwnKind> = new.into_iter().cloned().collect();
        self.kinds.extend(new);
        self.text.insert_str(self.ends[0] - 1, &names);
        for end in &mut self.ends {
            *end += names.len();
        }
        Ok(())
    }

    // The root of the tree that has been made.
    fn root(&mut self, root: Child) -> Element {
        let (tree, root) = (self.roots.len(), Arc::new(root));
        self.roots.push(Arc::clone(&root));
        Element {
            script: self.script,
            tree,
            path: Vec::new(),
            root,
        }
    }

    fn found(&self, element: &Element) -> Result<&Child, Error> {
        if element.script != self.script {
            return Err(Error::OtherScript);
        }
        let root = self.roots.get(element.tree);
        let found = root.and_then(|root| root.at(&element.path));
        found.ok_or_else(|| Error::NoElement(element.path.clone()))
    }

    // Adds a line, and gives its number. One that makes the script too long is left out.
    fn push(&mut self, line: Line) -> Result<usize, Error> {
        if self.text.len() + line.text.len() + 1 > SCRIPT_LIMIT {
            return Err(Error::TooLong);
        }
        self.text.push_str(&line.text);
        self.text.push('\n');
        self.ends.push(self.text.len());
        Ok(self.ends.len())
    }

    // Leaves the line of a number empty, unless it makes a tree, begins the edit, or is empty.
    fn take_back(&mut self, number: usize) -> Result<(), Error> {
        let before = number.checked_sub(1).ok_or(Error::NoLine(number))?;
        let end = *self.ends.get(before).ok_or(Error::NoLine(number))? - 1;
        let start = before.checked_sub(1).map_or(0, |line| self.ends[line]);
        let line = &self.text[start..end];
        let makes_tree = |word: &str| matches!(word, "tree" | "edit" | "indent" | "dedent");
        let is_kept = line.split(' ').next().is_some_and(makes_tree);
        if line.is_empty() || before == 0 || is_kept {
            return Err(Error::NoLine(number));
        }
        self.text.replace_range(start..end, "");
        for later in &mut self.ends[before..] {
            *later -= end - start;
        }
        Ok(())
    }

    fn finish(&self, end: &str) -> Result<Edit, Error> {
        if self.text.len() + end.len() > SCRIPT_LIMIT {
            return Err(Error::TooLong);
        }
        edit_for(Dialect::Wide, format!("{}{end}", self.text).as_bytes())
    }
}

// The name of the tree of this number. Words are in a space of their own.
fn name_of(tree: usize) -> String {
    format!("t{tree}")
}

// A line that is being put together.
struct Line {
    text: String,
}

impl Line {
    fn new(first: &str) -> Line {
        Line {
            text: first.to_string(),
        }
    }

    fn word(&mut self, word: &str) {
        self.text.push(' ');
        self.text.push_str(word);
    }

    fn tree(&mut self, tree: &Tree) {
        self.text.push(' ');
        tree.write(&mut self.text);
    }

    fn element(&mut self, lines: &Lines, element: &Element) -> Result<(), Error> {
        lines.found(element)?;
        self.word(&element.to_string());
        Ok(())
    }

    fn elements(&mut self, lines: &Lines, elements: &[Element]) -> Result<(), Error> {
        elements
            .iter()
            .try_for_each(|element| self.element(lines, element))
    }

    fn node(&mut self, lines: &Lines, node: &Element) -> Result<(), Error> {
        match lines.found(node)? {
            Child::Node(_) => self.element(lines, node),
            Child::Token(..) => Err(Error::NotANode(node.path.clone())),
        }
    }

    fn beside(&mut self, lines: &Lines, element: &Element) -> Result<(), Error> {
        self.element(lines, element)?;
        if element.path.is_empty() {
            return Err(Error::BesideRoot);
        }
        Ok(())
    }

    fn position(&mut self, lines: &Lines, position: Position<'_>) -> Result<(), Error> {
        match position {
            Position::First(node) => {
                self.word("first");
                self.node(lines, node)
            }
            Position::Last(node) => {
                self.word("last");
                self.node(lines, node)
            }
            Position::Before(element) => {
                self.word("before");
                self.beside(lines, element)
            }
            Position::After(element) => {
                self.word("after");
                self.beside(lines, element)
            }
        }
    }
}
