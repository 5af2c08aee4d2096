//! Trees to be written into a script.
#![forbid(unsafe_code)]

use crate::kind::Kind;
use std::fmt;
use std::sync::Arc;

/// A node with all that is below it. It begins empty, and its children are added one after the other. A clone shares what
/// is below. A tree may be as deep as memory allows.
///
/// ```
/// use syned::{Kind, Tree};
///
/// // `'a,`
/// let tree = Tree::new(Kind::ArgList)
///     .node(Tree::new(Kind::Lifetime).token(Kind::LifetimeIdent, "'a"))
///     .token(Kind::Comma, ",");
/// assert_eq!((tree.children(), tree.text()), (2, "'a,".to_string()));
/// ```
#[derive(Clone)]
pub struct Tree(Arc<Node>);

#[derive(Clone)]
struct Node {
    kind: Kind,
    children: Vec<Child>,
    length: usize,
}

/// A node or a token of a tree.
#[derive(Clone, Debug)]
pub(crate) enum Child {
    Node(Tree),
    Token(Kind, String),
}

impl Child {
    /// What a path leads to.
    pub(crate) fn at(&self, path: &[usize]) -> Option<&Child> {
        path.iter()
            .try_fold(self, |here, &child| here.children().get(child))
    }

    /// Those of a node; a token has none.
    pub(crate) fn children(&self) -> &[Child] {
        match self {
            Child::Node(node) => &node.0.children,
            Child::Token(..) => &[],
        }
    }

    pub(crate) fn kind(&self) -> &Kind {
        match self {
            Child::Node(node) => &node.0.kind,
            Child::Token(kind, _) => kind,
        }
    }

    /// The length of its text in bytes.
    pub(crate) fn length(&self) -> usize {
        match self {
            Child::Node(node) => node.0.length,
            Child::Token(_, text) => text.len(),
        }
    }

    /// It and all below it, in document order.
    pub(crate) fn all(&self) -> impl Iterator<Item = &Child> {
        let mut rest = vec![self];
        std::iter::from_fn(move || {
            let next = rest.pop()?;
            rest.extend(next.children().iter().rev());
            Some(next)
        })
    }

    /// The texts of all tokens below, one after the other.
    pub(crate) fn text(&self) -> String {
        self.all().filter_map(Child::token_text).collect()
    }

    fn token_text(&self) -> Option<&str> {
        match self {
            Child::Node(_) => None,
            Child::Token(_, text) => Some(text),
        }
    }
}

impl Tree {
    /// A node of this kind without children.
    #[must_use]
    pub fn new(kind: Kind) -> Tree {
        Tree(Arc::new(Node {
            kind,
            children: Vec::new(),
            length: 0,
        }))
    }

    /// The same with a token as another last child. Any text is allowed, also an empty one.
    #[must_use]
    pub fn token(mut self, kind: Kind, text: impl Into<String>) -> Tree {
        self.push_token(kind, text);
        self
    }

    /// The same with a node as another last child.
    #[must_use]
    pub fn node(mut self, node: Tree) -> Tree {
        self.push_node(node);
        self
    }

    /// Adds a token as the last child.
    pub fn push_token(&mut self, kind: Kind, text: impl Into<String>) {
        self.push(Child::Token(kind, text.into()));
    }

    /// Adds a node as the last child.
    pub fn push_node(&mut self, node: Tree) {
        self.push(Child::Node(node));
    }

    pub(crate) fn push(&mut self, child: Child) {
        let node = Arc::make_mut(&mut self.0);
        node.length += child.length();
        node.children.push(child);
    }

    /// How many children the node has.
    pub fn children(&self) -> usize {
        self.0.children.len()
    }

    /// The texts of all tokens, one after the other.
    pub fn text(&self) -> String {
        Child::Node(self.clone()).text()
    }

    /// The same with other tokens, where the function gives texts for a kind and a text. What stays is shared.
    pub(crate) fn with_texts(&self, change: impl Fn(&Kind, &str) -> Option<String>) -> Tree {
        let mut open = vec![Changing::new(self)];
        loop {
            let Some(last) = open.last_mut() else {
                return self.clone();
            };
            match last.old.0.children.get(last.at) {
                Some(Child::Node(node)) => open.push(Changing::new(node)),
                Some(Child::Token(kind, text)) => {
                    let new = change(kind, text).map(|text| Child::Token(kind.clone(), text));
                    last.put(new);
                }
                None => {
                    let new = last.new.take();
                    open.pop();
                    match open.last_mut() {
                        Some(above) => above.put(new.map(Child::Node)),
                        None => return new.unwrap_or_else(|| self.clone()),
                    }
                }
            }
        }
    }

    /// The tree of a tree expression, if it is one.
    pub(crate) fn read(expression: &str) -> Option<Tree> {
        let mut open = Vec::new();
        let mut rest = expression;
        loop {
            if let Some(inside) = rest.strip_prefix('(') {
                let (kind, after) = read_kind(inside)?;
                open.push(Tree::new(kind));
                rest = after;
            } else if let Some(after) = rest.strip_prefix(')') {
                let done = open.pop()?;
                rest = after;
                match open.last_mut() {
                    Some(above) => above.push_node(done),
                    None => return rest.is_empty().then_some(done),
                }
            } else {
                let (kind, after) = read_kind(rest)?;
                let (text, after) = read_text(after.strip_prefix('"')?)?;
                open.last_mut()?.push_token(kind, text);
                rest = after;
            }
            rest = rest.trim_start_matches(' ');
        }
    }

    /// Writes its tree expression.
    pub(crate) fn write(&self, out: &mut String) {
        let mut rest = vec![self.0.children.iter()];
        open(&self.0.kind, out);
        while let Some(children) = rest.last_mut() {
            match children.next() {
                None => {
                    out.push(')');
                    rest.pop();
                }
                Some(Child::Node(node)) => {
                    out.push(' ');
                    open(&node.0.kind, out);
                    rest.push(node.0.children.iter());
                }
                Some(Child::Token(kind, text)) => {
                    out.push(' ');
                    out.push_str(kind.name());
                    out.push('"');
                    write_escaped(text, out);
                    out.push('"');
                }
            }
        }
    }
}

// A node whose children are looked at in order: those before a number, changed, if one of them is.
struct Changing<'a> {
    old: &'a Tree,
    at: usize,
    new: Option<Tree>,
}

impl<'a> Changing<'a> {
    fn new(old: &'a Tree) -> Changing<'a> {
        Changing {
            old,
            at: 0,
            new: None,
        }
    }

    // Goes on behind a child, for which another may stand.
    fn put(&mut self, other: Option<Child>) {
        let children = &self.old.0.children;
        if other.is_some() && self.new.is_none() {
            let mut new = Tree::new(self.old.0.kind.clone());
            for child in &children[..self.at] {
                new.push(child.clone());
            }
            self.new = Some(new);
        }
        if let Some(new) = &mut self.new {
            new.push(other.unwrap_or_else(|| children[self.at].clone()));
        }
        self.at += 1;
    }
}

// The kind at the beginning of a text, and what is behind it.
fn read_kind(text: &str) -> Option<(Kind, &str)> {
    let is_in_name = |c: char| c.is_ascii_alphanumeric() || c == '_';
    let (name, rest) = text.split_at(text.find(|c| !is_in_name(c)).unwrap_or(text.len()));
    Some((Kind::new(name)?, rest))
}

/// The text before the first quote that stands for itself, without its escapes, and what is behind the quote.
pub(crate) fn read_text(written: &str) -> Option<(String, &str)> {
    let mut out = String::new();
    let mut chars = written.chars();
    loop {
        out.push(match chars.next()? {
            '"' => return Some((out, chars.as_str())),
            '\\' => match chars.next()? {
                'n' => '\n',
                'r' => '\r',
                't' => '\t',
                '"' => '"',
                '\\' => '\\',
                _ => return None,
            },
            c => c,
        });
    }
}

fn open(kind: &Kind, out: &mut String) {
    out.push('(');
    out.push_str(kind.name());
}

// Without recursion, so that a deep tree is freed on any stack.
impl Drop for Node {
    fn drop(&mut self) {
        let mut rest = std::mem::take(&mut self.children);
        while let Some(child) = rest.pop() {
            if let Child::Node(Tree(mut node)) = child {
                if let Some(node) = Arc::get_mut(&mut node) {
                    rest.append(&mut node.children);
                }
            }
        }
    }
}

/// Its kind and how many children it has: no tree is printed.
impl fmt::Debug for Tree {
    fn fmt(&self, f: &mut fmt::Formatter<'_>) -> fmt::Result {
        write!(f, "Tree({} with {} children)", self.0.kind, self.children())
    }
}

/// Whether all kinds, texts and children are the same.
impl PartialEq for Tree {
    fn eq(&self, other: &Tree) -> bool {
        let mut rest = vec![(self, other)];
        while let Some((one, other)) = rest.pop() {
            if Arc::ptr_eq(&one.0, &other.0) {
                continue;
            }
            let (ones, others) = (&one.0.children, &other.0.children);
            if one.0.kind != other.0.kind || ones.len() != others.len() {
                return false;
            }
            for pair in ones.iter().zip(others) {
                match pair {
                    (Child::Node(one), Child::Node(other)) => rest.push((one, other)),
                    (Child::Token(kind, text), Child::Token(other, same)) => {
                        if kind != other || text != same {
                            return false;
                        }
                    }
                    _ => return false,
                }
            }
        }
        true
    }
}

impl Eq for Tree {}

fn write_escaped(text: &str, out: &mut String) {
    for c in text.chars() {
        match c {
            '\n' => out.push_str("\\n"),
            '\r' => out.push_str("\\r"),
            '\t' => out.push_str("\\t"),
            '"' => out.push_str("\\\""),
            '\\' => out.push_str("\\\\"),
            c => out.push(c),
        }
    }
}
