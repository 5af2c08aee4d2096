//! Trees of other parsers' nodes.
#![forbid(unsafe_code)]

use crate::error::Error;
use crate::kind::Kind;
use crate::tree::{Child, Tree};
use std::ops::Range;

/// A node of another parser's tree, of which [`Tree::from_nodes`] makes one.
pub trait SourceNode: Sized {
    /// What the parser calls its kind: any text, which [`Kind::spelled`] writes as a name.
    fn kind(&self) -> String;

    /// Where it stands in the source, in bytes. A node without a place is left out, and its children stand in its place.
    fn range(&self) -> Option<Range<usize>>;

    /// Its children, in any order.
    fn children(&self) -> Vec<Self>;

    /// The tokens of what lies between two nodes: the texts together are that text.
    fn between(gap: &str) -> Vec<(Kind, &str)> {
        pieces(gap)
    }
}

// A node whose children are being made: those that wait, the next one last, and where it begins.
struct Open<N> {
    tree: Tree,
    end: usize,
    waiting: Vec<(Range<usize>, N)>,
    at: usize,
}

impl Tree {
    /// A tree of any parser's nodes, whose text is the whole source. A node without children becomes a token, any other a
    /// node; what lies between nodes becomes tokens.
    ///
    /// ```
    /// use std::ops::Range;
    /// use syned::{SourceNode, Tree};
    ///
    /// #[derive(Clone)]
    /// struct Word(Range<usize>, Vec<Word>);
    ///
    /// impl SourceNode for Word {
    ///     fn kind(&self) -> String {
    ///         "word".to_string()
    ///     }
    ///     fn range(&self) -> Option<Range<usize>> {
    ///         Some(self.0.clone())
    ///     }
    ///     fn children(&self) -> Vec<Word> {
    ///         self.1.clone()
    ///     }
    /// }
    ///
    /// let root = Word(0..5, vec![Word(4..5, Vec::new()), Word(0..1, Vec::new())]);
    /// let tree = Tree::from_nodes("a , b", &root)?;
    /// assert_eq!((tree.text().as_str(), tree.children()), ("a , b", 5));
    /// # Ok::<(), syned::Error>(())
    /// ```
    ///
    /// Errors: [`Error::Misplaced`].
    pub fn from_nodes<N: SourceNode>(source: &str, root: &N) -> Result<Tree, Error> {
        let mut opened = vec![Open::new(root, 0..source.len())];
        loop {
            let Some(last) = opened.last_mut() else {
                return Ok(Tree::new(Kind::spelled(&root.kind())));
            };
            if let Some((range, node)) = last.waiting.pop() {
                last.fill(source, range.start, &node, &range)?;
                let Some(text) = source.get(range.clone()).filter(|_| range.end <= last.end) else {
                    return Err(misplaced(&node, &range));
                };
                let next = Open::new(&node, range.clone());
                if next.waiting.is_empty() {
                    let kind = Kind::spelled(&node.kind());
                    last.tree.push(Child::Token(kind, text.to_string()));
                    last.at = range.end;
                } else {
                    opened.push(next);
                }
                continue;
            }
            last.fill(source, last.end, root, &(0..0))?;
            let end = last.end;
            let Some(done) = opened.pop() else { continue };
            match opened.last_mut() {
                Some(above) => {
                    above.tree.push_node(done.tree);
                    above.at = end;
                }
                None => return Ok(done.tree),
            }
        }
    }
}

impl<N: SourceNode> Open<N> {
    fn new(node: &N, range: Range<usize>) -> Open<N> {
        let mut waiting = Vec::new();
        let mut rest = node.children();
        rest.reverse();
        while let Some(child) = rest.pop() {
            match child.range() {
                Some(range) => waiting.push((range, child)),
                None => rest.extend(child.children().into_iter().rev()),
            }
        }
        waiting.sort_by_key(|(range, _)| (range.start, range.end));
        waiting.reverse();
        Open {
            tree: Tree::new(Kind::spelled(&node.kind())),
            end: range.end,
            waiting,
            at: range.start,
        }
    }

    // Tokens for what lies before a place.
    fn fill(
        &mut self,
        source: &str,
        to: usize,
        node: &N,
        range: &Range<usize>,
    ) -> Result<(), Error> {
        let Some(gap) = source.get(self.at..to) else {
            return Err(misplaced(node, range));
        };
        for (kind, text) in N::between(gap) {
            self.tree.push_token(kind, text);
        }
        self.at = to;
        Ok(())
    }
}

fn misplaced<N: SourceNode>(node: &N, range: &Range<usize>) -> Error {
    Error::Misplaced {
        kind: node.kind(),
        range: range.clone(),
    }
}

/// The tokens of what lies between two nodes: runs of whitespace, comments to the end of a line after `#` or `//`, words, and
/// each other character by itself. Commas, brackets and the like have the kinds of [`Kind`].
///
/// ```
/// use syned::{pieces, Kind};
///
/// let kinds: Vec<Kind> = pieces(", x").into_iter().map(|(kind, _)| kind).collect();
/// assert_eq!(kinds, [Kind::Comma, Kind::Whitespace, Kind::spelled("WORD")]);
/// ```
pub fn pieces(gap: &str) -> Vec<(Kind, &str)> {
    let mut found = Vec::new();
    let mut rest = gap;
    while let Some(first) = rest.chars().next() {
        let (kind, length) = piece(rest, first);
        let (text, others) = rest.split_at(length);
        found.push((kind, text));
        rest = others;
    }
    found
}

fn piece(text: &str, first: char) -> (Kind, usize) {
    let run = |fits: fn(char) -> bool| text.find(|c| !fits(c)).unwrap_or(text.len());
    let is_word = |c: char| c.is_alphanumeric() || c == '_';
    if first.is_whitespace() {
        (Kind::Whitespace, run(char::is_whitespace))
    } else if first == '#' || text.starts_with("//") {
        (Kind::Comment, run(|c| c != '\n' && c != '\r'))
    } else if is_word(first) {
        (
            Kind::spelled("WORD"),
            run(|c| c.is_alphanumeric() || c == '_'),
        )
    } else {
        (sign_kind(first), first.len_utf8())
    }
}

fn sign_kind(sign: char) -> Kind {
    match sign {
        ',' => Kind::Comma,
        ';' => Kind::Semicolon,
        '(' => Kind::LParen,
        ')' => Kind::RParen,
        '[' => Kind::LBrack,
        ']' => Kind::RBrack,
        '{' => Kind::LCurly,
        '}' => Kind::RCurly,
        '=' => Kind::Eq,
        _ => Kind::spelled(&format!("SIGN_{:X}", u32::from(sign))),
    }
}

#[cfg(test)]
mod tests {
    use super::*;

    #[derive(Clone)]
    struct Node(Option<Range<usize>>, Vec<Node>);

    impl SourceNode for Node {
        fn kind(&self) -> String {
            "k".to_string()
        }

        fn range(&self) -> Option<Range<usize>> {
            self.0.clone()
        }

        fn children(&self) -> Vec<Node> {
            self.1.clone()
        }
    }

    fn of(source: &str, places: &[(usize, usize)]) -> Result<Tree, Error> {
        let children = places
            .iter()
            .map(|&(start, end)| Node(Some(start..end), Vec::new()));
        Tree::from_nodes(source, &Node(Some(0..source.len()), children.collect()))
    }

    #[test]
    fn texts_come_back() {
        for places in [
            &[][..],
            &[(4, 6), (0, 2)],
            &[(0, 9)],
            &[(0, 0), (0, 0), (9, 9)],
        ] {
            let tree = of("abcdefghi", places).unwrap();
            assert_eq!(tree.text(), "abcdefghi");
        }
        let inner = Node(
            None,
            vec![Node(Some(1..2), Vec::new()), Node(Some(2..3), Vec::new())],
        );
        let tree = Tree::from_nodes(
            "abc",
            &Node(Some(0..3), vec![inner, Node(Some(0..1), Vec::new())]),
        )
        .unwrap();
        assert_eq!((tree.text().as_str(), tree.children()), ("abc", 3));
    }

    #[test]
    fn what_is_misplaced_is_named() {
        for places in [&[(0, 3), (2, 4)][..], &[(8, 10)], &[(1, 2)]] {
            let refused = of("aéc", places).unwrap_err();
            assert!(matches!(refused, Error::Misplaced { .. }), "{places:?}");
        }
        let refused = of("abc", &[(2, 1)]).unwrap_err();
        assert_eq!(
            refused.to_string(),
            "k at 2..1 overlaps what is before it, or is not in what is above it"
        );
    }

    #[test]
    fn deep_nodes() {
        let mut node = Node(Some(0..1), Vec::new());
        for _ in 0..200 {
            node = Node(Some(0..1), vec![node]);
        }
        assert_eq!(Tree::from_nodes("x", &node).unwrap().text(), "x");
    }

    #[test]
    fn pieces_are_the_text() {
        for gap in ["", " ", ", ", "\n# a\n\t(", "é += 1 // b", "\r\n\\\n"] {
            let texts: String = pieces(gap).into_iter().map(|(_, text)| text).collect();
            assert_eq!(texts, gap);
        }
    }
}
