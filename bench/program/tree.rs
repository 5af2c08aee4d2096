//! The trees: `literals N`, `leaves N`, `blocks CHAINS DEPTH`, `tokens N`.
use crate::watch::Watch;
use crate::{Words, number};
use anyhow::{Result, anyhow};
use cst_core::{GreenElement, GreenNode, GreenToken, SyntaxKind, SyntaxNode};
use std::alloc::Global;

#[derive(Clone, Copy)]
pub(crate) enum Tree {
    /// n literals below one node.
    Literals(usize),
    /// n literals at the leaves of nodes with eight children each.
    Leaves(usize),
    /// n chains of m blocks, side by side, and a literal in the innermost block of each.
    Blocks(usize, usize),
    /// n tokens below one node.
    Tokens(usize),
}

fn token(alloc: Global, kind: SyntaxKind, text: &str) -> Result<GreenElement> {
    let token = GreenToken::new(alloc, kind, text)?;
    Ok(GreenElement::Token(token))
}

pub(crate) fn literal(alloc: Global) -> Result<GreenNode> {
    let token = token(alloc, SyntaxKind::INT_NUMBER, "1")?;
    let children = vec![in alloc; token]?;
    Ok(GreenNode::new(alloc, SyntaxKind::LITERAL, children)?)
}

fn tokens(alloc: Global, number: usize) -> Result<GreenNode> {
    let mut tokens = Vec::new(alloc);
    for _ in 0..number {
        tokens.push(token(alloc, SyntaxKind::INT_NUMBER, "1")?)?;
    }
    Ok(GreenNode::new(alloc, SyntaxKind::ARG_LIST, tokens)?)
}

fn literals(alloc: Global, number: usize) -> Result<Vec<GreenElement>> {
    let mut literals = Vec::new(alloc);
    for _ in 0..number {
        literals.push(GreenElement::Node(literal(alloc)?))?;
    }
    Ok(literals)
}

/// n literals below one node.
pub(crate) fn list(alloc: Global, number: usize) -> Result<GreenNode> {
    let literals = literals(alloc, number)?;
    Ok(GreenNode::new(alloc, SyntaxKind::STMT_LIST, literals)?)
}

fn shared(alloc: Global, elements: &[GreenElement]) -> Result<Vec<GreenElement>> {
    let mut shared = Vec::with_capacity(alloc, elements.len())?;
    for element in elements {
        shared.push(element.share(alloc)?)?;
    }
    Ok(shared)
}

fn by_eight(alloc: Global, elements: &[GreenElement]) -> Result<Vec<GreenElement>> {
    let mut parents = Vec::new(alloc);
    for children in elements.chunks(8) {
        let children = shared(alloc, children)?;
        let parent = GreenNode::new(alloc, SyntaxKind::STMT_LIST, children)?;
        parents.push(GreenElement::Node(parent))?;
    }
    Ok(parents)
}

fn leaves(alloc: Global, number: usize) -> Result<GreenNode> {
    let mut topmost = literals(alloc, number)?;
    for _ in 0..64 {
        if topmost.len() < 8 {
            break;
        }
        topmost = by_eight(alloc, &topmost)?;
    }
    Ok(GreenNode::new(alloc, SyntaxKind::SOURCE_FILE, topmost)?)
}

fn in_braces(alloc: Global, inner: GreenNode) -> Result<GreenElement> {
    let open = token(alloc, SyntaxKind::L_CURLY, "{")?;
    let close = token(alloc, SyntaxKind::R_CURLY, "}")?;
    let children = vec![in alloc; open, GreenElement::Node(inner), close]?;
    let list = GreenNode::new(alloc, SyntaxKind::STMT_LIST, children)?;
    Ok(GreenElement::Node(list))
}

/// Something in so many blocks.
pub(crate) fn in_blocks(alloc: Global, inner: GreenNode, times: usize) -> Result<GreenNode> {
    let mut node = inner;
    for _ in 0..times {
        let children = vec![in alloc; in_braces(alloc, node)?]?;
        node = GreenNode::new(alloc, SyntaxKind::BLOCK_EXPR, children)?;
    }
    Ok(node)
}

fn blocks(alloc: Global, chains: usize, depth: usize) -> Result<GreenNode> {
    let mut children = Vec::new(alloc);
    for _ in 0..chains {
        let chain = in_blocks(alloc, literal(alloc)?, depth)?;
        children.push(GreenElement::Node(chain))?;
    }
    Ok(GreenNode::new(alloc, SyntaxKind::SOURCE_FILE, children)?)
}

impl Tree {
    pub(crate) fn read(words: &mut Words) -> Result<Tree> {
        match (words.next(), number(words)?) {
            (Some("literals"), number) => Ok(Tree::Literals(number)),
            (Some("leaves"), number) => Ok(Tree::Leaves(number)),
            (Some("tokens"), number) => Ok(Tree::Tokens(number)),
            (Some("blocks"), chains) => Ok(Tree::Blocks(chains, number(words)?)),
            _ => Err(anyhow!("a tree is wanted")),
        }
    }

    pub(crate) fn root(self, watch: &mut Watch) -> Result<SyntaxNode> {
        let green = match self {
            Tree::Literals(number) => list(watch.alloc, number)?,
            Tree::Leaves(number) => leaves(watch.alloc, number)?,
            Tree::Blocks(chains, depth) => blocks(watch.alloc, chains, depth)?,
            Tree::Tokens(number) => tokens(watch.alloc, number)?,
        };
        Ok(SyntaxNode::new_root(watch.alloc, &mut watch.ids, green)?)
    }
}
