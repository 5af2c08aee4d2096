//! Walks over trees, beside copies of the paths of what they give.
use crate::tree::Tree;
use crate::watch::{Figure, Watch};
use anyhow::{Context, Result, anyhow};
use cst_core::{Direction, SyntaxElement, SyntaxNode, SyntaxToken};
use std::alloc::Global;

fn copy_paths(watch: &mut Watch, paths: &[&[usize]]) -> Result<()> {
    watch.count(Figure::Elements, paths.len() as u64);
    watch.start();
    let mut copies = Vec::with_capacity(watch.alloc, paths.len())?;
    for path in paths {
        copies.push(Vec::from_slice(watch.alloc, path)?)?;
    }
    watch.stop(Figure::PathsCopied);
    Ok(())
}

fn stop_at_nodes(watch: &mut Watch, nodes: &[SyntaxNode]) -> Result<()> {
    watch.stop(Figure::Walked);
    let mut paths = Vec::with_capacity(watch.alloc, nodes.len())?;
    for node in nodes {
        paths.push(node.slots())?;
    }
    copy_paths(watch, &paths)
}

fn stop_at_tokens(watch: &mut Watch, tokens: &[SyntaxToken]) -> Result<()> {
    watch.stop(Figure::Walked);
    let mut paths = Vec::with_capacity(watch.alloc, tokens.len())?;
    for token in tokens {
        paths.push(token.slots())?;
    }
    copy_paths(watch, &paths)
}

fn stop_at_elements(watch: &mut Watch, elements: &[SyntaxElement]) -> Result<()> {
    watch.stop(Figure::Walked);
    watch.count(Figure::Elements, elements.len() as u64);
    Ok(())
}

fn go_up(watch: &mut Watch, last: Option<SyntaxNode>) -> Result<()> {
    let last = last.context("no node")?;
    watch.start();
    stop_at_nodes(watch, &last.ancestors(watch.alloc)?)
}

fn next(alloc: Global, token: &SyntaxToken, to: Direction) -> Result<Option<SyntaxToken>> {
    match to {
        Direction::Next => Ok(token.next_token(alloc)?),
        Direction::Prev => Ok(token.prev_token(alloc)?),
    }
}

fn tokens(alloc: Global, first: SyntaxToken, to: Direction) -> Result<Vec<SyntaxToken>> {
    let mut tokens = Vec::new(alloc);
    let mut token = first;
    for _ in 0..u64::MAX {
        let following = next(alloc, &token, to)?;
        tokens.push(token)?;
        token = match following {
            Some(following) => following,
            None => break,
        };
    }
    Ok(tokens)
}

fn go_on(watch: &mut Watch, first: Option<SyntaxToken>, to: Direction) -> Result<()> {
    let first = first.context("no token")?;
    watch.start();
    stop_at_tokens(watch, &tokens(watch.alloc, first, to)?)
}

fn go_over(watch: &mut Watch, root: &SyntaxNode, walk: &str) -> Result<()> {
    let alloc = watch.alloc;
    watch.start();
    match walk {
        "children" => stop_at_nodes(watch, &root.children(alloc)?),
        "elements" => stop_at_elements(watch, &root.children_with_tokens(alloc)?),
        "descendants" => stop_at_nodes(watch, &root.descendants(alloc)?),
        "ancestors" => go_up(watch, root.descendants(alloc)?.pop()),
        "next_token" => go_on(watch, root.first_token(alloc)?, Direction::Next),
        "prev_token" => go_on(watch, root.last_token(alloc)?, Direction::Prev),
        _ => Err(anyhow!("there is no such work")),
    }
}

/// Builds a tree, and goes over it.
pub(crate) fn build_and_go_over(watch: &mut Watch, tree: Tree, walk: &str) -> Result<()> {
    watch.start();
    let root = tree.root(watch)?;
    watch.stop(Figure::Built);
    go_over(watch, &root, walk)
}
