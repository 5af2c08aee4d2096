//! The least that any engine does for an edit: of each node of the new tree that a change touches, its list of children, those that
//! stay shared, and one node, from the leaves up; and copies of what else the edit hands back. What is to be made is found out beforehand.
use crate::edit::Changes;
use anyhow::{Context, Result};
use cst_core::{GreenElement, GreenNode, SyntaxElement, SyntaxKind};
use std::alloc::Global;
use syntax_editor::{Annotations, SyntaxEdit};

/// A node that is to be made, of children that are there and, at `None`, of nodes that are made before.
#[derive(Drop)]
pub(crate) struct Touched<'a> {
    kind: SyntaxKind,
    children: Vec<Option<&'a GreenElement>>,
}

/// A node of the new tree, how many nodes it is in, and the changed elements in it.
#[derive(Clone, Copy)]
struct Place<'a> {
    node: &'a GreenNode,
    depth: usize,
    edits: &'a [SyntaxElement],
}

impl Changes {
    // Whether they touch a node at this depth, in which these changed elements are: where blocks are wrapped all nodes but literals.
    fn touch(self, child: &GreenNode, depth: usize, changed: &[SyntaxElement]) -> bool {
        match self {
            Changes::Wrap(_) => child.kind() != SyntaxKind::LITERAL,
            _ => changed.first().is_some_and(|it| it.slots().len() > depth),
        }
    }
}

// How many of these elements are in the child at a slot. They are in document order.
fn count_at(elements: &[SyntaxElement], depth: usize, slot: usize) -> usize {
    let mut count = 0usize;
    for element in elements {
        if element.slots().get(depth).copied() != Some(slot) {
            break;
        }
        count = count.saturating_add(1);
    }
    count
}

impl<'a> Place<'a> {
    // How it is made. The children that are made before are put on a list, the last one first.
    fn touched(self, alloc: Global, changes: Changes, on: &mut Vec<Self>) -> Result<Touched<'a>> {
        let depth = self.depth.saturating_add(1);
        let mut children = Vec::with_capacity(alloc, self.node.children().len())?;
        let mut made = Vec::new(alloc);
        let mut left = self.edits;
        for (slot, child) in self.node.children().iter().enumerate() {
            let number = count_at(left, self.depth, slot);
            let (edits, others) = left.split_at_checked(number).unwrap_or((left, &[]));
            left = others;
            match child {
                GreenElement::Node(node) if changes.touch(node, depth, edits) => {
                    made.push(Place { node, depth, edits })?;
                    children.push(None)?;
                }
                _ => children.push(Some(child))?,
            }
        }
        for place in made.iter().rev() {
            on.push(*place)?;
        }
        let kind = self.node.kind();
        Ok(Touched { kind, children })
    }
}

impl Touched<'_> {
    // The node, which takes over those made before that are its children.
    fn make(&self, alloc: Global, made: &mut Vec<GreenNode>) -> Result<GreenNode> {
        let mut children = Vec::with_capacity(alloc, self.children.len())?;
        for child in &self.children {
            children.push(match child {
                Some(green) => green.share(alloc)?,
                None => GreenElement::Node(made.pop().context("no node")?),
            })?;
        }
        Ok(GreenNode::new(alloc, self.kind, children)?)
    }
}

/// What there is to make for an edit, each node after those below it, the last child's first.
pub(crate) fn floor(
    alloc: Global,
    edit: &SyntaxEdit,
    changes: Changes,
) -> Result<Vec<Touched<'_>>> {
    let (node, depth, edits) = (edit.new_root().as_green(), 0, edit.changed_elements());
    let mut waiting = vec![in alloc; Place { node, depth, edits }]?;
    let mut floor = Vec::new(alloc);
    for _ in 0..u64::MAX {
        let Some(place) = waiting.pop() else {
            break;
        };
        floor.push(place.touched(alloc, changes, &mut waiting)?)?;
    }
    floor.reverse();
    Ok(floor)
}

/// Makes it, and gives the last node, which is the new tree.
pub(crate) fn make(alloc: Global, floor: &[Touched]) -> Result<Option<GreenNode>> {
    let mut made = Vec::with_capacity(alloc, floor.len())?;
    for touched in floor {
        let node = touched.make(alloc, &mut made)?;
        made.push(node)?;
    }
    Ok(made.pop())
}

fn copied(alloc: Global, elements: &[SyntaxElement]) -> Result<Vec<SyntaxElement>> {
    let mut copies = Vec::with_capacity(alloc, elements.len())?;
    for element in elements {
        copies.push(element.try_clone(alloc)?)?;
    }
    Ok(copies)
}

type Lists = Vec<Vec<SyntaxElement>>;

/// Copies of what an edit hands back beside its tree: the changed elements, and those of its first n annotations.
pub(crate) fn copy_answer(alloc: Global, edit: &SyntaxEdit, notes: usize) -> Result<Lists> {
    let mut source = Annotations::new(1);
    let mut lists = Vec::with_capacity(alloc, notes.saturating_add(1))?;
    lists.push(copied(alloc, edit.changed_elements())?)?;
    for _ in 0..notes {
        let annotation = source.next().context("no annotation")?;
        lists.push(copied(alloc, edit.find_annotation(annotation))?)?;
    }
    Ok(lists)
}
