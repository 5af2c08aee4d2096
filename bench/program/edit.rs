//! The edits: a tree, and what is changed in it, namely `replace N`, `insert N`, `note N`, `bring N` or `wrap N`.
use crate::tree::{Tree, in_blocks, list, literal};
use crate::watch::Watch;
use crate::{Words, number};
use anyhow::{Context, Result};
use cst_core::{SyntaxKind, SyntaxNode};
use std::alloc::Global;
use std::mem::replace;
use syntax_editor::{Annotations, Position, SyntaxAnnotation, SyntaxEditor, SyntaxMappingBuilder};

#[derive(Clone, Copy)]
pub(crate) enum Changes {
    /// One in n literals is replaced.
    Replace(usize),
    /// After one in n literals another one is inserted.
    Insert(usize),
    /// The n children of the root are registered, each with an annotation of its own, and a literal is inserted after each.
    Note(usize),
    /// After each literal a payload is inserted, whose n literals are registered so.
    Bring(usize),
    /// Each block is replaced by one with n blocks round its copy, and a literal inserted into it.
    Wrap(usize),
}

/// A call that records a change, or a registration.
#[derive(Drop)]
enum Call {
    Insert(Position, SyntaxNode),
    Replace(SyntaxNode, SyntaxNode),
    Annotate(SyntaxNode, SyntaxAnnotation),
}

/// An editor, and the calls to be made on it.
#[derive(Drop)]
pub(crate) struct Prepared {
    pub(crate) editor: SyntaxEditor,
    calls: Vec<Call>,
}

fn new_literal(watch: &mut Watch) -> Result<SyntaxNode> {
    let green = literal(watch.alloc)?;
    Ok(SyntaxNode::new_root(watch.alloc, &mut watch.ids, green)?)
}

// What stands in n blocks from this one on.
fn inside(alloc: Global, block: &SyntaxNode, times: usize) -> Result<SyntaxNode> {
    let mut path = Vec::new(alloc);
    for _ in 0..times {
        path.extend_from_slice(&[0, 1])?;
    }
    let inner = block.element_at(alloc, &path)?.context("no block")?;
    inner.into_node().context("no node")
}

// A block's copy in the payload that replaces it.
fn mapped(alloc: Global, block: &SyntaxNode, copy: SyntaxNode) -> Result<SyntaxMappingBuilder> {
    let parent = copy.parent(alloc)?.context("no parent")?;
    let mut builder = SyntaxMappingBuilder::new(alloc, parent);
    builder.map_node(alloc, block.try_clone(alloc)?, copy)?;
    Ok(builder)
}

impl Call {
    fn make(self, alloc: Global, editor: &mut SyntaxEditor) -> Result<()> {
        match self {
            Call::Insert(position, new) => editor.insert(alloc, position, new)?,
            Call::Replace(target, new) => editor.replace(alloc, target, new)?,
            Call::Annotate(node, annotation) => editor.add_annotation(alloc, node, annotation)?,
        }
        Ok(())
    }
}

impl Prepared {
    fn insert(&mut self, alloc: Global, target: SyntaxNode, new: SyntaxNode) -> Result<()> {
        let position = Position::after(alloc, target)?.context("no parent")?;
        Ok(self.calls.push(Call::Insert(position, new))?)
    }

    // Registers the children of a list.
    fn annotate(&mut self, alloc: Global, list: &SyntaxNode) -> Result<()> {
        let mut annotations = Annotations::new(1);
        for literal in list.children(alloc)? {
            let annotation = annotations.next().context("no annotation")?;
            self.calls.push(Call::Annotate(literal, annotation))?;
        }
        Ok(())
    }

    fn bring(&mut self, alloc: Global, root: &SyntaxNode, payload: &SyntaxNode) -> Result<()> {
        self.annotate(alloc, payload)?;
        for target in root.children(alloc)? {
            self.insert(alloc, target, payload.try_clone(alloc)?)?;
        }
        Ok(())
    }

    // A block in n others, of whose copy the editor is told.
    fn wrapped(&mut self, watch: &mut Watch, block: &SyntaxNode, n: usize) -> Result<SyntaxNode> {
        let green = in_blocks(watch.alloc, block.green(watch.alloc)?, n)?;
        let payload = SyntaxNode::new_root(watch.alloc, &mut watch.ids, green)?;
        let builder = mapped(watch.alloc, block, inside(watch.alloc, &payload, n)?)?;
        self.editor.add_mapping(watch.alloc, builder)?;
        Ok(payload)
    }

    fn wrap(&mut self, watch: &mut Watch, block: SyntaxNode, wraps: usize) -> Result<()> {
        self.put(watch, inside(watch.alloc, &block, 1)?)?;
        let payload = self.wrapped(watch, &block, wraps)?;
        Ok(self.calls.push(Call::Replace(block, payload))?)
    }

    // A new literal after a target.
    fn put(&mut self, watch: &mut Watch, target: SyntaxNode) -> Result<()> {
        let new = new_literal(watch)?;
        self.insert(watch.alloc, target, new)
    }

    fn change(&mut self, watch: &mut Watch, target: SyntaxNode, changes: Changes) -> Result<()> {
        match changes {
            Changes::Replace(_) => Ok(self.calls.push(Call::Replace(target, new_literal(watch)?))?),
            Changes::Wrap(wraps) => self.wrap(watch, target, wraps),
            _ => self.put(watch, target),
        }
    }

    fn push_all(&mut self, watch: &mut Watch, root: &SyntaxNode, changes: Changes) -> Result<()> {
        if let Changes::Bring(notes) = changes {
            let list = list(watch.alloc, notes)?;
            let payload = SyntaxNode::new_root(watch.alloc, &mut watch.ids, list)?;
            return self.bring(watch.alloc, root, &payload);
        }
        if let Changes::Note(_) = changes {
            self.annotate(watch.alloc, root)?;
        }
        for target in changes.targets(watch.alloc, root)? {
            self.change(watch, target, changes)?;
        }
        Ok(())
    }

    /// Makes the calls.
    pub(crate) fn record(&mut self, alloc: Global) -> Result<()> {
        for call in replace(&mut self.calls, Vec::new(alloc)) {
            call.make(alloc, &mut self.editor)?;
        }
        Ok(())
    }
}

impl Changes {
    pub(crate) fn read(words: &mut Words) -> Option<Changes> {
        match (words.next()?, number(words).ok()?) {
            ("replace", step) => Some(Changes::Replace(step)),
            ("insert", step) => Some(Changes::Insert(step)),
            ("note", notes) => Some(Changes::Note(notes)),
            ("bring", notes) => Some(Changes::Bring(notes)),
            ("wrap", wraps) => Some(Changes::Wrap(wraps)),
            _ => None,
        }
    }

    fn targets(self, alloc: Global, root: &SyntaxNode) -> Result<Vec<SyntaxNode>> {
        let (kind, step) = match self {
            Changes::Replace(step) | Changes::Insert(step) => (SyntaxKind::LITERAL, step),
            Changes::Wrap(_) => (SyntaxKind::BLOCK_EXPR, 1),
            _ => (SyntaxKind::LITERAL, 1),
        };
        let mut targets = Vec::new(alloc);
        let mut passed = 0usize;
        for node in root.descendants_of_kind(alloc, kind)? {
            passed = passed.saturating_add(1);
            if passed >= step {
                targets.push(node)?;
                passed = 0;
            }
        }
        Ok(targets)
    }

    /// An editor of a tree, and the calls.
    pub(crate) fn prepare(self, watch: &mut Watch, tree: Tree) -> Result<Prepared> {
        let root = tree.root(watch)?;
        let (editor, root) = SyntaxEditor::new(watch.alloc, &mut watch.ids, root)?;
        let calls = Vec::new(watch.alloc);
        let mut prepared = Prepared { editor, calls };
        prepared.push_all(watch, &root, self)?;
        Ok(prepared)
    }
}
