//! Edits, part by part or one change at a time, and the least that any engine does for them.
use crate::edit::{Changes, Prepared};
use crate::floor::{Touched, copy_answer, floor, make};
use crate::tree::Tree;
use crate::watch::{Figure, Watch};
use anyhow::Result;
use syntax_editor::{EditPlan, OnePassEngine, SyntaxEdit};

fn record(watch: &mut Watch, prepared: &mut Prepared) -> Result<()> {
    watch.start();
    prepared.record(watch.alloc)?;
    watch.stop(Figure::Recorded);
    watch.count(Figure::Changes, prepared.editor.changes().len() as u64);
    Ok(())
}

fn planned(watch: &mut Watch, prepared: Prepared) -> Result<EditPlan> {
    watch.start();
    let plan = prepared.editor.plan(watch.alloc)?;
    watch.stop(Figure::Planned);
    Ok(plan)
}

fn run(watch: &mut Watch, plan: &EditPlan) -> Result<SyntaxEdit> {
    let mut engine = OnePassEngine::new(watch.alloc);
    watch.start();
    let made = plan.run_with(watch.alloc, &mut watch.ids, &mut engine)?;
    watch.stop(Figure::CarriedOut);
    watch.count(Figure::NodesBuilt, engine.builds());
    watch.count(Figure::Bytes, made.new_root().text_len());
    Ok(made)
}

fn make_least(watch: &mut Watch, floor: &[Touched]) -> Result<()> {
    watch.count(Figure::NodesAtLeast, floor.len() as u64);
    watch.start();
    let _tree = make(watch.alloc, floor)?;
    watch.stop(Figure::Least);
    Ok(())
}

fn make_all(watch: &mut Watch, floor: &[Touched], made: &SyntaxEdit, notes: usize) -> Result<()> {
    watch.start();
    let _tree = make(watch.alloc, floor)?;
    let _answer = copy_answer(watch.alloc, made, notes)?;
    watch.stop(Figure::LeastWithAnswer);
    Ok(())
}

fn make_both(watch: &mut Watch, made: &SyntaxEdit, changes: Changes) -> Result<()> {
    let floor = floor(watch.alloc, made, changes)?;
    make_least(watch, &floor)?;
    let notes = match changes {
        Changes::Note(notes) | Changes::Bring(notes) => notes,
        _ => 0,
    };
    make_all(watch, &floor, made, notes)
}

fn carry_out(watch: &mut Watch, plan: &EditPlan, changes: Changes) -> Result<()> {
    let made = run(watch, plan)?;
    make_both(watch, &made, changes)
}

/// Records, plans and carries out, and makes the least.
pub(crate) fn carry_out_in_steps(watch: &mut Watch, tree: Tree, changes: Changes) -> Result<()> {
    let mut prepared = changes.prepare(watch, tree)?;
    record(watch, &mut prepared)?;
    let plan = planned(watch, prepared)?;
    carry_out(watch, &plan, changes)
}

fn execute(watch: &mut Watch, plan: &EditPlan) -> Result<()> {
    let order = plan.default_order(watch.alloc)?;
    let made = plan.execute(watch.alloc, &mut watch.ids, &order)?;
    watch.stop(Figure::InDefaultOrder);
    watch.count(Figure::Bytes, made.new_root().text_len());
    Ok(())
}

/// Plans, and carries one change out after another.
pub(crate) fn carry_out_in_order(watch: &mut Watch, tree: Tree, changes: Changes) -> Result<()> {
    let mut prepared = changes.prepare(watch, tree)?;
    prepared.record(watch.alloc)?;
    watch.start();
    let plan = prepared.editor.plan(watch.alloc)?;
    execute(watch, &plan)
}
