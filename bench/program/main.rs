//! Measures edits of large trees, and walks over them. Each line of the standard input (bench/figures.py and bench/memory.py write such
//! lines) is `count` or `time`, how often, and one of these. A line comes out for each figure: the same, what was read, and the count or
//! the nanoseconds, as `time 3 order literals 512 replace 1; InDefaultOrder; 280125`.
//!
//! ```text
//! steps TREE CHANGES      record, plan and carry out, and the least that any engine does
//! order TREE CHANGES      plan, and carry out one change at a time
//! WALK TREE               `children`, `elements`, `descendants`, `ancestors`, `next_token`, `prev_token`; copies of the paths that it gives
//! ```
#![tactic(auto)]

mod edit;
mod floor;
mod steps;
mod tree;
mod walk;
mod watch;

use crate::edit::Changes;
use crate::steps::{carry_out_in_order, carry_out_in_steps};
use crate::tree::Tree;
use crate::walk::build_and_go_over;
use crate::watch::{Meter, Watch};
use anyhow::{Context, Result};
use std::io::read_to_string;
use std::str::Split;

/// The words of a line that are left.
type Words<'a> = Split<'a, char>;

fn number(words: &mut Words) -> Result<usize> {
    let word = words.next().context("a number is wanted")?;
    word.parse::<usize>().context("a number is wanted")
}

fn carry_out(watch: &mut Watch, line: &str) -> Result<()> {
    let mut words = line.split(' ');
    watch.meter = match words.next() {
        Some("time") => Meter::Clock,
        _ => Meter::Counts,
    };
    let times = number(&mut words)?;
    let work = words.next().context("a work is wanted")?;
    let tree = Tree::read(&mut words)?;
    let changes = Changes::read(&mut words);
    for _ in 0..times {
        match (work, changes) {
            ("steps", Some(changes)) => carry_out_in_steps(watch, tree, changes)?,
            ("order", Some(changes)) => carry_out_in_order(watch, tree, changes)?,
            (walk, _) => build_and_go_over(watch, tree, walk)?,
        }
        watch.report(line)?;
    }
    Ok(())
}

fn main(rt: HostRuntime) -> Result<()> {
    let input = read_to_string(rt.alloc(), rt.stdin())?;
    let mut watch = Watch::new(rt);
    for line in input.lines() {
        carry_out(&mut watch, line)?;
    }
    Ok(())
}
