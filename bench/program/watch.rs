//! Reads counts or the clock, and keeps what was read until a work is done.
use anyhow::{Result, ensure};
use cst_core::TreeIds;
use std::alloc::Global;
use std::time::Instant;

#[derive(Clone, Copy)]
pub(crate) enum Meter {
    Counts,
    Clock,
}

/// What a number says.
#[derive(Clone, Copy, Debug)]
pub(crate) enum Figure {
    Built,
    Walked,
    Elements,
    PathsCopied,
    Changes,
    Recorded,
    Planned,
    CarriedOut,
    NodesBuilt,
    Bytes,
    NodesAtLeast,
    Least,
    LeastWithAnswer,
    InDefaultOrder,
}

/// What was read, since when a part has been going on, and what every work needs.
#[derive(Drop)]
pub(crate) struct Watch {
    rt: HostRuntime,
    start: Option<Instant>,
    readings: Vec<(Figure, u128)>,
    is_incomplete: bool,
    pub(crate) meter: Meter,
    pub(crate) alloc: Global,
    pub(crate) ids: TreeIds,
}

impl Watch {
    pub(crate) fn new(rt: HostRuntime) -> Watch {
        Watch {
            start: None,
            readings: Vec::new(rt.alloc()),
            is_incomplete: false,
            meter: Meter::Counts,
            alloc: rt.alloc(),
            ids: TreeIds::new(1),
            rt,
        }
    }

    // What could not be read or kept is an error of the report, so that no part has a way out for it.
    fn keep(&mut self, figure: Figure, number: Option<u128>) {
        let is_kept = match number {
            Some(number) => self.readings.push((figure, number)).is_ok(),
            None => false,
        };
        self.is_incomplete = self.is_incomplete || !is_kept;
    }

    fn nanoseconds(&self) -> Option<u128> {
        Some(self.start?.elapsed(&self.rt).ok()?.as_nanos())
    }

    pub(crate) fn start(&mut self) {
        self.start = Instant::now(&self.rt).ok();
    }

    /// A part has ended, which began at the last `start`.
    pub(crate) fn stop(&mut self, figure: Figure) {
        let nanoseconds = self.nanoseconds();
        if let Meter::Clock = self.meter {
            self.keep(figure, nanoseconds);
        }
    }

    pub(crate) fn count(&mut self, figure: Figure, number: u64) {
        if let Meter::Counts = self.meter {
            self.keep(figure, Some(number as u128));
        }
    }

    /// Prints what was read, each number on a line that begins with this one.
    pub(crate) fn report(&mut self, line: &str) -> Result<()> {
        ensure!(!self.is_incomplete, "a reading is lost");
        for (figure, number) in &self.readings {
            println!(self.rt; "{line}; {figure:?}; {number}")?;
        }
        self.readings.clear();
        Ok(())
    }
}
