//! The calls of the library that carry scripts out, with room for their answers.
#![forbid(unsafe_code)]

use crate::ffi;

/// How a run of a script ended: the exit status of the program `syned`.
#[derive(Clone, Copy, Debug, PartialEq, Eq)]
pub enum Status {
    /// 0: the edit was made.
    Done,
    /// 1: a call of the script was refused.
    Refused,
    /// 2: a line is bad.
    BadScript,
    /// 3: memory ran out.
    Failed,
}

impl Status {
    /// Its number, from 0 to 3.
    pub fn code(self) -> u8 {
        self as u8
    }
}

/// A form of scripts.
#[derive(Clone, Copy, Debug, PartialEq, Eq)]
pub enum Dialect {
    /// That of the program `syned`.
    Syned,
    /// That of `syned wide`: with kinds of a script's own, of any size, and as deep as it is.
    Wide,
}

/// Carries out a script, and gives the status and the answer as docs/SCRIPTS.md describes them. For
/// [`Status::Failed`] the answer is empty.
///
/// ```
/// use syned::{run, Status};
///
/// let script = b"tree A (ARG_LIST L_PAREN\"(\" R_PAREN\")\")\nedit R A\ndelete R/1\nfinish\n";
/// assert_eq!(run(script), (Status::Done, b"text \"(\"\nchanged\n".to_vec()));
/// assert_eq!(run(b"no script"), (Status::BadScript, b"bad script line 1\n".to_vec()));
/// ```
pub fn run(script: &[u8]) -> (Status, Vec<u8>) {
    run_for(Dialect::Syned, script)
}

/// The same for a script of a dialect.
///
/// ```
/// use syned::{run_for, Dialect, Status};
///
/// let script = b"kinds call\ntree A (call)\nedit R A\nfinish\n";
/// assert_eq!(run_for(Dialect::Wide, script), (Status::Done, b"text \"\"\nchanged\n".to_vec()));
/// ```
pub fn run_for(dialect: Dialect, script: &[u8]) -> (Status, Vec<u8>) {
    // An answer with the new tree is about twice as long as its script.
    run_with_guess(
        dialect,
        script,
        script.len().saturating_mul(2).saturating_add(64),
    )
}

/// Why a script has no edit, in a sentence for people to read; `None` if it has one. The sentences may change.
///
/// ```
/// assert_eq!(syned::explain(b"tree A (ARG_LIST)\nedit R A\nfinish\n"), None);
/// assert_eq!(syned::explain(b"").as_deref(), Some("no finish line"));
/// ```
pub fn explain(script: &[u8]) -> Option<String> {
    explain_for(Dialect::Syned, script)
}

/// The same of a script of a dialect.
///
/// ```
/// use syned::{explain_for, Dialect};
///
/// assert_eq!(explain_for(Dialect::Wide, b"").as_deref(), Some("no finish line"));
/// ```
pub fn explain_for(dialect: Dialect, script: &[u8]) -> Option<String> {
    explain_with_guess(dialect, script, 256)
}

/// The version of the library that is linked.
///
/// ```
/// assert_eq!(syned::library_version(), env!("CARGO_PKG_VERSION"));
/// ```
pub fn library_version() -> &'static str {
    std::str::from_utf8(ffi::version()).unwrap_or_default()
}

fn run_with_guess(dialect: Dialect, script: &[u8], guess: usize) -> (Status, Vec<u8>) {
    let mut needed = guess;
    loop {
        let Some(mut room) = zeros(needed) else {
            return (Status::Failed, Vec::new());
        };
        let (code, length) = ffi::run(dialect, script, &mut room);
        let status = match code {
            0 => Status::Done,
            1 => Status::Refused,
            2 => Status::BadScript,
            _ => return (Status::Failed, Vec::new()),
        };
        if length <= room.len() {
            room.truncate(length);
            return (status, room);
        }
        needed = length;
    }
}

fn explain_with_guess(dialect: Dialect, script: &[u8], guess: usize) -> Option<String> {
    let mut needed = guess;
    loop {
        let mut room = vec![0; needed];
        let length = ffi::explain(dialect, script, &mut room);
        if length == 0 {
            return None;
        }
        if length <= room.len() {
            room.truncate(length);
            return Some(String::from_utf8_lossy(&room).into_owned());
        }
        needed = length;
    }
}

// So many zeros, unless memory is refused: an answer may have gigabytes.
fn zeros(count: usize) -> Option<Vec<u8>> {
    let mut zeros = Vec::new();
    zeros.try_reserve_exact(count).ok()?;
    zeros.resize(count, 0);
    Some(zeros)
}

#[cfg(test)]
mod tests {
    use super::*;

    const EDIT: &[u8] = b"tree A (ARG_LIST COMMA\",\")\nedit R A\nfinish\n";

    #[test]
    fn any_first_guess_gives_the_whole_answer() {
        for guess in [0, 1, 16, 17, 18, 4096] {
            assert_eq!(
                run_with_guess(Dialect::Syned, EDIT, guess),
                (Status::Done, b"text \",\"\nchanged\n".to_vec())
            );
            assert_eq!(
                run_with_guess(Dialect::Syned, b"", guess),
                (Status::BadScript, b"bad script line 1\n".to_vec())
            );
        }
    }

    #[test]
    fn any_first_guess_gives_the_whole_sentence() {
        for guess in [0, 1, 13, 14, 15, 4096] {
            assert_eq!(
                explain_with_guess(Dialect::Syned, b"", guess).as_deref(),
                Some("no finish line")
            );
            assert_eq!(explain_with_guess(Dialect::Syned, EDIT, guess), None);
        }
    }

    #[test]
    fn room_that_is_refused_is_a_failure() {
        assert_eq!(
            run_with_guess(Dialect::Syned, EDIT, usize::MAX),
            (Status::Failed, Vec::new())
        );
    }

    #[test]
    fn codes_are_those_of_the_program() {
        let all = [
            Status::Done,
            Status::Refused,
            Status::BadScript,
            Status::Failed,
        ];
        assert_eq!(all.map(Status::code), [0, 1, 2, 3]);
    }
}
