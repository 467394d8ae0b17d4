//! The report of the program.

use std::fmt::Write;

use crate::gateway::{entry, replay};
use crate::reference::{read, Plan, Refusal};
use crate::verdict::{deadlocks, judge, Verdict};

/// The report of a text, with a schedule of the reference's own.
pub fn report(text: &[u8]) -> Vec<u8> {
    match read(text) {
        Ok(plan) => accepted(&plan, &judge(&plan)),
        Err(refusal) => refused(refusal),
    }
}

pub fn refused(refusal: Refusal) -> Vec<u8> {
    format!("(report\n{refusal}\n)\n").into_bytes()
}

/// The report of an accepted plan, with a given verdict.
pub fn accepted(plan: &Plan, verdict: &Verdict) -> Vec<u8> {
    let mut out = String::from("(report\n");
    for (proc, pairs) in plan.pairs.iter().enumerate() {
        writeln!(out, "(proc {proc}").unwrap();
        for pair in pairs {
            writeln!(out, "{pair}").unwrap();
        }
        out.push_str(")\n");
    }
    match verdict {
        Verdict::Free => out.push_str("(free)\n"),
        Verdict::Deadlock { schedule, stuck } => {
            out.push_str("(deadlock\n(stuck");
            for thread in (0..plan.threads.len()).filter(|thread| stuck >> thread & 1 == 1) {
                write!(out, " {thread}").unwrap();
            }
            out.push_str(")\n");
            for word in schedule {
                let (thread, choice) = entry(*word);
                writeln!(out, "(step {thread} {choice})").unwrap();
            }
            out.push_str(")\n");
        }
    }
    out.push_str(")\n");
    out.into_bytes()
}

/// Whether a program's report of a text is right. A deadlock may have any
/// schedule that is a run, short enough, with its largest stuck set.
pub fn check(text: &[u8], printed: &[u8]) -> Result<(), String> {
    check_known(text, printed, None)
}

/// The same where it is known whether an accepted text deadlocks.
pub fn check_known(text: &[u8], printed: &[u8], known: Option<bool>) -> Result<(), String> {
    let plan = match read(text) {
        Ok(plan) => plan,
        Err(refusal) => return same(printed, &refused(refusal)),
    };
    if !known.unwrap_or_else(|| deadlocks(&plan)) {
        return same(printed, &accepted(&plan, &Verdict::Free));
    }
    let mut schedule = Vec::new();
    for line in printed.split(|byte| *byte == 10).filter(|line| line.starts_with(b"(step ")) {
        let numbers = std::str::from_utf8(&line[6..]).ok().and_then(|rest| {
            let (thread, choice) = rest.strip_suffix(')')?.split_once(' ')?;
            Some((thread.parse::<u16>().ok()?, choice.parse::<u16>().ok()?))
        });
        match numbers {
            Some((thread, choice)) if thread < 8 && choice < 8 => schedule.push(thread + 8 * choice),
            _ => return Err(format!("no step: {}", String::from_utf8_lossy(line))),
        }
    }
    if schedule.len() as u64 > plan.size_of_threads() {
        return Err(format!("{} steps, more than {}", schedule.len(), plan.size_of_threads()));
    }
    let state = replay(&plan, &schedule).map_err(|index| format!("step {index} is not permitted"))?;
    let stuck = state.largest_stuck(&plan);
    if stuck == 0 {
        return Err("no thread is stuck at the end of the schedule".into());
    }
    same(printed, &accepted(&plan, &Verdict::Deadlock { schedule, stuck }))
}

/// Whether the printed bytes are those that are expected.
pub fn same(printed: &[u8], expected: &[u8]) -> Result<(), String> {
    if printed == expected {
        return Ok(());
    }
    let lines =
        |bytes: &[u8]| -> Vec<Vec<u8>> { bytes.split(|byte| *byte == 10).map(<[u8]>::to_vec).collect() };
    let (printed, expected) = (lines(printed), lines(expected));
    let at = printed.iter().zip(&expected).take_while(|(a, b)| a == b).count();
    let line = |lines: &[Vec<u8>]| match lines.get(at) {
        Some(line) => format!("'{}'", String::from_utf8_lossy(line)),
        None => "nothing".into(),
    };
    Err(format!("line {} is {}, not {}", at + 1, line(&printed), line(&expected)))
}
