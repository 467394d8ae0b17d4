//! The tidy copy of an accepted text, written from the tree of its plan and not
//! from its lines.

use crate::families::{Draft, Tree};
use crate::reference::{read, BlockId, Plan, Stmt};

/// A tidy copy is never longer than its text, and a straightened one no longer than that,
/// so that this holds every one.
pub const COPY_BYTES: usize = crate::reference::MAX_BYTES;

/// The procedures, statements and thread lines of a plan in their order, and
/// nothing of where they stand: equal exactly where the plans are.
pub fn tree(plan: &Plan) -> Draft {
    let procs = plan.procs.iter().map(|proc| block(plan, proc.body)).collect();
    Draft { procs, threads: plan.threads.clone() }
}

fn block(plan: &Plan, id: BlockId) -> Vec<Tree> {
    let tree = |stmt: &Stmt| match *stmt {
        Stmt::Skip => Tree::Skip,
        Stmt::Call(proc) => Tree::Call(proc),
        Stmt::Hold(lock, body) => Tree::Hold(lock as usize, block(plan, body)),
        Stmt::Share(lock, body) => Tree::Share(lock as usize, block(plan, body)),
        Stmt::Loop(body) => Tree::Loop(block(plan, body)),
        Stmt::Either(one, two) => Tree::Either(block(plan, one), block(plan, two)),
    };
    plan.blocks[id].iter().map(tree).collect()
}

/// The tidy copy of a plan.
pub fn tidy(plan: &Plan) -> Vec<u8> {
    tree(plan).text()
}

/// What a program prints of a text that prints a copy of its plan.
pub fn printed_as(text: &[u8], copy: fn(&Plan) -> Vec<u8>) -> Vec<u8> {
    match read(text) {
        Ok(plan) => copy(&plan),
        Err(refusal) => format!("{refusal}\n").into_bytes(),
    }
}

/// What the program `tidy` prints of a text.
pub fn printed(text: &[u8]) -> Vec<u8> {
    printed_as(text, tidy)
}
