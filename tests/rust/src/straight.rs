//! The straightened copy of an accepted text: its plan with the two blocks of each either,
//! one after the other, in its place and the block of each loop in that of the loop, in
//! tidy form. Written from the tree of the plan and not from its lines.

use crate::families::{Draft, Tree};
use crate::reference::Plan;
use crate::tidy::{printed_as, tree};

/// What stands in the place of a statement.
fn statement(tree: &Tree) -> Vec<Tree> {
    match tree {
        Tree::Skip => vec![Tree::Skip],
        Tree::Call(proc) => vec![Tree::Call(*proc)],
        Tree::Hold(lock, body) => vec![Tree::Hold(*lock, block(body))],
        Tree::Share(lock, body) => vec![Tree::Share(*lock, block(body))],
        Tree::Loop(body) => block(body),
        Tree::Either(one, two) => [block(one), block(two)].concat(),
    }
}

/// A block without eithers and loops.
pub fn block(trees: &[Tree]) -> Vec<Tree> {
    trees.iter().flat_map(statement).collect()
}

/// A plan without eithers and loops. Procedures and thread lines stay as they are.
pub fn straightened(draft: &Draft) -> Draft {
    Draft { procs: draft.procs.iter().map(|body| block(body)).collect(), threads: draft.threads.clone() }
}

/// The straightened copy of a plan.
pub fn straight(plan: &Plan) -> Vec<u8> {
    straightened(&tree(plan)).text()
}

/// What the program `straight` prints of a text.
pub fn printed(text: &[u8]) -> Vec<u8> {
    printed_as(text, straight)
}
