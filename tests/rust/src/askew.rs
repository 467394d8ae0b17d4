//! Straightened copies of a plan with a fault each.

use crate::families::{Draft, Tree};
use crate::reference::{bare, lines, read, Form, MAX_BRACKETS};
use crate::straight;

/// How the blocks inside a statement are straightened.
type Blocks<'a> = &'a dyn Fn(&[Tree]) -> Vec<Tree>;

/// A fault: what stands in the place of a statement where it is not what should.
type Fault = fn(&Tree, Blocks) -> Option<Vec<Tree>>;

/// A block straightened with a fault, and so the blocks inside.
fn block(trees: &[Tree], fault: Fault) -> Vec<Tree> {
    let inner = |trees: &[Tree]| block(trees, fault);
    let right = |tree: &Tree| match tree {
        Tree::Skip | Tree::Call(_) => vec![tree.clone()],
        Tree::Hold(lock, body) => vec![Tree::Hold(*lock, inner(body))],
        Tree::Share(lock, body) => vec![Tree::Share(*lock, inner(body))],
        Tree::Loop(body) => inner(body),
        Tree::Either(one, two) => [inner(one), inner(two)].concat(),
    };
    trees.iter().flat_map(|tree| fault(tree, &inner).unwrap_or_else(|| right(tree))).collect()
}

/// A plan straightened with a fault.
fn by(draft: &Draft, fault: Fault) -> Vec<u8> {
    let procs = draft.procs.iter().map(|body| block(body, fault)).collect();
    Draft { procs, threads: draft.threads.clone() }.text()
}

/// An either or a loop.
fn branches(tree: &Tree) -> bool {
    matches!(tree, Tree::Loop(_) | Tree::Either(..))
}

/// Nothing is straightened.
pub fn nothing(draft: &Draft) -> Vec<u8> {
    draft.text()
}

/// The first block of an either alone.
pub fn first_block_alone(draft: &Draft) -> Vec<u8> {
    by(draft, |tree, inner| match tree {
        Tree::Either(one, _) => Some(inner(one)),
        _ => None,
    })
}

/// The second block of an either alone.
pub fn second_block_alone(draft: &Draft) -> Vec<u8> {
    by(draft, |tree, inner| match tree {
        Tree::Either(_, two) => Some(inner(two)),
        _ => None,
    })
}

/// The second block of an either before the first.
pub fn blocks_exchanged(draft: &Draft) -> Vec<u8> {
    by(draft, |tree, inner| match tree {
        Tree::Either(one, two) => Some([inner(two), inner(one)].concat()),
        _ => None,
    })
}

/// The first block of an either twice.
pub fn first_block_twice(draft: &Draft) -> Vec<u8> {
    by(draft, |tree, inner| match tree {
        Tree::Either(one, _) => Some([inner(one), inner(one)].concat()),
        _ => None,
    })
}

/// Two equal blocks of an either once.
pub fn equal_blocks_once(draft: &Draft) -> Vec<u8> {
    by(draft, |tree, inner| match tree {
        Tree::Either(one, two) if one == two => Some(inner(one)),
        _ => None,
    })
}

/// The blocks of an either without one that is a skip.
pub fn skip_for_nothing(draft: &Draft) -> Vec<u8> {
    by(draft, |tree, inner| match tree {
        Tree::Either(one, two) if two[..] == [Tree::Skip] => Some(inner(one)),
        Tree::Either(one, two) if one[..] == [Tree::Skip] => Some(inner(two)),
        _ => None,
    })
}

/// A skip in the place of a choice.
pub fn skip_for_a_choice(draft: &Draft) -> Vec<u8> {
    by(draft, |tree, inner| match tree {
        Tree::Either(one, two) => Some([vec![Tree::Skip], inner(one), inner(two)].concat()),
        _ => None,
    })
}

/// Eithers stay, with straightened blocks.
pub fn eithers_kept(draft: &Draft) -> Vec<u8> {
    by(draft, |tree, inner| match tree {
        Tree::Either(one, two) => Some(vec![Tree::Either(inner(one), inner(two))]),
        _ => None,
    })
}

/// Loops stay, with straightened blocks.
pub fn loops_kept(draft: &Draft) -> Vec<u8> {
    by(draft, |tree, inner| match tree {
        Tree::Loop(body) => Some(vec![Tree::Loop(inner(body))]),
        _ => None,
    })
}

/// A loop's block twice.
pub fn loops_twice(draft: &Draft) -> Vec<u8> {
    by(draft, |tree, inner| match tree {
        Tree::Loop(body) => Some([inner(body), inner(body)].concat()),
        _ => None,
    })
}

/// A skip in the place of a loop.
pub fn loops_left_out(draft: &Draft) -> Vec<u8> {
    by(draft, |tree, _| match tree {
        Tree::Loop(_) => Some(vec![Tree::Skip]),
        _ => None,
    })
}

/// A loop's block as it stands.
pub fn loops_as_they_stand(draft: &Draft) -> Vec<u8> {
    by(draft, |tree, _| match tree {
        Tree::Loop(body) => Some(body.clone()),
        _ => None,
    })
}

/// An either's blocks as they stand.
pub fn eithers_as_they_stand(draft: &Draft) -> Vec<u8> {
    by(draft, |tree, _| match tree {
        Tree::Either(one, two) => Some([one.as_slice(), two].concat()),
        _ => None,
    })
}

/// The second block of an either as it stands.
pub fn second_block_as_it_stands(draft: &Draft) -> Vec<u8> {
    by(draft, |tree, inner| match tree {
        Tree::Either(one, two) => Some([inner(one), two.clone()].concat()),
        _ => None,
    })
}

/// A hold's block as it stands.
pub fn holds_as_they_stand(draft: &Draft) -> Vec<u8> {
    by(draft, |tree, _| match tree {
        Tree::Hold(..) => Some(vec![tree.clone()]),
        _ => None,
    })
}

/// A share's block as it stands.
pub fn shares_as_they_stand(draft: &Draft) -> Vec<u8> {
    by(draft, |tree, _| match tree {
        Tree::Share(..) => Some(vec![tree.clone()]),
        _ => None,
    })
}

/// Shares become holds.
pub fn holds_for_shares(draft: &Draft) -> Vec<u8> {
    by(draft, |tree, inner| match tree {
        Tree::Share(lock, body) => Some(vec![Tree::Hold(*lock, inner(body))]),
        _ => None,
    })
}

/// Shares go too.
pub fn shares_lost(draft: &Draft) -> Vec<u8> {
    by(draft, |tree, inner| match tree {
        Tree::Share(_, body) => Some(inner(body)),
        _ => None,
    })
}

/// Eithers right inside a loop stay, with straightened blocks.
pub fn eithers_of_loops_kept(draft: &Draft) -> Vec<u8> {
    by(draft, |tree, inner| {
        let Tree::Loop(body) = tree else {
            return None;
        };
        let part = |tree: &Tree| match tree {
            Tree::Either(one, two) => vec![Tree::Either(inner(one), inner(two))],
            other => inner(std::slice::from_ref(other)),
        };
        Some(body.iter().flat_map(part).collect())
    })
}

/// Holds go too.
pub fn holds_lost(draft: &Draft) -> Vec<u8> {
    by(draft, |tree, inner| match tree {
        Tree::Hold(_, body) => Some(inner(body)),
        _ => None,
    })
}

/// Holds right inside a loop or an either go too.
pub fn holds_of_branches_lost(draft: &Draft) -> Vec<u8> {
    fn without(trees: &[Tree]) -> Vec<Tree> {
        let part = |tree: &Tree| match tree {
            Tree::Hold(_, body) | Tree::Share(_, body) => body.clone(),
            other => vec![other.clone()],
        };
        trees.iter().flat_map(part).collect()
    }
    by(draft, |tree, inner| match tree {
        Tree::Loop(body) => Some(inner(&without(body))),
        Tree::Either(one, two) => Some([inner(&without(one)), inner(&without(two))].concat()),
        _ => None,
    })
}

/// The first statement of a loop's block alone.
pub fn first_of_a_loop_alone(draft: &Draft) -> Vec<u8> {
    by(draft, |tree, inner| match tree {
        Tree::Loop(body) => Some(inner(&body[..1])),
        _ => None,
    })
}

/// The first statement of each block of an either alone.
pub fn first_of_each_block_alone(draft: &Draft) -> Vec<u8> {
    by(draft, |tree, inner| match tree {
        Tree::Either(one, two) => Some([inner(&one[..1]), inner(&two[..1])].concat()),
        _ => None,
    })
}

/// What stands behind a loop or an either in a hold's block is left out.
pub fn rest_of_a_hold_left_out(draft: &Draft) -> Vec<u8> {
    by(draft, |tree, inner| match tree {
        Tree::Hold(lock, body) => {
            let first = body.iter().position(branches).map_or(body.len(), |at| at + 1);
            Some(vec![Tree::Hold(*lock, inner(&body[..first]))])
        }
        _ => None,
    })
}

/// Statements that are equal to the one before are left out, once eithers and loops are gone.
pub fn equal_neighbours_once(draft: &Draft) -> Vec<u8> {
    let once = |body: &Vec<Tree>| {
        let mut body = straight::block(body);
        body.dedup();
        body
    };
    Draft { procs: draft.procs.iter().map(once).collect(), threads: draft.threads.clone() }.text()
}

/// Procedures by another straightening, told the number of each.
fn by_procedure(draft: &Draft, other: fn(&Draft, usize) -> Vec<Tree>) -> Vec<u8> {
    let procs = (0..draft.procs.len()).map(|proc| other(draft, proc)).collect();
    Draft { procs, threads: draft.threads.clone() }.text()
}

/// The first procedure alone is straightened.
pub fn first_procedure_alone(draft: &Draft) -> Vec<u8> {
    by_procedure(draft, |draft, proc| match proc {
        0 => straight::block(&draft.procs[0]),
        _ => draft.procs[proc].clone(),
    })
}

/// The last procedure is not straightened.
pub fn last_procedure_kept(draft: &Draft) -> Vec<u8> {
    by_procedure(draft, |draft, proc| match proc + 1 == draft.procs.len() {
        true => draft.procs[proc].clone(),
        false => straight::block(&draft.procs[proc]),
    })
}

/// An either that is the last statement of a procedure stays.
pub fn last_either_kept(draft: &Draft) -> Vec<u8> {
    by_procedure(draft, |draft, proc| match draft.procs[proc].split_last() {
        Some((last @ Tree::Either(..), before)) => [straight::block(before), vec![last.clone()]].concat(),
        _ => straight::block(&draft.procs[proc]),
    })
}

/// The body in the place of a call.
pub fn calls_replaced(draft: &Draft) -> Vec<u8> {
    fn replaced(draft: &Draft, body: &[Tree]) -> Vec<Tree> {
        let part = |tree: &Tree| match tree {
            Tree::Call(callee) => replaced(draft, &straight::block(&draft.procs[*callee])),
            Tree::Hold(lock, body) => vec![Tree::Hold(*lock, replaced(draft, body))],
            Tree::Share(lock, body) => vec![Tree::Share(*lock, replaced(draft, body))],
            other => vec![other.clone()],
        };
        body.iter().flat_map(part).collect()
    }
    by_procedure(draft, |draft, proc| replaced(draft, &straight::block(&draft.procs[proc])))
}

/// A loop or an either as deep as can be stays.
pub fn deepest_kept(draft: &Draft) -> Vec<u8> {
    fn deep(trees: &[Tree], left: usize) -> Vec<Tree> {
        let part = |tree: &Tree| match tree {
            Tree::Loop(_) if left == 1 => vec![tree.clone()],
            Tree::Either(..) if left == 2 => vec![tree.clone()],
            Tree::Skip | Tree::Call(_) => vec![tree.clone()],
            Tree::Hold(lock, body) => vec![Tree::Hold(*lock, deep(body, left - 1))],
            Tree::Share(lock, body) => vec![Tree::Share(*lock, deep(body, left - 1))],
            Tree::Loop(body) => deep(body, left - 1),
            Tree::Either(one, two) => [deep(one, left - 2), deep(two, left - 2)].concat(),
        };
        trees.iter().flat_map(part).collect()
    }
    by_procedure(draft, |draft, proc| deep(&draft.procs[proc], MAX_BRACKETS))
}

/// The right copy with other threads.
fn run_by(draft: &Draft, threads: Vec<usize>) -> Vec<u8> {
    Draft { threads, ..straight::straightened(draft) }.text()
}

/// Thread lines go too.
pub fn threads_lost(draft: &Draft) -> Vec<u8> {
    run_by(draft, vec![])
}

/// The last thread line goes too.
pub fn last_thread_lost(draft: &Draft) -> Vec<u8> {
    run_by(draft, draft.threads[..draft.threads.len() - 1].to_vec())
}

/// Thread lines in the order of their numbers.
pub fn threads_ascending(draft: &Draft) -> Vec<u8> {
    let mut threads = draft.threads.clone();
    threads.sort_unstable();
    run_by(draft, threads)
}

/// The forms that go.
fn goes(form: Form) -> bool {
    matches!(form, Form::Loop | Form::Either | Form::One | Form::Two)
}

/// The lines of a text of right structure that stay, each as it stands, told for an opening
/// line and for the one that closes it.
fn lines_by(text: &[u8], opening: fn(Form) -> bool, closing: fn(Form) -> bool) -> Vec<&[u8]> {
    let (mut open, mut stay) = (Vec::new(), Vec::new());
    for line in lines(text).expect("lines that are read").forms {
        let stays = match line.form {
            Form::Close => closing(open.pop().expect("a right structure")),
            Form::Skip | Form::Call(_) | Form::Thread(_) => true,
            form => {
                open.push(form);
                opening(form)
            }
        };
        if stays {
            stay.push(&text[line.start..line.end]);
        }
    }
    stay
}

/// The lines that stay in the right copy: made from what is open at each, and not from the tree.
pub fn lines_that_stay(text: &[u8]) -> Vec<&[u8]> {
    lines_by(text, |form| !goes(form), |form| !goes(form))
}

/// The right copy from these lines.
pub fn copy_by_lines(text: &[u8]) -> Vec<u8> {
    lines_that_stay(text).into_iter().flat_map(bare).copied().collect()
}

/// The lines that close a loop stay too.
pub fn with_closed_loops(text: &[u8]) -> Vec<&[u8]> {
    lines_by(text, |form| !goes(form), |form| !goes(form) || form == Form::Loop)
}

/// The lines that close an either stay too.
pub fn with_closed_eithers(text: &[u8]) -> Vec<&[u8]> {
    lines_by(text, |form| !goes(form), |form| !goes(form) || form == Form::Either)
}

/// The lines of the two blocks stay too.
pub fn with_parts(text: &[u8]) -> Vec<&[u8]> {
    let stays = |form| !goes(form) || matches!(form, Form::One | Form::Two);
    lines_by(text, stays, stays)
}

/// The straightened copy of a text that a rule refuses, where the copy would be accepted. From
/// the lines: the tree may be deep.
pub fn accepted_by_its_copy(text: &[u8], rule: u8) -> Option<Vec<u8>> {
    read(text).err().filter(|refusal| refusal.rule == rule)?;
    let copy = copy_by_lines(text);
    read(&copy).is_ok().then_some(copy)
}
