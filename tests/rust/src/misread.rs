//! Readings of a text with a fault each in the rules about calls, idle procedures and shares,
//! and sums of sizes with a fault each.

use std::collections::BTreeSet;

use crate::pairs::{compositional, compositional_by, Fresh};
use crate::reference::{
    bare, lines, named, read, sizes, structure, BlockId, Form, Line, Plan, Refusal, Stmt, MAX_BRACKETS,
    MAX_LOCK, MAX_PAIRS, MAX_PROCS, MAX_SIZE, MAX_STATEMENTS, MAX_THREADS,
};

type Reading = Result<Plan, Refusal>;

/// The plan of a text of right structure, whatever else it breaks.
fn plan(text: &[u8]) -> Reading {
    structure(&lines(text)?)
}

/// A text with other forms on some of its lines, which stay where they are.
fn with_forms(text: &[u8], mut other: impl FnMut(Line) -> Option<String>) -> Vec<u8> {
    let (mut changed, mut kept) = (Vec::new(), 0);
    for line in lines(text).expect("lines that are read").forms {
        if let Some(form) = other(line) {
            changed.extend_from_slice(&text[kept..line.end - bare(&text[line.start..line.end]).len()]);
            changed.extend(form.into_bytes());
            kept = line.end;
        }
    }
    changed.extend_from_slice(&text[kept..]);
    changed
}

/// A text of right structure with other callees, by caller and callee, or skips where
/// there are none.
fn with_callees(text: &[u8], other: impl Fn(usize, usize) -> Option<usize>) -> Vec<u8> {
    let mut begun = 0;
    with_forms(text, |line| {
        begun += usize::from(line.form == Form::Proc);
        let Form::Call(callee) = line.form else {
            return None;
        };
        Some(match other(begun - 1, callee as usize) {
            Some(callee) => format!("(call {callee})\n"),
            None => "(skip)\n".into(),
        })
    })
}

/// A text without the calls that are told.
fn without(text: &[u8], told: impl Fn(usize, usize) -> bool) -> Vec<u8> {
    with_callees(text, |caller, callee| (!told(caller, callee)).then_some(callee))
}

/// The text of a plan without the calls of recursive procedures.
fn without_recursion(text: &[u8], plan: &Plan) -> Vec<u8> {
    let recursive = plan.recursive();
    without(text, |_, callee| recursive.contains(&callee))
}

/// The reading of a text, or another where a rule refuses it.
fn instead(text: &[u8], rule: u8, other: impl FnOnce(Plan) -> Option<Reading>) -> Reading {
    match read(text) {
        Err(refusal) if refusal.rule == rule => other(plan(text)?).unwrap_or(Err(refusal)),
        said => said,
    }
}

/// A refusal that names a procedure.
fn refused(rule: u8, plan: &Plan, proc: usize) -> Reading {
    Err(Refusal { rule, line: plan.procs[proc].line })
}

/// A procedure whose size passes the limit, the lowest of some.
fn too_large(sizes: &[u64], mut procs: impl Iterator<Item = usize>) -> Option<usize> {
    procs.find(|proc| sizes[*proc] > MAX_SIZE)
}

/// The reading of a text by another rule 13, which tells the procedure that it names.
fn by_idle(text: &[u8], idle: impl FnOnce(&Plan) -> Option<usize>) -> Reading {
    judged(named(text)?, idle)
}

/// Rules 12, 13 by another one, and 9.
fn judged(plan: Plan, idle: impl FnOnce(&Plan) -> Option<usize>) -> Reading {
    if let Some(proc) = plan.recursive().first() {
        return refused(12, &plan, *proc);
    }
    if let Some(proc) = idle(&plan) {
        return refused(13, &plan, proc);
    }
    let plan = Plan { sizes: sizes(&plan), ..plan };
    match too_large(&plan.sizes, 0..plan.procs.len()) {
        Some(proc) => refused(9, &plan, proc),
        None => Ok(Plan { pairs: compositional(&plan), ..plan }),
    }
}

/// Rule 7 as it was: no call of the caller itself or of one behind it.
pub fn calls_of_earlier_ones_alone(text: &[u8]) -> Reading {
    let said = read(text);
    if matches!(said, Err(Refusal { rule: 2..=6, .. })) {
        return said;
    }
    let mut begun = 0;
    let mut forms = lines(text)?.forms.into_iter();
    let later = forms.find(|line| {
        begun += usize::from(line.form == Form::Proc);
        matches!(line.form, Form::Call(callee) if callee as usize + 1 >= begun)
    });
    later.map_or(said, |line| Err(Refusal { rule: 7, line: line.number }))
}

/// Rule 7 from 64 on, whatever the number of procedures.
pub fn absent_from_64_on(text: &[u8]) -> Reading {
    instead(text, 7, |plan| {
        let absent = plan.procs.len()..MAX_PROCS;
        Some(read(&without(text, |_, callee| absent.contains(&callee))))
    })
}

/// Six bits for the number of a callee.
pub fn six_bits_of_a_callee(text: &[u8]) -> Reading {
    instead(text, 7, |_| Some(read(&with_callees(text, |_, callee| Some(callee % MAX_PROCS)))))
}

/// Where rule 12 refuses, it names the lowest procedure that is told.
fn named_instead(text: &[u8], told: impl Fn(&Plan, usize) -> bool) -> Reading {
    instead(text, 12, |plan| {
        let proc = (0..plan.procs.len()).find(|proc| told(&plan, *proc))?;
        Some(refused(12, &plan, proc))
    })
}

/// Whether a procedure reaches a circle.
fn reaches_a_circle(plan: &Plan, proc: usize) -> bool {
    plan.recursive().iter().any(|other| plan.reached(proc).contains(other))
}

/// Rule 12 names the lowest procedure that reaches a circle.
pub fn lowest_that_reaches_a_circle(text: &[u8]) -> Reading {
    named_instead(text, reaches_a_circle)
}

/// Rule 12 names the lowest procedure that reaches a circle and is reached by one.
pub fn lowest_between_circles(text: &[u8]) -> Reading {
    named_instead(text, |plan, proc| {
        let reached = plan.recursive().iter().any(|other| plan.reached(*other).contains(&proc));
        reached && reaches_a_circle(plan, proc)
    })
}

/// Rule 12 names the highest recursive procedure.
pub fn highest_of_a_circle(text: &[u8]) -> Reading {
    named_instead(text, |plan, proc| plan.recursive().last() == Some(&proc))
}

/// Rule 12 is for a procedure that calls itself; one of a longer circle is too large.
pub fn calls_of_itself_alone(text: &[u8]) -> Reading {
    instead(text, 12, |plan| {
        let itself = (0..plan.procs.len()).find(|proc| plan.callees(*proc).any(|callee| callee == *proc));
        Some(itself.map_or_else(|| refused(9, &plan, plan.recursive()[0]), |proc| refused(12, &plan, proc)))
    })
}

/// Rule 12 is for the procedures that threads reach.
pub fn circles_of_threads_alone(text: &[u8]) -> Reading {
    instead(text, 12, |plan| {
        let reaches = plan.threads.iter().any(|proc| reaches_a_circle(&plan, *proc));
        (!reaches).then(|| read(&without_recursion(text, &plan)))
    })
}

/// Rule 12 refuses an accepted plan too, for the lowest procedure that is told.
fn also_refused(text: &[u8], told: impl Fn(&Plan, usize) -> bool) -> Reading {
    let plan = read(text)?;
    match (0..plan.procs.len()).find(|proc| told(&plan, *proc)) {
        Some(proc) => refused(12, &plan, proc),
        None => Ok(plan),
    }
}

/// Rule 12 is also for a procedure with two ways to another.
pub fn two_ways_for_a_circle(text: &[u8]) -> Reading {
    also_refused(text, |plan, proc| {
        let reached = plan.reached(proc);
        let callers = reached.iter().chain([&proc]);
        callers.map(|caller| plan.callees(*caller).count()).sum::<usize>() > reached.len()
    })
}

/// Rule 12 is also for a procedure that reaches 63 others.
pub fn all_others_for_a_circle(text: &[u8]) -> Reading {
    also_refused(text, |plan, proc| plan.reached(proc).len() == MAX_PROCS - 1)
}

/// Rule 12 before another.
fn recursion_before(rule: u8, text: &[u8]) -> Reading {
    instead(text, rule, |whole| {
        let present = plan(&without(text, |_, callee| callee >= whole.procs.len())).ok()?;
        Some(refused(12, &whole, *present.recursive().first()?))
    })
}

/// Rule 12 before rule 7.
pub fn recursion_before_calls(text: &[u8]) -> Reading {
    recursion_before(7, text)
}

/// Rule 12 before rule 8.
pub fn recursion_before_threads(text: &[u8]) -> Reading {
    recursion_before(8, text)
}

/// Rule 9 before rule 12.
pub fn size_before_recursion(text: &[u8]) -> Reading {
    instead(text, 12, |whole| {
        let rest = plan(&without_recursion(text, &whole)).ok()?;
        Some(refused(9, &whole, too_large(&sizes(&rest), 0..rest.procs.len())?))
    })
}

/// Rule 13 is not asked.
pub fn idle_let_through(text: &[u8]) -> Reading {
    by_idle(text, |_| None)
}

/// Rule 13 before rule 8, absent threads passed over.
pub fn idle_before_threads(text: &[u8]) -> Reading {
    instead(text, 8, |plan| {
        let present = plan.threads.iter().copied().filter(|proc| *proc < plan.procs.len()).collect();
        let plan = Plan { threads: present, ..plan };
        Some(refused(13, &plan, *plan.idle().first()?))
    })
}

/// Rule 13 before rule 12.
pub fn idle_before_recursion(text: &[u8]) -> Reading {
    instead(text, 12, |plan| Some(refused(13, &plan, *plan.idle().first()?)))
}

/// Rule 9 before rule 13.
pub fn size_before_idle(text: &[u8]) -> Reading {
    instead(text, 13, |plan| Some(refused(9, &plan, too_large(&sizes(&plan), 0..plan.procs.len())?)))
}

/// Rule 13 names the highest idle procedure.
pub fn highest_idle(text: &[u8]) -> Reading {
    by_idle(text, |plan| plan.idle().last().copied())
}

/// Rule 13 names the lowest procedure that is not among the used ones that are told.
fn by_used(text: &[u8], used: impl FnOnce(&Plan) -> BTreeSet<usize>) -> Reading {
    by_idle(text, |plan| {
        let used = used(plan);
        (0..plan.procs.len()).find(|proc| !used.contains(proc))
    })
}

/// A thread's procedure, and those that it reaches.
fn used_by(plan: &Plan, thread: usize) -> BTreeSet<usize> {
    let mut used = plan.reached(plan.threads[thread]);
    used.insert(plan.threads[thread]);
    used
}

/// The procedures that threads name, and those that so many calls one after the other
/// lead to.
fn used_by_rounds(plan: &Plan, rounds: usize, callees: fn(&Plan, usize) -> Vec<usize>) -> BTreeSet<usize> {
    let mut used: BTreeSet<usize> = plan.threads.iter().copied().collect();
    for _ in 0..rounds {
        used.extend(used.clone().into_iter().flat_map(|proc| callees(plan, proc)));
    }
    used
}

fn all_callees(plan: &Plan, proc: usize) -> Vec<usize> {
    plan.callees(proc).collect()
}

/// A procedure that another one calls is used, also where that one is idle.
pub fn called_by_any_for_used(text: &[u8]) -> Reading {
    by_used(text, |plan| {
        let called = (0..plan.procs.len()).flat_map(|proc| plan.callees(proc));
        called.chain(plan.threads.iter().copied()).collect()
    })
}

/// A procedure is used where a thread names it, or one calls it that a thread names.
pub fn one_call_alone(text: &[u8]) -> Reading {
    by_used(text, |plan| used_by_rounds(plan, 1, all_callees))
}

/// Calls of calls are followed 62 times, one less than can be needed.
pub fn calls_62_deep_alone(text: &[u8]) -> Reading {
    by_used(text, |plan| used_by_rounds(plan, MAX_PROCS - 2, all_callees))
}

/// Calls inside holds, loops and eithers are overlooked.
pub fn calls_outside_alone(text: &[u8]) -> Reading {
    fn outside(plan: &Plan, proc: usize) -> Vec<usize> {
        let call = |stmt: &Stmt| match stmt {
            Stmt::Call(callee) => Some(*callee),
            _ => None,
        };
        plan.blocks[plan.procs[proc].body].iter().filter_map(call).collect()
    }
    by_used(text, |plan| used_by_rounds(plan, MAX_PROCS, outside))
}

/// A procedure is used where a thread names it, and by no call.
pub fn named_alone(text: &[u8]) -> Reading {
    by_used(text, |plan| used_by_rounds(plan, 0, all_callees))
}

/// A procedure is used where it is called, and by no thread line.
pub fn called_alone(text: &[u8]) -> Reading {
    by_used(text, |plan| plan.threads.iter().flat_map(|proc| plan.reached(*proc)).collect())
}

/// What the first thread does not use is idle.
pub fn first_thread_alone(text: &[u8]) -> Reading {
    by_used(text, |plan| used_by(plan, 0))
}

/// What the last thread does not use is idle.
pub fn last_thread_alone(text: &[u8]) -> Reading {
    by_used(text, |plan| used_by(plan, plan.threads.len() - 1))
}

/// A thread's number taken for that of its procedure.
pub fn used_by_thread_numbers(text: &[u8]) -> Reading {
    by_used(text, |plan| {
        let threads = (0..plan.threads.len().min(plan.procs.len())).collect();
        let plan = Plan { threads, ..plan.clone() };
        used_by_rounds(&plan, MAX_PROCS, all_callees)
    })
}

/// A procedure is used where one 32 before or behind it is.
pub fn five_bits_of_a_used_one(text: &[u8]) -> Reading {
    by_used(text, |plan| {
        let used = used_by_rounds(plan, MAX_PROCS, all_callees);
        used.into_iter().flat_map(|proc| [proc % 32, proc % 32 + 32]).collect()
    })
}

/// Rule 9 is for the procedures that threads name.
pub fn size_of_threads_alone(text: &[u8]) -> Reading {
    instead(text, 9, |plan| {
        let named: BTreeSet<usize> = plan.threads.iter().copied().collect();
        Some(refused(9, &plan, too_large(&sizes(&plan), named.into_iter())?))
    })
}

/// A rule about pairs, number 10, as there was once: no more than 128 in a procedure.
pub fn more_than_128_pairs_refused(text: &[u8]) -> Reading {
    let plan = read(text)?;
    match plan.pairs.iter().position(|pairs| pairs.len() > 128) {
        Some(proc) => refused(10, &plan, proc),
        None => Ok(plan),
    }
}

/// The same for more pairs than a buffer has words, before another rule.
fn pairs_before(rule: u8, text: &[u8]) -> Reading {
    instead(text, rule, |whole| {
        let rest = plan(&without_recursion(text, &whole)).ok()?;
        let proc = compositional(&rest).iter().position(|pairs| pairs.len() > MAX_PAIRS)?;
        Some(refused(10, &whole, proc))
    })
}

/// Before rule 9.
pub fn pairs_before_sizes(text: &[u8]) -> Reading {
    pairs_before(9, text)
}

/// Before rule 12.
pub fn pairs_before_recursion(text: &[u8]) -> Reading {
    pairs_before(12, text)
}

/// Sizes in text order: a callee that stands later has none yet.
pub fn sizes_in_text_order(text: &[u8]) -> Reading {
    instead(text, 9, |_| Some(idle_let_through(&without(text, |caller, callee| callee > caller))))
}

/// Pairs in text order: a callee that stands later has none yet.
pub fn pairs_in_text_order(text: &[u8]) -> Reading {
    let plan = read(text)?;
    let pairs = idle_let_through(&without(text, |caller, callee| callee > caller))?.pairs;
    Ok(Plan { pairs, ..plan })
}

/// Pairs by another reading of what is fresh.
fn by_fresh(text: &[u8], fresh: Fresh) -> Reading {
    let plan = read(text)?;
    Ok(Plan { pairs: compositional_by(&plan, fresh), ..plan })
}

/// A hold inside a share of its lock is not fresh.
pub fn no_upgrades(text: &[u8]) -> Reading {
    by_fresh(text, |_, _| false)
}

/// A share inside a hold of its lock is fresh.
pub fn shares_fresh_under_holds(text: &[u8]) -> Reading {
    by_fresh(text, |inside_hold, by_hold| inside_hold != by_hold)
}

/// A share inside a share of its lock is fresh.
pub fn shares_fresh_under_shares(text: &[u8]) -> Reading {
    by_fresh(text, |inside_hold, _| !inside_hold)
}

/// A text with its shares made holds, where it is read at all.
fn with_holds(text: &[u8]) -> Result<Vec<u8>, Refusal> {
    named(text)?;
    Ok(with_forms(text, |line| match line.form {
        Form::Share(lock) => Some(format!("(hold {lock}\n")),
        _ => None,
    }))
}

/// Shares are read as holds.
pub fn shares_as_holds(text: &[u8]) -> Reading {
    read(&with_holds(text)?)
}

/// Rule 6 for holds alone: a share of a lock above 31 is one of another.
pub fn locks_of_shares_let_through(text: &[u8]) -> Reading {
    instead(text, 6, |_| {
        Some(read(&with_forms(text, |line| match line.form {
            Form::Share(lock) if lock > MAX_LOCK => Some(format!("(share {}\n", lock % (MAX_LOCK + 1))),
            _ => None,
        })))
    })
}

/// Rule 6 for shares behind rule 6 for holds.
pub fn locks_of_holds_first(text: &[u8]) -> Reading {
    instead(text, 6, |_| {
        let forms = lines(text).ok()?.forms;
        let hold = forms.iter().find(|line| matches!(line.form, Form::Hold(lock) if lock > MAX_LOCK))?;
        Some(Err(Refusal { rule: 6, line: hold.number }))
    })
}

/// Statements of a block, and brackets open together, by what is counted of a share.
fn counted(plan: &Plan, block: BlockId, of_share: [usize; 2]) -> [usize; 2] {
    let inside = |block: &BlockId| counted(plan, *block, of_share);
    let one = |stmt: &Stmt| match stmt {
        Stmt::Skip | Stmt::Call(_) => [1, 0],
        Stmt::Hold(_, body) | Stmt::Loop(body) => [1 + inside(body)[0], 1 + inside(body)[1]],
        Stmt::Share(_, body) => [of_share[0] + inside(body)[0], of_share[1] + inside(body)[1]],
        Stmt::Either(one, two) => {
            [1 + inside(one)[0] + inside(two)[0], 2 + inside(one)[1].max(inside(two)[1])]
        }
    };
    let add =
        |[all, most]: [usize; 2], [statements, brackets]: [usize; 2]| [all + statements, most.max(brackets)];
    plan.blocks[block].iter().map(one).fold([0, 0], add)
}

/// Rule 5 by what is counted of a share: its statement and its bracket.
fn by_counts(text: &[u8], of_share: [usize; 2]) -> Reading {
    instead(text, 5, |plan| {
        let counts = plan.procs.iter().map(|proc| counted(&plan, proc.body, of_share));
        let [all, most] = counts.fold([0, 0], |[all, most], [some, open]| [all + some, most.max(open)]);
        let small = plan.procs.len() <= MAX_PROCS && plan.threads.len() <= MAX_THREADS;
        let present = |proc: usize| plan.callees(proc).all(|callee| callee < plan.procs.len());
        let names =
            (0..plan.procs.len()).all(present) && plan.threads.iter().all(|proc| *proc < plan.procs.len());
        let fits = all <= MAX_STATEMENTS && most <= MAX_BRACKETS && small && names;
        fits.then(|| judged(plan, |plan| plan.idle().first().copied()))
    })
}

/// A share is no bracket.
pub fn shares_are_no_brackets(text: &[u8]) -> Reading {
    by_counts(text, [1, 0])
}

/// A share is no statement.
pub fn shares_are_no_statements(text: &[u8]) -> Reading {
    by_counts(text, [0, 1])
}

/// An empty share is let through, as if it had a skip inside.
pub fn empty_shares_let_through(text: &[u8]) -> Reading {
    let right = read(text);
    let Err(Refusal { rule: 4, line }) = right else {
        return right;
    };
    let forms = lines(text)?.forms;
    let at = forms.iter().position(|form| form.number == line && form.form == Form::Close);
    match at.filter(|at| *at > 0 && matches!(forms[at - 1].form, Form::Share(_))) {
        Some(at) => {
            let filled = with_forms(text, |form| (form == forms[at]).then(|| "(skip)\n)\n".into()));
            empty_shares_let_through(&filled)
        }
        None => right,
    }
}

/// The sum with a share of size 1 plus its block.
pub fn shares_of_size_one(plan: &Plan) -> u64 {
    fn size(plan: &Plan, block: BlockId) -> u64 {
        let one = |stmt: &Stmt| match stmt {
            Stmt::Skip => 1,
            Stmt::Call(callee) => 1 + size(plan, plan.procs[*callee].body),
            Stmt::Hold(_, body) | Stmt::Loop(body) => 2 + size(plan, *body),
            Stmt::Share(_, body) => 1 + size(plan, *body),
            Stmt::Either(one, two) => 1 + size(plan, *one) + size(plan, *two),
        };
        plan.blocks[block].iter().map(one).sum()
    }
    plan.threads.iter().map(|proc| size(plan, plan.procs[*proc].body)).sum()
}

/// The sum of the threads' sizes, one too small.
pub fn one_too_small(plan: &Plan) -> u64 {
    plan.size_of_threads() - 1
}

/// The same, one too large.
pub fn one_too_large(plan: &Plan) -> u64 {
    plan.size_of_threads() + 1
}

/// The sizes of all procedures, whoever runs them.
pub fn sum_of_all_procedures(plan: &Plan) -> u64 {
    plan.sizes.iter().sum()
}

/// A procedure that two threads run counts once.
pub fn each_procedure_once(plan: &Plan) -> u64 {
    let procs: BTreeSet<usize> = plan.threads.iter().copied().collect();
    procs.iter().map(|proc| plan.sizes[*proc]).sum()
}

/// A thread's number taken for that of its procedure.
pub fn procedures_by_thread_numbers(plan: &Plan) -> u64 {
    plan.sizes.iter().take(plan.threads.len()).sum()
}

/// The largest of the threads' sizes for their sum.
pub fn largest_thread_alone(plan: &Plan) -> u64 {
    plan.threads.iter().map(|proc| plan.sizes[*proc]).max().unwrap_or(0)
}

/// A sum that is small again in 12 bits.
pub fn twelve_bits_of_the_sum(plan: &Plan) -> u64 {
    plan.size_of_threads() % 4_096
}
