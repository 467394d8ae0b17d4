//! Idle procedures: plans freed of them, and plans that rule 13 is about.

use std::collections::BTreeSet;

use crate::families::{hold, skips, Draft, Tree};
use crate::full;
use crate::generate::{
    absent, any_order, body, circle_length, cycles, doubling, plan, put_call, put_circle, CALLING, SMALL,
    TINY,
};
use crate::random::Random;
use crate::reference::{named, sizes, MAX_PROCS, MAX_SIZE, MAX_THREADS};

/// The procedures that a block calls.
fn callees(block: &[Tree], all: &mut BTreeSet<usize>) {
    for tree in block {
        match tree {
            Tree::Skip => {}
            Tree::Call(callee) => drop(all.insert(*callee)),
            Tree::Hold(_, body) | Tree::Share(_, body) | Tree::Loop(body) => callees(body, all),
            Tree::Either(one, two) => {
                callees(one, all);
                callees(two, all);
            }
        }
    }
}

/// Some procedures and those that they reach, call by call until none is new. Absent
/// ones are passed over.
fn reached(draft: &Draft, from: &[usize]) -> BTreeSet<usize> {
    let present = |proc: &usize| *proc < draft.procs.len();
    let mut all: BTreeSet<usize> = from.iter().copied().filter(present).collect();
    loop {
        let mut more = all.clone();
        all.iter().for_each(|proc| callees(&draft.procs[*proc], &mut more));
        more.retain(present);
        if more.len() == all.len() {
            return all;
        }
        all = more;
    }
}

/// The procedures that no thread names or reaches through calls, ascending.
pub fn idle(draft: &Draft) -> Vec<usize> {
    let used = reached(draft, &draft.threads);
    (0..draft.procs.len()).filter(|proc| !used.contains(proc)).collect()
}

/// The first rule but 13 that a plan breaks.
fn broken(draft: &Draft) -> Option<u8> {
    match named(&draft.text()) {
        Err(refusal) => Some(refusal.rule),
        Ok(plan) if !plan.recursive().is_empty() => Some(12),
        Ok(plan) => sizes(&plan).iter().any(|size| *size > MAX_SIZE).then_some(9),
    }
}

/// An idle procedure, one that no other idle one calls where there is such.
fn any_idle(draft: &Draft, random: &mut Random) -> Option<usize> {
    let idle = idle(draft);
    let mut called = BTreeSet::new();
    idle.iter().for_each(|proc| callees(&draft.procs[*proc], &mut called));
    let first: Vec<usize> = idle.iter().copied().filter(|proc| !called.contains(proc)).collect();
    let some = if first.is_empty() { idle } else { first };
    (!some.is_empty()).then(|| *random.pick(&some))
}

/// The same with a call of an idle procedure from a used one that it does not reach, so
/// that no circle is closed.
fn with_call(draft: &Draft, proc: usize, random: &mut Random) -> Option<Draft> {
    let (used, behind) = (reached(draft, &draft.threads), reached(draft, &[proc]));
    let callers: Vec<usize> = used.difference(&behind).copied().collect();
    if callers.is_empty() {
        return None;
    }
    let mut draft = draft.clone();
    put_call(&mut draft.procs[*random.pick(&callers)], proc, random);
    Some(draft)
}

/// The same with a thread of a procedure, where there is room for one.
fn with_thread(draft: &Draft, proc: usize) -> Option<Draft> {
    let threads = [draft.threads.as_slice(), &[proc]].concat();
    (threads.len() <= MAX_THREADS).then(|| Draft { threads, ..draft.clone() })
}

/// The same without a procedure that is not used; calls of it become skips.
fn without(draft: &Draft, proc: usize) -> Draft {
    let behind = proc + 1..draft.procs.len();
    let number = |other: usize| other - usize::from(behind.contains(&other));
    let call = |callee: usize| if callee == proc { Tree::Skip } else { Tree::Call(number(callee)) };
    let mut rest = draft.with_calls(|_, callee| call(callee));
    rest.procs.remove(proc);
    rest.threads.iter_mut().for_each(|thread| *thread = number(*thread));
    rest
}

/// The same without the procedures that are idle.
pub fn without_idle(mut draft: Draft) -> Draft {
    while let Some(proc) = idle(&draft).pop() {
        draft = without(&draft, proc);
    }
    draft
}

/// The same with no procedure idle, where one is used at least: each idle one gets a
/// call or a thread, and is left out where either would break another rule than the
/// plan does.
pub fn employed(mut draft: Draft, random: &mut Random) -> Draft {
    while let Some(proc) = any_idle(&draft, random) {
        let rule = broken(&draft);
        let kept = |next: &Draft| broken(next) == rule;
        let thread = || with_thread(&draft, proc).filter(kept);
        let next = if random.chance(25) {
            thread().or_else(|| with_call(&draft, proc, random).filter(kept))
        } else {
            with_call(&draft, proc, random).filter(kept).or_else(thread)
        };
        draft = next.unwrap_or_else(|| without(&draft, proc));
    }
    draft
}

/// A call by itself, or inside: of a hold, of a loop, of one block of an either.
fn call_inside(callee: usize, random: &mut Random) -> Tree {
    let call = vec![Tree::Call(callee)];
    match random.below(6) {
        0 => hold(random.below(32), call),
        1 => Tree::Loop(call),
        2 => Tree::Either(call, skips(1)),
        3 => Tree::Either(skips(1), call),
        _ => Tree::Call(callee),
    }
}

/// Up to 64 procedures, each used by one thread or one call: the first ones have a
/// thread each, and each other one is called by one before, which may call so many. So
/// there are chains of up to 63 calls, trees, and all called by one. Some threads more run
/// the procedure of the first.
fn forest(random: &mut Random) -> Draft {
    let (roots, arity) = (*random.pick(&[1, 1, 1, 2, 3, 6]), *random.pick(&[1, 1, 1, 2, 8, 63]));
    let more = *random.pick(&[0, 1, 3, 10, 40, MAX_PROCS - roots]);
    let count = roots + if random.chance(50) { more } else { random.between(more / 2, more) };
    let mut procs = vec![Vec::new(); count];
    for callee in roots..count {
        // A call in both blocks counts twice for the size.
        let calls_none = roots + arity * callee >= count;
        let call = match calls_none && random.chance(20) {
            true => Tree::Either(vec![Tree::Call(callee)], vec![Tree::Call(callee)]),
            false => call_inside(callee, random),
        };
        procs[(callee - roots) / arity].push(call);
    }
    for block in procs.iter_mut().filter(|block| block.is_empty()) {
        block.push(hold(random.below(32), vec![]));
    }
    let mut threads = random.permutation(roots);
    let again = vec![threads[0]; random.below(MAX_THREADS + 1 - roots)];
    threads.splice(0..0, again);
    Draft { procs, threads }
}

/// Such a plan without some thread lines or calls, so that some of its procedures are idle.
fn lost(random: &mut Random) -> Draft {
    let mut draft = forest(random);
    for _ in 0..random.between(1, 3) {
        let proc = random.below(draft.procs.len());
        draft = draft.with_calls(|_, callee| if callee == proc { Tree::Skip } else { Tree::Call(callee) });
        if draft.threads.iter().any(|thread| *thread != proc) {
            draft.threads.retain(|thread| *thread != proc);
        }
    }
    draft
}

/// Puts procedures behind all others that no thread reaches; some call one before, used
/// or idle.
fn put_idle(draft: &mut Draft, count: usize, random: &mut Random) {
    for _ in 0..count.min(MAX_PROCS - draft.procs.len()) {
        let mut block = body(random, &TINY, &[]);
        if random.chance(50) {
            put_call(&mut block, random.below(draft.procs.len()), random);
        }
        draft.procs.push(block);
    }
}

/// A plan of used procedures and some that are not: one, several, or all but that of
/// the one thread line. The idle ones are the last, the first, or stand between.
pub fn with_idle(random: &mut Random) -> Draft {
    let mut draft = match random.below(5) {
        0 => plan(random, &TINY),
        1 => plan(random, &SMALL),
        2 => plan(random, &CALLING),
        3 => cycles(random),
        _ => Draft { procs: vec![skips(1)], threads: vec![0] },
    };
    let count = *random.pick(&[1, 1, 1, 2, 3, 39, 63]);
    put_idle(&mut draft, count, random);
    any_order(draft, random)
}

/// A plan with idle procedures that breaks another rule too, before 13 or behind it.
fn beside(random: &mut Random) -> Draft {
    let mut draft = if random.chance(50) { with_idle(random) } else { lost(random) };
    let count = draft.procs.len();
    let proc = random.below(count);
    match random.below(8) {
        0 | 1 => draft.procs[proc].extend(full::around(32)),
        2 => {
            draft = doubling(random.between(9, 20));
            put_idle(&mut draft, random.between(1, 3), random);
        }
        3 | 4 => put_circle(&mut draft, circle_length(random), true, random),
        5 => draft.threads[0] = absent(count, random),
        6 => put_call(&mut draft.procs[proc], absent(count, random), random),
        _ => draft.procs[proc].push(hold(random.between(32, 999), vec![])),
    }
    any_order(draft, random)
}

/// Plans that rule 13 is about: such as break it, alone or beside another rule, and such
/// as nearly do.
pub fn about_idle(random: &mut Random) -> Draft {
    let draft = match random.below(20) {
        0..=8 => forest(random),
        9..=12 => lost(random),
        13..=16 => return with_idle(random),
        _ => return beside(random),
    };
    any_order(draft, random)
}
