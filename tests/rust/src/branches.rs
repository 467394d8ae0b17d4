//! Plans of eithers and loops: what the straightened copy is about.

use crate::families::{hold, skips, Draft, Tree};
use crate::generate::{
    any_order, circles, crossings, cycles, plan, rings, shape, Shape, CALLING, NESTED, SMALL,
};
use crate::idle::employed;
use crate::random::Random;
use crate::reference::{MAX_BRACKETS, MAX_SIZE};

/// Many eithers and loops, some as deep as allowed.
const BRANCHING: Shape = shape((1, 4), (2, 4), 5, 12, MAX_BRACKETS, [2, 3, 7, 5, 6], 10);

/// Eithers inside each other, with a statement in each of the innermost blocks.
pub fn eithers(depth: usize, statement: &mut dyn FnMut() -> Tree) -> Vec<Tree> {
    match depth {
        0 => vec![statement()],
        _ => vec![Tree::Either(eithers(depth - 1, statement), eithers(depth - 1, statement))],
    }
}

/// So many eithers of two skips.
pub fn choices(count: usize) -> Vec<Tree> {
    vec![Tree::Either(skips(1), skips(1)); count]
}

/// So many loops around a skip.
pub fn rounds(count: usize) -> Vec<Tree> {
    vec![Tree::Loop(skips(1)); count]
}

/// Brackets open together in a block.
fn depth(block: &[Tree]) -> usize {
    let one = |tree: &Tree| match tree {
        Tree::Skip | Tree::Call(_) => 0,
        Tree::Hold(_, body) | Tree::Share(_, body) | Tree::Loop(body) => 1 + depth(body),
        Tree::Either(one, two) => 2 + depth(one).max(depth(two)),
    };
    block.iter().map(one).max().unwrap_or(0)
}

/// A block with some statements that follow each other put into a loop, or into an either as
/// its two blocks, at any depth; no more brackets are open together than are left.
fn bend(block: &[Tree], left: usize, random: &mut Random) -> Vec<Tree> {
    let mut inner = |tree: &Tree| match tree {
        Tree::Skip | Tree::Call(_) => tree.clone(),
        Tree::Hold(lock, body) => Tree::Hold(*lock, bend(body, left.saturating_sub(1), random)),
        Tree::Share(lock, body) => Tree::Share(*lock, bend(body, left.saturating_sub(1), random)),
        Tree::Loop(body) => Tree::Loop(bend(body, left.saturating_sub(1), random)),
        Tree::Either(one, two) => {
            let left = left.saturating_sub(2);
            Tree::Either(bend(one, left, random), bend(two, left, random))
        }
    };
    let mut block: Vec<Tree> = block.iter().map(&mut inner).collect();
    for _ in 0..random.below(3) {
        let first = random.below(block.len());
        let run = first..random.between(first + 1, block.len());
        let (count, brackets) = (run.len(), depth(&block[run.clone()]));
        if count > 1 && brackets + 2 <= left && random.chance(60) {
            let one: Vec<Tree> = block.drain(first..first + random.between(1, count - 1)).collect();
            let two: Vec<Tree> = block.drain(first..first + count - one.len()).collect();
            block.insert(first, Tree::Either(one, two));
        } else if brackets < left {
            let body: Vec<Tree> = block.drain(run).collect();
            block.insert(first, Tree::Loop(body));
        }
    }
    block
}

/// The same plan with more eithers and loops, and nothing else more: its straightened copy is
/// the same. It may be larger than allowed.
pub fn bent(draft: &Draft, random: &mut Random) -> Draft {
    let procs = draft.procs.iter().map(|body| bend(body, MAX_BRACKETS, random)).collect();
    Draft { procs, threads: draft.threads.clone() }
}

/// A block of an exact size, by weights of skip, hold, loop and either, with so many brackets
/// left.
fn of_size(size: usize, left: usize, weights: [usize; 4], random: &mut Random) -> Vec<Tree> {
    let mut block = Vec::new();
    let mut rest = size;
    while rest > 0 {
        let [skip, hold, round, either] = weights;
        let bracket = usize::from(rest >= 3 && left >= 1);
        let brackets = usize::from(rest >= 3 && left >= 2);
        let kind = random.weighted(&[skip, bracket * hold, bracket * round, brackets * either]);
        let inner = if kind == 0 { 0 } else { random.between(2, (rest - 1).min(100)) };
        let lock = random.below(32);
        let mut body = |size: usize, left: usize| of_size(size, left, weights, random);
        let tree = match kind {
            0 => Tree::Skip,
            1 => Tree::Hold(lock, body(inner - 1, left - 1)),
            2 => Tree::Loop(body(inner - 1, left - 1)),
            _ => Tree::Either(body(inner / 2, left - 2), body(inner - inner / 2, left - 2)),
        };
        block.push(tree);
        rest -= 1 + inner;
    }
    block
}

/// About as large as allowed, in one procedure: by its size, or by its statements where there
/// are no holds and loops.
fn about_full(random: &mut Random) -> Draft {
    let size = MAX_SIZE as usize - 1 + random.below(3);
    let weights = *random.pick(&[[2, 2, 4, 4], [1, 0, 3, 3], [1, 0, 0, 4], [1, 0, 4, 0], [4, 1, 1, 1]]);
    let threads = vec![0; random.between(1, 3)];
    Draft { procs: vec![of_size(size, MAX_BRACKETS, weights, random)], threads }
}

/// Nothing but eithers, loops and skips.
fn skips_alone(random: &mut Random) -> Draft {
    let mut body = || of_size(random.between(1, 60), MAX_BRACKETS, [2, 0, 3, 4], random);
    Draft::each(vec![body(), body()])
}

/// Brackets of all kinds, as many open together as there are left, with a hold before, behind
/// and beside them where there is room for one, or a skip.
fn tower(left: usize, random: &mut Random) -> Vec<Tree> {
    let beside = |left: usize, random: &mut Random| match left {
        0 => Tree::Skip,
        _ => hold(random.below(6), vec![]),
    };
    if left == 0 {
        return skips(1);
    }
    let tree = match random.below(if left >= 2 { 5 } else { 2 }) {
        0 => hold(random.below(6), tower(left - 1, random)),
        1 => Tree::Loop(tower(left - 1, random)),
        2 => Tree::Either(tower(left - 2, random), vec![beside(left - 2, random)]),
        3 => Tree::Either(vec![beside(left - 2, random)], tower(left - 2, random)),
        _ => Tree::Either(tower(left / 2 - 1, random), tower(left - 2, random)),
    };
    let mut block = vec![tree];
    if random.chance(40) {
        block.insert(random.below(2), beside(left, random));
    }
    block
}

/// Towers in some threads.
fn towers(random: &mut Random) -> Draft {
    let mut body = || tower(*random.pick(&[3, 7, 12, MAX_BRACKETS, MAX_BRACKETS]), random);
    Draft::each(vec![body(), body()])
}

/// Full trees of eithers, with holds in their innermost blocks where there is room for them.
fn trees(random: &mut Random) -> Draft {
    let depth = *random.pick(&[2, 3, 5, 7, 8, 8]);
    let locks = random.between(2, 32);
    let mut leaf = || if depth < 8 { hold(random.below(locks), vec![]) } else { Tree::Skip };
    let body = eithers(depth, &mut leaf);
    Draft { procs: vec![body], threads: vec![0; 2] }
}

/// The same plan with each call inside an either or a loop, or both.
fn called_inside(draft: &Draft, random: &mut Random) -> Draft {
    let any = random.below(4);
    draft.with_calls(|caller, callee| {
        let call = vec![Tree::Call(callee)];
        match (any + caller + callee) % 4 {
            0 => Tree::Loop(call),
            1 => Tree::Either(call, skips(1)),
            2 => Tree::Either(skips(1), call),
            _ => Tree::Loop(vec![Tree::Either(call, skips(1))]),
        }
    })
}

/// Plans that the straightened copy is about.
pub fn about_branches(random: &mut Random) -> Draft {
    let draft = match random.below(26) {
        0..=4 => plan(random, &BRANCHING),
        5..=11 => {
            let draft = match random.below(5) {
                0 => cycles(random),
                1 => rings(random),
                2 => crossings(random),
                3 => plan(random, &NESTED),
                _ => plan(random, &SMALL),
            };
            bent(&draft, random)
        }
        12..=14 => towers(random),
        15 | 16 => trees(random),
        17..=19 => about_full(random),
        20 => skips_alone(random),
        21 => return called_inside(&circles(random), random),
        _ => called_inside(&plan(random, &CALLING), random),
    };
    any_order(employed(draft, random), random)
}
