//! Plans of threads that cross, two by two, or nearly do.

use std::collections::BTreeSet;
use std::ops::Range;

use crate::families::{detours, hold, nest, nested_around, skips, some_of, Draft, Tree};
use crate::full::{around_by, LOCKS};
use crate::generate::{any_order, body, plan, SMALL, TINY};
use crate::idle::{employed, without_idle};
use crate::random::Random;
use crate::reference::MAX_THREADS;

use Tree::Call;

/// Locks that two threads take around each other's: each holds all of its own, and then
/// wants every one of the other's with so many sets of further locks held.
#[derive(Clone, Copy)]
pub struct Opposed {
    /// Each thread's own locks.
    pub own: usize,
    /// Each thread's further locks, and how many sets of them.
    pub further: usize,
    pub sets: usize,
}

impl Opposed {
    /// The couples of its two threads: each wants so many locks with so many sets held.
    pub fn couples(self) -> usize {
        (self.own * self.sets).pow(2)
    }

    pub fn draft(self) -> Draft {
        let Opposed { own, further, .. } = self;
        let locks = |thread: usize| thread * own..(thread + 1) * own;
        let behind = |thread: usize| 2 * own + thread * further..2 * own + (thread + 1) * further;
        let wants = |thread: usize| locks(1 - thread).map(|lock| hold(lock, vec![])).collect();
        let body = |thread: usize| {
            let inner = nested_around(&lists(behind(thread), self.sets), &Call(thread));
            vec![nest(&locks(thread).collect::<Vec<_>>(), inner)]
        };
        Draft { procs: vec![wants(0), wants(1), body(0), body(1)], threads: vec![2, 3] }
    }
}

/// So many ascending lists of a range's locks, each with its beginnings.
fn lists(range: Range<usize>, count: usize) -> BTreeSet<Vec<usize>> {
    let longer = |list: &Vec<usize>| -> Vec<Vec<usize>> {
        let from = list.last().map_or(range.start, |last| last + 1);
        (from..range.end).map(|lock| [list.as_slice(), &[lock]].concat()).collect()
    };
    let mut all = BTreeSet::from([vec![]]);
    for _ in range.clone() {
        all.extend(all.iter().flat_map(longer).collect::<Vec<_>>());
    }
    assert!(count <= all.len(), "a range of {} locks", range.len());
    // A list stands behind its beginnings.
    all.into_iter().take(count).collect()
}

/// As many couples as such threads have room for: 300 pairs of each cross with all of the
/// other's, so that the count has more than 16 bits.
pub const MOST_COUPLES: Opposed = Opposed { own: 10, further: 6, sets: 30 };

/// Two threads of such chains, in turn upwards and downwards.
pub fn both_around() -> Draft {
    Draft { procs: vec![around_by(31, |chain| chain % 2 == 1)], threads: vec![0; 2] }
}

/// A statement by itself, in a loop, in one block of an either, or behind a call of a
/// procedure of its own.
fn wrapped(tree: Tree, procs: &mut Vec<Vec<Tree>>, random: &mut Random) -> Tree {
    match random.below(12) {
        0 => Tree::Loop(vec![tree]),
        1 => Tree::Either(vec![tree], skips(1)),
        2 => Tree::Either(skips(1), vec![tree]),
        3 | 4 => {
            procs.push(vec![tree]);
            Call(procs.len() - 1)
        }
        _ => tree,
    }
}

/// Chains as a body: each wrapped or not, with skips or a hold of a lock between.
fn block(chains: &[Vec<usize>], procs: &mut Vec<Vec<Tree>>, random: &mut Random) -> Vec<Tree> {
    let mut block = Vec::new();
    for chain in chains {
        block.push(wrapped(nest(chain, vec![]), procs, random));
        if random.chance(20) {
            block.push(if random.chance(50) { Tree::Skip } else { hold(random.below(LOCKS), vec![]) });
        }
    }
    block
}

/// A thread for each list of chains.
fn threads_of(chains: &[Vec<Vec<usize>>], random: &mut Random) -> Draft {
    let mut draft = Draft::default();
    for own in chains {
        let block = block(own, &mut draft.procs, random);
        draft.threads.push(draft.procs.len());
        draft.procs.push(block);
    }
    draft
}

/// Different locks of all.
fn any_locks(count: usize, random: &mut Random) -> Vec<usize> {
    random.permutation(LOCKS).into_iter().take(count).collect()
}

/// Several threads of one procedure, which takes chains in both orders or does not;
/// sometimes with a thread of another.
fn one_procedure(random: &mut Random) -> Draft {
    let locks = any_locks(random.between(2, 4), random);
    let mut chains = vec![locks.clone()];
    for _ in 0..random.between(1, 2) {
        let mut other = locks.clone();
        match random.below(3) {
            0 => other.reverse(),
            1 => random.shuffle(&mut other),
            _ => other.truncate(random.between(1, locks.len())),
        }
        chains.push(other);
    }
    let mut draft = threads_of(&[chains], random);
    draft.threads = vec![draft.threads[0]; random.between(2, MAX_THREADS - 1)];
    if random.chance(30) {
        draft.procs.push(body(random, &TINY, &[]));
        draft.threads.insert(random.below(draft.threads.len() + 1), draft.procs.len() - 1);
    }
    draft
}

/// Two threads of which the first wants a lock of the second, which wants one that the
/// first never holds, or holds only before or after: one direction alone, or just both.
fn one_direction(random: &mut Random) -> Draft {
    let locks = any_locks(5, random);
    let [a, b, c, d, e] = locks[..] else { unreachable!() };
    let first = [vec![a, b], vec![d, a, b], vec![a, d, b]];
    let second = [vec![b], vec![b, c], vec![b, e, c], vec![b, d], vec![c, b, e], vec![e, b, a]];
    let mut one = vec![random.pick(&first).clone()];
    let mut two = vec![random.pick(&second).clone()];
    // What is held alone crosses nothing.
    let alone = [vec![c], vec![e], vec![a], vec![b]];
    for chains in [&mut one, &mut two] {
        if random.chance(50) {
            chains.insert(random.below(2), random.pick(&alone).clone());
        }
    }
    let mut draft = threads_of(&[one, two], random);
    if random.chance(50) {
        draft.threads.swap(0, 1);
    }
    draft
}

/// Two threads that cross but for a lock that both hold: around both, around one, between
/// the two locks, or another in each.
fn guarded(random: &mut Random) -> Draft {
    let locks = any_locks(random.between(4, 5), random);
    let (guard, other) = (locks[0], locks[1]);
    let mut chains = [locks[2..].to_vec(), locks[2..].iter().rev().copied().collect()];
    for chain in &mut chains {
        let guard = *random.pick(&[guard, guard, guard, other]);
        match random.below(8) {
            0..=3 => chain.insert(0, guard),
            4 | 5 => chain.insert(1, guard),
            6 => chain.push(guard),
            _ => {}
        }
    }
    let [one, two] = chains;
    let mut one = vec![one];
    if random.chance(25) {
        // The same without a guard, or a part of it.
        one.push(one[0][random.below(2)..].to_vec());
    }
    threads_of(&[one, vec![two]], random)
}

/// Threads around a ring of locks, of which from three on no two cross, and now and then
/// two that do.
fn ring(random: &mut Random) -> Draft {
    let count = random.between(3, MAX_THREADS);
    let locks = any_locks(count, random);
    let mut chains: Vec<Vec<Vec<usize>>> =
        (0..count).map(|thread| vec![vec![locks[thread], locks[(thread + 1) % count]]]).collect();
    if random.chance(30) {
        let thread = random.below(count);
        chains[thread].push(vec![locks[(thread + 2) % count], locks[(thread + 1) % count]]);
    }
    let mut draft = threads_of(&chains, random);
    random.shuffle(&mut draft.threads);
    draft
}

/// Two threads that cross, among others that take locks upwards.
fn among_others(random: &mut Random) -> Draft {
    let locks = some_of(0..LOCKS, random.between(2, 4), random);
    let down = locks.iter().rev().copied().collect();
    let mut chains = vec![vec![locks.clone()], vec![down]];
    for _ in 0..random.between(1, MAX_THREADS - 2) {
        let count = random.between(1, 3);
        chains.push(vec![some_of(0..LOCKS, count, random)]);
    }
    let mut draft = threads_of(&chains, random);
    random.shuffle(&mut draft.threads);
    draft
}

/// One thread, whatever its procedure would cross in another.
fn one_thread(random: &mut Random) -> Draft {
    let mut draft = if random.chance(50) { one_procedure(random) } else { plan(random, &SMALL) };
    draft.threads = vec![*random.pick(&draft.threads)];
    without_idle(draft)
}

/// Many couples: few to some thousands.
fn many_couples(random: &mut Random) -> Draft {
    let own = random.between(1, 6);
    let further = random.between(0, 5);
    let sets = random.between(1, 12.min(1 << further));
    let draft = Opposed { own, further, sets }.draft();
    match random.below(4) {
        0 => detours(random.between(3, 14)),
        1 => Draft { threads: vec![3, 2, 3], ..draft },
        _ => draft,
    }
}

/// As many pairs as a procedure can have, in two threads.
fn most_pairs(random: &mut Random) -> Draft {
    let any = random.next();
    let down = *random.pick(&[0, u64::MAX, 0x5555_5555, 1, any]);
    let mut draft = Draft { procs: vec![around_by(31, |chain| down >> chain & 1 == 1)], threads: vec![0; 2] };
    if random.chance(30) {
        draft.procs.push(vec![nest(&any_locks(3, random), vec![])]);
        draft.threads.push(1);
    }
    draft
}

/// Plans that are about where two threads cross.
pub fn about_crossings(random: &mut Random) -> Draft {
    let draft = match random.below(30) {
        0..=5 => one_procedure(random),
        6..=10 => one_direction(random),
        11..=15 => guarded(random),
        16..=18 => ring(random),
        19..=22 => among_others(random),
        23..=25 => one_thread(random),
        26..=28 => many_couples(random),
        _ => most_pairs(random),
    };
    any_order(employed(draft, random), random)
}
