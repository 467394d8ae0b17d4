//! The families of plans as large as the limits allow. 496 pairs are the most that a
//! procedure can have: a size of 1,024 has room for 31 chains of 16 locks. A text has
//! 1,024 statements in all, so threads share bodies through calls, or call one of
//! their own inside many locks.

use std::collections::BTreeSet;
use std::ops::Range;

use crate::families::{hold, nest, nested_around, some_of, Draft, Ring, Tree};
use crate::generate::{size, statements};
use crate::random::Random;
use crate::reference::{read, MAX_LOCK, MAX_PROCS, MAX_SIZE, MAX_STATEMENTS, MAX_THREADS};
use crate::tidy::tree;

use Tree::Call;

pub const LOCKS: usize = MAX_LOCK as usize + 1;

/// The first of the six ring locks; the locks before are for lists.
const RING: usize = LOCKS - MAX_THREADS;

/// Lists that are tried before a block counts as full.
const TRIED: usize = 1_500;

/// What a block may have.
#[derive(Clone, Copy)]
struct Room {
    size: u64,
    statements: usize,
}

/// The room of each thread's own body beside so many statements.
fn beside(statements: usize) -> Room {
    Room { size: MAX_SIZE, statements: (MAX_STATEMENTS - statements) / MAX_THREADS }
}

/// Lists of locks around a call, as many as there is room for; by the sizes of the
/// procedures that may be called. Lists with a common beginning share its holds.
fn filled(lists: impl IntoIterator<Item = Vec<usize>>, call: &Tree, sizes: &[u64], room: Room) -> Vec<Tree> {
    let (mut chosen, mut holds) = (BTreeSet::new(), BTreeSet::new());
    for list in lists {
        let beginnings = (1..=list.len()).map(|end| list[..end].to_vec());
        let more: Vec<Vec<usize>> = beginnings.filter(|beginning| !holds.contains(beginning)).collect();
        let (calls, all) = (chosen.len() + 1, holds.len() + more.len());
        let size = 2 * all as u64 + calls as u64 * size(std::slice::from_ref(call), sizes);
        if size <= room.size && calls + all <= room.statements && chosen.insert(list) {
            holds.extend(more);
        }
    }
    nested_around(&chosen, call)
}

/// Lists of so many locks of a range in any order, as many as are tried.
fn any_lists(range: Range<usize>, length: usize, random: Random) -> impl Iterator<Item = Vec<usize>> {
    let mut random = random;
    (0..TRIED).map(move |_| some_of(range.clone(), length, &mut random))
}

/// All lists of two locks of a range.
fn doubles(range: Range<usize>) -> Vec<Vec<usize>> {
    range.clone().flat_map(|a| (a + 1..range.end).map(move |b| vec![a, b])).collect()
}

/// The sizes of bodies that call those before them.
fn sizes_of(procs: &[Vec<Tree>]) -> Vec<u64> {
    procs.iter().fold(Vec::new(), |mut sizes, body| {
        sizes.push(size(body, &sizes));
        sizes
    })
}

fn statements_of(procs: &[Vec<Tree>]) -> usize {
    procs.iter().map(|body| statements(body)).sum()
}

/// Procedures that are only called, and a thread of each body behind them.
fn called_by(mut procs: Vec<Vec<Tree>>, bodies: Vec<Vec<Tree>>) -> Draft {
    let threads = (procs.len()..procs.len() + bodies.len()).collect();
    procs.extend(bodies);
    Draft { procs, threads }
}

/// Thirty chains of fifteen ascending locks, which all six threads take, each inside
/// another first lock: free.
pub fn hierarchy() -> Draft {
    let mut random = Random::new(0);
    let mut chains = BTreeSet::new();
    while chains.len() < 30 {
        chains.insert(some_of(MAX_THREADS..LOCKS, 15, &mut random));
    }
    let procs: Vec<Vec<Tree>> = chains.iter().map(|chain| vec![nest(chain, vec![])]).collect();
    let body = |thread: usize| {
        let around = |chain: usize| hold((thread + chain + chain / 6) % 6, vec![Call(chain)]);
        (0..procs.len()).map(around).collect()
    };
    let bodies = (0..MAX_THREADS).map(body).collect();
    called_by(procs, bodies)
}

/// Two bodies of 31 and of 29 ascending chains of sixteen locks, three threads of each:
/// free. With one descending chain at the end of the second there is a deadlock.
pub fn many_pairs(deadlock: bool) -> Draft {
    let body = |seed: u64, count: usize| -> Vec<Vec<usize>> {
        let mut random = Random::new(seed);
        let mut chains = BTreeSet::new();
        // First locks that are different as far as they can be.
        while chains.len() < count {
            let first = chains.len() % 17;
            chains.insert([vec![first], some_of(first + 1..LOCKS, 15, &mut random)].concat());
        }
        chains.into_iter().collect()
    };
    let (one, mut two) = (body(0, 31), body(1, 29));
    if deadlock {
        two.last_mut().expect("a chain").reverse();
    }
    let procs = [one, two].map(|chains| chains.iter().map(|chain| nest(chain, vec![])).collect());
    Draft { procs: procs.into(), threads: vec![0, 0, 0, 1, 1, 1] }
}

/// So many chains of sixteen locks, each from another lock around: with 31 the most
/// pairs that a procedure can have, 496, and a size of 1,023.
pub fn around(chains: usize) -> Vec<Tree> {
    around_by(chains, |_| false)
}

/// The same, with some chains downwards.
pub fn around_by(chains: usize, down: impl Fn(usize) -> bool) -> Vec<Tree> {
    let chain = |first: usize| {
        let step = if down(first) { LOCKS - 1 } else { 1 };
        nest(&(0..16).map(|at| (first + at * step) % LOCKS).collect::<Vec<_>>(), vec![])
    };
    (0..chains).map(chain).collect()
}

/// Six threads of 496 pairs each: deadlock.
pub fn most_pairs() -> Draft {
    Draft { procs: vec![around(31)], threads: vec![0; MAX_THREADS] }
}

/// As `detours` over all locks: three threads that hold 0 around holds in a row, three
/// that nest them with a hold of 0 in each; the inner half of the nest is a procedure
/// of its own.
pub fn detours() -> Draft {
    let row = (1..LOCKS).map(|lock| hold(lock, vec![])).collect();
    let nested = |locks: Range<usize>, inner: Vec<Tree>| {
        locks.rev().fold(inner, |inner, lock| vec![hold(0, vec![]), hold(lock, inner)])
    };
    let procs =
        vec![vec![hold(0, row)], nested(17..LOCKS, vec![hold(0, vec![])]), nested(1..17, vec![Call(1)])];
    Draft { procs, threads: vec![0, 2, 0, 2, 0, 2] }
}

/// The places of a ring, by procedures of which the last ones are theirs.
#[derive(Clone)]
pub struct Places<'a> {
    ring: Ring<'a>,
    procs: Vec<Vec<Tree>>,
}

impl<'a> Places<'a> {
    /// Each lock of a place's group around each lock of the next group.
    pub fn new(ring: Ring<'a>) -> Places<'a> {
        Places { ring, procs: (0..ring.threads).map(|place| ring.inner(place)).collect() }
    }

    /// Lists of the locks of a place's group, as many as there is room for, around each
    /// lock of the next group.
    pub fn dense(ring: Ring<'a>, size: u64) -> Places<'a> {
        let want = |lock: usize| hold(lock, vec![]);
        let wants = |place: usize| ring.locks(place + 1).map(want).collect();
        let mut procs: Vec<Vec<Tree>> = (0..ring.threads).map(wants).collect();
        let (sizes, room) = (sizes_of(&procs), Room { size, ..beside(2 * statements_of(&procs)) });
        for place in 0..ring.threads {
            let lists = ring.locks(place).fold(vec![vec![]], |lists: Vec<Vec<usize>>, lock| {
                let with = |list: &Vec<usize>| [list.clone(), vec![lock]].concat();
                lists.iter().map(with).chain(lists.clone()).collect()
            });
            let lists = lists.into_iter().filter(|list| !list.is_empty());
            procs.push(filled(lists, &Call(place), &sizes, room));
        }
        Places { ring, procs }
    }

    /// The procedure of a place.
    fn place(&self, place: usize) -> usize {
        self.procs.len() - self.ring.threads + place
    }

    /// Each thread at its own place, behind as many of its lists of extra locks as there
    /// is room for; those of the guard inside it.
    pub fn each(self, lists: impl Fn(usize) -> Vec<Vec<usize>>) -> Draft {
        let (sizes, room) = (sizes_of(&self.procs), beside(statements_of(&self.procs)));
        let less = Room { size: room.size - 2, statements: room.statements - 1 };
        let body = |thread: usize| {
            let body = filled(lists(thread), &Call(self.place(thread)), &sizes, less);
            if self.ring.guarded.contains(&thread) {
                vec![hold(self.ring.guard(), body)]
            } else {
                body
            }
        };
        let bodies = (0..self.ring.threads).map(body).collect();
        called_by(self.procs, bodies)
    }

    /// Each thread at any place: inside each of its lists it calls one procedure for all
    /// places, those of the guard inside it.
    pub fn any(mut self, lists: impl Fn(usize) -> Vec<Vec<usize>>) -> Draft {
        let (inside, outside): (Vec<usize>, Vec<usize>) =
            (0..self.ring.threads).partition(|place| self.ring.guarded.contains(place));
        let calls = |places: &[usize]| places.iter().map(|place| Call(self.place(*place))).collect();
        let mut all: Vec<Tree> = calls(&outside);
        if !inside.is_empty() {
            all.push(hold(self.ring.guard(), calls(&inside)));
        }
        self.procs.push(all);
        let (sizes, room) = (sizes_of(&self.procs), beside(statements_of(&self.procs)));
        let any = Call(self.procs.len() - 1);
        let bodies = (0..self.ring.threads).map(|thread| filled(lists(thread), &any, &sizes, room)).collect();
        called_by(self.procs, bodies)
    }
}

/// Each thread's ring lock around its neighbour's.
fn ring_locks() -> Vec<Vec<Tree>> {
    (0..MAX_THREADS).map(|place| vec![nest(&[RING + place, RING + (place + 1) % 6], vec![])]).collect()
}

/// A ring of lists: each thread takes one of its lists, then its ring lock and inside it
/// its neighbour's.
pub fn lists(mut lists: impl FnMut(usize) -> Vec<Vec<usize>>) -> Draft {
    let procs = ring_locks();
    let (sizes, room) = (sizes_of(&procs), beside(statements_of(&procs)));
    let bodies = (0..MAX_THREADS).map(|thread| filled(lists(thread), &Call(thread), &sizes, room)).collect();
    called_by(procs, bodies)
}

/// The same in two parts: outer lists around calls of a body of inner lists, so that
/// each outer list goes with each inner one. So many outer lists find room.
pub fn lists_by_parts(
    outer: impl Fn(usize) -> Vec<Vec<usize>>,
    inner: impl Fn(usize) -> Vec<Vec<usize>>,
    times: u64,
) -> Draft {
    let mut procs = ring_locks();
    let room = Room { size: MAX_SIZE / times - 4, ..beside(statements_of(&procs) + 500) };
    let sizes = sizes_of(&procs);
    for thread in 0..MAX_THREADS {
        procs.push(filled(inner(thread), &Call(thread), &sizes, room));
    }
    let (sizes, room) = (sizes_of(&procs), beside(statements_of(&procs)));
    let body = |thread: usize| filled(outer(thread), &Call(MAX_THREADS + thread), &sizes, room);
    let bodies = (0..MAX_THREADS).map(body).collect();
    called_by(procs, bodies)
}

/// A ring of lists in which each thread may stand at any place: inside each list it
/// calls one procedure for all places.
pub fn lists_of_any(mut lists: impl FnMut(usize) -> Vec<Vec<usize>>) -> Draft {
    let procs = vec![ring_locks().concat()];
    let (sizes, room) = (sizes_of(&procs), beside(statements_of(&procs)));
    let bodies = (0..MAX_THREADS).map(|thread| filled(lists(thread), &Call(0), &sizes, room)).collect();
    called_by(procs, bodies)
}

/// 64 procedures in four layers as in `layered_calls`, with longer chains in the lowest
/// and locks around calls in the others: of any of the lowest, and of the others in turn,
/// so that the threads reach all. All locks ascend: free.
pub fn layered_calls() -> Draft {
    let random = &mut Random::new(0);
    let mut procs: Vec<Vec<Tree>> =
        (0..16).map(|_| vec![nest(&some_of(12..LOCKS, 6, random), vec![])]).collect();
    let mut below = 0..16;
    // So many procedures, in each so many locks of four, each around so many calls.
    for (layer, count, locks, around) in [(1, 26, 2, 4), (2, 16, 2, 1), (3, MAX_THREADS, 4, 1)] {
        let mut turns = below.cycle();
        let mut call = |_| match layer {
            1 => Call(random.below(16)),
            _ => Call(turns.next().expect("a layer below")),
        };
        let lock = |proc: usize, at: usize| 4 * (3 - layer) + (proc + at) % 4;
        let mut hold_at = |proc, at| hold(lock(proc, at), (0..around).map(&mut call).collect());
        below = procs.len()..procs.len() + count;
        procs.extend((0..count).map(|proc| (0..locks).map(|at| hold_at(proc, at)).collect()));
    }
    Draft { procs, threads: below.collect() }.permuted(&random.permutation(MAX_PROCS))
}

/// The families: name, plan, whether it deadlocks.
pub fn all() -> Vec<(String, Draft, bool)> {
    let mut all: Vec<(String, Draft, bool)> = vec![
        ("hierarchy-full".into(), hierarchy(), false),
        ("detours-full".into(), detours(), true),
        ("layered-calls-full".into(), layered_calls(), false),
        ("many-pairs-full".into(), many_pairs(false), false),
        ("many-pairs-deadlock-full".into(), many_pairs(true), true),
        ("most-pairs".into(), most_pairs(), true),
    ];
    all.extend(rings());
    all.extend(rings_of_lists());
    all.extend(hubs());
    all.extend(climbed());
    all
}

/// Plans that `climb` found, from `climbed-free` and from a family of this file.
fn climbed() -> Vec<(String, Draft, bool)> {
    let kept = |text: &str| tree(&read(text.as_bytes()).expect("an accepted plan"));
    vec![
        ("climbed-free-full".into(), kept(include_str!("climbed-free.plan")), false),
        ("climbed-any-full".into(), kept(include_str!("climbed-any.plan")), false),
    ]
}

/// Lists of one of the extra locks of a ring, that of the thread first, alone or with
/// some of the locks that are left.
fn one_of(ring: &Ring, thread: usize) -> Vec<Vec<usize>> {
    let end = ring.first_extra() + ring.extra;
    let left: Vec<usize> = (end + usize::from(!ring.guarded.is_empty())..LOCKS).collect();
    let extra = |at: usize| ring.first_extra() + (thread + at) % ring.extra;
    let list = |at: usize| {
        let set = at / ring.extra;
        let some = left.iter().enumerate().filter(|(at, _)| set >> at & 1 == 1);
        std::iter::once(extra(at)).chain(some.map(|(_, lock)| *lock)).collect()
    };
    (0..ring.extra << left.len()).map(list).collect()
}

/// Lists of two of the extra locks in any order.
fn two_of(ring: &Ring, thread: usize) -> Vec<Vec<usize>> {
    let mut lists = doubles(ring.first_extra()..ring.first_extra() + ring.extra);
    Random::new(thread as u64).shuffle(&mut lists);
    lists
}

fn rings() -> Vec<(String, Draft, bool)> {
    let mut all = Vec::new();
    let ring = Ring { threads: 6, group: 2, extra: 19, guarded: &[], guard_lowest: false };
    let mut both = |name: &str, [each, any]: [Places; 2], deadlock| {
        let ring = each.ring;
        let lists =
            |thread: usize| if ring.extra > 6 { two_of(&ring, thread) } else { one_of(&ring, thread) };
        all.push((format!("{name}-full"), each.each(lists), deadlock));
        all.push((format!("{name}-any-full"), any.any(lists), deadlock));
    };
    fn twice(ring: Ring) -> [Places; 2] {
        [Places::new(ring), Places::new(ring)]
    }
    for guarded in [[0, 5], [0, 3], [2, 4], [3, 5], [4, 5]] {
        let name = format!("ring-guard-{}-{}", guarded[0], guarded[1]);
        both(&name, twice(Ring { guarded: &guarded, ..ring }), false);
    }
    for guarded in [[0, 5], [2, 4]] {
        let name = format!("ring-low-guard-{}-{}", guarded[0], guarded[1]);
        both(&name, twice(Ring { guarded: &guarded, guard_lowest: true, ..ring }), false);
    }
    both("ring-five-extra", twice(Ring { group: 4, extra: 5, ..ring }), false);
    both("ring-five-extra-2", twice(Ring { extra: 5, ..ring }), false);
    both("ring-open", twice(Ring { group: 4, extra: 6, ..ring }), true);
    // A list of extra locks around all, and all places in one body.
    fn dense(ring: Ring) -> [Places; 2] {
        [Places::dense(ring, MAX_SIZE - 8), Places::dense(ring, MAX_SIZE / 6 - 4)]
    }
    let ring = Ring { group: 5, extra: 1, ..ring };
    both("ring-dense", dense(ring), false);
    both("ring-dense-guard", dense(Ring { guarded: &[0, 5], ..ring }), false);
    all
}

fn rings_of_lists() -> Vec<(String, Draft, bool)> {
    let mut all = Vec::new();
    for (length, locks, same) in
        [(2, 11, true), (2, 11, false), (3, 17, true), (3, 17, false), (4, 23, true), (4, 23, false)]
    {
        assert!(locks < 6 * length);
        let name = format!("lists-{length}-of-{locks}-{}", if same { "same" } else { "own" });
        let random = |thread: usize| Random::new(if same { 0 } else { thread as u64 });
        let whole = |thread: usize| any_lists(0..locks, length, random(thread)).collect::<Vec<_>>();
        // With longer ones where all of the length find room.
        let longer = |thread: usize| {
            let more = any_lists(0..locks, length + 1, random(thread));
            whole(thread).into_iter().chain(more).collect::<Vec<_>>()
        };
        all.push((format!("{name}-full"), lists(longer), false));
        all.push((format!("{name}-any-full"), lists_of_any(whole), false));
        if length > 2 {
            // One of the first six locks, the others of those behind.
            let outer = |thread: usize| any_lists(0..6, 1, random(thread)).collect();
            let inner = |thread: usize| any_lists(6..locks, length - 1, random(thread)).collect();
            all.push((format!("{name}-parts-full"), lists_by_parts(outer, inner, 6), false));
        }
    }
    all
}

fn hubs() -> Vec<(String, Draft, bool)> {
    let mut all = Vec::new();
    for (more, hubs_lowest) in [(1, false), (3, false), (3, true)] {
        let name = format!("hubs-{more}-{}", if hubs_lowest { "low" } else { "high" });
        let (hubs, others) = if hubs_lowest { (0..5, 5..RING) } else { (RING - 5..RING, 0..RING - 5) };
        let one = |_: usize| hubs.clone().map(|hub| vec![hub]).collect::<Vec<_>>();
        let random = |thread: usize| Random::new(thread as u64);
        let with = |thread: usize| any_lists(others.clone(), more, random(thread)).collect::<Vec<_>>();
        let parts = if hubs_lowest { lists_by_parts(one, with, 5) } else { lists_by_parts(with, one, 24) };
        all.push((format!("{name}-full"), parts, false));
        let both = |thread: usize| {
            let mut random = random(thread);
            let mut list = |_| {
                let mut list = some_of(others.clone(), more, &mut random);
                list.extend(some_of(hubs.clone(), 1, &mut random));
                list.sort_unstable();
                list
            };
            (0..TRIED).map(&mut list).collect::<Vec<_>>()
        };
        all.push((format!("{name}-any-full"), lists_of_any(both), false));
    }
    all
}
