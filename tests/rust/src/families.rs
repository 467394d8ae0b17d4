//! Plans as trees, and families of plans with a known verdict.

use std::collections::{BTreeMap, BTreeSet};
use std::ops::Range;
use std::path::Path;

use crate::full;
use crate::generate::statements;
use crate::random::Random;
use crate::reference::{MAX_PROCS, MAX_STATEMENTS};
use crate::shares;

/// A statement to be printed; the numbers may break the rules.
#[derive(Clone, Debug, PartialEq, Eq)]
pub enum Tree {
    Skip,
    Call(usize),
    Hold(usize, Vec<Tree>),
    Share(usize, Vec<Tree>),
    Loop(Vec<Tree>),
    Either(Vec<Tree>, Vec<Tree>),
}

use Tree::{Call, Hold, Share, Skip};

/// A plan to be printed.
#[derive(Clone, Debug, Default, PartialEq, Eq)]
pub struct Draft {
    pub procs: Vec<Vec<Tree>>,
    pub threads: Vec<usize>,
}

impl Draft {
    /// One thread for each body.
    pub fn each(procs: Vec<Vec<Tree>>) -> Draft {
        let threads = (0..procs.len()).collect();
        Draft { procs, threads }
    }

    /// The same with each call, told by caller and callee, replaced by a statement.
    pub fn with_calls(&self, statement: impl Fn(usize, usize) -> Tree) -> Draft {
        let body =
            |(caller, body): (usize, &Vec<Tree>)| with_calls(body, &|callee| statement(caller, callee));
        Draft { procs: self.procs.iter().enumerate().map(body).collect(), threads: self.threads.clone() }
    }

    /// The same procedures in another order, by the new number of each. Calls and
    /// thread lines follow; the number of an absent procedure stays.
    pub fn permuted(&self, numbers: &[usize]) -> Draft {
        let number = |proc: usize| numbers.get(proc).copied().unwrap_or(proc);
        let renamed = self.with_calls(|_, callee| Call(number(callee)));
        let mut procs = vec![Vec::new(); renamed.procs.len()];
        for (proc, body) in renamed.procs.into_iter().enumerate() {
            procs[number(proc)] = body;
        }
        Draft { procs, threads: self.threads.iter().map(|proc| number(*proc)).collect() }
    }

    /// The procedures from the last to the first.
    pub fn reversed(&self) -> Draft {
        self.permuted(&(0..self.procs.len()).rev().collect::<Vec<_>>())
    }

    pub fn text(&self) -> Vec<u8> {
        let mut out = String::from("(plan\n");
        for body in &self.procs {
            out.push_str("(proc\n");
            print(body, &mut out);
            out.push_str(")\n");
        }
        for proc in &self.threads {
            out.push_str(&format!("(thread {proc})\n"));
        }
        out.push_str(")\n");
        out.into_bytes()
    }
}

fn print(block: &[Tree], out: &mut String) {
    for tree in block {
        match tree {
            Tree::Skip => out.push_str("(skip)\n"),
            Tree::Call(proc) => out.push_str(&format!("(call {proc})\n")),
            Tree::Hold(lock, body) => {
                out.push_str(&format!("(hold {lock}\n"));
                print(body, out);
                out.push_str(")\n");
            }
            Tree::Share(lock, body) => {
                out.push_str(&format!("(share {lock}\n"));
                print(body, out);
                out.push_str(")\n");
            }
            Tree::Loop(body) => {
                out.push_str("(loop\n");
                print(body, out);
                out.push_str(")\n");
            }
            Tree::Either(one, two) => {
                out.push_str("(either\n(one\n");
                print(one, out);
                out.push_str(")\n(two\n");
                print(two, out);
                out.push_str(")\n)\n");
            }
        }
    }
}

fn with_calls(block: &[Tree], statement: &dyn Fn(usize) -> Tree) -> Vec<Tree> {
    let with = |tree: &Tree| match tree {
        Tree::Skip => Skip,
        Tree::Call(callee) => statement(*callee),
        Tree::Hold(lock, body) => Hold(*lock, with_calls(body, statement)),
        Tree::Share(lock, body) => Share(*lock, with_calls(body, statement)),
        Tree::Loop(body) => Tree::Loop(with_calls(body, statement)),
        Tree::Either(one, two) => Tree::Either(with_calls(one, statement), with_calls(two, statement)),
    };
    block.iter().map(with).collect()
}

/// A hold around a block; an empty block becomes a skip.
pub fn hold(lock: usize, body: Vec<Tree>) -> Tree {
    Hold(lock, if body.is_empty() { vec![Skip] } else { body })
}

/// A share around a block, likewise.
pub fn share(lock: usize, body: Vec<Tree>) -> Tree {
    Share(lock, if body.is_empty() { vec![Skip] } else { body })
}

/// Holds inside each other, the first outermost, around a block.
pub fn nest(locks: &[usize], inner: Vec<Tree>) -> Tree {
    let mut body = inner;
    for lock in locks.iter().rev() {
        body = vec![hold(*lock, body)];
    }
    body.pop().expect("at least one lock")
}

pub fn skips(count: usize) -> Vec<Tree> {
    vec![Skip; count]
}

/// Each thread takes a fork and then its neighbour's: deadlock from two on.
pub fn philosophers(count: usize) -> Draft {
    Draft::each((0..count).map(|i| vec![nest(&[i, (i + 1) % count], vec![])]).collect())
}

/// The same inside a guard lock: free.
pub fn guarded_philosophers(count: usize) -> Draft {
    Draft::each((0..count).map(|i| vec![nest(&[31, i, (i + 1) % count], vec![])]).collect())
}

/// Six threads, all taking locks in ascending order: free.
pub fn hierarchy() -> Draft {
    let body = |thread: usize| {
        let chain =
            |start: usize, step: usize| -> Vec<usize> { (start..32).step_by(step).take(16).collect() };
        vec![
            nest(&chain(thread, 1), vec![]),
            nest(&chain(thread, 2), vec![]),
            nest(&chain(thread + 6, 2), vec![]),
            nest(&chain(thread + 12, 1), vec![]),
        ]
    };
    Draft::each((0..6).map(body).collect())
}

/// Threads of size 1,024 that deadlock at their very end, in 6,120 steps for six.
pub fn late(count: usize) -> Draft {
    let mut procs = vec![skips(500), skips(16)];
    for i in 0..count {
        procs.push(vec![Call(0), Call(0), Call(1), nest(&[i, (i + 1) % count], vec![])]);
    }
    Draft { procs, threads: (2..count + 2).collect() }
}

/// The same behind a loop and an either at each end: the way to the deadlock
/// has to leave and to choose.
pub fn late_choice(count: usize) -> Draft {
    let mut procs = vec![skips(300), vec![Tree::Either(vec![Call(0)], vec![Skip])]];
    procs.push(vec![Tree::Loop(vec![Call(1)]), Call(1)]);
    for i in 0..count {
        let end = nest(&[i, (i + 1) % count], vec![]);
        procs.push(vec![Call(2), Tree::Either(vec![Skip], vec![Skip, end])]);
    }
    Draft { procs, threads: (3..count + 3).collect() }
}

/// 128 pairs in each of six threads: eight chains of sixteen locks each.
/// Ascending chains are free; with one descending chain at the end of the
/// last thread there is a deadlock.
pub fn many_pairs(deadlock: bool) -> Draft {
    let body = |thread: usize| {
        (0..8)
            .map(|chain: usize| {
                let mut locks: Vec<usize> = (0..16).map(|k| 2 * k + (thread + chain + k) % 2).collect();
                // Distinct first locks keep the pairs of the chains apart.
                let first = (thread + 3 * chain) % 17;
                locks.retain(|lock| *lock > first);
                locks.insert(0, first);
                let mut more = (first + 1..32).filter(|lock| !locks.contains(lock)).collect::<Vec<_>>();
                while locks.len() < 16 {
                    locks.push(more.remove(0));
                }
                locks.truncate(16);
                locks.sort_unstable();
                if deadlock && thread == 5 && chain == 7 {
                    locks.reverse();
                }
                nest(&locks, vec![])
            })
            .collect()
    };
    Draft::each((0..6).map(body).collect())
}

/// Rings of threads with many ways around, that no disjoint choice closes:
/// thread t holds a lock of group t and wants one of group t + 1, each inside
/// one of the extra locks, which is taken first. A guard lock around two of
/// the threads, or too few extra locks for all, keeps the plan free.
#[derive(Clone, Copy)]
pub struct Ring<'a> {
    pub threads: usize,
    /// Locks of each group.
    pub group: usize,
    pub extra: usize,
    /// The threads inside the guard lock.
    pub guarded: &'a [usize],
    /// The guard has the lowest number of all locks, or the highest.
    pub guard_lowest: bool,
}

impl Ring<'_> {
    pub fn draft(self) -> Draft {
        let mut procs: Vec<Vec<Tree>> = (0..self.threads).map(|thread| self.inner(thread)).collect();
        procs.extend((0..self.threads).map(|thread| self.outer(thread)));
        Draft { procs, threads: (self.threads..2 * self.threads).collect() }
    }

    fn lock(&self, thread: usize, k: usize) -> usize {
        usize::from(self.guard_lowest) + thread % self.threads * self.group + k
    }

    /// The locks of a thread's group.
    pub fn locks(&self, thread: usize) -> Range<usize> {
        self.lock(thread, 0)..self.lock(thread, self.group)
    }

    /// The lowest of the extra locks.
    pub fn first_extra(&self) -> usize {
        self.lock(0, self.threads * self.group)
    }

    pub fn guard(&self) -> usize {
        let guard = if self.guard_lowest { 0 } else { self.first_extra() + self.extra };
        assert!(guard < 32);
        guard
    }

    /// Each lock of a thread's group around each lock of the next group.
    pub fn inner(&self, thread: usize) -> Vec<Tree> {
        let wants = || (0..self.group).map(|w| hold(self.lock(thread + 1, w), vec![])).collect();
        (0..self.group).map(|k| hold(self.lock(thread, k), wants())).collect()
    }

    /// Each extra lock around a call of that, and the guard around all.
    fn outer(&self, thread: usize) -> Vec<Tree> {
        let first = self.first_extra();
        let body = match self.extra {
            0 => vec![Call(thread)],
            extra => (0..extra).map(|e| hold(first + e, vec![Call(thread)])).collect(),
        };
        if self.guarded.contains(&thread) {
            return vec![hold(self.guard(), body)];
        }
        body
    }
}

/// Chains of locks, each taken one inside the other around a statement, as a block:
/// chains with a common beginning share its holds.
pub fn nested_around(chains: &BTreeSet<Vec<usize>>, inner: &Tree) -> Vec<Tree> {
    let firsts: BTreeSet<usize> = chains.iter().filter_map(|chain| chain.first().copied()).collect();
    let rests = |first: usize| chains.iter().filter_map(move |chain| chain.strip_prefix(&[first]));
    let rests = |first: usize| rests(first).map(<[usize]>::to_vec).collect();
    let ends = chains.iter().any(Vec::is_empty) && (firsts.is_empty() || *inner != Skip);
    let holds = firsts.into_iter().map(|first| Hold(first, nested_around(&rests(first), inner)));
    ends.then(|| inner.clone()).into_iter().chain(holds).collect()
}

/// The same around skips.
fn nested(chains: &BTreeSet<Vec<usize>>) -> Vec<Tree> {
    nested_around(chains, &Skip)
}

/// How many pairs a thread of these chains has.
fn pairs_of(chains: &BTreeSet<Vec<usize>>) -> usize {
    let mask = |locks: &[usize]| locks.iter().fold(0_u32, |mask, lock| mask | 1 << lock);
    let pairs = chains.iter().flat_map(|chain| (0..chain.len()).map(|at| (mask(&chain[..at]), chain[at])));
    pairs.collect::<BTreeSet<_>>().len()
}

/// The pairs that a thread of a ring of lists has at most; `full` has larger ones.
const PAIRS_OF_LISTS: usize = 128;

/// A block of chains, as many as a sixth of a plan has room for.
fn full_of(mut chain: impl FnMut() -> Vec<usize>) -> Vec<Tree> {
    let (mut chains, mut block) = (BTreeSet::new(), Vec::new());
    loop {
        chains.insert(chain());
        let next = nested(&chains);
        if pairs_of(&chains) > PAIRS_OF_LISTS || statements(&next) > MAX_STATEMENTS / 6 {
            return block;
        }
        block = next;
    }
}

/// So many of the locks of a range, ascending.
pub fn some_of(range: Range<usize>, count: usize, random: &mut Random) -> Vec<usize> {
    let mut all: Vec<usize> = range.collect();
    random.shuffle(&mut all);
    all.truncate(count);
    all.sort_unstable();
    all
}

/// Six threads in a ring, each of which takes one of its lists of locks below
/// 26, then its own ring lock and inside it its neighbour's. A cycle needs all
/// six with lists that share no lock: where there are none, the plan is free.
/// Each thread has as many lists as it has room for.
pub fn ring_of_lists(mut list: impl FnMut(usize) -> Vec<usize>) -> Draft {
    let mut block =
        |thread: usize| full_of(|| [list(thread), vec![26 + thread, 26 + (thread + 1) % 6]].concat());
    Draft::each((0..6).map(&mut block).collect())
}

/// Lists of `length` of so many locks, the same in each thread or its own. With
/// fewer than 6 × length locks no six are disjoint.
pub fn crowded_ring(length: usize, locks: usize, same: bool) -> Draft {
    assert!(locks < 6 * length);
    let mut random = [0, 1, 2, 3, 4, 5].map(|thread| Random::new(if same { 0 } else { thread }));
    ring_of_lists(|thread| some_of(0..locks, length, &mut random[thread]))
}

/// Lists with one of five hub locks and `more` others: no six are disjoint.
/// The hubs have the lowest numbers or the highest.
pub fn hub_ring(more: usize, hubs_lowest: bool) -> Draft {
    let (hubs, others) = if hubs_lowest { (0..5, 5..26) } else { (21..26, 0..21) };
    let mut random = Random::new(0);
    ring_of_lists(|_| {
        let mut list = some_of(others.clone(), more, &mut random);
        list.extend(some_of(hubs.clone(), 1, &mut random));
        list.sort_unstable();
        list
    })
}

/// Threads of the chains that a text lists, one a line: the thread, then the
/// locks. Both texts were found by random changes of chains, each kept where the
/// library's search had more to do: one without a deadlock, one with.
pub fn listed_chains(text: &str) -> Draft {
    let mut threads: BTreeMap<usize, BTreeSet<Vec<usize>>> = BTreeMap::new();
    for line in text.lines() {
        let mut numbers = line.split(' ').map(|word| word.parse().expect("a number"));
        let thread = numbers.next().expect("a thread");
        threads.entry(thread).or_default().insert(numbers.collect());
    }
    Draft::each(threads.values().map(nested).collect())
}

/// Thread 0 holds 0 around holds of 1 to `depth` in a row, thread 1 nests 1 to
/// `depth` with a hold of 0 in each. Every pair of the one conflicts with a pair
/// of the other, but a run comes only to the first conflict.
pub fn detours(depth: usize) -> Draft {
    let row = (1..=depth).map(|lock| hold(lock, vec![])).collect();
    let mut inner = vec![hold(0, vec![])];
    for lock in (1..=depth).rev() {
        let mut block = vec![hold(lock, inner)];
        if lock > 1 {
            block.insert(0, hold(0, vec![]));
        }
        inner = block;
    }
    Draft::each(vec![vec![hold(0, row)], inner])
}

/// 64 procedures that call each other from the first to the last, which takes two
/// locks in both orders. Six threads of the first, of size 1,024: deadlock.
pub fn call_chain() -> Draft {
    let body = |proc: usize| [skips(15), vec![Call(proc + 1)]].concat();
    let mut procs: Vec<Vec<Tree>> = (0..MAX_PROCS - 1).map(body).collect();
    procs.push([skips(6), vec![nest(&[0, 1], vec![]), nest(&[1, 0], vec![])]].concat());
    Draft { procs, threads: vec![0; 6] }
}

/// 64 procedures in any order of the text and in four layers, of 16, 30, 12 and 6, each
/// with about twenty calls of those below, 1,024 statements in all. Most calls are of any of
/// the lowest layer; each procedure of the next two is called once, so that the threads of
/// the highest reach all. All locks ascend: free.
pub fn layered_calls() -> Draft {
    let random = &mut Random::new(0);
    let mut lowest = |count: usize| -> Vec<Tree> { (0..count).map(|_| Call(random.below(16))).collect() };
    let body = |proc: usize| match proc {
        0..16 => vec![nest(&[8 + proc, 16 + proc], vec![])],
        16..20 => lowest(21),
        20..46 => lowest(20),
        46..58 => {
            let callee = 16 + 2 * (proc - 46);
            let inside = [lowest(9), vec![Call(callee)]].concat();
            [lowest(9), vec![Call(callee + 1), hold(proc % 8, inside)]].concat()
        }
        _ => {
            let (one, two) = (40 + (proc - 58), 46 + 2 * (proc - 58));
            [lowest(17), vec![Call(one), Call(two), Call(two + 1)]].concat()
        }
    };
    let procs = (0..MAX_PROCS).map(body).collect();
    Draft { procs, threads: (MAX_PROCS - 6..MAX_PROCS).collect() }.permuted(&random.permutation(MAX_PROCS))
}

/// The families that are measured: name, plan, whether it deadlocks. Those of `full` are
/// the last.
pub fn all() -> Vec<(String, Draft, bool)> {
    small().into_iter().chain(full::all()).collect()
}

/// Those of up to 128 pairs in a procedure.
pub fn small() -> Vec<(String, Draft, bool)> {
    let mut all = Vec::new();
    for count in 2..=6 {
        all.push((format!("philosophers-{count}"), philosophers(count), true));
    }
    for count in 2..=6 {
        all.push((format!("guarded-philosophers-{count}"), guarded_philosophers(count), false));
    }
    all.push(("hierarchy".into(), hierarchy(), false));
    for count in [2, 6] {
        all.push((format!("late-{count}"), late(count), true));
        all.push((format!("late-choice-{count}"), late_choice(count), true));
    }
    all.push(("detours".into(), detours(14), true));
    all.push(("call-chain".into(), call_chain(), true));
    all.push(("layered-calls".into(), layered_calls(), false));
    all.push(("many-pairs".into(), many_pairs(false), false));
    all.push(("many-pairs-deadlock".into(), many_pairs(true), true));
    all.extend(rings());
    all.extend(rings_of_lists());
    all
}

/// The rings that are measured.
fn rings() -> Vec<(String, Draft, bool)> {
    let mut all = Vec::new();
    let ring = Ring { threads: 6, group: 2, extra: 18, guarded: &[], guard_lowest: false };
    // The guard meets itself between neighbours, or far apart.
    for guarded in [[0, 5], [0, 3], [2, 4], [3, 5], [4, 5]] {
        let name = format!("ring-guard-{}-{}", guarded[0], guarded[1]);
        all.push((name, Ring { guarded: &guarded, ..ring }.draft(), false));
    }
    for guarded in [[0, 5], [2, 4]] {
        let name = format!("ring-low-guard-{}-{}", guarded[0], guarded[1]);
        all.push((name, Ring { guarded: &guarded, guard_lowest: true, ..ring }.draft(), false));
    }
    let mut push = |name: &str, ring: Ring, deadlock| all.push((name.into(), ring.draft(), deadlock));
    push("ring-five-extra", Ring { group: 4, extra: 5, ..ring }, false);
    push("ring-five-extra-2", Ring { extra: 5, ..ring }, false);
    push("ring-open", Ring { group: 4, extra: 6, ..ring }, true);
    push("ring-dense", Ring { group: 5, extra: 1, ..ring }, false);
    push("ring-dense-guard", Ring { group: 5, extra: 0, guarded: &[0, 5], ..ring }, false);
    all
}

/// The rings of lists that are measured.
fn rings_of_lists() -> Vec<(String, Draft, bool)> {
    let mut all = Vec::new();
    for (length, locks, same) in
        [(2, 11, true), (2, 11, false), (3, 17, true), (3, 17, false), (4, 23, false)]
    {
        let name = format!("lists-{length}-of-{locks}-{}", if same { "same" } else { "own" });
        all.push((name, crowded_ring(length, locks, same), false));
    }
    for (more, hubs_lowest) in [(1, false), (3, false), (3, true)] {
        let name = format!("hubs-{more}-{}", if hubs_lowest { "low" } else { "high" });
        all.push((name, hub_ring(more, hubs_lowest), false));
    }
    let (free, deadlock) = (include_str!("free.chains"), include_str!("deadlock.chains"));
    all.push(("climbed-free".into(), listed_chains(free), false));
    all.push(("climbed-deadlock".into(), listed_chains(deadlock), true));
    all
}

/// Writes the text of each family to `<name>.plan` in a folder.
pub fn write_all(folder: &Path) -> std::io::Result<()> {
    std::fs::create_dir_all(folder)?;
    for (name, draft, _) in all().into_iter().chain(shares::all()) {
        std::fs::write(folder.join(name + ".plan"), draft.text())?;
    }
    Ok(())
}
