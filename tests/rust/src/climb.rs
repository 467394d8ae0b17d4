//! Plans that take long, found by random changes: each is kept where what is measured
//! does not fall. A plan is some bodies of chains of locks; a chain ends in a skip or
//! in a call of a body before, so that threads share bodies.

use std::collections::BTreeMap;

use crate::families::{hold, share, some_of, Draft, Tree};
use crate::random::Random;
use crate::reference::{sized, Refusal, MAX_BRACKETS, MAX_PROCS, MAX_THREADS};

/// A lock, and whether it is taken by a share.
#[derive(Clone, Copy, Debug, PartialEq, Eq, PartialOrd, Ord)]
struct Taken {
    lock: usize,
    shared: bool,
}

/// Holds of locks.
fn held(locks: Vec<usize>) -> Vec<Taken> {
    locks.into_iter().map(|lock| Taken { lock, shared: false }).collect()
}

/// Locks one inside the other, around a call or a skip.
#[derive(Clone, Debug, PartialEq, Eq, PartialOrd, Ord)]
struct Chain {
    locks: Vec<Taken>,
    call: Option<usize>,
}

/// Bodies of chains, and the body of each thread.
#[derive(Clone, Debug, PartialEq, Eq)]
pub struct Chains {
    bodies: Vec<Vec<Chain>>,
    threads: Vec<usize>,
    /// Whether changes make shares, too.
    shares: bool,
}

/// Chains as a block: those with a common beginning share its holds.
fn block(chains: &[Chain]) -> Vec<Tree> {
    let mut rests: BTreeMap<Taken, Vec<Chain>> = BTreeMap::new();
    let mut ends: Vec<Tree> = Vec::new();
    for chain in chains {
        match (chain.locks.split_first(), chain.call) {
            (Some((first, rest)), call) => {
                rests.entry(*first).or_default().push(Chain { locks: rest.to_vec(), call });
            }
            (None, Some(callee)) => ends.push(Tree::Call(callee)),
            (None, None) => {}
        }
    }
    ends.dedup();
    ends.extend(rests.into_iter().map(|(first, rest)| match first.shared {
        true => share(first.lock, block(&rest)),
        false => hold(first.lock, block(&rest)),
    }));
    ends
}

/// The chains of a block behind some locks; an either gives those of both blocks.
fn chains_of(block: &[Tree], locks: &[Taken], all: &mut Vec<Chain>) {
    let with = |lock: usize, shared: bool| [locks, &[Taken { lock, shared }]].concat();
    for tree in block {
        match tree {
            Tree::Skip => all.push(Chain { locks: locks.to_vec(), call: None }),
            Tree::Call(callee) => all.push(Chain { locks: locks.to_vec(), call: Some(*callee) }),
            Tree::Hold(lock, body) => chains_of(body, &with(*lock, false), all),
            Tree::Share(lock, body) => chains_of(body, &with(*lock, true), all),
            Tree::Loop(body) => chains_of(body, locks, all),
            Tree::Either(one, two) => {
                chains_of(one, locks, all);
                chains_of(two, locks, all);
            }
        }
    }
}

impl Chains {
    /// The chains of a plan; callees have to stand before their callers.
    pub fn of(draft: &Draft) -> Chains {
        let body = |block: &Vec<Tree>| {
            let mut all = Vec::new();
            chains_of(block, &[], &mut all);
            all.sort();
            all.dedup();
            all
        };
        let bodies = draft.procs.iter().map(body).collect();
        Chains { bodies, threads: draft.threads.clone(), shares: false }
    }

    /// The same, whose changes make shares, too. Where it has none, half of its holds become
    /// shares.
    pub fn with_shares(mut self, random: &mut Random) -> Chains {
        self.shares = true;
        let taken = || self.bodies.iter().flatten().flat_map(|chain| &chain.locks);
        if !taken().any(|taken| taken.shared) {
            let taken = self.bodies.iter_mut().flatten().flat_map(|chain| &mut chain.locks);
            taken.for_each(|taken| taken.shared = random.chance(50));
        }
        self
    }

    /// Six threads in a ring of lists, with random numbers of locks, and some bodies
    /// that they may share.
    pub fn random(random: &mut Random) -> Chains {
        let (length, locks) = (random.between(1, 4), random.between(5, 26));
        let mut bodies = Vec::new();
        for _ in 0..random.between(0, 6) {
            bodies.push(random_body(0..locks, length.min(locks), &[], 12, random));
        }
        let shared = bodies.len();
        for thread in 0..MAX_THREADS {
            let ring = [26 + thread, 26 + (thread + 1) % MAX_THREADS];
            let mut body = random_body(0..locks, length.min(locks), &ring, 60, random);
            if shared > 0 {
                let chain = |random: &mut Random| Chain {
                    locks: held(some_of(0..32, random.between(1, 3), random)),
                    call: Some(random.below(shared)),
                };
                body.extend((0..random.between(0, 4)).map(|_| chain(random)));
            }
            bodies.push(body);
        }
        Chains { threads: (shared..shared + MAX_THREADS).collect(), bodies, shares: false }
    }

    pub fn draft(&self) -> Draft {
        let body = |chains: &Vec<Chain>| {
            let mut block = block(chains);
            if block.is_empty() {
                block.push(Tree::Skip);
            }
            block
        };
        Draft { procs: self.bodies.iter().map(body).collect(), threads: self.threads.clone() }
    }

    pub fn text(&self) -> Vec<u8> {
        self.draft().text()
    }

    /// The same without the bodies that no thread comes to, from the last on: a body is
    /// called by those behind it alone.
    fn without_idle(mut self) -> Chains {
        for body in (0..self.bodies.len()).rev() {
            let called = self.bodies.iter().flatten().any(|chain| chain.call == Some(body));
            if !called && !self.threads.contains(&body) {
                self.bodies.remove(body);
                let calls = self.bodies.iter_mut().flatten().filter_map(|chain| chain.call.as_mut());
                let numbers = calls.chain(&mut self.threads).filter(|number| **number > body);
                numbers.for_each(|number| *number -= 1);
            }
        }
        self
    }

    /// Takes chains out, one after the other, and bodies that are idle, until no rule
    /// refuses the plan.
    fn fitted(mut self, random: &mut Random) -> Option<Chains> {
        for _ in 0..400 {
            match sized(&self.text()) {
                Ok(_) => return Some(self),
                Err(Refusal { rule: 5 | 9, .. }) => {
                    let body = self.any_body(random);
                    let chains = &mut self.bodies[body];
                    if chains.len() > 1 {
                        chains.remove(random.below(chains.len()));
                    }
                }
                Err(Refusal { rule: 13, .. }) => self = self.without_idle(),
                Err(_) => return None,
            }
        }
        None
    }

    /// A body with chains, mostly one that a thread runs.
    fn any_body(&self, random: &mut Random) -> usize {
        if random.chance(70) {
            *random.pick(&self.threads)
        } else {
            random.below(self.bodies.len())
        }
    }

    /// One random change.
    fn change(&mut self, random: &mut Random) {
        let body = self.any_body(random);
        let other = self.any_body(random);
        let at = random.below(self.bodies[body].len().max(1));
        let Some(mut chain) = self.bodies[body].get(at).cloned() else {
            return self.bodies[body].push(any_chain(body, random));
        };
        match random.below(if self.shares { 26 } else { 20 }) {
            20 | 21 => change_way(&mut self.bodies[body][at], random),
            22 => self.change_ways(body, random),
            23 => upgrade(&mut self.bodies[body][at], random),
            24 => self.put_ways(body, random.chance(50)),
            25 => {
                // Another like it, with its last lock in the other way.
                change_way(&mut chain, random);
                self.bodies[body].push(chain);
            }
            0..=2 => change_lock(&mut self.bodies[body][at], random),
            3 => insert_lock(&mut self.bodies[body][at], random),
            4 => remove_lock(&mut self.bodies[body][at], random),
            5 => swap_locks(&mut self.bodies[body][at], random),
            6..=8 => {
                // Another like it.
                match random.below(3) {
                    0 => insert_lock(&mut chain, random),
                    1 => remove_lock(&mut chain, random),
                    _ => change_lock(&mut chain, random),
                }
                self.bodies[body].push(chain);
            }
            9 => self.bodies[body].push(any_chain(body, random)),
            10 => drop(self.bodies[body].remove(at)),
            11 | 12 => self.put(other, chain),
            13 => {
                let there = random.below(self.bodies[other].len().max(1));
                if let Some(second) = self.bodies[other].get(there).cloned() {
                    self.bodies[body].remove(at);
                    if body != other {
                        self.bodies[other].remove(there);
                    }
                    self.put(other, chain);
                    self.put(body, second);
                }
            }
            14 => self.bodies[body][at].call = (body > 0 && random.chance(60)).then(|| random.below(body)),
            15 => self.rename(body, random),
            16 => self.change_threads(random),
            17 => self.share(body, random),
            18 => self.inline(body, at),
            // A chain of this body in place of one of the other.
            _ => {
                let there = random.below(self.bodies[other].len().max(1));
                if self.bodies[other].get(there).is_some() {
                    self.bodies[other].remove(there);
                }
                self.put(other, chain);
            }
        }
    }

    /// Puts a chain into a body, with its call where that stands before.
    fn put(&mut self, body: usize, chain: Chain) {
        let call = chain.call.filter(|callee| *callee < body);
        self.bodies[body].push(Chain { call, ..chain });
    }

    /// Two locks exchanged in all chains of a body.
    fn rename(&mut self, body: usize, random: &mut Random) {
        let (one, two) = (random.below(32), random.below(32));
        for Taken { lock, .. } in self.bodies[body].iter_mut().flat_map(|chain| &mut chain.locks) {
            *lock = if *lock == one {
                two
            } else if *lock == two {
                one
            } else {
                *lock
            };
        }
    }

    /// A lock taken in the other way in all chains of a body.
    fn change_ways(&mut self, body: usize, random: &mut Random) {
        let one = random.below(32);
        let taken = self.bodies[body].iter_mut().flat_map(|chain| &mut chain.locks);
        taken.filter(|taken| taken.lock == one).for_each(|taken| taken.shared = !taken.shared);
    }

    /// The first lock of all chains of a body taken in one way.
    fn put_ways(&mut self, body: usize, shared: bool) {
        let firsts = self.bodies[body].iter_mut().filter_map(|chain| chain.locks.first_mut());
        firsts.for_each(|taken| taken.shared = shared);
    }

    /// Another body for a thread, or two threads exchanged.
    fn change_threads(&mut self, random: &mut Random) {
        let (one, two) = (random.below(self.threads.len()), random.below(self.threads.len()));
        if random.chance(70) {
            self.threads.swap(one, two);
        } else {
            self.threads[one] = random.below(self.bodies.len());
        }
    }

    /// Some chains of a body become a body of their own in front of all, which it calls
    /// inside a lock or in several.
    fn share(&mut self, body: usize, random: &mut Random) {
        if self.bodies.len() >= MAX_PROCS || self.bodies[body].len() < 2 {
            return;
        }
        let count = random.between(1, self.bodies[body].len() / 2 + 1).min(12);
        let mut moved = Vec::new();
        for _ in 0..count.min(self.bodies[body].len() - 1) {
            let at = random.below(self.bodies[body].len());
            moved.push(Chain { call: None, ..self.bodies[body].remove(at) });
        }
        for chain in self.bodies.iter_mut().flatten() {
            chain.call = chain.call.map(|callee| callee + 1);
        }
        self.threads.iter_mut().for_each(|proc| *proc += 1);
        self.bodies.insert(0, moved);
        for _ in 0..random.between(1, 3) {
            let locks = held(some_of(0..32, random.below(3), random));
            self.bodies[body + 1].push(Chain { locks, call: Some(0) });
        }
    }

    /// The chains of a callee in place of a chain that calls it.
    fn inline(&mut self, body: usize, at: usize) {
        if let Some(callee) = self.bodies[body][at].call {
            let outer = self.bodies[body].remove(at).locks;
            let behind = |chain: &Chain| {
                let fresh = chain.locks.iter().filter(|lock| !outer.contains(lock));
                Chain { locks: outer.iter().chain(fresh).copied().collect(), call: chain.call }
            };
            let more: Vec<Chain> = self.bodies[callee].iter().map(behind).collect();
            self.bodies[body].extend(more.into_iter().filter(|chain| chain.locks.len() <= MAX_BRACKETS));
        }
    }

    /// A plan near this one that the rules accept.
    fn changed(&self, random: &mut Random) -> Option<Chains> {
        let mut next = self.clone();
        for _ in 0..=random.weighted(&[6, 3, 2, 1]) {
            next.change(random);
        }
        for chains in &mut next.bodies {
            chains.sort();
            chains.dedup();
        }
        next.fitted(random).filter(|next| next != self)
    }
}

fn random_body(
    locks: std::ops::Range<usize>,
    length: usize,
    end: &[usize],
    count: usize,
    random: &mut Random,
) -> Vec<Chain> {
    let list = |random: &mut Random| [some_of(locks.clone(), length, random), end.to_vec()].concat();
    (0..random.between(2, count)).map(|_| Chain { locks: held(list(random)), call: None }).collect()
}

/// Any chain for a body that may call those before it.
fn any_chain(body: usize, random: &mut Random) -> Chain {
    let mut locks = some_of(0..32, random.between(1, 8), random);
    if random.chance(40) {
        random.shuffle(&mut locks);
    }
    Chain { locks: held(locks), call: (body > 0 && random.chance(40)).then(|| random.below(body)) }
}

fn takes(chain: &Chain, lock: usize) -> bool {
    chain.locks.iter().any(|taken| taken.lock == lock)
}

fn change_lock(chain: &mut Chain, random: &mut Random) {
    let lock = random.below(32);
    if !chain.locks.is_empty() && !takes(chain, lock) {
        let at = random.below(chain.locks.len());
        chain.locks[at].lock = lock;
    }
}

fn insert_lock(chain: &mut Chain, random: &mut Random) {
    let lock = random.below(32);
    if chain.locks.len() < MAX_BRACKETS && !takes(chain, lock) {
        chain.locks.insert(random.below(chain.locks.len() + 1), Taken { lock, shared: false });
    }
}

/// A lock taken in the other way.
fn change_way(chain: &mut Chain, random: &mut Random) {
    if !chain.locks.is_empty() {
        let at = random.below(chain.locks.len());
        chain.locks[at].shared = !chain.locks[at].shared;
    }
}

/// A lock that is shared, and behind it held.
fn upgrade(chain: &mut Chain, random: &mut Random) {
    if !chain.locks.is_empty() && chain.locks.len() < MAX_BRACKETS {
        let at = random.below(chain.locks.len());
        chain.locks[at].shared = true;
        let held = Taken { shared: false, ..chain.locks[at] };
        chain.locks.insert(random.between(at + 1, chain.locks.len()), held);
    }
}

fn remove_lock(chain: &mut Chain, random: &mut Random) {
    if chain.locks.len() > 1 {
        chain.locks.remove(random.below(chain.locks.len()));
    }
}

fn swap_locks(chain: &mut Chain, random: &mut Random) {
    if chain.locks.len() > 1 {
        let (one, two) = (random.below(chain.locks.len()), random.below(chain.locks.len()));
        chain.locks.swap(one, two);
    }
}

/// What is measured of a text: whether it deadlocks, and how much it costs. Nothing
/// where it is refused or the cost is not asked for. Calls that are sure to cost less
/// than the given cost may end early with what they have.
pub trait Measure: FnMut(&[u8], u64) -> Option<(bool, u64)> {}

impl<T: FnMut(&[u8], u64) -> Option<(bool, u64)>> Measure for T {}

/// Proposals without a better plan after which the climb goes back to the best.
const PATIENCE: u32 = 300;

/// A climb from a plan. The sequence of proposals depends on the seed and on what was
/// kept.
pub struct Climb<M> {
    measure: M,
    /// The verdict that is asked for, if it is one.
    want: Option<bool>,
    random: Random,
    now: (Chains, u64),
    pub best: (Chains, u64),
    since: u32,
    pub proposals: u64,
    pub kept: u64,
}

impl<M: Measure> Climb<M> {
    /// Nothing where the start is refused or has another verdict.
    pub fn new(start: Chains, want: Option<bool>, seed: u64, mut measure: M) -> Option<Climb<M>> {
        let mut random = Random::new(seed);
        let start = start.fitted(&mut random)?;
        let (deadlock, cost) = measure(&start.text(), 0)?;
        if want.is_some_and(|want| want != deadlock) {
            return None;
        }
        let now = (start, cost);
        Some(Climb { measure, want, random, best: now.clone(), now, since: 0, proposals: 0, kept: 0 })
    }

    /// One proposal; whether it is the best so far.
    pub fn step(&mut self) -> bool {
        self.proposals += 1;
        self.since += 1;
        if self.since.is_multiple_of(PATIENCE) {
            self.now = self.best.clone();
        }
        let Some(next) = self.now.0.changed(&mut self.random) else {
            return false;
        };
        // Equal or a little less is enough, and now and then somewhat less.
        let least = if self.random.chance(5) { self.now.1 / 10 * 9 } else { self.now.1 / 100 * 98 };
        let text = next.text();
        let Some((deadlock, cost)) = (self.measure)(&text, least) else {
            return false;
        };
        if cost < least || self.want.is_some_and(|want| want != deadlock) {
            return false;
        }
        self.kept += 1;
        self.now = (next, cost);
        // The best is measured a second time: a time that was long by chance does not count.
        if cost <= self.best.1 {
            return false;
        }
        match (self.measure)(&text, self.best.1) {
            Some((_, again)) if again.min(cost) > self.best.1 => {
                self.now.1 = again.min(cost);
                self.best = self.now.clone();
                self.since = 0;
                true
            }
            _ => false,
        }
    }
}
