//! Plan texts by a seed: right ones, small and near every limit, and damaged ones.

use crate::branches::about_branches;
use crate::families::{self, hold, nest, skips, Draft, Tree};
use crate::full;
use crate::idle::{about_idle, employed, with_idle};
use crate::indent::{self, indent, over, padded};
use crate::opposed::about_crossings;
use crate::random::Random;
use crate::reference::{read, MAX_BYTES, MAX_PROCS, MAX_SIZE, MAX_THREADS, MOST_PAIRS};
use crate::shares::about_shares;

/// A generated text with the name of its kind.
pub struct Case {
    pub kind: &'static str,
    pub text: Vec<u8>,
}

/// Bounds of a random plan.
#[derive(Clone)]
pub struct Shape {
    pub procs: (usize, usize),
    pub threads: (usize, usize),
    pub locks: usize,
    /// Statements of a procedure, about.
    pub statements: usize,
    /// Brackets open together.
    pub depth: usize,
    /// Skip, call, hold, loop, either.
    pub weights: [usize; 5],
    /// Holds of a lock already held, in a hundred.
    pub again: usize,
}

/// A shape, its parts in the order of the struct.
pub const fn shape(
    procs: (usize, usize),
    threads: (usize, usize),
    locks: usize,
    statements: usize,
    depth: usize,
    weights: [usize; 5],
    again: usize,
) -> Shape {
    Shape { procs, threads, locks, statements, depth, weights, again }
}

/// Two or three threads over two or three locks.
pub const TINY: Shape = shape((1, 3), (2, 3), 3, 4, 4, [1, 2, 9, 1, 1], 8);

/// Small enough for all reachable states.
pub const SMALL: Shape = shape((1, 4), (2, 4), 4, 6, 5, [1, 2, 8, 2, 2], 12);

/// Deep holds, many of them re-entrant.
pub const NESTED: Shape = shape((2, 4), (2, 3), 5, 8, 9, [1, 3, 16, 1, 1], 35);

/// One to six threads, some procedures, few holds inside holds.
pub const MEDIUM: Shape = shape((2, 10), (1, 6), 8, 14, 8, [3, 4, 8, 2, 2], 10);

/// All locks, many pairs.
pub const WIDE: Shape = shape((3, 20), (2, 6), 32, 40, 16, [2, 3, 12, 2, 2], 5);

/// Many procedures, many calls.
pub const CALLING: Shape = shape((3, 24), (2, 5), 5, 5, 5, [1, 9, 6, 1, 2], 10);

/// Bytes of every kind.
pub const CROOKED: Shape = shape((1, 3), (1, 3), 32, 5, 6, [3, 2, 4, 2, 2], 10);

/// A size that never passes the machine's numbers.
pub fn size(block: &[Tree], sizes: &[u64]) -> u64 {
    block.iter().fold(0, |sum: u64, tree| {
        sum.saturating_add(match tree {
            Tree::Skip => 1,
            Tree::Call(proc) => sizes.get(*proc).map_or(1, |size| size.saturating_add(1)),
            Tree::Hold(_, body) | Tree::Share(_, body) | Tree::Loop(body) => {
                size(body, sizes).saturating_add(2)
            }
            Tree::Either(one, two) => size(one, sizes).saturating_add(size(two, sizes)).saturating_add(1),
        })
    })
}

/// Statements of a block.
pub fn statements(block: &[Tree]) -> usize {
    block
        .iter()
        .map(|tree| match tree {
            Tree::Skip | Tree::Call(_) => 1,
            Tree::Hold(_, body) | Tree::Share(_, body) | Tree::Loop(body) => 1 + statements(body),
            Tree::Either(one, two) => 1 + statements(one) + statements(two),
        })
        .sum()
}

struct Body<'a> {
    random: &'a mut Random,
    shape: &'a Shape,
    /// Sizes of the procedures that may be called.
    sizes: &'a [u64],
    held: Vec<usize>,
    left: usize,
}

impl Body<'_> {
    fn block(&mut self, depth: usize) -> Vec<Tree> {
        let mut block = Vec::new();
        loop {
            block.push(self.tree(depth));
            if self.left == 0 || self.random.chance(45) {
                return block;
            }
        }
    }

    fn tree(&mut self, depth: usize) -> Tree {
        self.left = self.left.saturating_sub(1);
        let mut weights = self.shape.weights;
        if self.sizes.is_empty() {
            weights[1] = 0;
        }
        if depth < 1 || self.left == 0 {
            weights[2] = 0;
            weights[3] = 0;
        }
        if depth < 2 || self.left < 2 {
            weights[4] = 0;
        }
        match self.random.weighted(&weights) {
            0 => Tree::Skip,
            1 => {
                let proc = self.random.below(self.sizes.len());
                if self.sizes[proc] <= 300 {
                    Tree::Call(proc)
                } else {
                    Tree::Skip
                }
            }
            2 => {
                let lock = if !self.held.is_empty() && self.random.chance(self.shape.again) {
                    *self.random.pick(&self.held)
                } else {
                    self.random.below(self.shape.locks)
                };
                self.held.push(lock);
                let body = self.block(depth - 1);
                self.held.pop();
                Tree::Hold(lock, body)
            }
            3 => Tree::Loop(self.block(depth - 1)),
            _ => Tree::Either(self.block(depth - 2), self.block(depth - 2)),
        }
    }
}

/// A random body of about the shape's number of statements.
pub fn body(random: &mut Random, shape: &Shape, sizes: &[u64]) -> Vec<Tree> {
    let left = random.between(1, shape.statements);
    let mut body = Body { random, shape, sizes, held: Vec::new(), left };
    let mut block = Vec::new();
    while block.is_empty() || body.left > 0 {
        block.extend(body.block(shape.depth));
    }
    block
}

/// A random plan in which no procedure reaches itself and none is idle; sizes and counts
/// of the smaller shapes are within the limits.
pub fn plan(random: &mut Random, shape: &Shape) -> Draft {
    let mut draft = Draft::default();
    let mut sizes = Vec::new();
    for _ in 0..random.between(shape.procs.0, shape.procs.1) {
        let mut block = body(random, shape, &sizes);
        if size(&block, &sizes) > 1_024 {
            block = body(random, shape, &[]);
        }
        sizes.push(size(&block, &sizes));
        draft.procs.push(block);
    }
    let count = draft.procs.len();
    for _ in 0..random.between(shape.threads.0, shape.threads.1) {
        // Late procedures call the earlier ones.
        let low = if random.chance(50) { count / 2 } else { 0 };
        draft.threads.push(random.between(low, count - 1));
    }
    any_order(employed(draft, random), random)
}

/// The same plan with its procedures as they stand, from the last to the first, or
/// in any order.
pub fn any_order(draft: Draft, random: &mut Random) -> Draft {
    match random.below(5) {
        0 => draft,
        1 => draft.reversed(),
        _ => draft.permuted(&random.permutation(draft.procs.len())),
    }
}

/// Puts a call somewhere into a block.
pub fn put_call(block: &mut Vec<Tree>, callee: usize, random: &mut Random) {
    let at = random.below(block.len());
    let deeper = random.chance(70);
    match &mut block[at] {
        Tree::Hold(_, inner) | Tree::Share(_, inner) | Tree::Loop(inner) if deeper => {
            put_call(inner, callee, random)
        }
        Tree::Either(one, two) if deeper => {
            put_call(if random.chance(50) { one } else { two }, callee, random);
        }
        _ => block.insert(at + random.below(2), Tree::Call(callee)),
    }
}

/// Puts calls into a plan along so many of its procedures, and from the last of them
/// to the first where the circle is closed; and some between one of them and others. A
/// plan of too few gets more.
pub fn put_circle(draft: &mut Draft, length: usize, closed: bool, random: &mut Random) {
    let (calling, count) = (random.chance(30), (length + random.below(3)).min(MAX_PROCS));
    while draft.procs.len() < count {
        let callee = random.below(draft.procs.len());
        draft.procs.push(if calling { vec![Tree::Call(callee)] } else { skips(1) });
    }
    let order = random.permutation(draft.procs.len());
    let (members, others) = order.split_at(length);
    for at in 0..length - usize::from(!closed) {
        put_call(&mut draft.procs[members[at]], members[(at + 1) % length], random);
    }
    for other in &others[..random.below(4).min(others.len())] {
        let (caller, callee) = if random.chance(60) { (*other, members[0]) } else { (members[0], *other) };
        put_call(&mut draft.procs[caller], callee, random);
    }
}

/// How many procedures a circle has.
pub fn circle_length(random: &mut Random) -> usize {
    match random.below(10) {
        0 | 1 => 1,
        2 | 3 => 2,
        4 => 3,
        5 | 6 => random.between(4, 12),
        7 | 8 => random.between(13, 62),
        _ => random.between(63, 64),
    }
}

/// A number that none of so many procedures has.
pub fn absent(count: usize, random: &mut Random) -> usize {
    let number = match random.below(4) {
        0 => count,
        1 => random.between(count, 999),
        // That of a procedure in its low bits.
        2 => 64 * random.between(1, 14) + random.below(count),
        _ => *random.pick(&[64, 65, 99, 100, 127, 128, 255, 256, 512, 998, 999]),
    };
    number.max(count)
}

/// Circles of calls, closed or not, and sometimes another rule broken with them; most
/// without idle procedures.
pub fn circles(random: &mut Random) -> Draft {
    let mut draft = match random.below(4) {
        0 => plan(random, &TINY),
        1 => plan(random, &SMALL),
        2 => plan(random, &CALLING),
        _ => cycles(random),
    };
    for _ in 0..random.weighted(&[0, 3, 1]) {
        let (length, closed) = (circle_length(random), random.chance(75));
        put_circle(&mut draft, length, closed, random);
    }
    let (fault, proc) = (random.below(12), random.below(draft.procs.len()));
    match fault {
        0 => draft.procs.extend([skips(random.between(342, 400)), vec![Tree::Call(draft.procs.len()); 3]]),
        1 => draft.procs[proc].extend(full::around(32)),
        _ => {}
    }
    if random.chance(85) {
        draft = employed(draft, random);
    }
    let count = draft.procs.len();
    match fault {
        2 => put_call(&mut draft.procs[proc % count], absent(count, random), random),
        3 => put_thread(&mut draft, absent(count, random)),
        _ => {}
    }
    any_order(draft, random)
}

/// Puts a thread before the others, in place of the first where there are enough.
fn put_thread(draft: &mut Draft, proc: usize) {
    let first = usize::from(draft.threads.len() >= MAX_THREADS);
    draft.threads.splice(..first, [proc]);
}

/// Locks in an order that is ascending but for a few changes.
fn locks(random: &mut Random, count: usize, from: usize, changes: usize) -> Vec<usize> {
    let mut all: Vec<usize> = (0..from).collect();
    random.shuffle(&mut all);
    all.truncate(count);
    all.sort_unstable();
    for _ in 0..changes {
        let (a, b) = (random.below(all.len()), random.below(all.len()));
        all.swap(a, b);
    }
    all
}

/// Threads of few nested holds, most of them ascending, some inside a guard:
/// cycles in the lock order, closed or not.
pub fn cycles(random: &mut Random) -> Draft {
    let from = random.between(2, 6);
    let threads = random.between(2, 6);
    let guards = random.between(0, 2);
    let mut procs = Vec::new();
    for _ in 0..threads {
        let mut block = Vec::new();
        for _ in 0..random.between(1, 2) {
            let count = random.between(1, from.min(3));
            let changes = usize::from(random.chance(40));
            let mut chain = locks(random, count, from, changes);
            if guards > 0 && random.chance(50) {
                chain.insert(random.below(2).min(chain.len()), from + random.below(guards));
            }
            let tree = nest(&chain, vec![]);
            block.push(match random.below(8) {
                0 => Tree::Loop(vec![tree]),
                1 => Tree::Either(vec![tree], vec![Tree::Skip]),
                2 => Tree::Either(vec![Tree::Skip], vec![tree]),
                _ => tree,
            });
        }
        procs.push(block);
    }
    Draft::each(procs)
}

/// A plan of three to six threads around a ring of locks, with something that
/// may keep the ring open: a guard, a lock not reached, a lock in common.
pub fn rings(random: &mut Random) -> Draft {
    let threads = random.between(2, 6);
    let mut procs = Vec::new();
    for thread in 0..threads {
        let mut chain = vec![thread, (thread + 1) % threads];
        match random.below(10) {
            0 => chain.reverse(),
            1 => chain.insert(0, 7 + random.below(2)),
            2 => chain.insert(1, 7 + random.below(2)),
            3 => chain.insert(0, random.below(threads)),
            4 => chain.push(random.below(threads)),
            5 => chain[1] = random.below(threads),
            _ => {}
        }
        let mut block = vec![nest(&chain, vec![])];
        if random.chance(40) {
            let lock = random.below(threads + 2);
            block.insert(random.below(2), hold(lock, vec![]));
        }
        if random.chance(20) {
            block = vec![Tree::Loop(block)];
        }
        procs.push(block);
    }
    let mut draft = Draft::each(procs);
    random.shuffle(&mut draft.threads);
    draft
}

/// Threads that pass through many holds inside one: conflicts that no run
/// reaches because another deadlock is met first.
pub fn crossings(random: &mut Random) -> Draft {
    let locks = random.between(3, 6);
    let mut procs = Vec::new();
    for _ in 0..random.between(2, 4) {
        let mut row = Vec::new();
        for _ in 0..random.between(2, 4) {
            let chain: Vec<usize> =
                (0..random.weighted(&[0, 5, 4, 1])).map(|_| random.below(locks)).collect();
            let inner = if random.chance(25) { vec![hold(random.below(locks), vec![])] } else { vec![] };
            row.push(nest(&chain, inner));
        }
        let outer = random.below(locks);
        let mut block = vec![hold(outer, row)];
        if random.chance(30) {
            block.insert(random.below(2), hold(random.below(locks), vec![]));
        }
        procs.push(block);
    }
    Draft::each(procs)
}

/// 96 blocks a[b], or another number: couples all different, each lock outermost.
pub fn couples(count: usize, random: &mut Random) -> Vec<Tree> {
    let mut used = std::collections::HashSet::new();
    let mut block = Vec::new();
    for k in 0..count {
        let outer = k % 32;
        let inner = loop {
            let inner = random.below(32);
            if inner != outer && used.insert((outer, inner)) {
                break inner;
            }
        };
        block.push(nest(&[outer, inner], vec![]));
    }
    random.shuffle(&mut block);
    block
}

/// The doubling plan of the shelf, up to a procedure.
pub fn doubling(last: usize) -> Draft {
    let mut procs = vec![skips(1)];
    for proc in 1..=last {
        procs.push(vec![Tree::Call(proc - 1), Tree::Call(proc - 1)]);
    }
    Draft { procs, threads: vec![last] }
}

/// Procedures without a common statement, and a thread of the last, which calls all.
fn many_procs(count: usize) -> Draft {
    let mut procs: Vec<Vec<Tree>> = (0..count).map(|proc| vec![hold(proc % 32, vec![])]).collect();
    procs[count - 1].extend((0..count - 1).map(Tree::Call));
    Draft { procs, threads: vec![count - 1] }
}

/// A number of statements in all, in up to six bodies, most of at most 600. Each has a
/// thread, some have more.
fn many_statements(count: usize, random: &mut Random) -> Draft {
    let mut procs = Vec::new();
    let mut left = count;
    while left > 0 {
        let here = if procs.len() + 1 < MAX_THREADS { random.between(1, left.min(600)) } else { left };
        let mut block = skips(here);
        if here >= 2 && random.chance(60) {
            block.truncate(here - 1);
            let last = block.len() - 1;
            block[last] = hold(random.below(32), vec![]);
        }
        left -= here;
        procs.push(block);
    }
    let count = procs.len();
    let more = (count..random.between(count, MAX_THREADS)).map(|_| random.below(count)).collect::<Vec<_>>();
    Draft { threads: [random.permutation(count), more].concat(), procs }
}

/// Brackets open together, of all kinds.
pub fn brackets(count: usize, random: &mut Random) -> Draft {
    fn inner(left: usize, random: &mut Random) -> Vec<Tree> {
        if left == 0 {
            return vec![Tree::Skip];
        }
        let mut block = vec![match random.below(if left >= 2 { 4 } else { 2 }) {
            0 => Tree::Hold(random.below(32), inner(left - 1, random)),
            1 => Tree::Loop(inner(left - 1, random)),
            2 => Tree::Either(inner(left - 2, random), vec![Tree::Skip]),
            _ => Tree::Either(vec![Tree::Skip], inner(left - 2, random)),
        }];
        if random.chance(20) {
            block.push(Tree::Skip);
        }
        block
    }
    let procs = (0..random.between(1, 3)).map(|_| inner(count, random)).collect();
    Draft::each(procs)
}

/// A body of an exact size, with calls of the procedures before, of the last at least.
fn exact(target: u64, sizes: &[u64], random: &mut Random) -> Vec<Tree> {
    let mut block = Vec::new();
    let mut left = target;
    if let Some(last) = sizes.len().checked_sub(1) {
        block.push(Tree::Call(last));
        left -= sizes[last] + 1;
    }
    while left > 0 {
        let callee = (!sizes.is_empty()).then(|| random.below(sizes.len()));
        match callee {
            Some(proc) if sizes[proc] < left && random.chance(70) => {
                block.push(Tree::Call(proc));
                left -= sizes[proc] + 1;
            }
            _ if left >= 3 && random.chance(50) => {
                block.push(hold(random.below(32), vec![]));
                left -= 3;
            }
            _ => {
                block.push(Tree::Skip);
                left -= 1;
            }
        }
        if random.chance(30) {
            random.shuffle(&mut block);
        }
    }
    block
}

/// The last procedure has a given size and reaches all; the text stays short.
pub fn sized(target: u64, random: &mut Random) -> Draft {
    let mut procs = vec![exact(random.between(30, 60) as u64, &[], random)];
    let mut sizes = vec![size(&procs[0], &[])];
    for _ in 0..random.between(1, 3) {
        let goal = sizes[sizes.len() - 1] * 2 + random.between(1, 40) as u64;
        let block = exact(goal, &sizes, random);
        sizes.push(size(&block, &sizes));
        procs.push(block);
    }
    let last = exact(target, &sizes[1..], random);
    // Calls were counted from the second procedure on.
    procs.push(shift(last));
    let count = procs.len();
    Draft { threads: vec![count - 1, random.below(count), count - 1], procs }
}

fn shift(block: Vec<Tree>) -> Vec<Tree> {
    block
        .into_iter()
        .map(|tree| match tree {
            Tree::Call(proc) => Tree::Call(proc + 1),
            other => other,
        })
        .collect()
}

/// One lock held again and again through calls.
fn reentrant_tower(levels: usize, random: &mut Random) -> Draft {
    let mut procs = vec![skips(1)];
    for level in 0..levels {
        let chain: Vec<usize> =
            (0..random.between(1, 14)).map(|_| if random.chance(90) { 3 } else { level % 5 }).collect();
        procs.push(vec![nest(&chain, vec![Tree::Call(level)])]);
    }
    Draft { threads: vec![levels, random.between(0, levels), levels], procs }
}

/// Chains of at most so many locks, taken upwards or in any order, with an exact number
/// of pairs in a size as allowed. A first lock comes again only behind all others.
pub fn exact_pairs(
    target: usize,
    most: usize,
    upwards: bool,
    random: &mut Random,
) -> Option<Vec<Vec<usize>>> {
    let (mut known, mut chains) = (std::collections::HashSet::new(), Vec::new());
    let (mut firsts, mut room) = (random.permutation(32), MAX_SIZE as usize);
    while known.len() < target {
        let left = target - known.len();
        // So many holds and a skip for each chain.
        let shortest = left.div_ceil(room.checked_sub(2 * left).filter(|skips| *skips > 0)?);
        if shortest > most {
            return None;
        }
        let length = random.between(shortest, most).min(left);
        let mut chain = random.permutation(32);
        if let Some(first) = firsts.pop() {
            chain.retain(|lock| *lock != first);
            chain.insert(0, first);
        }
        chain.truncate(length);
        if upwards {
            chain.sort_unstable();
        }
        let held = |at: usize| chain[..at].iter().fold(0_u32, |held, lock| held | 1 << lock);
        known.extend((0..length).map(|at| (held(at), chain[at])));
        room = room.checked_sub(2 * length + 1)?;
        chains.push(chain);
    }
    Some(chains)
}

/// How many pairs a procedure is to have: more than 128 mostly, as many as there can be,
/// or about a number that is small again in 8 bits.
fn pairs_wanted(random: &mut Random) -> usize {
    match random.below(10) {
        0 | 1 => MOST_PAIRS,
        2 => random.between(MOST_PAIRS - 8, MOST_PAIRS),
        3 => random.between(250, 262),
        4 => random.between(120, 134),
        _ => random.between(129, MOST_PAIRS),
    }
}

/// Many pairs in a procedure, by itself or through a call, inside a guard or not, in
/// some threads beside others.
pub fn many_pairs(random: &mut Random) -> Draft {
    let (target, upwards, guard) = (pairs_wanted(random), random.chance(40), random.chance(25));
    let most = if guard { 15 } else { 16 };
    // Where the chains do not come to the number, as many of those around.
    let chains = (0..8).find_map(|_| exact_pairs(target, most, upwards, random)).unwrap_or_else(|| {
        let chain = |first: usize| (first..first + most.min(target - most * first)).map(|lock| lock % 32);
        (0..target.div_ceil(most)).map(|first| chain(first).collect()).collect()
    });
    let mut block: Vec<Tree> = chains.iter().map(|chain| nest(chain, vec![])).collect();
    let mut procs = Vec::new();
    if random.chance(50) {
        // A part of it in a procedure of its own.
        let cut = random.between(1, block.len() - 1);
        procs.push(block.drain(..cut).collect());
        block.insert(random.below(block.len() + 1), Tree::Call(0));
    }
    procs.push(if guard { vec![hold(31, block)] } else { block });
    let mut threads = vec![procs.len() - 1];
    if random.chance(50) {
        let chain: Vec<usize> = random.permutation(32).into_iter().take(random.between(1, 4)).collect();
        threads.push(procs.len());
        procs.push(vec![nest(&chain, vec![])]);
    }
    threads.extend((0..random.below(3)).map(|_| random.below(procs.len())));
    any_order(Draft { procs, threads }, random)
}

/// As many pairs as a procedure can have, and one chain or skip more or less.
fn most_pairs(random: &mut Random) -> Draft {
    let block = [full::around(random.between(30, 32)), skips(random.below(3))].concat();
    Draft { procs: vec![block], threads: vec![0; random.between(1, 2)] }
}

/// A right structure of an exact number of bytes.
pub fn bytes(target: usize, random: &mut Random) -> Vec<u8> {
    let mut text = b"(plan\n(proc\n".to_vec();
    let tail = b")\n(thread 0)\n)\n";
    loop {
        let left = target - text.len() - tail.len();
        // Lines of 7, 9 and 10 bytes and loops of 15 make up any larger rest.
        let lines: [&[u8]; 4] = [b"(skip)\n", b"(call 7)\n", b"(call 77)\n", b"(loop\n(skip)\n)\n"];
        let fitting: Vec<&[u8]> =
            lines.into_iter().filter(|line| left >= line.len() && sum_of_lines(left - line.len())).collect();
        if fitting.is_empty() {
            assert_eq!(left, 0);
            text.extend_from_slice(tail);
            return text;
        }
        text.extend_from_slice(fitting[random.below(fitting.len())]);
    }
}

/// A sum of 7, 9 and 10.
fn sum_of_lines(bytes: usize) -> bool {
    (0..=bytes / 10).take(10).any(|tens| {
        (0..=(bytes - 10 * tens) / 9).take(7).any(|nines| (bytes - 10 * tens - 9 * nines).is_multiple_of(7))
    })
}

/// Texts with several broken rules at once, of right structure; most without idle procedures.
fn faulty(random: &mut Random) -> Draft {
    let mut draft = plan(random, random.clone().pick(&[TINY, SMALL, CROOKED]));
    for _ in 0..random.between(1, 3) {
        let count = draft.procs.len();
        let proc = random.below(count);
        let at = random.below(draft.procs[proc].len() + 1);
        let number = *random.pick(&[proc, proc + 1, count, 31, 32, 33, 63, 64, 99, 100, 128, 256, 999]);
        match random.below(9) {
            0 => draft.procs[proc].insert(at, hold(number, vec![])),
            1 => put_call(&mut draft.procs[proc], number, random),
            2 => draft.threads.push(number),
            3 => draft.threads.resize(7 + random.below(3), 0),
            4 => {
                let count = random.between(16, 19);
                draft.procs[proc].extend(brackets(count, random).procs.remove(0));
            }
            5 => draft.procs[proc].extend(skips(1_030)),
            6 => draft.procs.resize(random.between(64, 66), skips(1)),
            7 => draft.procs[proc].extend(full::around(random.between(31, 32))),
            _ => {
                let base = draft.procs.len();
                draft.procs.push(skips(random.between(400, 520)));
                draft.procs.push(vec![Tree::Call(base), Tree::Call(base)]);
            }
        }
    }
    if random.chance(85) {
        draft = employed(draft, random);
    }
    draft
}

/// Plans by the space that they need: one thread, threads of one procedure, nearly the
/// largest sum, and many pairs beside a sum.
pub fn spaces(random: &mut Random) -> Draft {
    let mut draft = plan(random, &SMALL);
    let proc = random.below(draft.procs.len());
    match random.below(10) {
        0 | 1 => draft.threads = vec![proc],
        2 => draft.threads = vec![proc; random.between(2, 6)],
        3 | 4 => draft = families::late(random.between(5, 6)),
        5..=7 => {
            draft = sized(1_022 + random.below(3) as u64, random);
            draft.threads = vec![draft.procs.len() - 1; random.between(4, 6)];
            draft.threads[0] -= random.below(2);
        }
        _ => draft.procs[proc].extend(couples(random.between(97, 120), random)),
    }
    any_order(employed(draft, random), random)
}

/// A text of an exact kind near a limit.
fn limit(random: &mut Random) -> Case {
    let near = |random: &mut Random, limit: usize| limit - 1 + random.below(3);
    let (kind, draft) = match random.below(22) {
        0 => ("64 procedures", many_procs(near(random, 64))),
        1 => ("1,024 statements", many_statements(near(random, 1_024), random)),
        2 => {
            let mut draft = plan(random, &SMALL);
            let count = draft.procs.len();
            draft.threads = (0..near(random, 6)).map(|_| random.below(count)).collect();
            ("6 threads", employed(draft, random))
        }
        3 => ("16 brackets", brackets(near(random, 16), random)),
        4 => {
            // Sometimes a size that is small again in 16 bits.
            let target = if random.chance(85) { near(random, 1_024) } else { 65_536 + random.below(1_030) };
            ("size 1,024", sized(target as u64, random))
        }
        5 => ("496 pairs", most_pairs(random)),
        6 => {
            let count = near(random, 96);
            let mut draft = Draft::each(vec![couples(count, random)]);
            draft.threads.push(0);
            ("96 couples", draft)
        }
        7 => {
            let mut block = skips(near(random, 1_021));
            block.push(hold(0, vec![]));
            ("1,021 skips", Draft::each(vec![block]))
        }
        8 => ("doubling", doubling(*random.pick(&[1, 7, 8, 9, 10, 31, 62, 63, 64]))),
        9 => {
            let mut draft = plan(random, &TINY);
            draft.procs[0].push(hold(30 + random.below(3), vec![]));
            ("lock 31", draft)
        }
        10 => {
            let target = near(random, 32_768);
            return Case { kind: "32,768 bytes", text: bytes(target, random) };
        }
        11 => ("late deadlock", families::late(random.between(2, 6))),
        12 => ("late choice", families::late_choice(random.between(2, 6))),
        13 => ("many pairs", families::many_pairs(random.chance(50))),
        14 => ("ring", {
            let guarded = [vec![], vec![0, 5], vec![0, 3], vec![4, 5]];
            let extra = random.between(0, 7);
            let group = random.between(1, 4);
            let guarded = &guarded[random.below(4)];
            families::Ring { threads: 6, group, extra, guarded, guard_lowest: false }.draft()
        }),
        15 => ("re-entrant tower", reentrant_tower(random.between(5, 30), random)),
        16 => ("hierarchy", families::hierarchy()),
        17 => {
            // The shortest plan in which the sixth thread matters.
            let mut draft = families::philosophers(6);
            random.shuffle(&mut draft.threads);
            if random.chance(50) {
                draft.procs[random.below(6)] = skips(1);
            }
            ("six in a ring", draft)
        }
        18 => ("call chain", {
            let levels = random.between(50, 63);
            let mut procs = vec![vec![nest(&[1, 0], vec![])]];
            for level in 0..levels {
                procs.push(vec![Tree::Call(level)]);
            }
            procs[levels] = vec![nest(&[0, 1], vec![])];
            Draft { procs, threads: vec![levels, levels - 1, random.below(levels)] }
        }),
        19 => {
            let text = deep(random);
            return Case { kind: "deep brackets", text };
        }
        20 => ("layered calls", families::layered_calls()),
        _ => ("wide", plan(random, &WIDE)),
    };
    Case { kind, text: any_order(draft, random).text() }
}

/// Loops far deeper than the limit, closed, open, or with a bracket too many.
fn deep(random: &mut Random) -> Vec<u8> {
    let depth = *random.pick(&[15, 16, 17, 18, 100, 1_000, 2_000, 4_000, 5_000]);
    let closes = match random.below(4) {
        0 => 0,
        1 => depth + 1,
        _ => depth,
    };
    let line: &[u8] = if random.chance(70) { b"(loop\n" } else { b"(hold 1\n" };
    let mut text = b"(plan\n(proc\n".to_vec();
    text.extend(line.repeat(depth));
    text.extend(b"(skip)\n");
    text.extend(b")\n".repeat(closes));
    text.extend(b")\n(thread 0)\n)\n");
    text
}

fn lines(text: &[u8]) -> Vec<Vec<u8>> {
    text.split_inclusive(|byte| *byte == 10).map(<[u8]>::to_vec).collect()
}

/// Lines that are nearly forms.
const ODD_LINES: [&[u8]; 58] = [
    b"",
    b" ",
    b"(",
    b")",
    b"))",
    b") ",
    b" )",
    b"(plan",
    b"(plan)",
    b"(plan ",
    b"(Plan",
    b"(proc",
    b"(proc 0",
    b"(thread 00)",
    b"(thread 1000)",
    b"(thread )",
    b"(thread  0)",
    b"(thread 0",
    b"(thread 0))",
    b"(skip)",
    b"(skip) ",
    b"(skip",
    b" (skip)",
    b"(skip)\t",
    b"(skip)\r",
    b"(call 007)",
    b"(call 01)",
    b"(call -1)",
    b"(call 0 )",
    b"(call 999)",
    b"(call x)",
    b"(hold 32",
    b"(hold 31)",
    b"(hold 031",
    b"(hold 0001",
    b"(hold 9999",
    b"(hold ",
    b"(hold",
    b"(hold\t1",
    b"(loop",
    b"(either",
    b"(one",
    b"(two",
    b"(hold \xb2",
    b";",
    b" ;",
    b";(skip)",
    b"  ; )",
    b"\t;",
    b"\t",
    b" \t",
    b"\r",
    b"\0",
    b"\t(skip)",
    b" \r(skip)",
    b"(skip);",
    b"(skip) ;x",
    b"( skip)",
];

/// Damages a text once.
pub fn damage(text: Vec<u8>, random: &mut Random) -> Vec<u8> {
    let mut all = lines(&text);
    if all.is_empty() {
        return random.pick(&[b"\n".to_vec(), b"(plan\n".to_vec(), b"(".to_vec()]).clone();
    }
    let at = random.below(all.len());
    let other = random.below(all.len());
    match random.below(26) {
        0..=2 => {
            let mut text = text;
            for _ in 0..random.between(1, 3) {
                let at = random.below(text.len());
                text[at] = match random.below(4) {
                    0 => random.next() as u8,
                    1 => *random.pick(b"()0123456789 \n\r\t\0"),
                    2 => text[at] ^ 1 << random.below(8),
                    _ => text[at].wrapping_add(1),
                };
            }
            return text;
        }
        3 => {
            let mut text = text;
            text.insert(random.below(text.len() + 1), *random.pick(b"() 019\n\r\t\0a\x80\xff"));
            return text;
        }
        4 => {
            let mut text = text;
            text.remove(random.below(text.len()));
            return text;
        }
        5 => {
            let mut text = text;
            text.truncate(random.below(text.len() + 1));
            return text;
        }
        6 => {
            let mut text = text;
            text.pop();
            return text;
        }
        7 | 8 => drop(all.remove(at)),
        9 | 10 => all.insert(other, all[at].clone()),
        11 => all.swap(at, other),
        12 => all.truncate(at),
        13 => all[at].insert(0, *random.pick(b" \t\0\n")),
        14 => {
            let end = all[at].len() - 1;
            all[at].insert(end, *random.pick(b" \t\r\0"));
        }
        15 => {
            // CR before every line end.
            for line in &mut all {
                let end = line.len() - 1;
                line.insert(end, 13);
            }
        }
        16 | 17 => {
            // A digit more or less, or a leading zero, in the first numbered line from a place on.
            if let Some(line) = all[at..].iter_mut().find(|line| line.iter().any(u8::is_ascii_digit)) {
                let place = line.iter().position(u8::is_ascii_digit).unwrap();
                match random.below(4) {
                    0 => line.insert(place, b'0'),
                    1 => line.insert(place + 1, b'0' + random.below(10) as u8),
                    2 => drop(line.splice(place..place, *b"123")),
                    _ => drop(line.remove(place)),
                }
            }
        }
        18 | 19 => {
            let mut line = random.pick(&ODD_LINES).to_vec();
            line.push(10);
            if random.chance(50) {
                all[at] = line;
            } else {
                all.insert(at, line);
            }
        }
        20 => all.push(
            random.pick(&[b"\n".to_vec(), b")\n".to_vec(), b" ".to_vec(), b"(plan\n".to_vec()]).clone(),
        ),
        21 => {
            // A piece of the text again.
            let (low, high) = (at.min(other), at.max(other));
            let piece = all[low..high].to_vec();
            all.splice(low..low, piece);
        }
        22 => drop(all.drain(at.min(other)..at.max(other))),
        23 => all[at.min(other)..=at.max(other)].reverse(),
        24 => {
            let mut line = vec![b'('; random.between(100, 5_000)];
            line.push(10);
            all[at] = line;
        }
        _ => {
            // Far longer than allowed.
            let mut text = all.concat();
            let more = text.clone();
            let target = random.between(32_700, 100_000);
            while text.len() < target {
                text.extend_from_slice(&more);
            }
            return text;
        }
    }
    all.concat()
}

/// A bare text with one change that mostly gives another accepted plan.
pub fn neighbour(text: &[u8], random: &mut Random) -> Vec<u8> {
    let mut all = lines(text);
    let at = random.below(all.len());
    let numbered = |line: &Vec<u8>| line.iter().any(u8::is_ascii_digit);
    match random.below(4) {
        0 | 1 => {
            if let Some(line) = all[at..].iter_mut().find(|line| numbered(line)) {
                let place = line.iter().position(u8::is_ascii_digit).expect("a digit");
                line[place] = b'0' + random.below(4) as u8;
            }
        }
        2 => all.insert(at, b"(skip)\n".to_vec()),
        _ => all.swap(at, random.below(at + 1)),
    }
    all.concat()
}

/// A sequence of lines of right form in any order.
fn shuffled_forms(random: &mut Random) -> Vec<u8> {
    let mut text = Vec::new();
    if random.chance(80) {
        text.extend_from_slice(b"(plan\n(proc\n");
    }
    // What is open, so that most lines have a place.
    let mut open = vec![b'b'];
    for _ in 0..random.between(0, 40) {
        let any = random.chance(8);
        let line = match (any, *open.last().unwrap_or(&b't')) {
            (true, _) => {
                *random.pick(&[")", "(plan", "(proc", "(thread 0)", "(skip)", "(one", "(two", "(either"])
            }
            (_, b'e') => "(one",
            (_, b'1') => "(two",
            (_, b'2') => ")",
            (_, b't') => *random.pick(&["(proc", "(thread 0)", ")"]),
            _ => {
                let call = if random.chance(50) { "(call 0)" } else { "(call 1)" };
                *random.pick(&["(skip)", "(skip)", "(loop", "(hold 3", "(either", ")", ")", ")", call])
            }
        };
        match line {
            "(either" => open.push(b'e'),
            "(one" | "(two" => {
                if let Some(last) = open.last_mut() {
                    *last = if line == "(one" { b'1' } else { b'2' };
                }
                open.push(b'b');
            }
            "(loop" | "(hold 3" | "(proc" => open.push(b'b'),
            ")" => drop(open.pop()),
            _ => {}
        }
        text.extend_from_slice(line.as_bytes());
        text.push(10);
    }
    while let Some(last) = open.pop() {
        text.extend_from_slice(match last {
            b'e' => b"(one\n(skip)\n)\n(two\n(skip)\n)\n)\n".as_slice(),
            b'1' => b"(two\n(skip)\n)\n)\n",
            _ => b")\n",
        });
    }
    if random.chance(80) {
        text.extend_from_slice(b"(thread 0)\n)\n");
    }
    text
}

/// All texts of at most so many lines of right form whose last line may be the
/// first without a place: every beginning of a plan, and every line behind it.
pub fn beginnings(lines: usize) -> Vec<Vec<u8>> {
    let forms = [
        "(plan",
        "(proc",
        "(thread 0)",
        ")",
        "(skip)",
        "(call 0)",
        "(hold 1",
        "(share 1",
        "(loop",
        "(either",
        "(one",
        "(two",
    ];
    let mut all = vec![Vec::new()];
    let mut at = 0;
    while at < all.len() {
        let text: Vec<u8> = all[at].clone();
        at += 1;
        let count = text.iter().filter(|byte| **byte == 10).count();
        // Extended unless its own last line has no place.
        let misplaced = match read(&text) {
            Err(refusal) => refusal.rule == 4 && refusal.line <= count,
            Ok(_) => false,
        };
        if count < lines && !misplaced {
            all.extend(forms.iter().map(|form| [text.as_slice(), form.as_bytes(), b"\n"].concat()));
        }
    }
    all
}

/// The short texts again, with a line that is passed over at each place, or with
/// spaces before each line, and with its last line not ended.
pub fn beginnings_indented(lines: usize) -> Vec<Vec<u8>> {
    let mut all = Vec::new();
    for text in beginnings(lines) {
        let own: Vec<&[u8]> = text.split_inclusive(|byte| *byte == 10).collect();
        for at in 0..=own.len() {
            for over in [b"\n".as_slice(), b"  \n", b";\n", b" ; )\n"] {
                all.push([&own[..at], &[over], &own[at..]].concat().concat());
            }
        }
        for over in [b";".as_slice(), b" "] {
            all.push([&text, over].concat());
        }
        all.push(own.iter().flat_map(|line| [b" ", *line].concat()).collect());
    }
    all
}

/// Texts that hardly come from plans.
fn noise(random: &mut Random) -> Vec<u8> {
    match random.below(8) {
        0 => vec![10; *random.pick(&[1, 2, 100, 32_767, 32_768, 32_769, 40_000])],
        1 => (0..random.between(0, 200)).map(|_| random.next() as u8).collect(),
        2 => {
            let mut text = b"(plan\n(proc\n".to_vec();
            for _ in 0..random.between(0, 12) {
                let line = *random.pick(&ODD_LINES);
                text.extend_from_slice(line);
                text.push(10);
            }
            text.extend_from_slice(b")\n(thread 0)\n)\n");
            text
        }
        3 => vec![*random.pick(b"\0( )a\xff"); *random.pick(&[1, 32_767, 32_768, 32_769, 200_000, 300_000])],
        4 => {
            let mut text = b"(plan\n(proc\n(hold ".to_vec();
            text.extend(vec![b'1'; random.between(1, 33_000)]);
            text.extend_from_slice(b"\n(skip)\n)\n)\n(thread 0)\n)\n");
            text
        }
        5 => b"(plan\n".repeat(random.between(0, 6_000)),
        6 => {
            // Ends too early.
            let mut text = b"(plan\n(proc\n".to_vec();
            text.extend(b"(skip)\n".repeat(random.between(0, 4_600)));
            text
        }
        _ => {
            let mut text = b"(plan\n".to_vec();
            text.extend(b"(proc\n(skip)\n)\n".repeat(random.between(0, 2_000)));
            text.extend(b"(thread 0)\n".repeat(random.between(0, 12)));
            text.extend_from_slice(b")\n");
            text
        }
    }
}

/// The rules from 3 on that a plan can break.
const RULES: [u8; 9] = [3, 4, 5, 6, 7, 8, 12, 13, 9];

/// A bare text that breaks one of these rules, most of them none before it.
pub fn breaking(rule: u8, random: &mut Random) -> Vec<u8> {
    let mut draft = plan(random, &TINY);
    let proc = random.below(draft.procs.len());
    match rule {
        3 | 4 => {
            let mut all = lines(&draft.text());
            let at = random.below(all.len());
            match (rule, random.below(3)) {
                (3, _) => {
                    let end = all[at].len() - 1;
                    all[at].insert(end, *random.pick(b" ;\t)x"));
                }
                (_, 0) => all.truncate(at),
                (_, 1) => drop(all.remove(at)),
                (_, _) => all.insert(at, random.pick(&[b"(one\n", b"(two\n"]).to_vec()),
            }
            return all.concat();
        }
        5 => match random.below(4) {
            0 => draft = many_procs(65),
            1 => draft = many_statements(1_025, random),
            2 => draft.threads.resize(random.between(7, 9), 0),
            _ => draft = brackets(17, random),
        },
        6 => draft.procs[proc].push(hold(random.between(32, 999), vec![])),
        7 => {
            let callee = absent(draft.procs.len(), random);
            put_call(&mut draft.procs[proc], callee, random);
        }
        8 => draft.threads.push(random.between(draft.procs.len(), 999)),
        9 => match random.below(5) {
            0 => draft.procs[proc].extend(full::around(32)),
            1 => draft.procs[proc].extend(couples(random.between(205, 240), random)),
            2 => draft = any_order(sized(1_025, random), random),
            _ => draft = any_order(doubling(random.between(9, 20)), random),
        },
        13 => draft = with_idle(random),
        _ => put_circle(&mut draft, circle_length(random), true, random),
    }
    draft.threads.truncate(if rule == 5 { 9 } else { 6 });
    draft.text()
}

/// The same with lines that are passed over before the line that is named.
fn breaking_indented(random: &mut Random) -> Vec<u8> {
    let text = breaking(*random.pick(&RULES), random);
    let mut first = over(20, random);
    first.extend(indent(&text, random).text);
    first
}

/// A text that what is passed over makes about as long as a text may be.
fn padded_text(random: &mut Random) -> Vec<u8> {
    let text = match random.below(4) {
        0 => breaking(*random.pick(&RULES), random),
        1 => cycles(random).text(),
        _ => plan(random, &SMALL).text(),
    };
    let text = if random.chance(50) { indent(&text, random).text } else { text };
    let length = *random.pick(&[MAX_BYTES - 1, MAX_BYTES, MAX_BYTES, MAX_BYTES + 1]);
    if text.is_empty() {
        return vec![10; length];
    }
    padded(&text, length, random)
}

/// Whether enough of the generated texts are accepted: more than a third of them. A
/// share of less than a thousand says nothing.
pub fn enough_accepted(accepted: u64, generated: u64) -> bool {
    generated < 1_000 || 3 * accepted > generated
}

/// One text of a seed, in three of four with shares.
pub fn generate(random: &mut Random) -> Case {
    match random.chance(75) {
        true => about_shares(random),
        false => without_share(random),
    }
}

/// One text of a seed without a share: a library from before shares answers it alike.
pub fn without_share(random: &mut Random) -> Case {
    match random.weighted(&[55, 25, 7, 5, 4, 3, 1]) {
        0 => plain(random),
        1 => Case { kind: "indented", text: indent(&plain(random).text, random).text },
        2 => {
            let draft = if random.chance(50) { plan(random, &SMALL) } else { cycles(random) };
            let mut text = indent(&draft.text(), random).text;
            for _ in 0..random.weighted(&[0, 4, 1]) {
                if text.ends_with(b"\n") {
                    text = indent::damage(&text, random);
                }
            }
            Case { kind: "indented, broken", text }
        }
        3 => Case { kind: "indented, by rule", text: breaking_indented(random) },
        4 => Case { kind: "padded", text: padded_text(random) },
        5 => {
            let text = indent(&plan(random, &SMALL).text(), random).text;
            Case { kind: "indented, damaged", text: damage(text, random) }
        }
        _ => Case { kind: "formless", text: indent::formless(random) },
    }
}

/// One text that is not indented, or only by a damage.
fn plain(random: &mut Random) -> Case {
    let case = |kind, draft: Draft| Case { kind, text: draft.text() };
    match random.weighted(&[12, 12, 8, 8, 10, 8, 8, 5, 13, 5, 2, 8, 8, 9, 5, 4, 9, 10, 12]) {
        0 => case("tiny", plan(random, &TINY)),
        1 => case("small", plan(random, &SMALL)),
        2 => case("nested", plan(random, &NESTED)),
        3 => case("medium", plan(random, &MEDIUM)),
        4 => case("cycles", cycles(random)),
        5 => case("rings", rings(random)),
        6 => limit(random),
        7 => case("several faults", faulty(random)),
        8 => {
            let mut text = match random.below(6) {
                0 => plan(random, &SMALL).text(),
                1 => plan(random, &MEDIUM).text(),
                2 => cycles(random).text(),
                3 if random.chance(20) => limit(random).text,
                4 => brackets(random.clone().between(3, 16), random).text(),
                _ => plan(random, &CROOKED).text(),
            };
            for _ in 0..random.weighted(&[0, 6, 2, 1]) {
                text = damage(text, random);
            }
            Case { kind: "damaged", text }
        }
        9 => Case { kind: "shuffled forms", text: shuffled_forms(random) },
        10 => Case { kind: "noise", text: noise(random) },
        11 => case("crossings", crossings(random)),
        12 => case("calls", plan(random, &CALLING)),
        13 => case("circles", circles(random)),
        14 => case("spaces", spaces(random)),
        15 => case("many pairs in one", many_pairs(random)),
        16 => case("idle procedures", about_idle(random)),
        17 => case("two threads", about_crossings(random)),
        _ => case("eithers and loops", about_branches(random)),
    }
}
