//! Plans with shares: those of the other modules with some of their holds made shares, readers
//! and writers of few locks, threads that hold what they share; texts that break a rule by a share.

use std::collections::HashMap;

use crate::branches::bent;
use crate::families::{self, hold, share, skips, Draft, Tree};
use crate::full;
use crate::generate::{
    any_order, brackets, crossings, cycles, damage, plan, rings, without_share, Case, CALLING, NESTED, SMALL,
    TINY,
};
use crate::idle::employed;
use crate::indent::indent;
use crate::opposed::about_crossings;
use crate::random::Random;
use crate::reference::{bare, form, read, Form, MAX_BYTES, MAX_LOCK, MAX_THREADS};
use crate::tidy::tree;

use Tree::{Call, Either, Hold, Loop, Share, Skip};

/// Whether some line of a text is a share.
pub fn has_share(text: &[u8]) -> bool {
    let lines = text.split(|byte| *byte == 10).map(bare);
    lines.into_iter().any(|line| matches!(form(line), Some(Form::Share(_))))
}

/// A text with so many of a hundred lines that begin as a hold made such as begin as a share, as
/// long as it stays as short as allowed; one that is too long anyway gets any.
pub fn with_share_lines(text: &[u8], percent: usize, random: &mut Random) -> Vec<u8> {
    let mut room = MAX_BYTES.checked_sub(text.len()).unwrap_or(1_000);
    let mut made = Vec::new();
    for line in text.split_inclusive(|byte| *byte == 10) {
        match bare(line).strip_prefix(b"(hold") {
            Some(rest) if room > 0 && random.chance(percent) => {
                room -= 1;
                made.extend_from_slice(&line[..line.len() - bare(line).len()]);
                made.extend_from_slice(b"(share");
                made.extend_from_slice(rest);
            }
            _ => made.extend_from_slice(line),
        }
    }
    made
}

/// How many of a hundred holds become shares.
fn portion(random: &mut Random) -> usize {
    *random.pick(&[10, 20, 30, 30, 50, 50, 70, 100])
}

/// How the holds of a block become shares.
struct Mix<'a> {
    random: &'a mut Random,
    /// Shares in a hundred.
    percent: usize,
    /// In a hundred, holds that stand inside another of their lock afterwards.
    twice: usize,
    /// The locks shared around the place.
    shared: Vec<usize>,
}

impl Mix<'_> {
    fn block(&mut self, block: &[Tree]) -> Vec<Tree> {
        block.iter().map(|tree| self.tree(tree)).collect()
    }

    fn tree(&mut self, tree: &Tree) -> Tree {
        match tree {
            Skip => Skip,
            Call(proc) => Call(*proc),
            Loop(body) => Loop(self.block(body)),
            Either(one, two) => Either(self.block(one), self.block(two)),
            Hold(lock, body) | Share(lock, body) => self.around(*lock, body),
        }
    }

    fn around(&mut self, lock: usize, body: &[Tree]) -> Tree {
        if self.random.chance(self.twice) {
            return self.twice(lock, body);
        }
        match self.random.chance(self.percent) {
            true => share(lock, self.inside(lock, body)),
            false => hold(lock, self.block(body)),
        }
    }

    /// What is inside a share of a lock.
    fn inside(&mut self, lock: usize, body: &[Tree]) -> Vec<Tree> {
        self.shared.push(lock);
        let block = self.block(body);
        self.shared.pop();
        block
    }

    /// A lock had twice: held where it is shared already, mostly, or the other ways.
    fn twice(&mut self, lock: usize, body: &[Tree]) -> Tree {
        match self.random.below(8) {
            0 => hold(lock, vec![share(lock, self.inside(lock, body))]),
            1 => share(lock, vec![share(lock, self.inside(lock, body))]),
            2..=4 if !self.shared.is_empty() => {
                let upgraded = *self.random.pick(&self.shared);
                hold(upgraded, self.block(body))
            }
            _ => share(lock, vec![hold(lock, self.inside(lock, body))]),
        }
    }
}

/// The same plan with so many of a hundred holds made shares, and so many put twice.
pub fn mixed(draft: &Draft, percent: usize, twice: usize, random: &mut Random) -> Draft {
    let mut mix = Mix { random, percent, twice, shared: Vec::new() };
    let procs = draft.procs.iter().map(|body| mix.block(body)).collect();
    Draft { procs, threads: draft.threads.clone() }
}

/// The same with random portions.
fn mixed_any(draft: &Draft, random: &mut Random) -> Draft {
    let (percent, twice) = (portion(random), *random.pick(&[0, 0, 5, 20, 40]));
    mixed(draft, percent, twice, random)
}

/// A small plan of the other modules.
fn small(random: &mut Random) -> Draft {
    match random.below(10) {
        0 | 1 => plan(random, &TINY),
        2 => plan(random, &SMALL),
        3 => plan(random, &NESTED),
        4 => plan(random, &CALLING),
        5 => crossings(random),
        6 | 7 => cycles(random),
        8 => about_crossings(random),
        _ => rings(random),
    }
}

/// A small plan with shares.
pub fn small_shares(random: &mut Random) -> Draft {
    match random.below(5) {
        0 => readers(random),
        1 => upgraders(random),
        2 => both_ways(random),
        _ => {
            let draft = small(random);
            mixed_any(&draft, random)
        }
    }
}

/// A hold or a share.
fn had(lock: usize, by_hold: bool, body: Vec<Tree>) -> Tree {
    match by_hold {
        true => hold(lock, body),
        false => share(lock, body),
    }
}

/// Locks had one inside the other, each with how, around a block.
fn chain(locks: &[(usize, bool)], inner: Vec<Tree>) -> Vec<Tree> {
    locks.iter().rev().fold(inner, |body, (lock, by_hold)| vec![had(*lock, *by_hold, body)])
}

/// A statement by itself, or where a thread may pass by it or come back.
fn wrapped(block: Vec<Tree>, random: &mut Random) -> Vec<Tree> {
    match random.below(10) {
        0 => vec![Loop(block)],
        1 => vec![Either(block, skips(1))],
        2 => vec![Either(skips(1), block)],
        3 => [skips(1), block].concat(),
        _ => block,
    }
}

/// Threads that share few locks in any order, and now and then one that holds some of them.
pub fn readers(random: &mut Random) -> Draft {
    let locks = random.between(2, 4);
    let holds = *random.pick(&[0, 5, 15, 30]);
    let body = |random: &mut Random| {
        let count = random.between(1, locks.min(3));
        let order = random.permutation(locks);
        let taken: Vec<(usize, bool)> =
            order[..count].iter().map(|lock| (*lock, random.chance(holds))).collect();
        wrapped(chain(&taken, vec![]), random)
    };
    let procs = (0..random.between(2, MAX_THREADS)).map(|_| body(random)).collect();
    Draft::each(procs)
}

/// A thread that shares a lock and then holds it, or nearly does: behind the share, inside
/// other locks, with a hold of another between.
fn upgrader(lock: usize, other: usize, random: &mut Random) -> Vec<Tree> {
    match random.below(9) {
        0 => vec![share(lock, vec![]), hold(lock, vec![])],
        1 => chain(&[(other, true), (lock, false), (lock, true)], vec![]),
        2 => chain(&[(other, false), (lock, false), (lock, true)], vec![]),
        3 => chain(&[(lock, false), (other, true), (lock, true)], vec![]),
        4 => chain(&[(lock, false), (other, false), (lock, true)], vec![]),
        5 => vec![share(lock, vec![hold(other, vec![]), hold(lock, vec![])])],
        6 => chain(&[(lock, true), (lock, false), (lock, true)], vec![]),
        _ => chain(&[(lock, false), (lock, true)], vec![]),
    }
}

/// Threads that hold what they share, beside others that share or hold it.
pub fn upgraders(random: &mut Random) -> Draft {
    let locks = random.between(1, 3);
    let body = |random: &mut Random| {
        let (lock, other) = (random.below(locks), random.below(locks + 1));
        let block = match random.below(6) {
            0 => vec![share(lock, vec![])],
            1 => vec![hold(lock, vec![])],
            2 => chain(&[(lock, random.chance(50)), (other, random.chance(50))], vec![]),
            _ => upgrader(lock, other, random),
        };
        wrapped(block, random)
    };
    let procs: Vec<Vec<Tree>> = (0..random.between(1, 3)).map(|_| body(random)).collect();
    let more = (0..random.between(0, 2)).map(|_| random.below(procs.len())).collect::<Vec<_>>();
    let threads = [(0..procs.len()).collect(), more].concat();
    any_order(Draft { procs, threads }, random)
}

/// A ring of threads that take their locks in any way, some of which hold what they share, or
/// have a lock both ways before they want the next.
pub fn both_ways(random: &mut Random) -> Draft {
    let count = random.between(2, 5);
    let body = |thread: usize, random: &mut Random| {
        let (own, next) = (thread, (thread + 1) % count);
        let by_hold = random.chance(70);
        let taken = match random.below(7) {
            0 => vec![(own, true), (own, false), (next, by_hold)],
            1 => vec![(own, false), (own, true), (next, by_hold)],
            2 => vec![(own, false), (next, false), (next, true)],
            3 => vec![(count, false), (own, by_hold), (next, true)],
            4 => vec![(own, true), (count + 1, false), (next, by_hold)],
            _ => vec![(own, random.chance(50)), (next, by_hold)],
        };
        wrapped(chain(&taken, vec![]), random)
    };
    let procs = (0..count).map(|thread| body(thread, random)).collect();
    let mut draft = Draft::each(procs);
    random.shuffle(&mut draft.threads);
    draft
}

/// Brackets of shares and others, about as many as may be open together.
fn share_brackets(random: &mut Random) -> Draft {
    let count = random.between(14, 18);
    let locks: Vec<(usize, bool)> = (0..count).map(|_| (random.below(32), random.chance(30))).collect();
    match random.below(3) {
        0 => Draft::each(vec![chain(&locks, vec![])]),
        1 => Draft::each(vec![(0..count).fold(skips(1), |body, lock| vec![share(lock % 32, body)])]),
        _ => {
            let draft = brackets(random.between(15, 18), random);
            mixed(&draft, 60, 0, random)
        }
    }
}

/// Lines that are nearly shares.
const ODD_SHARES: [&[u8]; 30] = [
    b"(share",
    b"(share ",
    b"(share 0",
    b"(share 31",
    b"(share 32",
    b"(share 99",
    b"(share 031",
    b"(share 00",
    b"(share 0001",
    b"(share 9999",
    b"(share 0)",
    b"(share 1 ",
    b"(share  1",
    b"(share\t1",
    b"(share 1s",
    b"(share -1",
    b"(share x",
    b"(share 1;",
    b"(share 0\r",
    b"(Share 0",
    b"(SHARE 0",
    b"(shared 1",
    b"(sharing",
    b"(shar 0",
    b"(sharex 0",
    b"(share0",
    b"(shore 0",
    b"(hold 1s",
    b"( share 0",
    b"share 0",
];

/// A text with a line that is nearly a share, or a share that is nothing around.
fn odd_share(text: &[u8], random: &mut Random) -> Vec<u8> {
    let mut lines: Vec<Vec<u8>> = text.split_inclusive(|byte| *byte == 10).map(<[u8]>::to_vec).collect();
    let at = random.below(lines.len());
    let odd = [*random.pick(&ODD_SHARES), b"\n"].concat();
    match random.below(6) {
        0 | 1 => lines[at] = odd,
        2 => lines.insert(at, odd),
        // Empty, or not closed.
        3 => drop(lines.splice(at..at, [b"(share 1\n".to_vec(), b")\n".to_vec()])),
        4 => lines.insert(at, b"(share 1\n".to_vec()),
        // Around a line.
        _ => {
            let lock = *random.pick(&[0, 1, 31, 31, 32, 33, 64, 999]);
            lines.insert(at + 1, b")\n".to_vec());
            lines.insert(at, format!("(share {lock}\n").into_bytes());
        }
    }
    lines.concat()
}

/// A plan with a share of a lock about the highest.
fn high_lock(random: &mut Random) -> Draft {
    let mut draft = small_shares(random);
    let lock = MAX_LOCK as usize - 1 + random.below(3);
    let proc = random.below(draft.procs.len());
    let (by_hold, body) = (random.chance(20), draft.procs[proc].clone());
    draft.procs[proc] = match random.chance(50) {
        true => [body, vec![had(lock, by_hold, vec![])]].concat(),
        false => vec![had(lock, by_hold, body)],
    };
    if random.chance(30) {
        draft.procs[proc].push(hold(MAX_LOCK as usize + 1, vec![]));
    }
    draft
}

/// One text of a seed that has shares, or nearly.
pub fn about_shares(random: &mut Random) -> Case {
    if random.chance(70) {
        let text = without_share(random).text;
        let percent = portion(random);
        return Case { kind: "holds made shares", text: with_share_lines(&text, percent, random) };
    }
    let case = made_for_shares(random);
    match random.chance(40) {
        true => Case { kind: "shares, indented", text: indent(&case.text, random).text },
        false => case,
    }
}

/// A text that is made for its shares.
fn made_for_shares(random: &mut Random) -> Case {
    let case = |kind, draft: Draft| Case { kind, text: draft.text() };
    match random.weighted(&[6, 8, 6, 14, 4, 4, 6, 2]) {
        0 => case("readers", readers(random)),
        1 => case("upgraders", upgraders(random)),
        2 => case("had both ways", both_ways(random)),
        3 => {
            let draft = small(random);
            let draft = any_order(employed(mixed_any(&draft, random), random), random);
            case("mixed with shares", draft)
        }
        4 => {
            let draft = small_shares(random);
            case("shares in eithers and loops", bent(&draft, random))
        }
        5 => case("brackets of shares", share_brackets(random)),
        6 => {
            let text = odd_share(&small_shares(random).text(), random);
            let text = if random.chance(30) { damage(text, random) } else { text };
            Case { kind: "nearly a share", text }
        }
        _ => case("a share of a high lock", high_lock(random)),
    }
}

/// How a family is made anew.
struct Anew {
    random: Random,
    how: Made,
}

/// Which holds of a family become shares.
#[derive(Clone, Copy, PartialEq, Eq)]
enum Made {
    /// Half of them.
    Shares,
    /// Half of those around other statements than skips: the innermost ones still exclude all.
    OuterShares,
    /// The same, and of the holds inside them three of ten hold the lock that is shared.
    Upgraders,
}

impl Made {
    const ALL: [(&'static str, Made); 3] =
        [("shares", Made::Shares), ("outer-shares", Made::OuterShares), ("upgraders", Made::Upgraders)];
}

impl Anew {
    /// A block inside a share of a lock, or inside none.
    fn block(&mut self, block: &[Tree], inside: Option<usize>) -> Vec<Tree> {
        block.iter().map(|tree| self.tree(tree, inside)).collect()
    }

    fn tree(&mut self, tree: &Tree, inside: Option<usize>) -> Tree {
        match tree {
            Skip => Skip,
            Call(proc) => Call(*proc),
            Loop(body) => Loop(self.block(body, inside)),
            Either(one, two) => Either(self.block(one, inside), self.block(two, inside)),
            Share(lock, body) => Share(*lock, self.block(body, Some(*lock))),
            Hold(lock, body) => self.hold(*lock, body, inside),
        }
    }

    fn hold(&mut self, lock: usize, body: &[Tree], inside: Option<usize>) -> Tree {
        let innermost = body.iter().all(|tree| *tree == Skip);
        let half = self.random.chance(50) && (self.how == Made::Shares || !innermost);
        match inside.filter(|_| self.how == Made::Upgraders && self.random.chance(30)) {
            Some(shared) => Hold(shared, self.block(body, None)),
            None if half => Share(lock, self.block(body, Some(lock))),
            None => Hold(lock, self.block(body, inside)),
        }
    }
}

/// A plan with shares in the place of some holds. It has the statements and the sizes that it had.
fn anew(draft: &Draft, how: Made) -> Draft {
    let mut anew = Anew { random: Random::new(0), how };
    let procs = draft.procs.iter().map(|body| anew.block(body, None)).collect();
    Draft { procs, threads: draft.threads.clone() }
}

/// The families with shares, and with upgraders: name, plan, whether it deadlocks. Those that the
/// list of verdicts has; `conflict` of `verdict` found them.
pub fn all() -> Vec<(String, Draft, bool)> {
    made(families::all()).into_iter().chain(climbed()).collect()
}

/// Those of up to 128 pairs in a procedure, and the others.
pub fn small_families() -> Vec<(String, Draft, bool)> {
    made(families::small())
}

pub fn full_families() -> Vec<(String, Draft, bool)> {
    made(full::all()).into_iter().chain(climbed()).collect()
}

/// Plans that `climb --shares yes` found: of any verdict, from `climbed-any-full`, and free ones,
/// from a random plan.
fn climbed() -> Vec<(String, Draft, bool)> {
    let kept = |text: &str| tree(&read(text.as_bytes()).expect("an accepted plan"));
    vec![
        ("climbed-any-with-shares".into(), kept(include_str!("climbed-any-with-shares.plan")), true),
        ("climbed-free-with-shares".into(), kept(include_str!("climbed-free-with-shares.plan")), false),
    ]
}

fn made(families: Vec<(String, Draft, bool)>) -> Vec<(String, Draft, bool)> {
    let lines = include_str!("shares.verdicts").lines().filter_map(|line| line.split_once(' '));
    let verdicts: HashMap<&str, bool> = lines.map(|(name, said)| (name, said == "deadlock")).collect();
    let family = |(name, draft, _): &(String, Draft, bool), (what, how): (&str, Made)| {
        let name = format!("{name}-{what}");
        let deadlock = *verdicts.get(name.as_str())?;
        Some((name, anew(draft, how), deadlock))
    };
    families.iter().flat_map(|one| Made::ALL.into_iter().filter_map(|how| family(one, how))).collect()
}
