//! The plans of the reference shelf and other fixed texts, with what they give.

use std::path::PathBuf;

use crate::branches::{choices, eithers, rounds};
use crate::families::{detours, hold, nest, philosophers, share, skips, Draft, Tree};
use crate::full::around;
use crate::generate::doubling;
use crate::indent::{indent, Padding};
use crate::opposed::{both_around, MOST_COUPLES};
use crate::random::Random;
use crate::recode::records;
use crate::reference::{MAX_BYTES, PAIR_WORDS};

/// What a text gives.
#[derive(Clone, Debug, PartialEq, Eq)]
pub enum Gives {
    Free,
    /// The stuck set of a shortest schedule; threads as bits.
    Deadlock(u32),
    Refused(u8, usize),
}

#[derive(Clone)]
pub struct Entry {
    pub name: &'static str,
    pub text: Vec<u8>,
    pub gives: Gives,
    /// Pair words by procedure, where they are stated.
    pub words: Vec<Vec<[u64; PAIR_WORDS]>>,
    /// A right schedule, where one is stated.
    pub schedule: Option<Vec<u16>>,
    /// Sizes by thread, where they are stated.
    pub sizes: Vec<u64>,
    /// Two threads and how many couples they have, where it is stated.
    pub couples: Vec<(u64, u64, usize)>,
    /// The bodies of the straightened copy, where they are stated.
    pub straight: Vec<Vec<Tree>>,
}

impl Entry {
    /// The same with what is passed over put into it: it gives the same, and a
    /// refusal names the line where it now stands.
    pub fn indented(&self, seed: u64) -> Entry {
        let made = indent(&self.text, &mut Random::new(seed));
        let gives = match &self.gives {
            Gives::Refused(rule, line) => Gives::Refused(*rule, made.moved(*line)),
            gives => gives.clone(),
        };
        Entry { text: made.text, gives, ..self.clone() }
    }
}

/// All fixed texts.
pub fn all() -> Vec<Entry> {
    let small = [shelf(), shares(), crossings(), others(), calls(), idle_procedures(), remarked(), spaces()];
    let large = [many_pairs(), many_couples(), branching()];
    small.into_iter().chain(large).flatten().collect()
}

/// The plans in the files of a folder, whose path is from this package on, by name.
pub fn plans_in(folder: &str) -> Vec<(String, Vec<u8>)> {
    let files = std::fs::read_dir(format!("{}/{folder}", env!("CARGO_MANIFEST_DIR"))).unwrap();
    let paths = files.map(|file| file.unwrap().path());
    let plans = paths.filter(|path| path.extension().is_some_and(|end| end == "plan"));
    let named =
        |path: PathBuf| (path.file_stem().unwrap().display().to_string(), std::fs::read(&path).unwrap());
    let mut all: Vec<(String, Vec<u8>)> = plans.map(named).collect();
    all.sort();
    all
}

/// All fixed texts indented, each at several seeds.
pub fn all_indented() -> Vec<Entry> {
    all().iter().flat_map(|entry| (0..4).map(|seed| entry.indented(seed))).collect()
}

fn entry(name: &'static str, draft: Draft, gives: Gives) -> Entry {
    Entry {
        name,
        text: draft.text(),
        gives,
        words: vec![],
        schedule: None,
        sizes: vec![],
        couples: vec![],
        straight: vec![],
    }
}

fn text(name: &'static str, text: &[u8], rule: u8, line: usize) -> Entry {
    Entry { text: text.to_vec(), ..entry(name, Draft::default(), Gives::Refused(rule, line)) }
}

/// An accepted text without a deadlock.
fn free(name: &'static str, bytes: &[u8]) -> Entry {
    Entry { gives: Gives::Free, ..text(name, bytes, 0, 0) }
}

fn chain(locks: &[usize]) -> Vec<Tree> {
    vec![nest(locks, vec![])]
}

/// 96 couples: each lock outermost around its next three; then one more.
pub fn couples(count: usize) -> Vec<Tree> {
    (0..count).map(|k| nest(&[k % 32, (k % 32 + 1 + k / 32) % 32], vec![])).collect()
}

/// The shelf.
pub fn shelf() -> Vec<Entry> {
    use Gives::{Deadlock, Free, Refused};
    let mut all = vec![
        Entry {
            words: vec![records(&[0, 33]), records(&[1, 64])],
            schedule: Some(vec![0, 1]),
            sizes: vec![5, 5],
            couples: vec![(0, 1, 1)],
            ..entry("A", Draft::each(vec![chain(&[0, 1]), chain(&[1, 0])]), Deadlock(3))
        },
        Entry {
            words: vec![records(&[2, 128, 161]), records(&[2, 129, 192])],
            sizes: vec![7, 7],
            couples: vec![(0, 1, 0)],
            ..entry("B", Draft::each(vec![chain(&[2, 0, 1]), chain(&[2, 1, 0])]), Free)
        },
        Entry {
            words: vec![records(&[0])],
            sizes: vec![5, 5],
            couples: vec![(0, 1, 0)],
            ..entry("C", Draft { procs: vec![chain(&[0, 0])], threads: vec![0, 0] }, Free)
        },
        Entry {
            couples: vec![(0, 1, 0), (0, 2, 0), (1, 2, 0)],
            ..entry("D", Draft::each(vec![chain(&[1, 0]), chain(&[2, 1]), chain(&[0, 2])]), Deadlock(7))
        },
        entry("E", Draft::each(vec![chain(&[1, 0]), chain(&[2, 1])]), Free),
        entry("F", Draft::each(vec![vec![nest(&[0, 1], vec![]), nest(&[1, 0], vec![])]]), Free),
        Entry {
            couples: vec![(0, 1, 3)],
            ..entry(
                "G",
                Draft::each(vec![
                    vec![hold(0, vec![hold(1, vec![]), hold(2, vec![])])],
                    vec![hold(1, vec![hold(0, vec![]), nest(&[2, 0], vec![])])],
                ]),
                Deadlock(3),
            )
        },
        Entry {
            schedule: Some(vec![8, 0, 1]),
            sizes: vec![7, 5],
            couples: vec![(0, 1, 1)],
            straight: vec![vec![nest(&[0, 1], vec![]), Tree::Skip], chain(&[1, 0])],
            ..entry(
                "H",
                Draft::each(vec![vec![Tree::Either(chain(&[0, 1]), skips(1))], chain(&[1, 0])]),
                Deadlock(3),
            )
        },
        Entry {
            straight: vec![chain(&[0])],
            ..entry("I", Draft { procs: vec![vec![Tree::Loop(chain(&[0]))]], threads: vec![0, 0] }, Free)
        },
        text("J", b"", 4, 1),
        text("K", b"(plan\n(proc\n)\n", 4, 3),
        entry("doubling, procedure 8", doubling(8), Free),
        entry("doubling, procedure 9", doubling(9), Refused(9, 37)),
        entry("doubling, 64 procedures", doubling(63), Refused(9, 37)),
    ];
    let ended = |count: usize| {
        let mut block = skips(count);
        block.push(hold(0, vec![]));
        Draft::each(vec![block])
    };
    all.push(entry("1,021 skips", ended(1_021), Free));
    // 1,022 skips, the hold and its skip are 1,024 statements.
    all.push(entry("1,022 skips", ended(1_022), Refused(9, 2)));
    all.push(entry("1,023 skips", ended(1_023), Refused(5, 1_027)));
    all.push(entry("96 couples", Draft::each(vec![couples(96)]), Free));
    all.push(entry("97 couples", Draft::each(vec![couples(97)]), Free));
    all.push(entry("lock 31", Draft::each(vec![chain(&[31])]), Free));
    all.push(entry("lock 32", Draft::each(vec![chain(&[32])]), Refused(6, 3)));
    let threads = |count| Draft { procs: vec![skips(1)], threads: vec![0; count] };
    all.push(entry("6 threads", threads(6), Free));
    all.push(entry("7 threads", threads(7), Refused(5, 11)));
    all
}

/// Fixed texts with shares.
pub fn shares() -> Vec<Entry> {
    let mut all = judged_shares();
    all.extend(paired_shares());
    all.extend(nearly_shares());
    all.extend(limits_of_shares());
    all
}

/// A lock by a number, shared, and held inside; or a lock shared or held around another.
fn upgrade(lock: usize) -> Vec<Tree> {
    vec![share(lock, vec![hold(lock, vec![])])]
}

fn share_hold(outer: usize, inner: usize) -> Vec<Tree> {
    vec![share(outer, vec![hold(inner, vec![])])]
}

fn share_share(outer: usize, inner: usize) -> Vec<Tree> {
    vec![share(outer, vec![share(inner, vec![])])]
}

fn hold_share(outer: usize, inner: usize) -> Vec<Tree> {
    vec![hold(outer, vec![share(inner, vec![])])]
}

/// Plans with shares, free and with a deadlock.
fn judged_shares() -> Vec<Entry> {
    use Gives::{Deadlock, Free};
    let one = |name, procs: Vec<Vec<Tree>>, gives, couples: usize| {
        couples_of(name, Draft::each(procs), gives, &[(0, 1, couples), (1, 0, couples)])
    };
    let around = |guard: usize, body: Vec<Tree>| vec![share(guard, body)];
    let both_ways = |own, next: Tree| vec![hold(own, vec![share(own, vec![next])])];
    let three = || vec![vec![hold(2, upgrade(0))], share_hold(0, 1), chain(&[1, 2])];
    let mut two_of_three = three();
    two_of_three[2] = vec![hold(1, vec![share(2, vec![])])];
    vec![
        Entry {
            schedule: Some(vec![0, 1]),
            ..one("two upgraders", vec![upgrade(0), upgrade(0)], Deadlock(3), 1)
        },
        entry("one upgrader alone", Draft::each(vec![upgrade(0)]), Free),
        one("upgraders of two locks", vec![upgrade(0), upgrade(1)], Free, 0),
        entry("six upgraders", Draft { procs: vec![upgrade(31)], threads: vec![0; 6] }, Deadlock(0b11)),
        one("an upgrader beside a reader", vec![upgrade(0), vec![share(0, vec![])]], Free, 0),
        one("an upgrader beside a writer", vec![upgrade(0), chain(&[0])], Free, 0),
        one("readers in both orders", vec![share_share(0, 1), share_share(1, 0)], Free, 0),
        one("a share around a hold, crossed", vec![share_hold(0, 1), chain(&[1, 0])], Deadlock(3), 1),
        one("a share around a hold beside a wanted share", vec![share_hold(0, 1), hold_share(1, 0)], Free, 0),
        one("wanted shares of held locks", vec![hold_share(0, 1), hold_share(1, 0)], Deadlock(3), 1),
        one("wanted shares, one of them held", vec![share_share(0, 1), chain(&[1, 0])], Deadlock(3), 1),
        one(
            "shares that want to hold each other's",
            vec![share_hold(0, 1), share_hold(1, 0)],
            Deadlock(3),
            1,
        ),
        one(
            "a shared guard is none",
            vec![around(2, chain(&[0, 1])), around(2, chain(&[1, 0]))],
            Deadlock(3),
            1,
        ),
        one("a guard held by one", vec![chain(&[2, 0, 1]), around(2, chain(&[1, 0]))], Free, 0),
        one(
            "locks had both ways, crossed",
            vec![both_ways(0, hold(1, vec![])), both_ways(1, share(0, vec![]))],
            Deadlock(3),
            1,
        ),
        one("an upgrader inside a held guard", vec![vec![hold(1, upgrade(0))]; 2], Free, 0),
        one("an upgrader inside a shared guard", vec![vec![share(1, upgrade(0))]; 2], Deadlock(3), 1),
        one("an upgrader behind its share", vec![vec![share(0, vec![]), hold(0, vec![])]; 2], Free, 0),
        entry("an upgrader in a cycle of three", Draft::each(three()), Deadlock(0b111)),
        entry("the same with a share at the end", Draft::each(two_of_three), Deadlock(0b111)),
        entry(
            "an upgrader that a reader waits for",
            Draft::each(vec![upgrade(0), share_hold(0, 1), chain(&[1, 0])]),
            Deadlock(0b110),
        ),
        entry(
            "an upgrader by a call",
            Draft { procs: vec![vec![share(7, vec![Tree::Call(1)])], chain(&[7])], threads: vec![0, 0] },
            Deadlock(3),
        ),
        Entry {
            straight: vec![vec![share(3, vec![hold(3, vec![]), Tree::Skip, share(4, vec![])])]],
            ..entry(
                "shares in eithers and loops",
                Draft::each(vec![vec![share(
                    3,
                    vec![Tree::Either(vec![hold(3, vec![])], skips(1)), Tree::Loop(vec![share(4, vec![])])],
                )]]),
                Free,
            )
        },
    ]
}

/// Plans with shares whose pairs are stated: held set, shared set, wanted lock times 2 plus 1
/// for a hold.
fn paired_shares() -> Vec<Entry> {
    let one = |name, body: Vec<Tree>, words: &[[u64; PAIR_WORDS]]| Entry {
        words: vec![words.to_vec()],
        ..entry(name, Draft::each(vec![body]), Gives::Free)
    };
    let top = 1 << 31;
    let all_shared: Vec<[u64; PAIR_WORDS]> = (0..32).map(|lock| [0, 0, 2 * lock]).collect();
    vec![
        one("a share", vec![share(5, vec![])], &[[0, 0, 10]]),
        one("an upgrade", upgrade(5), &[[0, 0, 10], [0, 32, 11]]),
        one("the highest lock upgraded", upgrade(31), &[[0, 0, 62], [0, top, 63]]),
        one(
            "the highest lock had both ways",
            vec![hold(31, share_share(31, 30))],
            &[[0, 0, 63], [top, top, 60]],
        ),
        one("a share in a hold of its lock", hold_share(2, 2), &[[0, 0, 5]]),
        one("a share in a share of its lock", share_share(2, 2), &[[0, 0, 4]]),
        one("a hold in a hold in a share", vec![share(2, chain(&[2, 2]))], &[[0, 0, 4], [0, 4, 5]]),
        one(
            "a lock had both ways",
            vec![share(2, vec![hold(2, vec![hold(0, vec![share(1, vec![share(3, vec![])])])])])],
            &[[0, 0, 4], [0, 4, 5], [4, 4, 1], [5, 4, 2], [5, 6, 6]],
        ),
        one(
            "order by held set, shared set, wish",
            vec![share(31, vec![]), share(0, vec![hold(0, vec![])]), hold(5, vec![]), share(5, vec![])],
            &[[0, 0, 0], [0, 0, 10], [0, 0, 11], [0, 0, 62], [0, 1, 1]],
        ),
        one("every lock shared", (0..32).map(|lock| share(lock, vec![])).collect(), &all_shared),
    ]
}

/// A plan of one body that has these lines.
fn plan_of(lines: &str) -> Vec<u8> {
    format!("(plan\n(proc\n{lines})\n(thread 0)\n)\n").into_bytes()
}

/// Lines that are nearly shares, and shares of no right place.
fn nearly_shares() -> Vec<Entry> {
    let around = |line: &str| plan_of(&format!("{line}\n(skip)\n)\n"));
    let odd = [
        ("a share without a number", "(share"),
        ("a share and a blank", "(share "),
        ("a share with a capital", "(Share 0"),
        ("a share in capitals", "(SHARE 0"),
        ("a share with a leading zero", "(share 031"),
        ("a share of two zeros", "(share 00"),
        ("a share of four digits", "(share 1000"),
        ("a share with two blanks", "(share  1"),
        ("a share with a tab", "(share\t1"),
        ("a share with a blank behind", "(share 1 "),
        ("a share with a bracket behind", "(share 1)"),
        ("a share with an s", "(share 1s"),
        ("a hold with an s", "(hold 1s"),
        ("a shared", "(shared 1"),
        ("a sharing", "(sharing"),
        ("a shar", "(shar 1"),
        ("a share without a blank", "(share1"),
    ];
    let mut all: Vec<Entry> = odd.iter().map(|(name, line)| text(name, &around(line), 3, 3)).collect();
    all.extend([
        text("an empty share", &plan_of("(share 0\n)\n"), 4, 4),
        text("an empty share in a share", &plan_of("(share 0\n(share 1\n)\n)\n"), 4, 5),
        text("a share that is not closed", &plan_of("(share 0\n(skip)\n"), 4, 6),
        text("a share in an either", &plan_of("(either\n(share 0\n(skip)\n)\n)\n"), 4, 4),
        text("a share in the plan", b"(plan\n(share 0\n(skip)\n)\n)\n", 4, 2),
        text("a share first", b"(share 0\n", 4, 1),
        free("a share", &around("(share 31")),
        text("a share of lock 32", &around("(share 32"), 6, 3),
        text("a share of lock 63", &around("(share 63"), 6, 3),
        text("a share of lock 64", &around("(share 64"), 6, 3),
        text("a share of lock 999", &around("(share 999"), 6, 3),
        text("a share of lock 32 before a hold", &plan_of("(share 32\n(hold 32\n(skip)\n)\n)\n"), 6, 3),
        text("a share of lock 32 behind a hold", &plan_of("(hold 32\n(share 32\n(skip)\n)\n)\n"), 6, 3),
        text("a share of lock 32 before a call", &plan_of("(call 9)\n(share 32\n(skip)\n)\n"), 6, 4),
    ]);
    all
}

/// Shares as many, as deep and as large as allowed, and more.
fn limits_of_shares() -> Vec<Entry> {
    use Gives::{Free, Refused};
    let deep = |count: usize, by_hold: fn(usize) -> bool| {
        let around = |body, lock| vec![if by_hold(lock) { hold(lock, body) } else { share(lock, body) }];
        Draft::each(vec![(0..count).fold(skips(1), around)])
    };
    let many = |count: usize, skip: usize| {
        Draft::each(vec![[(0..count).map(|lock| share(lock % 32, vec![])).collect(), skips(skip)].concat()])
    };
    // Sixteen shares, each of which stands inside those of the chain before it.
    let chains = |count: usize| {
        let chain = |first: usize| {
            let locks = (0..16).rev().map(|at| (first + at) % 32);
            locks.fold(skips(1), |body, lock| vec![share(lock, body)]).remove(0)
        };
        Draft::each(vec![(0..count).map(chain).collect()])
    };
    vec![
        entry("16 shares", deep(16, |_| false), Free),
        entry("17 shares", deep(17, |_| false), Refused(5, 19)),
        entry("16 shares and holds", deep(16, |lock| lock % 2 == 0), Free),
        entry("17 shares and holds", deep(17, |lock| lock % 2 == 0), Refused(5, 19)),
        Entry { sizes: vec![1_023], ..entry("341 shares", many(341, 0), Free) },
        Entry { sizes: vec![1_024], ..entry("341 shares and a skip", many(341, 1), Free) },
        entry("341 shares and two skips", many(341, 2), Refused(9, 2)),
        entry("513 shares", many(513, 0), Refused(5, 2 + 3 * 512 + 1)),
        Entry { sizes: vec![1_023], ..entry("496 pairs of shares", chains(31), Free) },
        entry("512 pairs of shares", chains(32), Refused(9, 2)),
    ]
}

/// Fixed texts beside the shelf.
pub fn others() -> Vec<Entry> {
    use Gives::{Deadlock, Free, Refused};
    let mut all = vec![
        text("one line end", b"\n", 4, 2),
        text("one bracket", b")\n", 4, 1),
        text("no line end", b"(plan", 3, 1),
        text("last line not ended", b"(plan\n(proc\n(skip)\n)\n(thread 0)\n)", 3, 6),
        text("a blank at the end", b"(plan\n(proc\n(skip)\n)\n(thread 0)\n)\n ", 3, 7),
        free("an empty line at the end", b"(plan\n(proc\n(skip)\n)\n(thread 0)\n)\n\n"),
        text("a bracket at the end", b"(plan\n(proc\n(skip)\n)\n(thread 0)\n)\n)\n", 4, 7),
        text("a second plan", b"(plan\n(proc\n(skip)\n)\n(thread 0)\n)\n(plan\n", 4, 7),
        text("a plan in a plan", b"(plan\n(plan\n", 4, 2),
        text("no procedure", b"(plan\n)\n", 4, 2),
        text("a thread first", b"(plan\n(thread 0)\n", 4, 2),
        text("no thread", b"(plan\n(proc\n(skip)\n)\n)\n", 4, 5),
        text("a procedure behind a thread", b"(plan\n(proc\n(skip)\n)\n(thread 0)\n(proc\n", 4, 6),
        text("an empty hold", b"(plan\n(proc\n(hold 0\n)\n", 4, 4),
        text("an empty loop", b"(plan\n(proc\n(loop\n)\n", 4, 4),
        text("an empty either", b"(plan\n(proc\n(either\n)\n", 4, 4),
        text("an empty one", b"(plan\n(proc\n(either\n(one\n)\n", 4, 5),
        text("two before one", b"(plan\n(proc\n(either\n(two\n", 4, 4),
        text("one twice", b"(plan\n(proc\n(either\n(one\n(skip)\n)\n(one\n", 4, 7),
        text("no two", b"(plan\n(proc\n(either\n(one\n(skip)\n)\n)\n", 4, 7),
        text("a third part", b"(plan\n(proc\n(either\n(one\n(skip)\n)\n(two\n(skip)\n)\n(two\n", 4, 10),
        text("a statement in an either", b"(plan\n(proc\n(either\n(skip)\n", 4, 4),
        text("one in a block", b"(plan\n(proc\n(one\n", 4, 3),
        text("a procedure in a procedure", b"(plan\n(proc\n(proc\n", 4, 3),
        text("a thread in a procedure", b"(plan\n(proc\n(skip)\n(thread 0)\n", 4, 4),
        text("ends in a procedure", b"(plan\n(proc\n(skip)\n", 4, 4),
        text("ends in the plan", b"(plan\n(proc\n(skip)\n)\n(thread 0)\n", 4, 6),
        text("form before place", b"(plan\n)\n(skip)\n)\n(thread 0)\n(hold 1)\n", 3, 6),
        text("carriage returns", b"(plan\r\n(proc\r\n(skip)\r\n)\r\n(thread 0)\r\n)\r\n", 3, 1),
        text("a byte 0", b"(plan\n(proc\n(skip)\0\n)\n(thread 0)\n)\n", 3, 3),
        text("a tab", b"(plan\n(proc\n(hold\t1\n(skip)\n)\n)\n(thread 0)\n)\n", 3, 3),
        text("a blank behind", b"(plan\n(proc\n(skip) \n)\n(thread 0)\n)\n", 3, 3),
        text("a leading zero", b"(plan\n(proc\n(hold 01\n(skip)\n)\n)\n(thread 0)\n)\n", 3, 3),
        text("two zeros", b"(plan\n(proc\n(skip)\n)\n(thread 00)\n)\n", 3, 5),
        text("four digits", b"(plan\n(proc\n(hold 1000\n(skip)\n)\n)\n(thread 0)\n)\n", 3, 3),
        text("no digit", b"(plan\n(proc\n(call )\n)\n(thread 0)\n)\n", 3, 3),
        text("a byte order mark", b"\xef\xbb\xbf(plan\n(proc\n(skip)\n)\n(thread 0)\n)\n", 3, 1),
        text("only line ends", &[10; 32_768], 4, 32_769),
        text("32,769 line ends", &[10; 32_769], 2, 0),
        text("a long line", &[b'('; 32_768], 3, 1),
        text("a million bytes", &[b'('; 1_000_000], 2, 0),
        entry("an absent thread", Draft { procs: vec![skips(1)], threads: vec![0, 1, 2] }, Refused(8, 6)),
        entry(
            "lock before call before thread",
            Draft { procs: vec![vec![Tree::Call(3), hold(32, vec![])]], threads: vec![0, 9] },
            Refused(6, 4),
        ),
        entry(
            "call before thread",
            Draft { procs: vec![vec![Tree::Call(3)]], threads: vec![0, 9] },
            Refused(7, 3),
        ),
        entry(
            "size before pairs",
            Draft::each(vec![couples(97), vec![Tree::Call(0), Tree::Call(0), Tree::Call(0)]]),
            Refused(9, 2 + 97 * 5 + 2),
        ),
        entry("129 pairs in two", Draft::each(vec![skips(1), couples(97), couples(97)]), Free),
        entry("a thread twice", Draft { procs: vec![chain(&[0, 1])], threads: vec![0, 0] }, Free),
        entry(
            "a thread that waits at its first hold",
            Draft::each(vec![chain(&[0, 1]), chain(&[1, 0]), chain(&[0])]),
            Deadlock(7),
        ),
        entry(
            "a thread that only passes",
            Draft::each(vec![chain(&[0, 1]), chain(&[1, 0]), skips(2)]),
            Deadlock(3),
        ),
        entry(
            "a deadlock of the later threads",
            Draft::each(vec![skips(1), chain(&[31]), chain(&[5, 31, 9]), chain(&[9, 5])]),
            Deadlock(0b1110),
        ),
        every_lock(),
    ];
    let loops = |depth: usize, closes: usize| {
        let mut text = b"(plan\n(proc\n".to_vec();
        text.extend(b"(loop\n".repeat(depth));
        text.extend(b"(skip)\n");
        text.extend(b")\n".repeat(closes));
        text.extend(b")\n(thread 0)\n)\n");
        text
    };
    all.push(free("16 loops", &loops(16, 16)));
    all.push(text("17 loops", &loops(17, 17), 5, 19));
    // The bracket too many closes the procedure, the next line has no place.
    all.push(text("17 loops and a bracket too many", &loops(17, 18), 4, 2 + 17 + 1 + 18 + 1));
    all.push(text("16 loops and a bracket too few", &loops(16, 15), 4, 2 + 16 + 1 + 15 + 2));
    all.push(text("3,000 loops", &loops(3_000, 3_000), 5, 19));
    all.push(text(
        "5,000 loops, nothing closed",
        &b"(plan\n(proc\n".iter().chain(b"(loop\n".repeat(5_000).iter()).copied().collect::<Vec<u8>>(),
        4,
        5_003,
    ));
    all.push(text("5,000 loops", &loops(5_000, 5_000), 2, 0));
    let eithers = |depth: usize| {
        let mut block = skips(1);
        for _ in 0..depth {
            block = vec![Tree::Either(block, skips(1))];
        }
        Draft::each(vec![block])
    };
    all.push(entry("8 eithers", eithers(8), Free));
    all.push(entry("9 eithers", eithers(9), Refused(5, 3 + 16)));
    all.push(entry("64 procedures", calls_of_all_others(64, 63), Free));
    all.push(entry("65 procedures", calls_of_all_others(65, 64), Refused(5, 2 + 64 * 3)));
    let statements = |count: usize| Draft::each(vec![skips(count / 2), skips(count - count / 2)]);
    all.push(entry("1,024 statements", statements(1_024), Free));
    all.push(entry("1,025 statements", statements(1_025), Refused(5, 2 + 512 + 2 + 513)));
    all
}

/// Each lock alone around the next, the last around the first: the bit of every lock
/// is in a word. A second thread has 0 around 31, which crosses the last.
fn every_lock() -> Entry {
    let wanted = |held: u32| u64::from((held + 1) % 32);
    let words: Vec<u64> = (0..32).chain((0..32).map(|held| 2_u64.pow(held) * 32 + wanted(held))).collect();
    let draft = Draft::each(vec![couples(32), chain(&[0, 31])]);
    Entry {
        words: vec![records(&words), records(&[0, 63])],
        ..entry("every lock", draft, Gives::Deadlock(3))
    }
}

/// Fixed texts of calls.
pub fn calls() -> Vec<Entry> {
    let mut all = later_calls();
    all.extend(limits_by_later_calls());
    all.extend(absent_calls());
    all.extend(circles());
    all.extend(circles_and_others());
    all.extend(rules_beside_recursion());
    all
}

/// One thread of the first procedure.
fn first(procs: Vec<Vec<Tree>>) -> Draft {
    Draft { procs, threads: vec![0] }
}

/// Bodies of nothing but calls, and others behind them.
fn calling(callees: &[&[usize]], others: &[Vec<Tree>]) -> Draft {
    let body = |callees: &&[usize]| callees.iter().map(|callee| Tree::Call(*callee)).collect();
    first(callees.iter().map(body).chain(others.iter().cloned()).collect())
}

/// Each procedure calls the next; the last one is given.
fn calls_forward(count: usize, last: Vec<Tree>) -> Draft {
    let mut procs: Vec<Vec<Tree>> = (1..count).map(|next| vec![Tree::Call(next)]).collect();
    procs.push(last);
    first(procs)
}

/// Each procedure calls all behind it; the last one is a skip.
pub fn calls_of_all_behind(count: usize) -> Draft {
    let mut procs: Vec<Vec<Tree>> = (1..count).map(|next| (next..count).map(Tree::Call).collect()).collect();
    procs.push(skips(1));
    first(procs)
}

/// So many procedures, of which one calls all others, skips.
fn calls_of_all_others(count: usize, caller: usize) -> Draft {
    let mut procs = vec![skips(1); count];
    procs[caller] = (0..count).filter(|callee| *callee != caller).map(Tree::Call).collect();
    Draft { procs, threads: vec![caller] }
}

/// So many calls, no two of them alike, in 64 procedures. The first six, which have a
/// thread each, call the next 31, each another part of them; these 31 call the 27 behind
/// them, of which 26 call the last, a skip. The calls that are left are of these 27, by the
/// first six.
pub fn calls_all_different(count: usize) -> Draft {
    let part = |first: usize| (6 + first..37).step_by(6).map(Tree::Call).collect();
    let mut procs: Vec<Vec<Tree>> = (0..6).map(part).collect();
    procs.extend(vec![(37..64).map(Tree::Call).collect(); 31]);
    procs.extend(vec![vec![Tree::Call(63)]; 26]);
    procs.push(skips(1));
    let left = count - 31 - 31 * 27 - 26;
    (0..left).for_each(|at| procs[at / 27].push(Tree::Call(37 + at % 27)));
    Draft { procs, threads: (0..6).collect() }
}

/// Accepted plans with calls of later procedures.
fn later_calls() -> Vec<Entry> {
    use Gives::{Deadlock, Free};
    let around = |lock, callee| vec![hold(lock, vec![Tree::Call(callee)])];
    let a = vec![around(0, 2), around(1, 3), chain(&[1]), chain(&[0])];
    let a = Draft { procs: a, threads: vec![0, 1] };
    let either = Tree::Either(vec![Tree::Call(0)], vec![Tree::Loop(vec![Tree::Call(3)])]);
    let both_ways = vec![chain(&[5]), vec![Tree::Call(3)], vec![hold(4, vec![either])], chain(&[6])];
    vec![
        entry("a call of a later one", Draft::each(vec![skips(1), vec![Tree::Call(2)], skips(1)]), Free),
        Entry {
            words: vec![records(&[0, 33]), records(&[1, 64]), records(&[1]), records(&[0])],
            schedule: Some(vec![0, 0, 1, 1]),
            ..entry("A by later calls", a.clone(), Deadlock(3))
        },
        Entry {
            words: vec![records(&[0]), records(&[1]), records(&[1, 64]), records(&[0, 33])],
            schedule: Some(vec![0, 0, 1, 1]),
            ..entry("A by earlier calls", a.reversed(), Deadlock(3))
        },
        Entry {
            // With 4 held, 16 × 32 more than with nothing held.
            words: vec![records(&[5]), records(&[6]), records(&[4, 517, 518]), records(&[6])],
            ..entry("calls of an earlier and a later one", Draft::each(both_ways), Free)
        },
        entry("two ways to one procedure", calling(&[&[1, 2], &[3], &[3]], &[skips(1)]), Free),
        entry("a later one called twice", calling(&[&[1, 1]], &[skips(1)]), Free),
        entry("64 procedures, each calls the next", calls_forward(64, skips(1)), Free),
        entry("64 procedures, each calls the one before", calls_forward(64, skips(1)).reversed(), Free),
        Entry {
            words: vec![records(&[31]); 64],
            ..entry("64 procedures, the last with a hold", calls_forward(64, chain(&[31])), Free)
        },
        entry("10 procedures, calls of all behind", calls_of_all_behind(10), Free),
        entry("1,023 calls, all different", calls_all_different(1_023), Free),
        entry("1,023 calls, from the last to the first", calls_all_different(1_023).reversed(), Free),
    ]
}

/// Rules 5 and 9 where callees stand behind their callers, and pairs of those.
fn limits_by_later_calls() -> Vec<Entry> {
    use Gives::{Free, Refused};
    // Procedures 8, 11, 9, 10, and then 0 to 7.
    let about = doubling(11).permuted(&[4, 5, 6, 7, 8, 9, 10, 11, 0, 2, 3, 1]);
    let sized =
        |more: usize| first(vec![[vec![Tree::Call(1), hold(0, vec![])], skips(more)].concat(), skips(1_019)]);
    let couple = nest(&[0, 31], vec![]);
    vec![
        entry("doubling from the last, 9 procedures", doubling(8).reversed(), Free),
        entry("doubling from the last, 10 procedures", doubling(9).reversed(), Refused(9, 2)),
        entry("doubling from the last, 64 procedures", doubling(63).reversed(), Refused(9, 2)),
        entry("doubling in another order", about, Refused(9, 6)),
        entry("11 procedures, calls of all behind", calls_of_all_behind(11), Refused(9, 2)),
        entry("11 procedures, calls of all before", calls_of_all_behind(11).reversed(), Refused(9, 68)),
        entry("size 1,024 by a later call", sized(1), Free),
        entry("size 1,025 by a later call", sized(2), Refused(9, 2)),
        // The skip of the last procedure is a statement too many.
        entry("1,024 calls, all different", calls_all_different(1_024), Refused(5, 1 + 1_024 + 2 * 63 + 2)),
        entry("size by later calls of many pairs", calling(&[&[1, 1, 1]], &[couples(97)]), Refused(9, 2)),
        entry("512 pairs by a later call", calling(&[&[1]], &[around(32)]), Refused(9, 2)),
        entry(
            "512 pairs behind another that is too large",
            Draft { threads: vec![0, 2], ..calling(&[&[1, 1, 1]], &[skips(342), around(32)]) },
            Refused(9, 2),
        ),
        entry("128 pairs by a later call", calling(&[&[1]], &[couples(96)]), Free),
        entry("129 pairs by a later call", first(vec![vec![Tree::Call(1), couple], couples(96)]), Free),
        entry("496 pairs by a later call", calling(&[&[1]], &[around(31)]), Free),
    ]
}

/// Rule 7: calls of procedures that are not there.
fn absent_calls() -> Vec<Entry> {
    use Gives::{Free, Refused};
    let of_64 = |caller: usize, callee: usize| {
        let mut draft = calls_of_all_others(64, caller);
        draft.procs[caller].insert(0, Tree::Call(callee));
        draft
    };
    let second = |callee| Draft::each(vec![skips(1), vec![Tree::Call(callee)]]);
    vec![
        entry("a call of none", second(999), Refused(7, 6)),
        entry("a call of the number of procedures", second(2), Refused(7, 6)),
        entry("a call of 64", second(64), Refused(7, 6)),
        entry("a call of 256", second(256), Refused(7, 6)),
        entry("64 procedures, a call of 64", of_64(63, 64), Refused(7, 3 + 3 * 63)),
        entry("64 procedures, a call of 62", of_64(63, 62), Free),
        entry("64 procedures, a call of 63", of_64(0, 63), Free),
        entry("the first absent call of three", calling(&[&[1, 2, 7], &[2], &[3]], &[]), Refused(7, 5)),
    ]
}

/// Skips, and behind them so many procedures that call each other around; the first of
/// these calls the skips too, and has a thread.
fn circle(before: usize, count: usize) -> Draft {
    let call = |at: usize| vec![Tree::Call(before + (at + 1) % count)];
    let mut procs: Vec<Vec<Tree>> = vec![skips(1); before].into_iter().chain((0..count).map(call)).collect();
    procs[before].extend((0..before).map(Tree::Call));
    Draft { procs, threads: vec![before] }
}

/// Rule 12: circles of calls.
fn circles() -> Vec<Entry> {
    use Gives::Refused;
    let either = Tree::Either(skips(1), vec![Tree::Call(0)]);
    let inside = vec![Tree::Loop(vec![hold(3, vec![either])])];
    vec![
        entry("a call of itself", circle(0, 1), Refused(12, 2)),
        entry("a call of itself behind others", circle(2, 1), Refused(12, 8)),
        entry("a call of itself by the last of 64", circle(63, 1), Refused(12, 2 + 3 * 63)),
        entry("a call of itself inside", first(vec![inside]), Refused(12, 2)),
        entry("a circle of 2", circle(0, 2), Refused(12, 2)),
        entry("a circle of 2 behind another", circle(1, 2), Refused(12, 5)),
        entry("a circle of 3", circle(0, 3), Refused(12, 2)),
        entry("a circle of 63", circle(1, 63), Refused(12, 5)),
        entry("a circle of 64", circle(0, 64), Refused(12, 2)),
        entry("a circle of 64, from the last to the first", circle(0, 64).reversed(), Refused(12, 2)),
    ]
}

/// The same with other threads.
fn run_by(threads: &[usize], draft: Draft) -> Draft {
    Draft { threads: threads.to_vec(), ..draft }
}

/// Rule 12 names a procedure of a circle, and none that only reaches one.
fn circles_and_others() -> Vec<Entry> {
    use Gives::Refused;
    let to_the_last = calls_forward(64, vec![Tree::Call(63)]);
    vec![
        entry(
            "before and behind a circle",
            run_by(&[0, 3], calling(&[&[1], &[2], &[1], &[2]], &[])),
            Refused(12, 5),
        ),
        entry(
            "reached by a circle",
            run_by(&[1], calling(&[&[3], &[2, 0], &[1]], &[skips(1)])),
            Refused(12, 5),
        ),
        // Procedures 2 and 3 reach 1, which reaches 4 and 5.
        entry(
            "between two circles",
            run_by(&[0, 2], calling(&[&[6], &[4], &[3, 1], &[2], &[5], &[4]], &[skips(1)])),
            Refused(12, 8),
        ),
        entry(
            "a circle around another",
            run_by(&[0, 1], calling(&[&[3], &[2], &[1], &[0]], &[])),
            Refused(12, 2),
        ),
        entry(
            "two circles through one procedure",
            calling(&[&[3], &[2], &[1, 2], &[1]], &[]),
            Refused(12, 5),
        ),
        entry("63 calls to one of itself", to_the_last.clone(), Refused(12, 2 + 3 * 63)),
        entry("63 calls to one of itself, reversed", to_the_last.reversed(), Refused(12, 2)),
    ]
}

/// Rule 12 behind rules 5 to 8 and before 9, whatever the pairs are.
fn rules_beside_recursion() -> Vec<Entry> {
    use Gives::Refused;
    let itself = |threads: &[usize]| run_by(threads, circle(0, 1));
    let mut doubled = doubling(9).reversed();
    doubled.procs.push(vec![Tree::Call(10)]);
    doubled.threads.push(10);
    vec![
        entry("threads before recursion", itself(&[0; 7]), Refused(5, 11)),
        entry("lock before recursion", first(vec![vec![hold(32, vec![Tree::Call(0)])]]), Refused(6, 3)),
        entry("call before recursion", calling(&[&[0, 1]], &[]), Refused(7, 4)),
        entry(
            "call behind a circle before recursion",
            run_by(&[0, 2], calling(&[&[1], &[0], &[3]], &[])),
            Refused(7, 9),
        ),
        entry("thread before recursion", itself(&[0, 1]), Refused(8, 6)),
        entry(
            "call before thread before recursion",
            run_by(&[0, 9], calling(&[&[0, 1]], &[])),
            Refused(7, 4),
        ),
        entry("recursion before size", doubled, Refused(12, 2 + 9 * 4 + 3)),
        entry(
            "recursion before size in one procedure",
            run_by(&[1], first(vec![skips(600), vec![Tree::Call(0), Tree::Call(0), Tree::Call(1)]])),
            Refused(12, 604),
        ),
        entry(
            "recursion beside 129 pairs",
            Draft::each(vec![couples(97), vec![Tree::Call(1)]]),
            Refused(12, 489),
        ),
        entry(
            "recursion before size of many pairs",
            Draft::each(vec![around(32), vec![Tree::Call(1)]]),
            Refused(12, 2 + 32 * 33 + 2),
        ),
    ]
}

/// Fixed texts of rule 13, and of plans that nearly break it. No others have an idle
/// procedure.
pub fn idle_procedures() -> Vec<Entry> {
    let mut all = exports();
    all.extend(named_idle());
    all.extend(idle_in_the_file());
    all.extend(rules_beside_idle());
    all.extend(used_by_little());
    all
}

/// So many trees of ten procedures, of which the first calls the others.
fn trees(count: usize) -> Draft {
    let tree = |at: usize| {
        let calls = (10 * at + 1..10 * at + 10).map(Tree::Call).collect();
        std::iter::once(calls).chain(vec![skips(1); 9])
    };
    Draft { procs: (0..count).flat_map(tree).collect(), threads: (0..count).map(|at| 10 * at).collect() }
}

/// Exports of forty procedures whose thread lines are lost or made remarks.
fn exports() -> Vec<Entry> {
    use Gives::{Free, Refused};
    let forty = |thread: usize| Draft { procs: vec![skips(1); 40], threads: vec![thread] };
    let remarks: Vec<u8> = trees(4).text().split_inclusive(|byte| *byte == 10).fold(vec![], |text, line| {
        let lost = line.starts_with(b"(thread ") && line != b"(thread 0)\n";
        [text.as_slice(), if lost { b"; " } else { b"  " }, line].concat()
    });
    vec![
        entry("forty procedures and one thread line", forty(0), Refused(13, 5)),
        entry("forty procedures and a line of the last", forty(39), Refused(13, 2)),
        entry("forty procedures and a line of one between", forty(17), Refused(13, 2)),
        entry("forty procedures and four thread lines", trees(4), Free),
        entry("forty procedures, three threads lost", run_by(&[0], trees(4)), Refused(13, 40)),
        entry("forty procedures, the first thread lost", run_by(&[10, 20, 30], trees(4)), Refused(13, 2)),
        entry("forty procedures, the last thread lost", run_by(&[0, 10, 20], trees(4)), Refused(13, 116)),
        text("forty procedures, three threads made remarks", &remarks, 13, 40),
        entry(
            "64 procedures, each calls the next, a thread of the last",
            run_by(&[63], calls_forward(64, skips(1))),
            Refused(13, 2),
        ),
        entry(
            "64 procedures, each calls the one before, a thread of the first",
            run_by(&[0], calls_forward(64, skips(1)).reversed()),
            Refused(13, 5),
        ),
    ]
}

/// Rule 13 names the lowest idle procedure, whoever calls it and whatever it calls.
fn named_idle() -> Vec<Entry> {
    use Gives::Refused;
    let last_of_64 = {
        let mut draft = calls_forward(63, skips(1));
        draft.procs.push(skips(1));
        draft
    };
    vec![
        entry("the last of two idle", first(vec![skips(1); 2]), Refused(13, 5)),
        entry("the first of two idle", run_by(&[1], first(vec![skips(1); 2])), Refused(13, 2)),
        entry("the last procedure idle", calling(&[&[1]], &[skips(1), skips(1)]), Refused(13, 8)),
        entry("the last of 64 procedures idle", last_of_64, Refused(13, 2 + 3 * 63)),
        entry(
            "an idle one called by a later idle one",
            calling(&[], &[skips(1), skips(1), vec![Tree::Call(1)]]),
            Refused(13, 5),
        ),
        entry(
            "an idle one called in an idle loop",
            first(vec![skips(1), vec![Tree::Loop(vec![Tree::Call(2)])], skips(1)]),
            Refused(13, 5),
        ),
        entry(
            "an idle one called by an earlier idle one",
            calling(&[&[3], &[2]], &[chain(&[1]), skips(1)]),
            Refused(13, 5),
        ),
        entry(
            "an idle one that calls a used one",
            first(vec![chain(&[0]), vec![Tree::Call(0)]]),
            Refused(13, 7),
        ),
        entry(
            "a callee of a used and of an idle one",
            calling(&[&[2], &[2]], &[chain(&[7])]),
            Refused(13, 5),
        ),
        entry("an idle one between two threads", run_by(&[0, 2], first(vec![skips(1); 3])), Refused(13, 5)),
        entry(
            "two idle ones, six threads",
            run_by(&[2, 2, 4, 4, 0, 0], first(vec![skips(1); 5])),
            Refused(13, 5),
        ),
        entry(
            "an idle one that would deadlock",
            run_by(&[0, 0], first(vec![chain(&[0, 1]), chain(&[1, 0])])),
            Refused(13, 9),
        ),
    ]
}

/// Rule 13 names the line in the file.
fn idle_in_the_file() -> Vec<Entry> {
    let indented =
        b"; the pump\n(plan\n\n  (proc\n    (call 2)\n  )\n  ; never run\n\n  (proc\n    (hold 3\n\
        \x20     (skip)\n    )\n  )\n  ;\n  (proc\n    (skip)\n  )\n  (thread 0)\n  ;(thread 1)\n)\n";
    vec![
        text("an idle one, indented with remarks", indented, 13, 9),
        text("rule 13 in the file", &remark_first(first(vec![skips(1); 2])), 13, 2 * 5),
    ]
}

/// Rule 13 behind rules 5 to 8 and 12, and before 9.
fn rules_beside_idle() -> Vec<Entry> {
    use Gives::Refused;
    let with_skip = |mut draft: Draft| {
        draft.procs.push(skips(1));
        draft
    };
    let locked = first(vec![skips(1), vec![hold(32, vec![])]]);
    // Procedure 1 is idle, and 2 and 3 call each other.
    let beside_circle = |body| first(vec![body, skips(1), vec![Tree::Call(3)], vec![Tree::Call(2)]]);
    vec![
        entry("procedures before an idle one", first(vec![skips(1); 65]), Refused(5, 2 + 64 * 3)),
        entry("lock before an idle one", locked, Refused(6, 6)),
        entry("call before an idle one", first(vec![skips(1), vec![Tree::Call(2)]]), Refused(7, 6)),
        entry("thread before an idle one", run_by(&[0, 2], first(vec![skips(1); 2])), Refused(8, 9)),
        entry("an absent thread and no other", run_by(&[2], first(vec![skips(1); 2])), Refused(8, 8)),
        entry("a circle of 2 that no thread reaches", run_by(&[0], circle(1, 2)), Refused(12, 5)),
        entry("recursion before an idle one", beside_circle(vec![Tree::Call(2)]), Refused(12, 8)),
        entry("recursion of idle ones behind another", beside_circle(skips(1)), Refused(12, 8)),
        entry("an idle one before size", with_skip(doubling(9)), Refused(13, 41)),
        entry("an idle one before size, from the last", with_skip(doubling(9)).reversed(), Refused(13, 2)),
        entry("an idle one that is too large", first(vec![skips(1), around(32)]), Refused(13, 5)),
        entry(
            "an idle one behind one that is too large",
            run_by(&[0], Draft::each(vec![around(32), skips(1)])),
            Refused(13, 2 + 32 * 33 + 2),
        ),
    ]
}

/// Accepted plans with procedures that one call or one thread alone uses.
fn used_by_little() -> Vec<Entry> {
    use Gives::{Deadlock, Free};
    let call = |callee: usize| vec![Tree::Call(callee)];
    let inside = vec![hold(3, call(1)), Tree::Loop(call(2)), Tree::Either(call(3), call(4))];
    let chain_of_63 = {
        let mut draft = calls_forward(63, chain(&[0, 1]));
        draft.procs.push(chain(&[1, 0]));
        run_by(&[63, 63, 63, 63, 63, 0], draft)
    };
    vec![
        entry("six procedures, a thread each", Draft::each(vec![skips(1); 6]), Free),
        entry("named by the sixth thread alone", run_by(&[0, 0, 0, 0, 0, 1], first(vec![skips(1); 2])), Free),
        entry(
            "called by the last thread's alone",
            run_by(&[0, 0, 1], calling(&[&[3], &[2]], &[skips(1), skips(1)])),
            Free,
        ),
        entry("62 calls of the sixth thread", chain_of_63, Deadlock(0b11_1111)),
        entry("called inside", first([vec![inside], vec![skips(1); 4]].concat()), Free),
        entry("called in both blocks", first(vec![vec![Tree::Either(call(1), call(1))], skips(1)]), Free),
    ]
}

/// A plan of six lines.
const SIX: &[u8] = b"(plan\n(proc\n(skip)\n)\n(thread 0)\n)\n";

/// Fixed texts of what is passed over: spaces before a form, blank lines, remarks.
pub fn remarked() -> Vec<Entry> {
    let mut all = accepted_remarked();
    all.extend(no_blanks());
    all.extend(not_ended());
    all.extend(named_in_the_file());
    all.extend(as_long_as_allowed());
    all
}

/// Accepted texts.
fn accepted_remarked() -> Vec<Entry> {
    let a = Draft::each(vec![chain(&[0, 1]), chain(&[1, 0])]);
    let indented = "; two pumps\n\n(plan\n  ; the first one\n  (proc\n    (hold 0\n      (hold 1\n        \
        (skip)\n      )\n    )\n  )\n\n  ; the other way round\n  (proc\n    (hold 1\n      (hold 0\n        \
        (skip)\n      )\n    )\n  )\n   \n  (thread 0)\n  (thread 1)\n)\n;\n";
    let either =
        b"(plan\n(proc\n(either\n;a\n(one\n;b\n(skip)\n;c\n)\n;d\n(two\n;e\n(skip)\n;f\n)\n;g\n)\n)\n\
        (thread 0)\n)\n";
    vec![
        Entry {
            text: indented.into(),
            words: vec![records(&[0, 33]), records(&[1, 64])],
            schedule: Some(vec![0, 1]),
            ..entry("A indented", a, Gives::Deadlock(3))
        },
        free("remarks between an either's parts", either),
        free("blank lines before the plan", b"\n  \n;\n(plan\n(proc\n(skip)\n)\n(thread 0)\n)\n"),
        free("blank lines behind the plan", b"(plan\n(proc\n(skip)\n)\n(thread 0)\n)\n\n  \n;\n"),
        free(
            "forms in remarks",
            b";(plan\n(plan\n ;)\n(proc\n;(skip)\n(skip)\n)\n(thread 0)\n;(thread 9)\n)\n;)\n",
        ),
        free("all bytes in a remark", &[SIX, b";", &all_bytes(), b"\n"].concat()),
        free("a remark with a carriage return", &[b" ;x\r\n", SIX].concat()),
        free("a remark of one byte", &[b";\n", SIX].concat()),
        free("remark upon remark", &[b";;;\n ; ;\n", SIX].concat()),
    ]
}

/// All bytes that may stand in a remark.
fn all_bytes() -> Vec<u8> {
    (0..=255).filter(|byte| *byte != 10).collect()
}

/// Blanks that are none, and things behind a form: rule 3.
fn no_blanks() -> Vec<Entry> {
    vec![
        text("a tab before a form", b"(plan\n(proc\n\t(skip)\n)\n(thread 0)\n)\n", 3, 3),
        text("a tab behind spaces", b"(plan\n(proc\n  \t(skip)\n)\n(thread 0)\n)\n", 3, 3),
        text("a carriage return before a form", b"(plan\n(proc\n\r(skip)\n)\n(thread 0)\n)\n", 3, 3),
        text("a byte 0 before a form", b"(plan\n(proc\n\0(skip)\n)\n(thread 0)\n)\n", 3, 3),
        text("a form feed before a form", b"(plan\n(proc\n\x0c(skip)\n)\n(thread 0)\n)\n", 3, 3),
        text("a blank above 127 before a form", b"(plan\n(proc\n\xa0(skip)\n)\n(thread 0)\n)\n", 3, 3),
        text("a tab before a remark", b"(plan\n\t;x\n(proc\n(skip)\n)\n(thread 0)\n)\n", 3, 2),
        text("a line of a tab", b"\t\n", 3, 1),
        text("a line of a tab in a plan", b"(plan\n\n\t\n(proc\n(skip)\n)\n(thread 0)\n)\n", 3, 3),
        text("a line of spaces and a tab", b"(plan\n  \t\n(proc\n(skip)\n)\n(thread 0)\n)\n", 3, 2),
        text("a line of a carriage return", b"(plan\n\r\n(proc\n(skip)\n)\n(thread 0)\n)\n", 3, 2),
        text("a line of a byte 0", b"(plan\n\0\n(proc\n(skip)\n)\n(thread 0)\n)\n", 3, 2),
        text("spaces behind a form", b"(plan\n(proc\n  (skip)  \n)\n(thread 0)\n)\n", 3, 3),
        text("a tab behind a form", b"(plan\n(proc\n(skip)\t\n)\n(thread 0)\n)\n", 3, 3),
        text("a remark behind a form", b"(plan\n(proc\n(skip) ; x\n)\n(thread 0)\n)\n", 3, 3),
        text("a remark close behind a form", b"(plan\n(proc\n(skip)\n);\n(thread 0)\n)\n", 3, 4),
        text("a remark behind the plan's line", b"(plan;\n(proc\n(skip)\n)\n(thread 0)\n)\n", 3, 1),
        text("a space in a form", b"(plan\n(proc\n( skip)\n)\n(thread 0)\n)\n", 3, 3),
        text("two spaces in a form", b"(plan\n(proc\n(skip)\n)\n(thread  0)\n)\n", 3, 5),
        text("two forms on a line", b"(plan\n(proc (skip)\n)\n(thread 0)\n)\n", 3, 2),
        text("another sign for a remark", b"# x\n(plan\n(proc\n(skip)\n)\n(thread 0)\n)\n", 3, 1),
        text("carriage returns behind remarks alone", b";x\r\n\r\n(plan\n", 3, 2),
    ]
}

/// Last lines that are not ended, and texts without a form: rules 3 and 4.
fn not_ended() -> Vec<Entry> {
    vec![
        text("a remark not ended", &[SIX, b";x"].concat(), 3, 7),
        text("a remark not ended, behind spaces", &[SIX, b"\n  ;x"].concat(), 3, 8),
        text("spaces not ended", &[SIX, b"   "].concat(), 3, 7),
        text("an indented form not ended", b"(plan\n(proc\n(skip)\n)\n\n(thread 0)\n  )", 3, 7),
        text("one remark, not ended", b";x", 3, 1),
        text("one space", b" ", 3, 1),
        text("one semicolon", b";", 3, 1),
        text("the first of two", b"(plan\n;x\n\t(proc\n(skip)\n)\n(thread 0)\n)\n;x", 3, 3),
        text("not ended, and misplaced before", b")\n\n;x", 3, 3),
        text("one remark", b";x\n", 4, 2),
        text("one line of a space", b" \n", 4, 2),
        text("two line ends", b"\n\n", 4, 3),
        text("remarks alone", b";x\n ;y\n\n;(plan\n", 4, 5),
        text("a plan made a remark", b";(plan\n(proc\n(skip)\n)\n(thread 0)\n)\n", 4, 2),
        text("too early behind a remark", b"(plan\n;x\n", 4, 3),
        text("too early behind blank lines", b"\n(plan\n(proc\n\n(skip)\n \n\n", 4, 8),
        text("a remark of all bytes, not ended", &[SIX, b";", &all_bytes()].concat(), 3, 7),
    ]
}

/// A text with a remark before each line.
fn remark_first(draft: Draft) -> Vec<u8> {
    draft.text().split_inclusive(|byte| *byte == 10).flat_map(|line| [b";\n", line].concat()).collect()
}

/// Every other rule from 3 on with lines that are passed over before the named one.
fn named_in_the_file() -> Vec<Entry> {
    let mut all = vec![
        text("rule 3 in the file", b";\n(plan\n\n(proc\n  (skip\n)\n(thread 0)\n)\n", 3, 5),
        text("rule 4 in the file", b";\n(plan\n\n(proc\n  ;\n)\n(thread 0)\n)\n", 4, 6),
        text("rule 4 behind the plan", &[SIX, b"\n;\n )\n"].concat(), 4, 9),
        text("rule 6 in the file", b"(plan\n;\n(proc\n\n  (hold 32\n(skip)\n)\n)\n(thread 0)\n)\n", 6, 5),
        text("rule 7 in the file", b"(plan\n;\n(proc\n\n  (call 1)\n)\n(thread 0)\n)\n", 7, 5),
        text(
            "rule 8 in the file",
            b"(plan\n;\n(proc\n\n  (skip)\n)\n;\n(thread 0)\n;\n(thread 1)\n)\n",
            8,
            10,
        ),
    ];
    let mut push =
        |name, draft: Draft, rule, line: usize| all.push(text(name, &remark_first(draft), rule, 2 * line));
    let threads = Draft { procs: vec![skips(1)], threads: vec![0; 7] };
    push("rule 5 in the file", threads, 5, 11);
    push("rule 12 in the file", circle(1, 2), 12, 5);
    push("rule 9 in the file", doubling(9), 9, 37);
    push("rule 9 in the file, many pairs", Draft::each(vec![skips(1), around(32)]), 9, 5);
    all
}

/// Texts that a padding makes as long as a text may be, and one byte longer.
fn as_long_as_allowed() -> Vec<Entry> {
    let mut all = Vec::new();
    for padding in Padding::ALL {
        for line in [0, 2, 5] {
            all.push(free("padded to 32,768 bytes", &padding.fill(SIX, MAX_BYTES, line)));
            all.push(text("padded to 32,769 bytes", &padding.fill(SIX, MAX_BYTES + 1, line), 2, 0));
        }
        if padding != Padding::Spaces {
            all.push(free("padded behind the plan", &padding.fill(SIX, MAX_BYTES, 6)));
        }
    }
    // The most forms that a text can have, and the most remarks.
    all.push(text("16,384 brackets", &b")\n".repeat(MAX_BYTES / 2), 4, 1));
    all.push(text("16,384 remarks", &b";\n".repeat(MAX_BYTES / 2), 4, MAX_BYTES / 2 + 1));
    all.push(text("32,768 spaces", &[b' '; MAX_BYTES], 3, 1));
    all.push(text("32,769 spaces", &[b' '; MAX_BYTES + 1], 2, 0));
    all.push(text("a remark of 32,768 bytes, not ended", &[b';'; MAX_BYTES], 3, 1));
    all
}

/// Fixed texts of the space that a plan needs.
pub fn spaces() -> Vec<Entry> {
    use Gives::{Free, Refused};
    // A hold of size 3 behind skips; so many threads of it.
    let threads = |count, skipped| {
        let body = [skips(skipped), chain(&[0])].concat();
        Draft { procs: vec![body], threads: vec![0; count] }
    };
    let parts = |lock: usize| vec![Tree::Loop(chain(&[lock])), Tree::Either(skips(1), chain(&[lock]))];
    let of_sizes_1_to_3 = || vec![skips(1), skips(2), chain(&[0])];
    let space =
        |name, draft, sizes: &[u64], gives| Entry { sizes: sizes.to_vec(), ..entry(name, draft, gives) };
    vec![
        space("one thread of a skip", first(vec![skips(1)]), &[1], Free),
        space("one thread of a hold", threads(1, 0), &[3], Free),
        space("two threads of one procedure", threads(2, 1), &[4, 4], Free),
        space("a loop and an either", Draft::each(vec![parts(0), parts(1)]), &[10, 10], Free),
        space(
            "threads from the last procedure to the first",
            Draft { procs: of_sizes_1_to_3(), threads: vec![2, 1, 0] },
            &[3, 2, 1],
            Free,
        ),
        space(
            "one procedure of three twice",
            Draft { procs: of_sizes_1_to_3(), threads: vec![2, 0, 1, 2] },
            &[3, 1, 2, 3],
            Free,
        ),
        space("a procedure that is only called", calling(&[&[1, 1]], &[skips(3)]), &[8], Free),
        space(
            "callers and their callee",
            Draft { threads: vec![1, 2, 0], ..calling(&[&[2, 2], &[0]], &[chain(&[4])]) },
            &[9, 3, 8],
            Free,
        ),
        space("size 766", doubling(8), &[766], Free),
        space("6 threads of size 1,023", threads(6, 1_020), &[1_023; 6], Free),
        space("6 threads of size 1,024", threads(6, 1_021), &[1_024; 6], Free),
        entry("6 threads of size 1,025", threads(6, 1_022), Refused(9, 2)),
        space("129 pairs, one thread", first(vec![couples(97)]), &[485], Free),
        space(
            "129 pairs, two threads",
            Draft { procs: vec![couples(97)], threads: vec![0, 0] },
            &[485, 485],
            Free,
        ),
        space(
            "129 pairs behind others",
            Draft { procs: vec![skips(1), couples(97)], threads: vec![1, 0, 0] },
            &[485, 1, 1],
            Free,
        ),
        space("496 pairs, one thread", first(vec![around(31)]), &[1_023], Free),
        entry(
            "129 pairs, and a size of 1,025",
            Draft::each(vec![couples(97), [vec![Tree::Call(0)], skips(539)].concat()]),
            Refused(9, 2 + 97 * 5 + 2),
        ),
    ]
}

/// So many couples a[b] with a below b, the last ones first: the pair that holds 30 and
/// wants 31 is the last of the list.
fn ascending_couples(count: usize) -> Vec<Tree> {
    let couples = (0..31).rev().flat_map(|a| (a + 1..32).map(move |b| nest(&[a, b], vec![])));
    couples.take(count).collect()
}

/// Fixed texts of many pairs in a procedure.
pub fn many_pairs() -> Vec<Entry> {
    use Gives::{Deadlock, Free, Refused};
    let descending = vec![nest(&[31, 30], vec![])];
    let skip_more = |chains: usize, more: usize| first(vec![[around(chains), skips(more)].concat()]);
    let pairs = |chains: usize| {
        let words = |chain: usize| {
            let lock = move |at: usize| ((chain + at) % 32) as u64;
            (0..16).map(move |at| (0..at).map(|k| 1_u64 << lock(k)).sum::<u64>() * 32 + lock(at))
        };
        let mut all: Vec<u64> = (0..chains).flat_map(words).collect();
        all.sort_unstable();
        all
    };
    vec![
        // The couple that closes the circle is behind more than 128 others.
        entry("the last of 200 pairs", Draft::each(vec![ascending_couples(181), descending]), Deadlock(3)),
        entry(
            "200 pairs, ascending",
            Draft { procs: vec![ascending_couples(181)], threads: vec![0; 3] },
            Free,
        ),
        Entry { words: vec![records(&pairs(31))], ..entry("496 pairs", skip_more(31, 0), Free) },
        entry("496 pairs, size 1,024", skip_more(31, 1), Free),
        entry("496 pairs, size 1,025", skip_more(31, 2), Refused(9, 2)),
        entry("512 pairs", skip_more(32, 0), Refused(9, 2)),
        // A circle of 32 locks needs three threads: none holds more than 15 of a chain.
        couples_of(
            "496 pairs in two threads",
            Draft { procs: vec![around(31)], threads: vec![0, 0] },
            Free,
            &[(0, 1, 0)],
        ),
    ]
}

/// Fixed texts of where two threads cross.
pub fn crossings() -> Vec<Entry> {
    let mut all = crossed();
    all.extend(crossed_among_others());
    all.extend(crossed_in_one_procedure());
    all.extend(not_crossed());
    all
}

/// A text with the couples of some of its threads.
fn couples_of(name: &'static str, draft: Draft, gives: Gives, couples: &[(u64, u64, usize)]) -> Entry {
    Entry { couples: couples.to_vec(), ..entry(name, draft, gives) }
}

/// A thread for each chain.
fn chains(all: &[&[usize]]) -> Draft {
    Draft::each(all.iter().map(|locks| chain(locks)).collect())
}

/// Two threads that cross.
fn crossed() -> Vec<Entry> {
    let one = |name, locks: [&[usize]; 2], count| {
        couples_of(name, chains(&locks), Gives::Deadlock(3), &[(0, 1, count), (1, 0, count)])
    };
    let inside = vec![
        vec![Tree::Loop(vec![hold(0, vec![Tree::Either(skips(1), vec![Tree::Call(2)])])])],
        chain(&[1, 0]),
        chain(&[1]),
    ];
    vec![
        one("crossed by a guard around one", [&[5, 0, 1], &[1, 0]], 1),
        // With the first lock held and the guard wanted, and the other way round.
        one("crossed by a guard between", [&[0, 5, 1], &[1, 5, 0]], 2),
        one("two guards crossed", [&[5, 0, 1], &[6, 1, 0]], 1),
        one("the highest locks crossed", [&[31, 30], &[30, 31]], 1),
        // The second lock is held by the one and wanted by the other, or the other way round.
        one("three locks crossed", [&[0, 1, 2], &[2, 1, 0]], 2),
        couples_of(
            "crossed inside, through a call",
            run_by(&[0, 1], first(inside)),
            Gives::Deadlock(3),
            &[(0, 1, 1), (1, 0, 1)],
        ),
    ]
}

/// Two threads that cross, among others.
fn crossed_among_others() -> Vec<Entry> {
    use Gives::Deadlock;
    let behind_others = Draft::each([vec![skips(1); 4], vec![chain(&[0, 1]), chain(&[1, 0])]].concat());
    let late_first = run_by(&[2, 0, 1], first(vec![skips(1), chain(&[0, 1]), chain(&[1, 0])]));
    vec![
        couples_of(
            "the last two of six crossed",
            behind_others,
            Deadlock(0b11_0000),
            &[(4, 5, 1), (5, 4, 1), (0, 5, 0), (3, 4, 0), (0, 1, 0)],
        ),
        couples_of(
            "threads in another order than procedures",
            late_first,
            Deadlock(0b101),
            &[(0, 1, 0), (0, 2, 1), (1, 2, 0), (2, 0, 1)],
        ),
        couples_of(
            "one crossed with two others",
            chains(&[&[0, 1], &[1, 0], &[0, 1]]),
            Deadlock(7),
            &[(0, 1, 1), (0, 2, 0), (1, 2, 1)],
        ),
    ]
}

/// Threads of one procedure.
fn crossed_in_one_procedure() -> Vec<Entry> {
    use Gives::{Deadlock, Free};
    let both = || vec![nest(&[0, 1], vec![]), nest(&[1, 0], vec![])];
    let threads = |count| Draft { procs: vec![both()], threads: vec![0; count] };
    vec![
        couples_of("both orders in two threads", threads(2), Deadlock(3), &[(0, 1, 2), (1, 0, 2)]),
        couples_of(
            "both orders in three threads",
            threads(3),
            Deadlock(7),
            &[(0, 1, 2), (0, 2, 2), (1, 2, 2)],
        ),
        couples_of(
            "both orders called in two threads",
            Draft { procs: vec![vec![Tree::Call(1)], both()], threads: vec![0, 1] },
            Deadlock(3),
            &[(0, 1, 2)],
        ),
        couples_of(
            "both orders inside a guard",
            Draft { procs: vec![vec![hold(2, both())]], threads: vec![0, 0] },
            Free,
            &[(0, 1, 0)],
        ),
    ]
}

/// Threads that do not cross.
fn not_crossed() -> Vec<Entry> {
    use Gives::{Deadlock, Free};
    let one = |name, locks: [&[usize]; 2]| couples_of(name, chains(&locks), Free, &[(0, 1, 0), (1, 0, 0)]);
    let each_two = |count: u64| {
        let all = (0..count).flat_map(|first| (0..count).map(move |second| (first, second, 0)));
        all.filter(|(first, second, _)| first != second).collect::<Vec<_>>()
    };
    vec![
        one("only the first wants a lock of the second", [&[0, 1], &[1]]),
        one("only the first wants a lock that is held with another wanted", [&[0, 1], &[1, 2]]),
        one("only the second wants a lock of the first", [&[1, 2], &[0, 1]]),
        one("the same order", [&[0, 1], &[0, 1]]),
        one("the same lock", [&[0], &[0]]),
        one("a guard around both", [&[9, 0, 1], &[9, 1, 0]]),
        one("a guard that one holds again", [&[9, 0, 9, 1], &[9, 1, 0]]),
        one("other locks", [&[0, 1], &[2, 3]]),
        couples_of(
            "held one after the other",
            Draft::each(vec![chain(&[0, 1]), vec![nest(&[1], vec![]), nest(&[0], vec![])]]),
            Free,
            &[(0, 1, 0)],
        ),
        couples_of("two threads of skips", Draft::each(vec![skips(1); 2]), Free, &[(0, 1, 0)]),
        couples_of("a ring of four, no two crossed", philosophers(4), Deadlock(15), &each_two(4)),
        couples_of("a ring of six, no two crossed", philosophers(6), Deadlock(63), &each_two(6)),
    ]
}

/// Fixed texts of many couples.
pub fn many_couples() -> Vec<Entry> {
    use Gives::Deadlock;
    vec![
        // Each of 14 locks wanted by the one, with those up to it or more held by the other.
        couples_of("105 couples", detours(14), Deadlock(3), &[(0, 1, 105), (1, 0, 105)]),
        couples_of(
            "90,000 couples",
            MOST_COUPLES.draft(),
            Deadlock(3),
            &[(0, 1, MOST_COUPLES.couples()), (1, 0, 90_000)],
        ),
        // A chain upwards and one downwards that meet: 113 ways to be met by those at odd
        // locks, for sixteen chains, but not by one at 31; and the other way round.
        couples_of("496 pairs, crossed", both_around(), Deadlock(3), &[(0, 1, 2 * (16 * 113 - 113))]),
    ]
}

/// Fixed texts of eithers and loops.
pub fn branching() -> Vec<Entry> {
    let mut all = branched();
    all.extend(deep_branches());
    all.extend(judged_branches());
    all.extend(called_in_branches());
    all.extend(as_many_branches_as_allowed());
    all.extend(refused_unlike_the_copy());
    all.extend(branches_in_the_file());
    all
}

/// A text with the bodies of its straightened copy.
fn straight_of(name: &'static str, draft: Draft, gives: Gives, straight: Vec<Vec<Tree>>) -> Entry {
    Entry { straight, ..entry(name, draft, gives) }
}

/// One thread of a body that is free, and the body of its straightened copy.
fn straight_body(name: &'static str, body: Vec<Tree>, straight: Vec<Tree>) -> Entry {
    straight_of(name, first(vec![body]), Gives::Free, vec![straight])
}

/// A hold of each lock, one after the other.
fn holds(locks: std::ops::Range<usize>) -> Vec<Tree> {
    locks.map(|lock| hold(lock, vec![])).collect()
}

/// Where the blocks of eithers and loops stand in the copy.
fn branched() -> Vec<Entry> {
    let either = |one: usize, two: usize| Tree::Either(chain(&[one]), chain(&[two]));
    let around = vec![Tree::Loop(
        [holds(0..1), vec![Tree::Either(vec![Tree::Loop(chain(&[1]))], chain(&[2]))], holds(3..4)].concat(),
    )];
    let within = vec![Tree::Either(
        vec![Tree::Loop(vec![either(0, 1), hold(2, vec![])])],
        vec![Tree::Loop(holds(3..5))],
    )];
    let last = vec![
        hold(9, vec![Tree::Skip, either(0, 1)]),
        Tree::Loop(vec![hold(2, vec![]), either(3, 4)]),
        either(5, 6),
    ];
    let last_straight = [vec![hold(9, [skips(1), holds(0..2)].concat())], holds(2..7)].concat();
    let inside = vec![hold(
        0,
        vec![
            Tree::Loop(vec![hold(1, vec![either(2, 3), hold(4, vec![])]), hold(5, vec![])]),
            hold(6, vec![]),
        ],
    )];
    let inside_straight = vec![hold(0, vec![hold(1, holds(2..5)), hold(5, vec![]), hold(6, vec![])])];
    let of_skips = vec![Tree::Loop(vec![Tree::Either(skips(1), vec![Tree::Loop(skips(2))]), Tree::Skip])];
    vec![
        straight_body("an either of two holds", vec![either(1, 0)], vec![hold(1, vec![]), hold(0, vec![])]),
        straight_body(
            "an either between holds",
            vec![hold(0, vec![]), either(1, 2), hold(3, vec![])],
            holds(0..4),
        ),
        straight_body(
            "an either of longer blocks",
            vec![Tree::Either(holds(0..3), holds(3..7))],
            holds(0..7),
        ),
        straight_body("equal blocks of an either", choices(1), skips(2)),
        straight_body("a loop of three holds", vec![Tree::Loop(holds(0..3))], holds(0..3)),
        straight_body("a loop around an either around a loop", around, holds(0..4)),
        straight_body("an either around loops around an either", within, holds(0..5)),
        straight_body("eithers as last statements", last, last_straight),
        straight_body("holds around and within", inside, inside_straight),
        straight_body("eithers, loops and skips alone", of_skips, skips(4)),
    ]
}

/// Eithers and loops as deep as allowed.
fn deep_branches() -> Vec<Entry> {
    // The innermost blocks have no room for a hold.
    let eight = |first_blocks: bool| {
        (1..8).rev().fold(vec![Tree::Either(skips(1), skips(2))], |inner, lock| match first_blocks {
            true => vec![Tree::Either(inner, chain(&[lock]))],
            false => vec![Tree::Either(chain(&[lock]), inner)],
        })
    };
    let sixteen = |around: fn(usize, Vec<Tree>) -> Tree| {
        (0..16).rev().fold(skips(1), |inner, at| vec![around(at, inner)])
    };
    let holds_and_loops = sixteen(|at, inner| if at % 2 == 0 { hold(at, inner) } else { Tree::Loop(inner) });
    let mut next = 0..;
    let mut locks = || hold(next.next().expect("endless") % 32, vec![]);
    let seven = eithers(7, &mut locks);
    let mut next = 0..;
    let mut calls = || Tree::Call(1 + next.next().expect("endless") % 63);
    let by_calls = first([vec![eithers(8, &mut calls)], vec![skips(1); 63]].concat());
    let straight_calls = (0..256).map(|at| Tree::Call(1 + at % 63)).collect();
    vec![
        straight_body(
            "8 eithers, first blocks",
            eight(true),
            [skips(3), holds(1..8).into_iter().rev().collect()].concat(),
        ),
        straight_body("8 eithers, second blocks", eight(false), [holds(1..8), skips(3)].concat()),
        straight_body("16 loops around a skip", sixteen(|_, inner| Tree::Loop(inner)), skips(1)),
        straight_body("8 holds and 8 loops in turn", holds_and_loops, chain(&[0, 2, 4, 6, 8, 10, 12, 14])),
        straight_body("128 holds in 7 eithers", seven, (0..4).flat_map(|_| holds(0..32)).collect()),
        straight_of(
            "256 calls in 8 eithers",
            by_calls,
            Gives::Free,
            [vec![straight_calls], vec![skips(1); 63]].concat(),
        ),
    ]
}

/// Free or deadlock by what stands in eithers and loops.
fn judged_branches() -> Vec<Entry> {
    use Gives::{Deadlock, Free};
    let both = || vec![Tree::Either(chain(&[0, 1]), chain(&[1, 0]))];
    let both_straight = || vec![nest(&[0, 1], vec![]), nest(&[1, 0], vec![])];
    let run_by_two = |body: Vec<Tree>| run_by(&[0, 0], first(vec![body]));
    let second = |locks: &[usize]| vec![Tree::Either(skips(1), chain(locks))];
    let second_straight = |locks: &[usize]| [skips(1), chain(locks)].concat();
    let ring = [[1, 0], [2, 1], [0, 2]];
    vec![
        straight_of("both orders in an either, one thread", first(vec![both()]), Free, vec![both_straight()]),
        straight_of(
            "both orders in an either, two threads",
            run_by_two(both()),
            Deadlock(3),
            vec![both_straight()],
        ),
        straight_of(
            "both orders in an either in a loop",
            run_by_two(vec![Tree::Loop(both())]),
            Deadlock(3),
            vec![both_straight()],
        ),
        straight_of(
            "both orders in an either inside a guard",
            run_by_two(vec![hold(2, both())]),
            Free,
            vec![vec![hold(2, both_straight())]],
        ),
        straight_of(
            "crossed in second blocks",
            Draft::each(vec![second(&[0, 1]), second(&[1, 0])]),
            Deadlock(3),
            vec![second_straight(&[0, 1]), second_straight(&[1, 0])],
        ),
        straight_of(
            "a ring in second blocks",
            Draft::each(ring.map(|locks| second(&locks)).to_vec()),
            Deadlock(7),
            ring.map(|locks| second_straight(&locks)).to_vec(),
        ),
        // A run of the copy has to pass the loop.
        straight_of(
            "crossed behind a loop",
            Draft::each(vec![[vec![Tree::Loop(chain(&[5]))], chain(&[0, 1])].concat(), chain(&[1, 0])]),
            Deadlock(3),
            vec![[chain(&[5]), chain(&[0, 1])].concat(), chain(&[1, 0])],
        ),
        straight_of(
            "held one after the other in a loop",
            run_by_two(vec![Tree::Loop(holds(0..2))]),
            Free,
            vec![holds(0..2)],
        ),
    ]
}

/// Calls inside eithers and loops alone.
fn called_in_branches() -> Vec<Entry> {
    use Gives::{Deadlock, Free, Refused};
    let call = |callee: usize| vec![Tree::Call(callee)];
    let used = vec![Tree::Either(vec![Tree::Loop(call(1))], call(2))];
    let a = vec![
        vec![hold(0, vec![Tree::Either(skips(1), call(2))])],
        vec![hold(1, vec![Tree::Loop(call(3))])],
        chain(&[1]),
        chain(&[0]),
    ];
    let a_straight =
        vec![vec![hold(0, [skips(1), call(2)].concat())], vec![hold(1, call(3))], chain(&[1]), chain(&[0])];
    let circle = vec![vec![Tree::Either(skips(1), call(1))], vec![Tree::Loop(call(0))]];
    vec![
        straight_of(
            "called in an either and a loop alone",
            first(vec![used, skips(1), skips(1)]),
            Free,
            vec![[call(1), call(2)].concat(), skips(1), skips(1)],
        ),
        straight_of("A by calls in an either and a loop", run_by(&[0, 1], first(a)), Deadlock(3), a_straight),
        entry("a circle through an either and a loop", first(circle), Refused(12, 2)),
    ]
}

/// Plans of 1,024 statements, or of size 1,024.
fn as_many_branches_as_allowed() -> Vec<Entry> {
    use Gives::Free;
    let tree = eithers(8, &mut || Tree::Skip);
    let tower = (1..16).fold(Tree::Loop(skips(1)), |inner, _| Tree::Loop(vec![inner]));
    let towers = [vec![tower; 30], skips(2)].concat();
    let full = || [choices(341), skips(1)].concat();
    vec![
        Entry {
            sizes: vec![1_024; 6],
            ..straight_of(
                "1,024 statements of 341 eithers",
                run_by(&[0; 6], first(vec![full()])),
                Free,
                vec![skips(683)],
            )
        },
        straight_body(
            "1,024 statements of 510 eithers in each other",
            [tree.clone(), tree, skips(2)].concat(),
            skips(514),
        ),
        straight_of(
            "1,024 statements of 512 loops",
            Draft::each(vec![rounds(256); 2]),
            Free,
            vec![skips(256); 2],
        ),
        straight_of(
            "1,024 statements of 960 loops in each other",
            Draft::each(vec![towers; 2]),
            Free,
            vec![skips(32); 2],
        ),
        straight_of(
            "1,024 statements without eithers and loops",
            Draft::each(vec![vec![hold(0, vec![]); 256]; 2]),
            Free,
            vec![vec![hold(0, vec![]); 256]; 2],
        ),
        Entry {
            sizes: vec![1_024],
            ..straight_body("size 1,024 of 340 loops", [rounds(340), skips(4)].concat(), skips(344))
        },
    ]
}

/// Plans that are refused, though their straightened copies would not be.
fn refused_unlike_the_copy() -> Vec<Entry> {
    use Gives::Refused;
    let in_a_loop = [vec![Tree::Loop(choices(340))], skips(3)].concat();
    let by_calls = calling(&[&[1, 1]], &[rounds(171)]);
    let brackets = (0..16).fold(chain(&[0]), |inner, _| vec![Tree::Loop(inner)]);
    vec![
        entry("size 1,025 of 341 loops", first(vec![[rounds(341), skips(2)].concat()]), Refused(9, 2)),
        entry("size 1,025 of eithers in a loop", first(vec![in_a_loop]), Refused(9, 2)),
        entry("size 1,028 of loops through calls", by_calls, Refused(9, 2)),
        entry(
            "1,025 statements of 341 eithers",
            first(vec![[choices(341), skips(2)].concat()]),
            Refused(5, 2 + 341 * 8 + 2),
        ),
        entry("a hold inside 16 loops", first(vec![brackets]), Refused(5, 2 + 17)),
    ]
}

/// Eithers and loops with what is passed over.
fn branches_in_the_file() -> Vec<Entry> {
    let plan = b"; a choice\n(plan\n  (proc\n    (either\n      ; this\n      (one\n        (hold 0\n          (loop\n\
        ;again\n            (skip)\n          )\n        )\n\n      )\n      (two\n   ; or that\n        (hold 1\n (skip)\n\
        )\n      )\n    )\n\n  )\n  (thread 0)\n)\n;\n";
    let long = first(vec![[choices(341), skips(1)].concat()]).text();
    let mut all = vec![Entry {
        text: plan.to_vec(),
        ..straight_body("an either and a loop, remarked", skips(1), holds(0..2))
    }];
    for padding in Padding::ALL {
        let line = 1 + 341 * 4;
        all.push(Entry {
            text: padding.fill(&long, MAX_BYTES, line),
            ..straight_body("341 eithers in 32,768 bytes", skips(1), skips(683))
        });
        all.push(text("341 eithers in 32,769 bytes", &padding.fill(&long, MAX_BYTES + 1, line), 2, 0));
    }
    all
}
