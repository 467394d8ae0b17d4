//! Shares: what is stated of small plans, the verdict by all reachable states, the answers of
//! plans without share.

use lockplan_tests::climb::{Chains, Climb};
use lockplan_tests::families::{hold, share, Draft, Tree};
use lockplan_tests::gateway::{replay, State};
use lockplan_tests::generate::{generate, without_share};
use lockplan_tests::locks::Locks;
use lockplan_tests::pairs::{by_execution, Pair};
use lockplan_tests::promela::model;
use lockplan_tests::random::Random;
use lockplan_tests::recode::{record, records};
use lockplan_tests::reference::{bare, form, read, Form, Plan, Refusal};
use lockplan_tests::report::report;
use lockplan_tests::shares::{has_share, small_shares};
use lockplan_tests::shelf::{self, Gives};
use lockplan_tests::verdict::{conflict, conflicting, explore, pairs_of_threads, schedule, Verdict};

use crate::{right, texts};

/// A plan with a thread for each body.
fn plan(procs: Vec<Vec<Tree>>) -> Plan {
    read(&Draft::each(procs).text()).expect("an accepted plan")
}

/// Free or deadlock, by all states and by the condition over pairs, which agree.
fn deadlocks(plan: &Plan) -> bool {
    let found = conflict(&pairs_of_threads(plan)).is_some();
    let explored = explore(plan, 1_000_000).expect("few states");
    assert_eq!(found, explored != Verdict::Free);
    if let Verdict::Deadlock { schedule, stuck } = explored {
        right(plan, &schedule, stuck);
    }
    found
}

fn upgrader(lock: usize) -> Vec<Tree> {
    vec![share(lock, vec![hold(lock, vec![])])]
}

#[test]
fn two_upgraders_are_stuck_and_one_is_not() {
    assert!(deadlocks(&plan(vec![upgrader(0), upgrader(0)])));
    assert!(!deadlocks(&plan(vec![upgrader(0)])));
    assert!(!deadlocks(&plan(vec![upgrader(0), upgrader(1)])));
    assert!(!deadlocks(&plan(vec![upgrader(0), vec![share(0, vec![])]])));
    // Both share, then neither may hold.
    let two = plan(vec![upgrader(0), upgrader(0)]);
    assert_eq!(replay(&two, &[0, 1]).expect("a run").largest_stuck(&two), 0b11);
    assert_eq!(replay(&two, &[0, 1, 0]), Err(2));
    assert_eq!(replay(&two, &[0, 0, 1]), Err(2));
}

#[test]
fn readers_stand_together() {
    let reader = |locks: [usize; 2]| vec![share(locks[0], vec![share(locks[1], vec![])])];
    assert!(!deadlocks(&plan(vec![reader([0, 1]), reader([1, 0])])));
    let plan = plan(vec![reader([0, 1]), reader([1, 0]), reader([0, 1])]);
    let state = replay(&plan, &[0, 1, 2, 0, 1, 2]).expect("a run");
    assert!(state.threads.iter().all(|thread| thread.had() == Locks { held: 0, shared: 3 }));
}

#[test]
fn a_share_and_a_hold_exclude_each_other() {
    let share_hold = vec![share(0, vec![hold(1, vec![])])];
    assert!(deadlocks(&plan(vec![share_hold.clone(), vec![hold(1, vec![hold(0, vec![])])]])));
    assert!(!deadlocks(&plan(vec![share_hold, vec![hold(1, vec![share(0, vec![])])]])));
    let hold_share = vec![hold(0, vec![share(1, vec![])])];
    assert!(deadlocks(&plan(vec![hold_share, vec![hold(1, vec![share(0, vec![])])]])));
}

#[test]
fn an_upgrader_in_a_cycle_of_three() {
    // The first shares 0 and wants to hold it, the second shares 0 and wants 1, which the
    // third holds while it wants to hold 0.
    let second = vec![share(0, vec![hold(1, vec![])])];
    let third = vec![hold(1, vec![hold(0, vec![])])];
    assert!(deadlocks(&plan(vec![upgrader(0), second.clone(), third.clone()])));
    // A cycle that needs all three: 0 upgrades 0, which 1 shares; 1 wants 1 of 2; 2 wants 2 of 0.
    let first = vec![hold(2, vec![share(0, vec![hold(0, vec![])])])];
    let third = vec![hold(1, vec![hold(2, vec![])])];
    let procs = [first, second, third];
    assert!(deadlocks(&plan(procs.to_vec())));
    for left_out in 0..3 {
        let two = (0..3).filter(|proc| *proc != left_out).map(|proc| procs[proc].clone()).collect();
        assert!(!deadlocks(&plan(two)));
    }
}

#[test]
fn a_shared_guard_is_none() {
    let both = |by_hold: bool| {
        let around = |body: Vec<Tree>| vec![if by_hold { hold(2, body) } else { share(2, body) }];
        let one = around(vec![hold(0, vec![hold(1, vec![])])]);
        let two = around(vec![hold(1, vec![hold(0, vec![])])]);
        deadlocks(&plan(vec![one, two]))
    };
    assert_eq!([both(true), both(false)], [false, true]);
}

#[test]
fn pairs_of_locks_had_both_ways() {
    let body = vec![share(2, vec![hold(2, vec![hold(0, vec![share(1, vec![share(3, vec![])])])])])];
    let plan = plan(vec![body, vec![hold(0, vec![share(0, vec![hold(0, vec![]), share(0, vec![])])])]]);
    let lines: Vec<String> = plan.pairs[0].iter().map(Pair::to_string).collect();
    assert_eq!(
        lines,
        ["(pair 2s)", "(pair 2 2s)", "(pair 0 2 2s)", "(pair 1s 0 2 2s)", "(pair 3s 0 1s 2 2s)"]
    );
    let words: Vec<[u64; 3]> = plan.pairs[0].iter().map(|pair| pair.words()).collect();
    assert_eq!(words, [[0, 0, 4], [0, 4, 5], [4, 4, 1], [5, 4, 2], [5, 6, 6]]);
    // What is had already is no pair.
    let again: Vec<String> = plan.pairs[1].iter().map(Pair::to_string).collect();
    assert_eq!(again, ["(pair 0)"]);
}

#[test]
fn order_of_records() {
    let body = vec![share(31, vec![]), share(0, vec![hold(0, vec![])]), hold(5, vec![]), share(5, vec![])];
    let plan = plan(vec![body]);
    let lines: Vec<String> = plan.pairs[0].iter().map(Pair::to_string).collect();
    assert_eq!(lines, ["(pair 0s)", "(pair 5s)", "(pair 5)", "(pair 31s)", "(pair 0 0s)"]);
}

#[test]
fn report_of_upgraders() {
    let text = Draft { procs: vec![upgrader(0)], threads: vec![0, 0] }.text();
    let expected = "(report\n(proc 0\n(pair 0s)\n(pair 0 0s)\n)\n\
        (deadlock\n(stuck 0 1)\n(step 0 0)\n(step 1 0)\n)\n)\n";
    assert_eq!(String::from_utf8(report(&text)).unwrap(), expected);
}

/// The shelf's texts with shares give what is stated; each of the issues that they are about
/// is there.
#[test]
fn shelf_of_shares() {
    let entries = shelf::shares();
    let refused = |rule: u8| {
        entries.iter().filter(move |entry| matches!(entry.gives, Gives::Refused(by, _) if by == rule))
    };
    for rule in [3, 4, 5, 6, 9] {
        assert!(refused(rule).count() > 0, "rule {rule}");
    }
    assert!(entries.iter().filter(|entry| has_share(&entry.text)).count() > 30);
}

/// The verdict by all reachable states, by the condition over pairs and by the schedules, and
/// pairs by execution, on small plans with shares.
#[test]
fn both_verdicts_agree_with_shares() {
    let (mut free, mut deadlocks, mut upgraded, mut both_ways) = (0, 0, 0, 0);
    for index in 0..texts(40_000) {
        let random = &mut Random::of_text(401, index);
        let text = small_shares(random).text();
        let Ok(plan) = read(&text) else {
            continue;
        };
        for proc in 0..plan.procs.len().min(4) {
            assert_eq!(by_execution(&plan, proc), plan.pairs[proc]);
        }
        let Some(explored) = explore(&plan, 20_000) else {
            continue;
        };
        let pairs = pairs_of_threads(&plan);
        let found = conflict(&pairs);
        assert_eq!(found.is_some(), explored != Verdict::Free, "{}", String::from_utf8_lossy(&text));
        let Some(found) = found else {
            free += 1;
            continue;
        };
        assert!(conflicting(&found));
        deadlocks += 1;
        upgraded += usize::from(found.iter().any(|(_, pair)| pair.shared >> pair.wanted & 1 == 1));
        both_ways += usize::from(found.iter().any(|(_, pair)| pair.held & pair.shared != 0));
        let entries = schedule(&plan, &found);
        right(&plan, &entries, replay(&plan, &entries).unwrap().largest_stuck(&plan));
    }
    println!(
        "{free} free, {deadlocks} deadlocks, {upgraded} with an upgrader, {both_ways} with a lock both ways"
    );
    assert!(free > 5_000 && deadlocks > 5_000 && upgraded > 1_000 && both_ways > 200);
}

/// The permitted steps a second time, by the counts of all threads.
#[test]
fn steps_are_permitted_by_counts() {
    let (mut permitted, mut forbidden) = (0, 0);
    for index in 0..texts(3_000) {
        let random = &mut Random::of_text(402, index);
        let Ok(plan) = read(&small_shares(random).text()) else {
            continue;
        };
        let mut state = State::new(&plan);
        for _ in 0..60 {
            let (thread, choice) = (random.below(plan.threads.len()), random.below(3) as u16);
            let Some(next) = state.threads[thread].step(&plan, choice) else {
                continue;
            };
            let [holds, shares] = next.counts();
            let stands = (0..32).all(|lock| {
                let others = state.threads.iter().enumerate().filter(|(other, _)| *other != thread);
                others.into_iter().all(|(_, other)| {
                    let [theirs, shared] = other.counts();
                    let held = holds[lock] > 0 && theirs[lock] + shared[lock] > 0;
                    !held && !(theirs[lock] > 0 && holds[lock] + shares[lock] > 0)
                })
            });
            assert_eq!(state.step(&plan, thread, choice), stands);
            *(if stands { &mut permitted } else { &mut forbidden }) += 1;
        }
    }
    println!("{permitted} steps permitted, {forbidden} not");
    assert!(permitted > 10_000 && forbidden > 1_000);
}

/// A text without share has no share line and no pair that shares, and its pairs are the
/// records of the words that they were.
#[test]
fn texts_without_share() {
    let mut accepted = 0;
    for index in 0..texts(10_000) {
        let text = without_share(&mut Random::of_text(403, index)).text;
        assert!(!has_share(&text));
        let Ok(plan) = read(&text) else {
            continue;
        };
        accepted += 1;
        for pair in plan.pairs.iter().flatten() {
            let word = u64::from(pair.held) * 32 + u64::from(pair.wanted);
            assert_eq!(pair.words(), record(word));
        }
    }
    println!("{accepted} accepted texts without share");
    assert!(accepted > 3_000);
    assert_eq!(records(&[2, 128, 161]), [[0, 0, 5], [4, 0, 1], [5, 0, 3]]);
}

/// In a model a share waits for an owner, a hold for all others that share.
#[test]
fn models_of_shares() {
    let shared = model(&plan(vec![upgrader(0), vec![hold(0, vec![share(0, vec![])])]]));
    for line in
        ["share(0);", "take(0, 1, 1);", "take(0, 2, 0);", "share_own(0);", "unshare(0);", "release(0);"]
    {
        assert!(shared.lines().any(|other| other == line), "{line}");
    }
    let plain = model(&plan(vec![vec![hold(0, vec![])]]));
    assert!(plain.contains("take(0, 1);") && !plain.contains("readers"));
}

/// A climb with shares keeps to accepted plans, and comes to such as have shares and upgraders.
#[test]
fn climbs_with_shares() {
    let (mut steps, mut with_shares, mut upgraded) = (0, 0, 0);
    for seed in 0..texts(40) {
        let random = &mut Random::new(seed);
        let start = Chains::random(random).with_shares(random);
        let measure = |text: &[u8], _: u64| {
            let plan = read(text).expect("an accepted plan");
            let upgrades = |pair: &&Pair| pair.shared >> pair.wanted & 1 == 1;
            let count = plan.pairs.iter().flatten().filter(upgrades).count();
            Some((count > 0, plan.size_of_threads()))
        };
        let mut climb = Climb::new(start, None, seed, measure).expect("a start that fits");
        for _ in 0..60 {
            climb.step();
        }
        steps += climb.kept;
        let text = climb.best.0.text();
        with_shares += usize::from(has_share(&text));
        let plan = read(&text).expect("an accepted plan");
        upgraded += usize::from(plan.pairs.iter().flatten().any(|pair| pair.shared >> pair.wanted & 1 == 1));
    }
    println!("{steps} changes kept, {with_shares} plans with shares, {upgraded} with an upgrader");
    assert!(steps > 300 && with_shares >= 35 && upgraded >= 10);
}

/// What there is of shares.
#[derive(Debug, Default)]
pub struct Shared {
    /// Texts with a share, and accepted ones without any.
    texts: usize,
    none: usize,
    /// Accepted with a share: free, with a deadlock; with a pair that wants to hold what it
    /// shares, with one that has a lock both ways, with a share inside a hold or a share of its lock.
    free: usize,
    deadlock: usize,
    upgrades: usize,
    both_ways: usize,
    /// Deadlocks that are none where shares exclude each other, and none where an upgrader is
    /// let through.
    by_shares: usize,
    by_upgraders: usize,
    /// Refused at a share: by rule 3 at a line that is nearly one, by 4 behind an empty one, by 5
    /// and by 6.
    nearly: usize,
    empty: usize,
    brackets: usize,
    high: usize,
}

impl Shared {
    pub fn count(&mut self, text: &[u8]) {
        let shares = has_share(text);
        self.texts += usize::from(shares);
        match read(text) {
            Ok(plan) if shares => self.accepted(&plan),
            Ok(_) => self.none += 1,
            Err(refusal) => self.refused(text, refusal),
        }
    }

    fn accepted(&mut self, plan: &Plan) {
        let pairs = pairs_of_threads(plan);
        let any = |told: fn(&Pair) -> bool| usize::from(pairs.iter().flatten().any(told));
        let upgrades = |pair: &Pair| pair.shared >> pair.wanted & 1 == 1;
        self.upgrades += any(|pair| pair.shared >> pair.wanted & 1 == 1);
        self.both_ways += any(|pair| pair.shared & pair.held != 0);
        if conflict(&pairs).is_none() {
            self.free += 1;
            return;
        }
        self.deadlock += 1;
        let held = |pair: &Pair| Pair { held: pair.held | pair.shared, shared: 0, ..*pair };
        let none = |pairs: Vec<Vec<Pair>>| usize::from(conflict(&pairs).is_none());
        self.by_shares += none(pairs.iter().map(|own| own.iter().map(held).collect()).collect());
        let without = |own: &Vec<Pair>| own.iter().filter(|pair| !upgrades(pair)).copied().collect();
        self.by_upgraders += none(pairs.iter().map(without).collect());
    }

    fn refused(&mut self, text: &[u8], refusal: Refusal) {
        let lines: Vec<&[u8]> = text.split_inclusive(|byte| *byte == 10).collect();
        let share = |line: usize| {
            let line = line.checked_sub(1).and_then(|at| lines.get(at)).copied().unwrap_or(b"");
            let rest = bare(line);
            let rest = rest.strip_suffix(b"\n").unwrap_or(rest);
            (matches!(form(rest), Some(Form::Share(_))), rest.starts_with(b"(sha"))
        };
        let (here, nearly) = share(refusal.line);
        self.nearly += usize::from(refusal.rule == 3 && nearly);
        self.empty += usize::from(refusal.rule == 4 && share(refusal.line.saturating_sub(1)).0);
        self.brackets += usize::from(refusal.rule == 5 && here);
        self.high += usize::from(refusal.rule == 6 && here);
    }

    /// Of 40,000 texts.
    pub fn enough(&self) {
        assert!(self.texts > 8_000 && self.none > 2_000);
        assert!(self.free > 2_000 && self.deadlock > 2_000);
        assert!(self.upgrades > 1_000 && self.both_ways > 500);
        assert!(self.by_shares > 300 && self.by_upgraders > 200);
        assert!([self.nearly, self.empty, self.brackets, self.high].iter().all(|count| *count >= 30));
    }
}

/// A share costs a size of 2, a statement and a bracket as a hold does: with all shares made
/// holds a plan has the same sizes and is refused alike.
#[test]
fn shares_count_as_holds() {
    let (mut accepted, mut refused) = (0, 0);
    for index in 0..texts(10_000) {
        let random = &mut Random::of_text(404, index);
        let text = generate(random).text;
        let with_holds: Vec<u8> = text
            .split_inclusive(|byte| *byte == 10)
            .flat_map(|line| {
                let rest = bare(line);
                let spaces = &line[..line.len() - rest.len()];
                match rest.strip_prefix(b"(share ") {
                    Some(number) => [spaces, b" (hold ", number].concat(),
                    None => line.to_vec(),
                }
            })
            .collect();
        match (read(&text), read(&with_holds)) {
            (Ok(one), Ok(two)) => {
                assert_eq!(one.sizes, two.sizes);
                assert!(one.blocks.len() == two.blocks.len() && one.threads == two.threads);
                accepted += 1;
            }
            (Err(one), Err(two)) => {
                assert_eq!(one, two);
                refused += 1;
            }
            (one, two) => panic!("{:?}, {:?}", one.err(), two.err()),
        }
    }
    println!("{accepted} accepted, {refused} refused");
    assert!(accepted > 3_000 && refused > 1_000);
}
