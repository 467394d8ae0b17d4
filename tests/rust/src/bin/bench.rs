//! Processor times of the library's verdict and of the reference's condition
//! over pairs, beside those of SPIN where the table of `tests/spin/run` is given.
//! With `--lengths` those of the library's calls on texts of 32,768 bytes that are
//! mostly passed over, each beside a bare text of that length. With `--crossings` those of
//! the crossings of two threads with many pairs or couples. With `--without-share` the families
//! with shares are left out, which a library from before them refuses; with `--ours` the times
//! of the reference are.
//!
//!   cargo run --release --features library --bin bench -- [--rounds N]
//!                       [--family NAME] [--spin TABLE] [--without-share] [--ours]
//!   cargo run --release --features library --bin bench -- --lengths [--rounds N]
//!   cargo run --release --features library --bin bench -- --crossings [--rounds N]

use std::collections::HashMap;
use std::hint::black_box;
use std::time::Duration;

use lockplan_tests::answer::{Answer, CROSSED, REFUSED};
use lockplan_tests::compare::kind;
use lockplan_tests::crossings::{crossed, COUPLE_BYTES};
use lockplan_tests::families::Draft;
use lockplan_tests::opposed::{both_around, MOST_COUPLES};
use lockplan_tests::reference::{read, Plan, MAX_SUM, MAX_WORDS};
use lockplan_tests::tidy::COPY_BYTES;
use lockplan_tests::times::median;
use lockplan_tests::verdict::{conflict_within, pairs_of_threads};
use lockplan_tests::{families, full, lengths, library, shares, standin};

/// Pairs that the reference tries before it gives up.
const TRIES: u64 = 50_000_000;

fn microseconds(time: Duration) -> String {
    format!("{:.1}", time.as_secs_f64() * 1e6)
}

/// What the table of SPIN says of a family: its time, or what it ran out of.
fn spin_time(table: &str, name: &str) -> String {
    let line = table.lines().find(|line| line.split_whitespace().next() == Some(name));
    let words: Vec<&str> = line.unwrap_or("").split_whitespace().collect();
    match words[..] {
        [_, known, found, seconds, ..] if known == found => seconds.into(),
        [_, _, found, ..] => format!("({found})"),
        _ => "-".into(),
    }
}

/// The calls that are timed on long texts.
const CALLS: [&str; 4] = ["verdict", "pairs", "tidy", "straight"];

/// Their times on a text.
fn times(text: &[u8], rounds: usize) -> [Duration; 4] {
    let mut out = vec![0; COPY_BYTES.max(2 * MAX_SUM).max(8 * MAX_WORDS)];
    let verdict = median(rounds, || {
        black_box(library::verdict(black_box(text), &mut out));
    });
    let pairs = median(rounds, || {
        black_box(library::pairs(black_box(text), 0, &mut out));
    });
    let tidy = median(rounds, || {
        black_box(library::tidy(black_box(text), &mut out));
    });
    let straight = median(rounds, || {
        black_box(library::straight(black_box(text), &mut out));
    });
    [verdict, pairs, tidy, straight]
}

/// The texts of 32,768 bytes: each call's time, how many times that of the bare
/// text beside it this is, and the time of the verdict on the text without what is
/// passed over.
fn print_lengths(rounds: usize) {
    println!(
        "{:28} {:>6} {:>6} {:>14} {:>11} {:>5} {:>11} {:>5} {:>11} {:>5} {:>11} {:>5} {:>11}  beside",
        "text",
        "lines",
        "forms",
        "answer",
        "verdict us",
        "times",
        "pairs us",
        "times",
        "tidy us",
        "times",
        "straight us",
        "times",
        "without us"
    );
    let mut bare: HashMap<String, [Duration; 4]> = HashMap::new();
    let mut highest = (0.0, String::new());
    for long in lengths::all() {
        let without = standin::copy_by(&long.text, standin::tidy_line);
        let lines = |text: &[u8]| text.iter().filter(|byte| **byte == 10).count();
        let answer = Answer::new(library::verdict(&long.text, &mut vec![0; 2 * MAX_SUM]));
        let said = match answer.kind {
            REFUSED => format!("{} {} {}", kind(answer), answer.a, answer.b),
            _ => kind(answer).into(),
        };
        let own = times(&long.text, rounds);
        if long.beside == long.name {
            bare.insert(long.name.clone(), own);
        }
        print!("{:28} {:6} {:6} {said:>14}", long.name, lines(&long.text), lines(&without));
        for ((time, beside), call) in own.into_iter().zip(bare[long.beside]).zip(CALLS) {
            let ratio = time.as_secs_f64() / beside.as_secs_f64();
            if ratio > highest.0 {
                highest = (ratio, format!("{call} on {} beside {}", long.name, long.beside));
            }
            print!(" {:>11} {ratio:5.2}", microseconds(time));
        }
        let [alone, ..] = times(&without, rounds);
        println!(" {:>11}  {}", microseconds(alone), long.beside);
    }
    println!("at most {:.2} times the time of a bare text: {}", highest.0, highest.1);
}

/// The plans of two threads whose crossings are timed.
fn opposed() -> Vec<(&'static str, Draft)> {
    let two = |block| Draft { procs: vec![block], threads: vec![0; 2] };
    vec![
        ("philosophers-2", families::philosophers(2)),
        ("detours", families::detours(14)),
        ("pairs-496-upwards", two(full::around(31))),
        ("pairs-496-both-ways", both_around()),
        ("couples-90,000", MOST_COUPLES.draft()),
    ]
}

/// The times of the crossings of threads 0 and 1, lent nothing and room for all couples,
/// beside those of the verdict and of the reference; the number of wrong counts.
fn print_crossings(rounds: usize) -> usize {
    println!(
        "{:24} {:>7} {:>7} {:>9} {:>11} {:>11} {:>11} {:>13}",
        "plan", "first", "second", "couples", "count us", "list us", "verdict us", "reference us"
    );
    let mut wrong = 0;
    for (name, draft) in opposed() {
        let text = draft.text();
        let plan = read(&text).expect("an accepted plan");
        let couples = |plan: &Plan| crossed(plan, 0, 1).expect("two threads");
        let expected = couples(&plan).len();
        let found = Answer::new(library::crossings(&text, 0, 1, &mut []));
        let right = found == Answer { kind: CROSSED, a: 0, b: expected as u64 };
        wrong += usize::from(!right);
        let (mut room, mut entries) = (vec![0; COUPLE_BYTES * expected], vec![0; 2 * MAX_SUM]);
        let time = |out: &mut [u8]| {
            median(rounds, || {
                black_box(library::crossings(black_box(&text), 0, 1, out));
            })
        };
        let (count, list) = (time(&mut []), time(&mut room));
        let verdict = median(rounds, || {
            black_box(library::verdict(black_box(&text), &mut entries));
        });
        let theirs = median(rounds, || {
            black_box(couples(&read(black_box(&text)).expect("an accepted plan")));
        });
        let [first, second] = [0, 1].map(|thread| plan.pairs[plan.threads[thread]].len());
        let [count, list, verdict, theirs] = [count, list, verdict, theirs].map(microseconds);
        let remark = if right { "" } else { "  WRONG" };
        println!(
            "{name:24} {first:7} {second:7} {:9} {count:>11} {list:>11} {verdict:>11} {theirs:>13}{remark}",
            found.b
        );
    }
    wrong
}

/// The time of the reference's condition over pairs, and how many it tries.
fn reference(rounds: usize, text: &[u8]) -> (String, String) {
    let mut tried = Some(0);
    let time = median(rounds, || {
        let plan = read(black_box(text)).expect("an accepted plan");
        tried = conflict_within(&pairs_of_threads(&plan), TRIES).map(|(_, left)| TRIES - left);
    });
    (microseconds(time), tried.map_or("given up".into(), |tried| tried.to_string()))
}

/// The families that are timed, and how.
struct Timed {
    rounds: usize,
    /// How their names begin.
    family: String,
    /// The table of SPIN.
    spin: String,
    /// Whether those with shares are timed, and the reference.
    shares: bool,
    reference: bool,
}

/// The times of families; the number of wrong verdicts.
fn print_families(timed: &Timed) -> usize {
    let Timed { rounds, family, spin, .. } = timed;
    let rounds = *rounds;
    println!(
        "{:44} {:9} {:>7} {:>7} {:>14} {:>14} {:>10} {:>12}",
        "family", "verdict", "entries", "pairs", "library us", "reference us", "tried", "spin s"
    );
    let mut wrong = 0;
    let with_shares = if timed.shares { shares::all() } else { vec![] };
    for (name, draft, deadlock) in families::all().into_iter().chain(with_shares) {
        if !name.starts_with(family) {
            continue;
        }
        let text = draft.text();
        let mut out = vec![0; 2 * MAX_SUM];
        let answer = Answer::new(library::verdict(&text, &mut out));
        let ours = median(rounds, || {
            black_box(library::verdict(black_box(&text), &mut out));
        });
        let theirs = timed.reference.then(|| reference(rounds, &text));
        let plan = read(&text).expect("an accepted plan");
        let pairs: usize = plan.threads.iter().map(|proc| plan.pairs[*proc].len()).sum();
        let expected = if deadlock { "deadlock" } else { "free" };
        wrong += usize::from(kind(answer) != expected);
        println!(
            "{name:44} {:9} {:7} {pairs:7} {:>14} {:>14} {:>10} {:>12}{}",
            kind(answer),
            if deadlock { answer.b } else { 0 },
            microseconds(ours),
            theirs.as_ref().map_or("-", |(time, _)| time),
            theirs.as_ref().map_or("-", |(_, tried)| tried),
            spin_time(spin, &name),
            if kind(answer) == expected { "" } else { "  WRONG" },
        );
    }
    wrong
}

fn main() {
    let (family, spin) = (String::new(), String::new());
    let mut timed = Timed { rounds: 15, family, spin, shares: true, reference: true };
    let (mut long_texts, mut crossings) = (false, false);
    let mut arguments = std::env::args().skip(1);
    while let Some(name) = arguments.next() {
        let mut value = || arguments.next().unwrap_or_else(|| panic!("{name} needs a value"));
        match name.as_str() {
            "--lengths" => long_texts = true,
            "--crossings" => crossings = true,
            "--without-share" => timed.shares = false,
            "--ours" => timed.reference = false,
            "--rounds" => timed.rounds = value().parse().expect("a number"),
            "--family" => timed.family = value(),
            "--spin" => timed.spin = std::fs::read_to_string(value()).expect("a readable table"),
            _ => panic!("unknown: {name}"),
        }
    }
    if long_texts {
        return print_lengths(timed.rounds);
    }
    let wrong = if crossings { print_crossings(timed.rounds) } else { print_families(&timed) };
    std::process::exit(i32::from(wrong > 0));
}
