//! Plans on which the library's verdict takes long, by random changes of chains of locks.
//!
//!   cargo run --release --features library --bin climb -- [--seed S] [--seconds N]
//!                       [--start NAME] [--want free|deadlock|any] [--enough N] [--write FILE]
//!                       [--shares yes|no]
//!
//! The start is a family, a plan in a file, or by default a random one. Prints each time
//! that is a tenth longer than the one before, and writes the best plan. The same seed
//! gives the same proposals as long as the same ones are kept, which depends on the times.
//! A call of more than `--enough` seconds (20) ends the climb: its plan is written as the best.
//! With `--shares yes` changes make shares of holds and back, and a start without shares gets some.

use std::hint::black_box;
use std::sync::{Arc, Mutex};
use std::time::{Duration, Instant};

use lockplan_tests::answer::{Answer, DEADLOCK, REFUSED};
use lockplan_tests::climb::{Chains, Climb};
use lockplan_tests::families::{self, Draft};
use lockplan_tests::random::Random;
use lockplan_tests::reference::{read, MAX_SUM};
use lockplan_tests::tidy::tree;
use lockplan_tests::{library, shares, times};

/// Calls of which the least time counts.
const CALLS: usize = 4;

/// Random plans that are tried for a start.
const STARTS: u64 = 10_000;

/// What is under way: since when, and the text.
type Running = Arc<Mutex<Option<(Instant, Vec<u8>)>>>;

/// The nanoseconds of the library's verdict, the least of some calls; of one where it is
/// less than is asked for, or more than a second.
fn measure(text: &[u8], least: u64, running: &Running) -> Option<(bool, u64)> {
    *running.lock().expect("no other holder") = Some((Instant::now(), text.to_vec()));
    let mut out = vec![0; 2 * MAX_SUM];
    let mut answer = Answer::refused(lockplan_tests::reference::Refusal::SHORT);
    let mut nanoseconds = u64::MAX;
    for _ in 0..CALLS {
        let time = times::time(|| answer = Answer::new(library::verdict(black_box(text), &mut out)));
        nanoseconds = nanoseconds.min(time.as_nanos() as u64);
        if nanoseconds < least || time > Duration::from_secs(1) {
            break;
        }
    }
    *running.lock().expect("no other holder") = None;
    (answer.kind != REFUSED).then_some((answer.kind == DEADLOCK, nanoseconds))
}

/// Ends the program when a call takes too long, with its text as the best plan.
fn watch(running: Running, enough: Duration, write: Option<String>) {
    std::thread::spawn(move || loop {
        std::thread::sleep(Duration::from_millis(200));
        let now = running.lock().expect("no other holder").clone();
        if let Some((_, text)) = now.filter(|(start, _)| start.elapsed() > enough) {
            println!("climb: a call of more than {enough:?}");
            if let Some(path) = &write {
                std::fs::write(path, text).expect("a writable file");
            }
            std::process::exit(0);
        }
    });
}

/// The plan of a family or of a file.
fn plan(start: &str) -> Draft {
    let mut families = families::all().into_iter().chain(shares::all());
    let family = families.find(|(name, _, _)| name == start);
    family.map(|(_, draft, _)| draft).unwrap_or_else(|| {
        let text =
            std::fs::read(start).unwrap_or_else(|error| panic!("no family, no file: {start}: {error}"));
        tree(&read(&text).expect("an accepted plan"))
    })
}

/// The same with callees before their callers.
fn callees_first(draft: &Draft) -> Draft {
    let order = read(&draft.text()).expect("an accepted plan").callees_first();
    let mut numbers = vec![0; order.len()];
    order.iter().enumerate().for_each(|(number, proc)| numbers[*proc] = number);
    draft.permuted(&numbers)
}

fn main() {
    let (mut seed, mut seconds, mut enough) = (1_u64, 60_u64, 20_u64);
    let (mut start, mut want, mut write, mut with_shares) = (None, None, None, false);
    let mut arguments = std::env::args().skip(1);
    while let Some(name) = arguments.next() {
        let value = arguments.next().unwrap_or_else(|| panic!("{name} needs a value"));
        match name.as_str() {
            "--seed" => seed = value.parse().expect("a number"),
            "--seconds" => seconds = value.parse().expect("a number"),
            "--enough" => enough = value.parse().expect("a number"),
            "--start" => start = Some(value).filter(|value| value != "random"),
            "--want" => want = (value != "any").then_some(value == "deadlock"),
            "--write" => write = Some(value),
            "--shares" => with_shares = value == "yes",
            _ => panic!("unknown: {name}"),
        }
    }
    let running = Running::default();
    watch(running.clone(), Duration::from_secs(enough), write.clone());
    let climb = |chains: Chains| {
        let running = running.clone();
        let chains = if with_shares { chains.with_shares(&mut Random::new(seed)) } else { chains };
        Climb::new(chains, want, seed, move |text: &[u8], least: u64| measure(text, least, &running))
    };
    let mut climb = match &start {
        Some(start) => climb(Chains::of(&callees_first(&plan(start)))),
        None => {
            let mut starts = Random::new(seed);
            (0..STARTS).find_map(|_| climb(Chains::random(&mut starts)))
        }
    }
    .expect("a start with the verdict that is asked for");
    let (begin, mut printed) = (Instant::now(), 0);
    let say = |what: &str, climb: &Climb<_>, begin: Instant| {
        let (best, seconds) = (climb.best.1 as f64 / 1e6, begin.elapsed().as_secs());
        println!(
            "{what}: {best:.3} ms after {seconds} s, {} proposals, {} kept",
            climb.proposals, climb.kept
        );
    };
    say("start", &climb, begin);
    while begin.elapsed() < Duration::from_secs(seconds) {
        if climb.step() {
            if climb.best.1 > printed / 10 * 11 {
                printed = climb.best.1;
                say("best", &climb, begin);
            }
            if let Some(path) = &write {
                std::fs::write(path, climb.best.0.text()).expect("a writable file");
            }
        }
    }
    say("end", &climb, begin);
    if let Some(path) = &write {
        std::fs::write(path, climb.best.0.text()).expect("a writable file");
    }
}
