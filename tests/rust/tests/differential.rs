//! The library against the reference on generated texts.
//!
//!   cargo test --features library --test differential -- [--texts N] [--seed S]
//!                       [--stack BYTES] [--only NUMBER] [--file PLAN] [--without-large]
//!                       [--without-share] [--recode]
//!
//! LOCKPLAN_TEXTS and LOCKPLAN_SEED stand for the first two. A text that fails
//! is made shorter and written to a file. Ends with 1 after a difference, and where no
//! more than a third of a thousand generated texts or more are accepted. The last option
//! but two leaves out the large families, on some of which the stand-in does not end. With
//! `--without-share` no text has a share, and with `--recode` the library is one from before
//! shares, whose pairs are written as records.

fn main() {
    let options = differential::options();
    let stack = options.stack;
    let worker = std::thread::Builder::new().stack_size(stack).spawn(move || differential::run(&options));
    let right = worker.expect("a thread").join();
    std::process::exit(i32::from(!matches!(right, Ok(true))));
}

mod differential {
    use std::collections::BTreeMap;
    use std::path::{Path, PathBuf};
    use std::rc::Rc;
    use std::time::Instant;

    use lockplan_tests::compare::{outcome, shorten, Bench, Calls, Outcome};
    use lockplan_tests::families::Draft;
    use lockplan_tests::generate::{
        beginnings, beginnings_indented, enough_accepted, generate, without_share, Case,
    };
    use lockplan_tests::library::{CALLS, RECODED};
    use lockplan_tests::random::Random;
    use lockplan_tests::shares::has_share;
    use lockplan_tests::twins::Twins;
    use lockplan_tests::{families, full, guard, lengths, shares, shelf};

    /// Buffers are lent to a fixed text this often.
    const LENT: usize = 4;

    /// Lines of the short texts that are all compared, and of those that are
    /// compared with something passed over at every place.
    const SHORT: usize = 7;
    const SHORT_INDENTED: usize = 4;

    /// Differences after which the run ends.
    const ENOUGH: usize = 5;

    pub struct Options {
        texts: u64,
        seed: u64,
        pub stack: usize,
        only: Option<u64>,
        file: Option<PathBuf>,
        large: bool,
        shares: bool,
        calls: Calls,
    }

    pub fn options() -> Options {
        let variable = |name: &str| std::env::var(name).ok().map(|value| number(name, &value));
        let mut options = Options {
            texts: variable("LOCKPLAN_TEXTS").unwrap_or(20_000),
            seed: variable("LOCKPLAN_SEED").unwrap_or(1),
            stack: 8 << 20,
            only: None,
            file: None,
            large: true,
            shares: true,
            calls: CALLS,
        };
        let mut arguments = std::env::args().skip(1);
        while let Some(name) = arguments.next() {
            let mut value = || arguments.next().unwrap_or_else(|| panic!("{name} needs a value"));
            match name.as_str() {
                "--texts" => options.texts = number(&name, &value()),
                "--seed" => options.seed = number(&name, &value()),
                "--stack" => options.stack = number(&name, &value()) as usize,
                "--only" => options.only = Some(number(&name, &value())),
                "--file" => options.file = Some(value().into()),
                "--without-large" => options.large = false,
                "--without-share" => options.shares = false,
                "--recode" => options.calls = RECODED,
                // What cargo hands to every test program.
                _ => {}
            }
        }
        options
    }

    fn number(name: &str, value: &str) -> u64 {
        value.replace([',', '_'], "").parse().unwrap_or_else(|_| panic!("{name}: no number: {value}"))
    }

    /// A text that is compared, and whether it deadlocks where this is known.
    #[derive(Clone)]
    struct Compared {
        kind: &'static str,
        text: Rc<Vec<u8>>,
        known: Option<bool>,
    }

    impl Compared {
        fn new(kind: &'static str, text: Vec<u8>) -> Compared {
            Compared { kind, text: Rc::new(text), known: None }
        }
    }

    /// The text of a file, or the fixed ones; each several times, but for large plans.
    fn fixed(options: &Options) -> Vec<Compared> {
        let mut all = Vec::new();
        let mut push = |one: Compared| all.extend(vec![one; LENT]);
        if let Some(path) = &options.file {
            push(Compared::new("file", std::fs::read(path).expect("a readable file")));
            return all;
        }
        let entries = shelf::all().into_iter().chain(shelf::all_indented());
        entries.for_each(|entry| push(Compared::new("fixed", entry.text)));
        let families = families::small().into_iter().chain(shares::small_families());
        families.for_each(|(_, draft, _)| push(Compared::new("family", draft.text())));
        lengths::all().into_iter().for_each(|long| push(Compared::new("long", long.text)));
        let short = beginnings(SHORT).into_iter().chain(beginnings_indented(SHORT_INDENTED));
        short.for_each(|text| push(Compared::new("short", text)));
        let known = |(_, draft, deadlock): (String, Draft, bool)| Compared {
            known: Some(deadlock),
            ..Compared::new("large family", draft.text())
        };
        if options.large {
            all.extend(full::all().into_iter().chain(shares::full_families()).map(known));
        }
        all.retain(|one| options.shares || !has_share(&one.text));
        all
    }

    /// Fixed texts first, then generated ones.
    fn compared(fixed: &[Compared], options: &Options, index: u64, random: &mut Random) -> Compared {
        *random = Random::of_text(options.seed, index);
        fixed.get(index as usize).cloned().unwrap_or_else(|| {
            let Case { kind, text } = if options.shares { generate(random) } else { without_share(random) };
            Compared::new(kind, text)
        })
    }

    /// What the generated texts gave.
    #[derive(Default)]
    struct Generated {
        texts: u64,
        accepted: u64,
        /// Refused by rule 13.
        idle: u64,
    }

    impl Generated {
        fn count(&mut self, outcome: Option<Outcome>) {
            self.texts += 1;
            self.accepted += u64::from(matches!(outcome, Some(Outcome::Free | Outcome::Deadlock)));
            self.idle += u64::from(outcome == Some(Outcome::Refused(13)));
        }

        /// Prints the counts and says whether enough texts are accepted.
        fn enough(&self) -> bool {
            let Generated { texts, accepted, idle } = *self;
            let share = 100.0 * accepted as f64 / texts.max(1) as f64;
            println!(
                "  {accepted} of {texts} generated texts accepted ({share:.1} %), {idle} refused by rule 13"
            );
            let enough = enough_accepted(accepted, texts);
            if !enough {
                println!("differential: no more than a third of the generated texts are accepted");
            }
            enough
        }
    }

    /// Whether there were no differences, and enough accepted texts.
    pub fn run(options: &Options) -> bool {
        let start = Instant::now();
        let fixed = fixed(options);
        let numbers = match (&options.file, options.only) {
            (_, Some(only)) => only..only + 1,
            (Some(_), None) => 0..fixed.len() as u64,
            (None, None) => 0..fixed.len() as u64 + options.texts,
        };
        guard::report_faults();
        let mut bench = Bench::new(true);
        let mut random = Random::new(0);
        let (mut outcomes, mut kinds) = (BTreeMap::new(), BTreeMap::new());
        let (mut texts, mut bytes, mut differences) = (0_u64, 0_usize, 0);
        let mut generated = Generated::default();
        for index in numbers {
            let case = compared(&fixed, options, index, &mut random);
            guard::now(options.seed, index);
            texts += 1;
            bytes += case.text.len();
            *kinds.entry(case.kind).or_insert(0_u64) += 1;
            let outcome = bench.check_known(options.calls, &case.text, case.known, &mut random);
            if index >= fixed.len() as u64 {
                generated.count(outcome.as_ref().ok().copied());
            }
            match outcome {
                Ok(outcome) => *outcomes.entry(format!("{outcome:?}")).or_insert(0_u64) += 1,
                Err(message) => {
                    differences += 1;
                    println!(
                        "differential: --seed {} --only {index} ({}): {message}",
                        options.seed, case.kind
                    );
                    keep(&case.text, &format!("{}-{index}.plan", options.seed));
                    if case.known.is_none() {
                        let shorter = shorter(&case.text, options.calls, &mut bench);
                        keep(&shorter, &format!("{}-{index}-short.plan", options.seed));
                    }
                    if differences == ENOUGH {
                        break;
                    }
                }
            }
        }
        println!(
            "differential: seed {}, {texts} texts, {bytes} bytes, {:.1?}",
            options.seed,
            start.elapsed()
        );
        println!("  kinds: {kinds:?}");
        println!("  results: {outcomes:?}");
        let enough = generated.enough();
        println!("  {:?}", bench.counts);
        print_twins(&bench.twins);
        let both = generated.texts < 1_000 || both_kinds(&bench.twins);
        println!("differential: {differences} differences");
        differences == 0 && enough && both
    }

    /// Prints what was compared of a text and others.
    fn print_twins(twins: &Twins) {
        println!("  two accepted texts: {} of one plan, {} of two", twins.equal, twins.different);
        println!(
            "  plans with their procedures shuffled: {} accepted, {} refused",
            twins.shuffled, twins.shuffled_refused
        );
        let (free, deadlock) = (twins.alone_free, twins.alone_deadlock);
        println!("  two threads alone: {free} free, {deadlock} with a deadlock");
        let (free, deadlock) = (twins.straight_free, twins.straight_deadlock);
        println!(
            "  straightened copies of plans with eithers or loops: {free} free, {deadlock} with a deadlock"
        );
        println!("  plans with more eithers and loops: {}", twins.bent);
    }

    /// Whether two threads alone, and plans with eithers or loops, were free in some texts and had
    /// a deadlock in others.
    fn both_kinds(twins: &Twins) -> bool {
        let alone = twins.alone_free > 0 && twins.alone_deadlock > 0;
        if !alone {
            println!("differential: no two threads alone that are free, or none with a deadlock");
        }
        let straight = twins.straight_free > 0 && twins.straight_deadlock > 0;
        if !straight {
            println!("differential: no plans with eithers or loops that are free, or none with a deadlock");
        }
        alone && straight
    }

    /// A text with the outcome of one that fails, made shorter while it fails.
    fn shorter(text: &[u8], calls: Calls, bench: &mut Bench) -> Vec<u8> {
        let found = outcome(text);
        let mut fails = |text: &[u8]| {
            outcome(text) == found && (0..4).any(|k| bench.check(calls, text, &mut Random::new(k)).is_err())
        };
        if fails(text) {
            shorten(text, &mut fails)
        } else {
            text.to_vec()
        }
    }

    fn keep(text: &[u8], name: &str) {
        let path = Path::new(env!("CARGO_TARGET_TMPDIR")).join(format!("differential-{name}"));
        match std::fs::write(&path, text) {
            Ok(()) => println!("  written to {}", path.display()),
            Err(error) => println!("  not written to {}: {error}", path.display()),
        }
    }
}
