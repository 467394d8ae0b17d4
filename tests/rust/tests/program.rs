//! The reports of the program `report`, the copies of the programs `tidy` and `straight`,
//! the slips of the program `slip` and the crossings of the program `crossings` against the
//! reference.
//!
//!   LOCKPLAN_PROGRAM=<report> LOCKPLAN_TIDY=<tidy> LOCKPLAN_STRAIGHT=<straight> \
//!       LOCKPLAN_SLIP=<slip> LOCKPLAN_CROSSINGS=<crossings> cargo test --test program
//!
//! The programs read a plan from standard input. One that is not named is not
//! tested. LOCKPLAN_TEXTS and LOCKPLAN_SEED choose the generated texts. Each program
//! is also run with a standard input that cannot be read and on a full disk: it says
//! so on standard error, and else nothing there. Ends with 1 after a difference, and
//! with 2 where nothing was tested because no program is named.

use std::io::Write;
use std::process::{Command, Output, Stdio};

use lockplan_tests::compare::{not_two, two_threads};
use lockplan_tests::generate::generate;
use lockplan_tests::random::Random;
use lockplan_tests::reference::read;
use lockplan_tests::report::{check_known, same};
use lockplan_tests::shelf::{all, all_indented, plans_in};
use lockplan_tests::{crossings, families, shares, slip, straight, tidy};

/// A run of a program on a text.
fn run(program: &str, arguments: &[&str], text: &[u8]) -> Result<Output, String> {
    let mut child = Command::new(program)
        .args(arguments)
        .stdin(Stdio::piped())
        .stdout(Stdio::piped())
        .stderr(Stdio::piped())
        .spawn()
        .map_err(|error| format!("{program}: {error}"))?;
    let mut input = child.stdin.take().expect("a pipe");
    let text = text.to_vec();
    // A program may stop reading a text that is too long.
    let writer = std::thread::spawn(move || drop(input.write_all(&text)));
    let output = child.wait_with_output().map_err(|error| error.to_string())?;
    writer.join().expect("the writer");
    Ok(output)
}

/// What a program prints, if it ends well and says nothing on standard error.
fn printed(output: Output) -> Result<Vec<u8>, String> {
    if !output.status.success() || !output.stderr.is_empty() {
        return Err(format!("ended with {}: {}", output.status, String::from_utf8_lossy(&output.stderr)));
    }
    Ok(output.stdout)
}

/// What a program prints of a text.
fn prints(program: &str, text: &[u8]) -> Result<Vec<u8>, String> {
    run(program, &[], text).and_then(printed)
}

/// Whether a program prints a text's report.
fn reports(program: &str, text: &[u8], known: Option<bool>) -> Result<(), String> {
    prints(program, text).and_then(|printed| check_known(text, &printed, known))
}

/// Whether a program prints a text's tidy copy or its refusal, byte for byte.
fn tidies(program: &str, text: &[u8], _: Option<bool>) -> Result<(), String> {
    prints(program, text).and_then(|found| same(&found, &tidy::printed(text)))
}

/// Whether a program prints a text's straightened copy or its refusal, byte for byte.
fn straightens(program: &str, text: &[u8], _: Option<bool>) -> Result<(), String> {
    prints(program, text).and_then(|found| same(&found, &straight::printed(text)))
}

/// Whether a program prints a text's slip or its refusal, byte for byte.
fn slips(program: &str, text: &[u8], _: Option<bool>) -> Result<(), String> {
    prints(program, text).and_then(|found| same(&found, &slip::printed(text)))
}

/// Arguments that are not the numbers of two threads.
const OTHERS: [&[&str]; 19] = [
    &["0", "00000000000000000000000000000000000000000000000000000000000000001"],
    &["0"],
    &[""],
    &["0", "1", "2"],
    &["0", "1", ""],
    &["", ""],
    &["", "1"],
    &["0", ""],
    &["x", "1"],
    &["0", "1x"],
    &["-1", "0"],
    &["0", "-0"],
    &["+0", "1"],
    &[" 0", "1"],
    &["0", "1 "],
    &["0 1"],
    &["0", "1\n"],
    &["0x0", "1"],
    &["0", "\u{661}"],
];

/// Numbers of threads in other digits: past 64 bits, and with zeros before.
const DIGITS: [&[&str]; 7] = [
    &["0", "0000000000000000000000000000000000000000000000000000000000000001"],
    &["18446744073709551615", "0"],
    &["0", "18446744073709551616"],
    &["18446744073709551617", "0"],
    &["0", "340282366920938463463374607431768211457"],
    &["00", "1"],
    &["0", "00000000000000000000000000000000001"],
];

/// Arguments for a text: none, two threads, such as rule 14 refuses, and now and then
/// others.
fn arguments(text: &[u8]) -> Vec<Vec<String>> {
    let (plan, random) = (read(text), &mut Random::new(text.len() as u64));
    let mut two = two_threads(&plan, 2, random);
    two.push(not_two(&plan, random));
    let mut all: Vec<Vec<String>> = vec![vec![]];
    all.extend(two.into_iter().map(|(first, second)| vec![first.to_string(), second.to_string()]));
    if random.chance(20) {
        let others = [*random.pick(&DIGITS), *random.pick(&OTHERS)];
        all.extend(others.map(|words| words.iter().map(|word| word.to_string()).collect()));
    }
    all
}

/// Nothing on standard output, and something on standard error.
fn only_a_message(output: &Output) -> Result<(), String> {
    match (output.stdout.is_empty(), output.stderr.is_empty(), output.status.code()) {
        (true, false, Some(_)) => Ok(()),
        (true, false, None) => Err(format!("ended with {}", output.status)),
        (true, true, _) => Err("no message".into()),
        (false, _, _) => Err("something is printed".into()),
    }
}

/// Whether a program prints where a text's threads cross, byte for byte.
fn crosses(program: &str, text: &[u8], _: Option<bool>) -> Result<(), String> {
    for arguments in arguments(text) {
        let arguments: Vec<&str> = arguments.iter().map(String::as_str).collect();
        let output = run(program, &arguments, text)?;
        let right = match crossings::printed(text, &arguments) {
            Some(expected) => printed(output).and_then(|found| same(&found, &expected)),
            None => only_a_message(&output),
        };
        right.map_err(|message| format!("arguments {arguments:?}: {message}"))?;
    }
    Ok(())
}

/// What a program says on standard error where its input or its output is this file.
fn said(program: &str, arguments: &[&str], input: &str, output: &str) -> Result<String, String> {
    let file = |path: &str, writes: bool| {
        let opened = std::fs::OpenOptions::new().read(!writes).write(writes).open(path);
        opened.map_err(|error| format!("{path}: {error}"))
    };
    let ended = Command::new(program)
        .args(arguments)
        .stdin(file(input, false)?)
        .stdout(file(output, true)?)
        .stderr(Stdio::piped())
        .output()
        .map_err(|error| format!("{program}: {error}"))?;
    Ok(String::from_utf8_lossy(&ended.stderr).into_owned())
}

/// Whether a program tells of a standard input that cannot be read, a folder, and of an
/// output that cannot be written, on a full disk, of an accepted plan and of a refused one.
fn tells(name: &str, program: &str) -> Result<(), String> {
    let two: &[&[&str]] = if name == "crossings" { &[&[], &["0", "1"], &["0", "0"]] } else { &[&[]] };
    for arguments in two {
        let unread = said(program, arguments, ".", "/dev/null")?;
        if unread != format!("{name}: standard input cannot be read\n") {
            return Err(format!("{arguments:?}, an input that cannot be read: {unread:?}"));
        }
        for plan in ["../../examples/a-crossed-locks.plan", "../../examples/lock-32.plan"] {
            let full = said(program, arguments, plan, "/dev/full")?;
            if !full.starts_with(&format!("{name}: the ")) || !full.ends_with(" cannot be written\n") {
                return Err(format!("{arguments:?}, {plan} on a full disk: {full:?}"));
            }
        }
    }
    Ok(())
}

/// A test of a program: its path, a text, and whether that deadlocks where this is known.
type Test = fn(&str, &[u8], Option<bool>) -> Result<(), String>;

/// A program that is tested: its name, its path and its test.
type Tested = (&'static str, String, Test);

/// A text with its name, and whether it deadlocks where this is known.
type Case = (String, Vec<u8>, Option<bool>);

/// The programs that are named.
fn programs() -> Vec<Tested> {
    let named = |variable: &str| std::env::var(variable).ok();
    let report = named("LOCKPLAN_PROGRAM").map(|path| -> Tested { ("report", path, reports) });
    let tidy = named("LOCKPLAN_TIDY").map(|path| -> Tested { ("tidy", path, tidies) });
    let straight = named("LOCKPLAN_STRAIGHT").map(|path| -> Tested { ("straight", path, straightens) });
    let slip = named("LOCKPLAN_SLIP").map(|path| -> Tested { ("slip", path, slips) });
    let crossings = named("LOCKPLAN_CROSSINGS").map(|path| -> Tested { ("crossings", path, crosses) });
    [report, tidy, straight, slip, crossings].into_iter().flatten().collect()
}

/// Fixed texts, examples, families and generated ones, by name.
fn cases(texts: u64, seed: u64) -> Vec<Case> {
    let fixed = all().into_iter().chain(all_indented());
    let mut cases: Vec<Case> = fixed.map(|entry| (entry.name.to_string(), entry.text, None)).collect();
    cases.extend(plans_in("../../examples").into_iter().map(|(name, text)| (name, text, None)));
    let families = families::all().into_iter().chain(shares::all());
    cases.extend(families.map(|(name, draft, deadlock)| (name, draft.text(), Some(deadlock))));
    for index in 0..texts {
        let case = generate(&mut Random::of_text(seed, index));
        cases.push((format!("seed {seed}, text {index} ({})", case.kind), case.text, None));
    }
    cases
}

fn keep(text: &[u8], name: &str) {
    let path = std::path::Path::new(env!("CARGO_TARGET_TMPDIR")).join(name);
    match std::fs::write(&path, text) {
        Ok(()) => println!("  written to {}", path.display()),
        Err(error) => println!("  not written: {error}"),
    }
}

/// The number of differences, 5 at most.
fn test((program, path, right): &Tested, cases: &[Case]) -> usize {
    let mut differences = 0;
    for (name, text, known) in cases {
        if let Err(message) = right(path, text, *known) {
            differences += 1;
            println!("{program}: {name}: {message}");
            keep(text, &format!("{program}-{differences}.plan"));
            if differences == 5 {
                break;
            }
        }
    }
    if let Err(message) = tells(program, path) {
        differences += 1;
        println!("{program}: {message}");
    }
    println!("{program}: {} texts and failing streams, {differences} differences", cases.len());
    differences
}

fn main() {
    let programs = programs();
    if programs.is_empty() {
        let names = "LOCKPLAN_PROGRAM, LOCKPLAN_TIDY, LOCKPLAN_STRAIGHT, LOCKPLAN_SLIP, LOCKPLAN_CROSSINGS";
        eprintln!("program: nothing was tested: {names} name no program");
        std::process::exit(2);
    }
    let number = |name: &str, default: u64| {
        std::env::var(name).map_or(default, |value| value.parse().expect("a number"))
    };
    let cases = cases(number("LOCKPLAN_TEXTS", 500), number("LOCKPLAN_SEED", 1));
    let rules: Vec<u8> = cases.iter().filter_map(|(_, text, _)| Some(read(text).err()?.rule)).collect();
    let idle = rules.iter().filter(|rule| **rule == 13).count();
    let (texts, accepted) = (cases.len(), cases.len() - rules.len());
    println!("program: {texts} texts, {accepted} accepted, {idle} refused by rule 13");
    let differences: usize = programs.iter().map(|program| test(program, &cases)).sum();
    std::process::exit(i32::from(differences > 0));
}
