//! Prints the report of a plan from standard input, by the reference; with
//! `--tidy` its tidy copy, with `--straight` its straightened copy, with `--slip` the slip
//! of the space that it needs, with `--crossings` the table of where its threads cross and
//! with `--crossings FIRST SECOND` the couples of two of them, or the line of its refusal.
//! With `--families FOLDER` it writes the plan of each family.

use std::io::{Read, Write};

use lockplan_tests::{crossings, families, report, slip, straight, tidy};

fn main() -> std::io::Result<()> {
    let mut arguments = std::env::args().skip(1);
    let what = arguments.next();
    if what.as_deref() == Some("--families") {
        return families::write_all(arguments.next().expect("a folder").as_ref());
    }
    let mut text = Vec::new();
    std::io::stdin().lock().read_to_end(&mut text)?;
    let rest: Vec<String> = arguments.collect();
    let rest: Vec<&str> = rest.iter().map(String::as_str).collect();
    let printed = match what.as_deref() {
        Some("--tidy") => tidy::printed(&text),
        Some("--straight") => straight::printed(&text),
        Some("--slip") => slip::printed(&text),
        Some("--crossings") => crossings::printed(&text, &rest).unwrap_or_else(|| {
            eprintln!("reference: --crossings takes the numbers of two threads, or nothing");
            std::process::exit(2);
        }),
        _ => report::report(&text),
    };
    std::io::stdout().write_all(&printed)
}
