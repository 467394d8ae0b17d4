//! Prints the Promela model of a plan from standard input, or writes those of
//! the shelf's cases with a letter and of the families without shares into a folder:
//! `<name>.pml`, with the verdict in a comment in the first line.
//!
//!   cargo run --release --bin promela [-- FOLDER]

use std::io::Read;
use std::path::Path;

use lockplan_tests::families;
use lockplan_tests::promela::model;
use lockplan_tests::reference::read;
use lockplan_tests::shelf::{shelf, Gives};

fn main() -> std::io::Result<()> {
    if let Some(folder) = std::env::args().nth(1) {
        return write_all(folder.as_ref());
    }
    let mut text = Vec::new();
    std::io::stdin().lock().read_to_end(&mut text)?;
    match read(&text) {
        Ok(plan) => print!("{}", model(&plan)),
        Err(refusal) => {
            eprintln!("promela: refused by rule {}, line {}", refusal.rule, refusal.line);
            std::process::exit(1);
        }
    }
    Ok(())
}

fn write_all(folder: &Path) -> std::io::Result<()> {
    std::fs::create_dir_all(folder)?;
    for entry in shelf().iter().filter(|entry| entry.name.len() == 1) {
        if !matches!(entry.gives, Gives::Refused(..)) {
            let deadlock = entry.gives != Gives::Free;
            write(folder, &format!("case-{}", entry.name), &entry.text, deadlock)?;
        }
    }
    for (name, draft, deadlock) in families::all() {
        write(folder, &name, &draft.text(), deadlock)?;
    }
    Ok(())
}

fn write(folder: &Path, name: &str, text: &[u8], deadlock: bool) -> std::io::Result<()> {
    let plan = read(text).expect("an accepted plan");
    let verdict = if deadlock { "deadlock" } else { "free" };
    std::fs::write(folder.join(format!("{name}.pml")), format!("/* {verdict} */\n{}", model(&plan)))
}
