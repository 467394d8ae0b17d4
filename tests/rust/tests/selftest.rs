//! The reference against itself and against the statements of the rules.
//! LOCKPLAN_FACTOR multiplies the numbers of texts.

use std::collections::{BTreeMap, BTreeSet, HashSet};

use lockplan_tests::answer::{Answer, REFUSED};
use lockplan_tests::climb::{Chains, Climb};
use lockplan_tests::compare::{Bench, Calls, Outcome};
use lockplan_tests::families::{self, Draft, Tree};
use lockplan_tests::full::{self, most_pairs};
use lockplan_tests::gateway::{replay, Automaton, State};
use lockplan_tests::generate::{self, enough_accepted, generate};
use lockplan_tests::idle::{employed, idle};
use lockplan_tests::indent::{self, indent, over, padded, Padding};
use lockplan_tests::locks::Locks;
use lockplan_tests::pairs::{by_execution, compositional, Pair};
use lockplan_tests::random::Random;
use lockplan_tests::reference::{
    bare, form, lines, named, passed_over, proc_text, read, sized, sizes, structure, Form, Lines, Plan,
    Refusal, Stmt, MAX_BYTES, MAX_PAIRS, MAX_SIZE, MAX_SUM, MAX_WORDS, MOST_PAIRS,
};
use lockplan_tests::report::{check, report};
use lockplan_tests::shares::{self, small_shares};
use lockplan_tests::shelf::{self, all, all_indented, shelf, Gives};
use lockplan_tests::standin::{faulty_copies, Straight, Tidy};
use lockplan_tests::tidy::{printed, tidy, tree};
use lockplan_tests::twins::Twins;
use lockplan_tests::verdict::{
    conflict, conflict_by_choice, conflict_within, conflicting, explore, judge, pairs_of_threads, schedule,
    schedule_told, Verdict,
};
use lockplan_tests::{guard, lengths, slip, standin};

#[path = "selftest/crossings.rs"]
mod crossings;
#[path = "selftest/shares.rs"]
mod shared;
#[path = "selftest/straight.rs"]
mod straight;

fn texts(default: u64) -> u64 {
    let factor = std::env::var("LOCKPLAN_FACTOR").ok().and_then(|value| value.parse().ok());
    default * factor.unwrap_or(1)
}

/// A schedule is a run, short enough, to a state with the stuck set.
fn right(plan: &Plan, schedule: &[u16], stuck: u32) {
    assert!(schedule.len() as u64 <= plan.size_of_threads());
    let state = replay(plan, schedule).expect("a run");
    assert_eq!(state.largest_stuck(plan), stuck);
    assert!(stuck.count_ones() >= 2);
}

fn small_plan(random: &mut Random) -> Draft {
    if random.chance(50) {
        return small_shares(random);
    }
    match random.below(9) {
        0 | 1 => generate::plan(random, &generate::TINY),
        2 => generate::plan(random, &generate::SMALL),
        3 => generate::plan(random, &generate::NESTED),
        4 | 5 => generate::crossings(random),
        6 => generate::cycles(random),
        7 => generate::rings(random),
        _ => generate::plan(random, &generate::CALLING),
    }
}

#[test]
fn shelf_gives_what_is_stated() {
    for entry in all().into_iter().chain(all_indented()) {
        let name = entry.name;
        match (read(&entry.text), &entry.gives) {
            (Err(refusal), Gives::Refused(rule, line)) => {
                assert_eq!(refusal, Refusal { rule: *rule, line: *line }, "{name}");
                let expected = format!("(report\n(refused {rule} {line})\n)\n");
                assert_eq!(report(&entry.text), expected.as_bytes(), "{name}");
                assert!(proc_text(&entry.text, 0).is_empty());
            }
            (Ok(plan), Gives::Free) => {
                assert_eq!(judge(&plan), Verdict::Free, "{name}");
                assert!(conflict(&pairs_of_threads(&plan)).is_none(), "{name}");
                // Six threads of size 1,024 have too many states.
                if plan.size_of_threads() <= MAX_SIZE {
                    assert_eq!(explore(&plan, 1_000_000), Some(Verdict::Free), "{name}");
                }
            }
            (Ok(plan), Gives::Deadlock(set)) => {
                assert!(conflict(&pairs_of_threads(&plan)).is_some(), "{name}");
                let Some(Verdict::Deadlock { schedule, stuck }) = explore(&plan, 1_000_000) else {
                    panic!("{name} is free");
                };
                assert_eq!(stuck, *set, "{name}");
                right(&plan, &schedule, stuck);
                if let Some(stated) = &entry.schedule {
                    right(&plan, stated, *set);
                }
            }
            (result, gives) => panic!("{name}: {:?}, not {gives:?}", result.err()),
        }
        if let Ok(plan) = read(&entry.text) {
            for (proc, words) in entry.words.iter().enumerate() {
                let found: Vec<[u64; 3]> = plan.pairs[proc].iter().map(|pair| pair.words()).collect();
                assert_eq!(&found, words, "{name}");
            }
        }
    }
}

/// Every fixed text indented is the plan that it was, or refused by the rule that
/// refused it.
#[test]
fn shelf_indented_gives_the_same() {
    let (mut same, mut moved) = (0, 0);
    for entry in all() {
        for seed in 0..8 {
            let indented = entry.indented(seed);
            match (read(&entry.text), read(&indented.text)) {
                (Ok(one), Ok(two)) => {
                    assert_eq!((tree(&one), &one.pairs), (tree(&two), &two.pairs), "{}", entry.name);
                    assert_eq!((judge(&one), tidy(&one)), (judge(&two), tidy(&two)), "{}", entry.name);
                    same += 1;
                }
                (Err(one), Err(two)) => {
                    assert_eq!(one.rule, two.rule, "{}", entry.name);
                    assert_eq!(indented.gives, Gives::Refused(two.rule, two.line), "{}", entry.name);
                    moved += usize::from(one.line != two.line);
                }
                (one, two) => panic!("{}: {:?}, {:?}", entry.name, one.err(), two.err()),
            }
        }
    }
    println!("{same} of the same plan, {moved} refused at a line that has moved");
    assert!(same > 300 && moved > 300);
}

#[test]
fn shelf_sizes_and_counts() {
    let sizes_of = |draft: Draft| sizes(&named(&draft.text()).unwrap());
    assert_eq!(sizes_of(generate::doubling(8))[8], 766);
    let doubled = sizes_of(generate::doubling(63));
    assert_eq!((doubled[9], doubled[62], doubled[63]), (1_534, 3 * (1 << 62) - 2, u64::MAX));
    let mut reversed = sizes_of(generate::doubling(63).reversed());
    reversed.reverse();
    assert_eq!(reversed, doubled);
    assert_eq!(sizes_of(shelf::calls_of_all_behind(11))[..2], [1_535, 767]);
    let pairs_of = |body: Vec<Tree>| read(&Draft::each(vec![body]).text()).unwrap().pairs[0].len();
    assert_eq!([96, 97].map(|count| pairs_of(shelf::couples(count))), [128, 129]);
    assert_eq!((pairs_of(full::around(31)), sizes_of(most_pairs())[0]), (MOST_PAIRS, 1_023));
    assert_eq!((MAX_PAIRS, MOST_PAIRS, MAX_WORDS), (511, 496, 1_533));
    let plan = read(&shelf::calls_all_different(1_023).text()).unwrap();
    let calls = |plan: &Plan| -> Vec<(usize, usize)> {
        (0..64).flat_map(|caller| plan.callees(caller).map(move |callee| (caller, callee))).collect()
    };
    assert_eq!(calls(&plan).into_iter().collect::<HashSet<_>>().len(), 1_023);
}

/// The slip, the space call and the least buffer of a verdict.
#[test]
fn shelf_spaces() {
    let mut stated = 0;
    for entry in all().into_iter().chain(all_indented()) {
        let (name, text) = (entry.name, &entry.text);
        let slip = String::from_utf8(slip::printed(text)).unwrap();
        if let (Gives::Refused(rule, line), true) = (&entry.gives, entry.sizes.is_empty()) {
            assert_eq!(slip, format!("(refused {rule} {line})\n"), "{name}");
        }
        if entry.sizes.is_empty() {
            continue;
        }
        stated += 1;
        let sum: u64 = entry.sizes.iter().sum();
        let size = |(thread, size): (usize, &u64)| format!("(size {thread} {size})\n");
        let sizes: String = entry.sizes.iter().enumerate().map(size).collect();
        assert_eq!(slip, format!("{sizes}(sum {sum})\n"), "{name}");
        assert_eq!(standin::space(text), 65_536 * sum, "{name}");
        let verdict = |entries: u64| Answer::new(standin::verdict(text, &mut vec![0; 2 * entries as usize]));
        match entry.gives {
            Gives::Refused(rule, line) => {
                let refused = Answer::refused(Refusal { rule, line });
                assert_eq!([verdict(0), verdict(sum)], [refused; 2], "{name}");
            }
            _ => {
                assert_eq!([verdict(0), verdict(sum - 1)], [Answer::refused(Refusal::SHORT); 2], "{name}");
                assert_ne!(verdict(sum).kind, REFUSED, "{name}");
            }
        }
    }
    println!("{stated} slips");
    assert!(stated >= 90);
}

/// A plan of the shelf by its name.
fn named_entry(name: &str) -> shelf::Entry {
    all().into_iter().find(|entry| entry.name == name).unwrap()
}

#[test]
fn slips_as_they_are_printed() {
    let slip = |name: &str| String::from_utf8(slip::printed(&named_entry(name).text)).unwrap();
    assert_eq!(slip("A"), "(size 0 5)\n(size 1 5)\n(sum 10)\n");
    assert_eq!(slip("one thread of a skip"), "(size 0 1)\n(sum 1)\n");
    let sizes: String = (0..6).map(|thread| format!("(size {thread} 1024)\n")).collect();
    assert_eq!(slip("6 threads of size 1,024"), format!("{sizes}(sum {MAX_SUM})\n"));
    assert_eq!(slip("97 couples"), "(size 0 485)\n(sum 485)\n");
    assert_eq!(slip("doubling, procedure 9"), "(refused 9 37)\n");
    assert_eq!(slip("J"), "(refused 4 1)\n");
    assert_eq!(slip("a circle of 2 that no thread reaches"), "(refused 12 5)\n");
    assert_eq!(slip("forty procedures and one thread line"), "(refused 13 5)\n");
    assert_eq!(slip("an idle one before size"), "(refused 13 41)\n");
}

#[test]
fn report_of_case_b() {
    let b = named_entry("B");
    let expected = "(report\n(proc 0\n(pair 2)\n(pair 0 2)\n(pair 1 0 2)\n)\n\
        (proc 1\n(pair 2)\n(pair 1 2)\n(pair 0 1 2)\n)\n(free)\n)\n";
    assert_eq!(String::from_utf8(report(&b.text)).unwrap(), expected);
    let a = named_entry("A");
    let expected = "(report\n(proc 0\n(pair 0)\n(pair 1 0)\n)\n(proc 1\n(pair 1)\n(pair 0 1)\n)\n\
        (deadlock\n(stuck 0 1)\n(step 0 0)\n(step 1 0)\n)\n)\n";
    assert_eq!(String::from_utf8(report(&a.text)).unwrap(), expected);
}

#[test]
fn report_of_the_highest_locks() {
    let draft = Draft::each(vec![vec![families::nest(&[31, 0, 30, 9], vec![])], families::skips(1)]);
    let expected = "(report\n(proc 0\n(pair 31)\n(pair 0 31)\n(pair 30 0 31)\n(pair 9 0 30 31)\n)\n\
        (proc 1\n)\n(free)\n)\n";
    assert_eq!(String::from_utf8(report(&draft.text())).unwrap(), expected);
    let plan = read(&draft.text()).unwrap();
    let words: Vec<[u64; 3]> = plan.pairs[0].iter().map(|pair| pair.words()).collect();
    let (top, next) = (1 << 31, 1 << 30);
    assert_eq!(words, [[0, 0, 63], [top, 0, 1], [top + 1, 0, 61], [top + next + 1, 0, 19]]);
}

#[test]
fn text_of_a_procedure() {
    let text = b"(plan\n(proc\n(skip)\n)\n(proc\n(hold 3\n(call 0)\n)\n)\n(thread 1)\n)\n";
    assert_eq!(proc_text(text, 0), b"(proc\n(skip)\n)\n");
    assert_eq!(proc_text(text, 1), b"(proc\n(hold 3\n(call 0)\n)\n)\n");
    assert_eq!(proc_text(text, 2), b"");
    assert_eq!(proc_text(&text[..text.len() - 1], 0), b"");
    let text = b"(plan\n(proc\n(call 1)\n)\n(proc\n(skip)\n)\n(thread 0)\n)\n";
    assert_eq!(proc_text(text, 0), b"(proc\n(call 1)\n)\n");
    assert_eq!(proc_text(b"(plan\n(proc\n(call 0)\n)\n(thread 0)\n)\n", 0), b"");
    assert_eq!(proc_text(b"(plan\n(proc\n(skip)\n)\n(proc\n(skip)\n)\n(thread 0)\n)\n", 0), b"");
    let text = b"(plan\n;a\n  (proc\n\n (skip)\n ;b\n    )\n;c\n\n  (proc\n(skip)\n)\n  ;d\n(thread 1)\n(thread 0)\n)\n";
    assert_eq!(proc_text(text, 0), b"  (proc\n\n (skip)\n ;b\n    )\n");
    assert_eq!(proc_text(text, 1), b"  (proc\n(skip)\n)\n");
    let (mut accepted, mut indented) = (0, 0);
    for index in 0..texts(3_000) {
        let text = generate(&mut Random::of_text(5, index)).text;
        let Ok(plan) = read(&text) else {
            continue;
        };
        accepted += 1;
        let copy = tidy(&plan);
        indented += usize::from(copy != text);
        let mut rest = text.as_slice();
        for proc in 0..plan.procs.len() {
            let part = proc_text(&text, proc);
            // Whole lines, behind those of the procedure before.
            let at = rest.windows(part.len()).position(|window| window.as_ptr() == part.as_ptr()).unwrap();
            assert!(proc > 0 || rest[..at].ends_with(b"\n"));
            assert!(without_over(&rest[..at]).is_empty() || proc == 0);
            rest = &rest[at + part.len()..];
            let lines: Vec<&[u8]> = part.split_inclusive(|byte| *byte == 10).map(bare).collect();
            assert_eq!((lines[0], lines[lines.len() - 1]), (b"(proc\n".as_slice(), b")\n".as_slice()));
            assert_eq!(without_over(part), proc_text(&copy, proc));
        }
    }
    println!("procedures of {accepted} texts, {indented} of them indented");
}

/// A text without what is passed over, made from its lines.
fn without_over(text: &[u8]) -> Vec<u8> {
    standin::copy_by(text, standin::tidy_line)
}

/// The tidy copy from the tree is that from the lines, and a plan of its own.
#[test]
fn tidy_copies() {
    let (mut accepted, mut indented) = (0, 0);
    for index in 0..texts(20_000) {
        let text = generate(&mut Random::of_text(6, index)).text;
        let Ok(plan) = read(&text) else {
            continue;
        };
        let copy = tidy(&plan);
        assert_eq!(copy, without_over(&text));
        assert_eq!(printed(&text), copy);
        assert!(copy.len() <= text.len());
        let again = read(&copy).expect("an accepted copy");
        assert_eq!(tidy(&again), copy);
        assert_eq!(tree(&again), tree(&plan));
        assert_eq!((&again.sizes, &again.pairs), (&plan.sizes, &plan.pairs));
        assert_eq!(judge(&again), judge(&plan));
        accepted += 1;
        indented += usize::from(copy != text);
    }
    println!("{accepted} copies, {indented} of indented texts");
    assert!(3 * indented > accepted);
}

#[test]
fn a_refused_text_has_no_copy() {
    assert_eq!(printed(b";x\n"), b"(refused 4 2)\n");
    assert_eq!(printed(&[10; 32_769]), b"(refused 2 0)\n");
    assert_eq!(printed(b" (plan\n\t\n"), b"(refused 3 2)\n");
    assert_eq!(printed(b"(plan\n;\n(proc\n(call 0)\n)\n(thread 0)\n)\n"), b"(refused 12 3)\n");
    let idle = b"(plan\n;\n(proc\n(skip)\n)\n;\n(proc\n(call 0)\n)\n(thread 0)\n)\n";
    assert_eq!(printed(idle), b"(refused 13 7)\n");
}

/// What is passed over alters nothing but the lines that are named.
#[test]
fn indenting_alters_nothing() {
    let (mut accepted, mut moved) = (0, 0);
    for index in 0..texts(30_000) {
        let random = &mut Random::of_text(7, index);
        let text = generate(random).text;
        let made = indent(&text, random);
        match (read(&text), read(&made.text)) {
            (Ok(one), Ok(two)) => {
                assert_eq!(tree(&one), tree(&two));
                accepted += 1;
            }
            (Err(one), Err(two)) => {
                assert_eq!(two, Refusal { line: made.moved(one.line), ..one });
                moved += usize::from(one.line != two.line);
            }
            (one, two) => panic!("{:?}, {:?}", one.err(), two.err()),
        }
    }
    println!("{accepted} accepted, {moved} refused at a line that has moved");
    assert!(accepted > 5_000 && moved > 2_000);
}

/// Rule 3 and the lines of the forms a second time, byte by byte.
fn by_bytes(text: &[u8]) -> Result<Vec<(Form, usize)>, usize> {
    #[derive(Clone, Copy)]
    enum At {
        Begin,
        Remark,
        Form(usize),
    }
    let (mut forms, mut number, mut at) = (Vec::new(), 1, At::Begin);
    for (index, byte) in text.iter().enumerate() {
        at = match (at, byte) {
            (At::Begin | At::Remark, 10) => {
                number += 1;
                At::Begin
            }
            (At::Begin, b' ') => At::Begin,
            (At::Begin, b';') | (At::Remark, _) => At::Remark,
            (At::Begin, _) => At::Form(index),
            (At::Form(start), 10) => {
                forms.push((form(&text[start..index]).ok_or(number)?, number));
                number += 1;
                At::Begin
            }
            (At::Form(_), _) => at,
        };
    }
    match text.last() {
        None | Some(10) => Ok(forms),
        Some(_) => Err(number),
    }
}

#[test]
fn lines_are_those_of_the_bytes() {
    let (mut right, mut wrong) = (0, 0);
    for index in 0..texts(60_000) {
        let text = generate(&mut Random::of_text(8, index)).text;
        let lines = lines(&text);
        let found =
            lines.as_ref().map(|lines| lines.forms.iter().map(|line| (line.form, line.number)).collect());
        assert_eq!(found.map_err(|refusal| refusal.line), by_bytes(&text));
        let Ok(lines) = lines else {
            wrong += 1;
            continue;
        };
        right += 1;
        assert_eq!(lines.count, text.iter().filter(|byte| **byte == 10).count());
        let whole: Vec<&[u8]> = text.split_inclusive(|byte| *byte == 10).collect();
        for line in &lines.forms {
            assert_eq!(text[line.start..line.end].as_ptr_range(), whole[line.number - 1].as_ptr_range());
        }
    }
    println!("{right} of lines that are read, {wrong} not");
    assert!(right > 5_000 && wrong > 5_000);
}

#[test]
fn paddings_have_their_length() {
    let text = shelf().remove(0).text;
    for padding in Padding::ALL {
        for length in (text.len()..text.len() + 200).chain(MAX_BYTES - 5..MAX_BYTES + 5) {
            for line in 0..5 {
                let filled = padding.fill(&text, length, line);
                assert_eq!(filled.len(), length);
                assert_eq!(without_over(&filled), text, "{padding:?}");
                assert_eq!(read(&filled).is_ok(), length <= MAX_BYTES);
            }
        }
    }
    for seed in 0..1_000 {
        let random = &mut Random::new(seed);
        assert_eq!(padded(&text, MAX_BYTES, random).len(), MAX_BYTES);
        let line = over(30, random);
        assert!(line.ends_with(b"\n") && passed_over(bare(&line[..line.len() - 1])));
        assert_eq!(line.iter().filter(|byte| **byte == 10).count(), 1);
    }
}

/// The texts whose times are taken are as long as allowed and give what they say.
#[test]
fn long_texts() {
    for long in lengths::all() {
        assert_eq!(long.text.len(), MAX_BYTES, "{}", long.name);
        let refusal = read(&long.text).err();
        assert_eq!(refusal.map(|refusal| refusal.rule), long.rule, "{}", long.name);
        let count = long.text.iter().filter(|byte| **byte == 10).count();
        if let Some(Refusal { rule: 3 | 4 | 8, line }) = refusal {
            assert!(line + 1 >= count, "{}: line {line} of {count}", long.name);
        }
    }
}

/// What is broken about an indented text is mostly rule 3.
#[test]
fn damages_of_indented_texts() {
    let mut rules = std::collections::BTreeMap::new();
    for index in 0..texts(5_000) {
        let random = &mut Random::of_text(9, index);
        let text = indent(&small_plan(random).text(), random).text;
        let text = if text.len() < 20_000 { indent::damage(&text, random) } else { continue };
        *rules.entry(read(&text).map_or_else(|refusal| refusal.rule, |_| 0)).or_insert(0) += 1;
    }
    println!("{rules:?}");
    assert!(rules[&3] > 3_000 && rules[&4] > 100);
}

/// All lines of a form, listed.
#[test]
fn forms_are_the_listed_lines() {
    let mut all: HashSet<Vec<u8>> = ["(plan", "(proc", ")", "(skip)", "(loop", "(either", "(one", "(two"]
        .iter()
        .map(|line| line.as_bytes().to_vec())
        .collect();
    for n in 0..1_000 {
        all.insert(format!("(hold {n}").into_bytes());
        all.insert(format!("(share {n}").into_bytes());
        all.insert(format!("(call {n})").into_bytes());
        all.insert(format!("(thread {n})").into_bytes());
        assert_eq!(form(format!("(hold {n}").as_bytes()), Some(Form::Hold(n)));
        assert_eq!(form(format!("(share {n}").as_bytes()), Some(Form::Share(n)));
        assert_eq!(form(format!("(call {n})").as_bytes()), Some(Form::Call(n)));
        assert_eq!(form(format!("(thread {n})").as_bytes()), Some(Form::Thread(n)));
    }
    let lines: Vec<Vec<u8>> = all.iter().cloned().collect();
    let mut random = Random::new(11);
    let mut hits = 0;
    for _ in 0..texts(300_000) {
        let mut line = random.pick(&lines).clone();
        for _ in 0..random.below(3) {
            let at = random.below(line.len() + 1);
            match random.below(3) {
                0 => line.insert(at, *random.pick(b"() 0123456789holdcatrse\r\0")),
                1 if at < line.len() => drop(line.remove(at)),
                _ if at < line.len() => line[at] = *random.pick(b"() 0123456789holdcatrse\t\xff"),
                _ => {}
            }
        }
        assert_eq!(form(&line).is_some(), all.contains(&line), "{:?}", String::from_utf8_lossy(&line));
        hits += u64::from(all.contains(&line));
    }
    println!("{hits} lines of a form");
}

/// Rule 4 a second time, by a grammar: a stack of what must still come.
fn by_grammar(lines: &Lines) -> Option<usize> {
    #[derive(Clone, Copy, PartialEq)]
    enum Symbol {
        Line(&'static str),
        Procs,
        MoreProcs,
        MoreThreads,
        Stmt,
        MoreStmts,
    }
    use Symbol::*;
    let name = |form: Form| match form {
        Form::Plan => "plan",
        Form::Proc => "proc",
        Form::Thread(_) => "thread",
        Form::Close => "close",
        Form::Skip => "skip",
        Form::Call(_) => "call",
        Form::Hold(_) => "hold",
        Form::Share(_) => "share",
        Form::Loop => "loop",
        Form::Either => "either",
        Form::One => "one",
        Form::Two => "two",
    };
    let block = [MoreStmts, Stmt];
    let mut stack = vec![Line("close"), MoreThreads, Line("thread"), Procs, Line("plan")];
    for at in &lines.forms {
        let line = name(at.form);
        loop {
            let Some(symbol) = stack.pop() else {
                return Some(at.number);
            };
            match symbol {
                Line(expected) if expected == line => break,
                Line(_) => return Some(at.number),
                Procs => stack.extend([MoreProcs, Line("close"), block[0], block[1], Line("proc")]),
                MoreProcs if line == "proc" => stack.push(Procs),
                MoreThreads if line == "thread" => stack.extend([MoreThreads, Line("thread")]),
                MoreStmts if matches!(line, "skip" | "call" | "hold" | "share" | "loop" | "either") => {
                    stack.extend(block);
                }
                MoreProcs | MoreThreads | MoreStmts => {}
                Stmt => match line {
                    "skip" => stack.push(Line("skip")),
                    "call" => stack.push(Line("call")),
                    "hold" => stack.extend([Line("close"), block[0], block[1], Line("hold")]),
                    "share" => stack.extend([Line("close"), block[0], block[1], Line("share")]),
                    "loop" => stack.extend([Line("close"), block[0], block[1], Line("loop")]),
                    "either" => {
                        stack.extend([Line("close"), Line("close"), block[0], block[1], Line("two")]);
                        stack.extend([Line("close"), block[0], block[1], Line("one"), Line("either")]);
                    }
                    _ => return Some(at.number),
                },
            }
        }
    }
    (!stack.is_empty()).then_some(lines.count + 1)
}

#[test]
fn structure_is_the_grammar() {
    let (mut right, mut wrong) = (0, 0);
    for index in 0..texts(60_000) {
        let case = generate(&mut Random::of_text(21, index));
        let Ok(lines) = lines(&case.text) else {
            continue;
        };
        let line = structure(&lines).err().map(|refusal| refusal.line);
        assert_eq!(line, by_grammar(&lines), "{}", case.kind);
        if line.is_none() {
            right += 1
        } else {
            wrong += 1
        }
    }
    println!("{right} of right structure, {wrong} not");
    assert!(wrong > 1_000);
}

#[test]
fn structure_of_all_short_texts() {
    let texts = [generate::beginnings(9), generate::beginnings_indented(6)].concat();
    let mut accepted = 0;
    for text in &texts {
        let Ok(lines) = lines(text) else {
            assert!(!text.ends_with(b"\n"));
            continue;
        };
        let line = structure(&lines).err().map(|refusal| refusal.line);
        assert_eq!(line, by_grammar(&lines), "{}", String::from_utf8_lossy(text));
        accepted += usize::from(read(text).is_ok());
    }
    println!("{} short texts, {accepted} accepted", texts.len());
}

/// The size of a block, each call written out where it stands.
fn written_out(draft: &Draft, block: &[Tree]) -> u64 {
    let size = |tree: &Tree| match tree {
        Tree::Skip => 1,
        Tree::Call(callee) => 1 + written_out(draft, &draft.procs[*callee]),
        Tree::Hold(_, body) | Tree::Share(_, body) | Tree::Loop(body) => 2 + written_out(draft, body),
        Tree::Either(one, two) => 1 + written_out(draft, one) + written_out(draft, two),
    };
    block.iter().map(size).sum()
}

/// A text has a slip exactly where it is accepted: the sizes of its threads, each call
/// written out.
#[test]
fn slips_of_generated_texts() {
    let (mut accepted, mut refused) = (0, 0);
    for index in 0..texts(20_000) {
        let case = generate(&mut Random::of_text(33, index));
        let slip = String::from_utf8(slip::printed(&case.text)).unwrap();
        match read(&case.text) {
            Ok(_) => accepted += 1,
            Err(refusal) => {
                refused += 1;
                assert_eq!(slip, format!("{refusal}\n"), "{}", case.kind);
                continue;
            }
        }
        let draft = tree(&sized(&case.text).unwrap());
        let size = |proc: &usize| written_out(&draft, &draft.procs[*proc]);
        let sizes: Vec<u64> = draft.threads.iter().map(size).collect();
        let mut lines = slip.lines();
        for (thread, size) in sizes.iter().enumerate() {
            assert_eq!(lines.next().unwrap(), format!("(size {thread} {size})"), "{}", case.kind);
        }
        assert_eq!(lines.next().unwrap(), format!("(sum {})", sizes.iter().sum::<u64>()), "{}", case.kind);
        assert!(lines.next().is_none() && slip.ends_with('\n'));
    }
    println!("slips of {accepted} accepted texts, {refused} refused");
    assert!(accepted > 3_000 && refused > 3_000);
}

#[test]
fn reading_is_the_inverse_of_printing() {
    for index in 0..texts(10_000) {
        let random = &mut Random::of_text(31, index);
        let draft =
            if random.chance(80) { small_plan(random) } else { generate::plan(random, &generate::MEDIUM) };
        let text = draft.text();
        match read(&text) {
            Ok(plan) => {
                assert_eq!(tree(&plan), draft);
                for (block, size) in draft.procs.iter().zip(&plan.sizes) {
                    assert_eq!(written_out(&draft, block), *size);
                }
            }
            Err(refusal) => assert!([5, 9].contains(&refusal.rule), "{refusal:?}"),
        }
    }
}

/// What each procedure calls, from the lines and not from the tree.
fn calls_of(lines: &Lines) -> Vec<BTreeSet<usize>> {
    let mut calls: Vec<BTreeSet<usize>> = Vec::new();
    for line in &lines.forms {
        match line.form {
            Form::Proc => calls.push(BTreeSet::new()),
            Form::Call(callee) => drop(calls.last_mut().unwrap().insert(callee as usize)),
            _ => {}
        }
    }
    calls
}

/// The procedures that reach themselves a second time: where a way of so many calls
/// leads back, for every number of calls.
fn by_ways(lines: &Lines) -> Vec<usize> {
    let calls = calls_of(lines);
    let mut found = BTreeSet::new();
    let mut ends = calls.clone();
    for _ in 0..calls.len() {
        found.extend((0..calls.len()).filter(|proc| ends[*proc].contains(proc)));
        let one_more = |ends: &BTreeSet<usize>| ends.iter().flat_map(|end| calls[*end].clone()).collect();
        ends = ends.iter().map(one_more).collect();
    }
    found.into_iter().collect()
}

/// The idle procedures a second time: back from each over its callers and theirs, and none
/// of them is one that a thread line names.
fn by_callers(lines: &Lines) -> Vec<usize> {
    let calls = calls_of(lines);
    let named = |proc: usize| lines.forms.iter().any(|line| line.form == Form::Thread(proc as u32));
    let used = |proc: usize| {
        let mut behind = BTreeSet::from([proc]);
        for _ in 0..calls.len() {
            let callers = (0..calls.len()).filter(|caller| !calls[*caller].is_disjoint(&behind));
            behind.extend(callers.collect::<Vec<_>>());
        }
        behind.into_iter().any(named)
    };
    (0..calls.len()).filter(|proc| !used(*proc)).collect()
}

/// Rule 13, in three ways.
#[test]
fn idle_procedures_are_those_without_a_thread_behind() {
    let (mut none, mut some, mut named_first) = (0, 0, 0);
    for index in 0..texts(30_000) {
        let case = generate(&mut Random::of_text(37, index));
        let Ok(plan) = named(&case.text) else {
            continue;
        };
        let found = plan.idle();
        assert_eq!(found, by_callers(&lines(&case.text).unwrap()), "{}", case.kind);
        assert_eq!(found, idle(&tree(&plan)), "{}", case.kind);
        let line = found.first().map(|proc| plan.procs[*proc].line);
        match (line, plan.recursive().is_empty(), read(&case.text)) {
            (Some(line), true, said) => {
                assert_eq!(said.err(), Some(Refusal { rule: 13, line }), "{}", case.kind);
                named_first += 1;
            }
            (_, _, said) => assert!(said.err().is_none_or(|refusal| refusal.rule != 13), "{}", case.kind),
        }
        none += usize::from(line.is_none());
        some += usize::from(line.is_some());
    }
    println!("{none} plans without an idle procedure, {some} with, {named_first} of them refused by rule 13");
    assert!(none > 4_000 && some > 400 && named_first > 300);
}

/// The plans in `examples` that have an idle procedure.
const IDLE_EXAMPLES: [&str; 8] = [
    "forty-procedures-one-thread",
    "idle-called-by-idle",
    "idle-recursion",
    "indented-idle-procedure",
    "last-procedure-idle",
    "rule-8-before-13",
    "rule-12-before-13",
    "rule-13-before-9",
];

/// Idle procedures only where a text is about them.
#[test]
fn fixed_texts_have_no_idle_procedures() {
    let on_shelf = shelf::idle_procedures().into_iter().map(|entry| entry.name);
    let about: BTreeSet<&str> = on_shelf.chain(IDLE_EXAMPLES).collect();
    let shelf = all().into_iter().chain(all_indented()).map(|entry| (entry.name.to_string(), entry.text));
    let long = lengths::all().into_iter().map(|long| (long.name.to_string(), long.text));
    let files = ["../c", "../../examples"].into_iter().flat_map(shelf::plans_in);
    let texts: Vec<(String, Vec<u8>)> = shelf.chain(long).chain(files).collect();
    let draft_of = |text: &[u8]| lines(text).and_then(|lines| structure(&lines)).map(|plan| tree(&plan)).ok();
    let drafts = texts.into_iter().filter_map(|(name, text)| Some((name, draft_of(&text)?)));
    let families = families::all().into_iter().chain(shares::all()).map(|(name, draft, _)| (name, draft));
    let (met, checked): (Vec<_>, Vec<_>) =
        drafts.chain(families).partition(|(name, _)| about.contains(name.as_str()));
    checked.iter().for_each(|(name, draft)| assert_eq!(idle(draft), [], "{name}"));
    let met: Vec<&str> =
        met.iter().filter(|(_, draft)| !idle(draft).is_empty()).map(|(name, _)| name.as_str()).collect();
    IDLE_EXAMPLES.iter().for_each(|name| assert!(met.contains(name), "{name}"));
    println!("{} texts without an idle procedure, {} with", checked.len(), met.len());
    assert!(checked.len() > 600 && met.len() > 100);
}

/// What is drawn for a plan without idle procedures has none and breaks the rule that it
/// broke, if any, but 13.
#[test]
fn employed_procedures() {
    let (mut idle_before, mut kept) = (0, 0);
    for index in 0..texts(6_000) {
        let random = &mut Random::of_text(38, index);
        let Ok(plan) = named(&generate(random).text) else {
            continue;
        };
        let draft = tree(&plan);
        let employed = employed(draft.clone(), random);
        assert_eq!(idle(&employed), []);
        if idle(&draft).is_empty() {
            assert_eq!(employed, draft);
            continue;
        }
        idle_before += 1;
        kept += usize::from(employed.procs.len() == draft.procs.len());
        let rule = |draft: &Draft| read(&draft.text()).err().map(|refusal| refusal.rule);
        match rule(&draft) {
            Some(13) => assert_ne!(rule(&employed), Some(13)),
            before => assert_eq!(rule(&employed), before),
        }
    }
    println!("{idle_before} plans with idle procedures, {kept} of them with all procedures still there");
    assert!(idle_before > 100 && 10 * kept > 9 * idle_before);
}

/// Rule 12, and the order in which sizes and pairs are found.
#[test]
fn recursive_procedures_are_those_of_ways() {
    let (mut none, mut some) = (0, 0);
    for index in 0..texts(20_000) {
        let case = generate(&mut Random::of_text(35, index));
        let Ok(plan) = named(&case.text) else {
            continue;
        };
        let recursive = plan.recursive();
        assert_eq!(recursive, by_ways(&lines(&case.text).unwrap()), "{}", case.kind);
        if !recursive.is_empty() {
            some += 1;
            continue;
        }
        none += 1;
        let order = plan.callees_first();
        assert_eq!(order.len(), plan.procs.len());
        let place = |proc: usize| order.iter().position(|other| *other == proc).unwrap();
        for proc in 0..plan.procs.len() {
            assert!(plan.callees(proc).all(|callee| place(callee) < place(proc)));
        }
    }
    println!("{none} plans without a recursive procedure, {some} with");
    assert!(some > 500);
}

/// The order of the procedures alters nothing but their numbers.
#[test]
fn shuffling_alters_nothing() {
    let (mut accepted, mut refused, mut deadlocks) = (0, 0, 0);
    for index in 0..texts(10_000) {
        let random = &mut Random::of_text(36, index);
        let Ok(one) = named(&generate(random).text) else {
            continue;
        };
        let numbers = random.permutation(one.procs.len());
        let text = tree(&one).permuted(&numbers).text();
        let two = named(&text).expect("the same procedures");
        let moved: BTreeSet<usize> = one.recursive().iter().map(|proc| numbers[*proc]).collect();
        assert_eq!(moved, two.recursive().into_iter().collect());
        assert_eq!(tree(&two).permuted(&inverse(&numbers)), tree(&one));
        match (read(&tidy(&one)), read(&text)) {
            (Ok(one), Ok(two)) => {
                for (proc, number) in numbers.iter().enumerate() {
                    assert_eq!(one.sizes[proc], two.sizes[*number]);
                    assert_eq!(one.pairs[proc], two.pairs[*number]);
                }
                // A schedule of the one is one of the other.
                if let Verdict::Deadlock { schedule, stuck } = judge(&one) {
                    right(&two, &schedule, stuck);
                    deadlocks += 1;
                }
                assert_eq!(judge(&one) == Verdict::Free, judge(&two) == Verdict::Free);
                accepted += 1;
            }
            (Err(one), Err(two)) => {
                assert_eq!(one.rule, two.rule);
                refused += 1;
            }
            (one, two) => panic!("{:?}, {:?}", one.err(), two.err()),
        }
    }
    println!("{accepted} accepted, {deadlocks} of them deadlocks, {refused} refused");
    assert!(accepted > 3_000 && deadlocks > 1_000 && refused > 300);
}

fn inverse(numbers: &[usize]) -> Vec<usize> {
    (0..numbers.len()).map(|number| numbers.iter().position(|other| *other == number).unwrap()).collect()
}

#[test]
fn pairs_are_those_of_executions() {
    let (mut procs, mut pairs) = (0, 0);
    for index in 0..texts(15_000) {
        let case = generate(&mut Random::of_text(41, index));
        let Ok(plan) = read(&case.text) else {
            continue;
        };
        for proc in 0..plan.procs.len() {
            if plan.procs.len() > 12 && proc % 7 != 0 {
                continue;
            }
            assert_eq!(by_execution(&plan, proc), plan.pairs[proc], "{}", case.kind);
            procs += 1;
            pairs += plan.pairs[proc].len();
        }
    }
    println!("{pairs} pairs of {procs} procedures");
}

#[test]
fn a_procedure_has_no_more_states_than_its_size_and_one() {
    for index in 0..texts(3_000) {
        let case = generate(&mut Random::of_text(51, index));
        let Ok(plan) = read(&case.text) else {
            continue;
        };
        for proc in plan.threads.iter() {
            let automaton = Automaton::new(&plan, *proc);
            assert!(automaton.states.len() as u64 <= plan.sizes[*proc] + 1);
        }
    }
}

#[test]
fn words_ascend_with_the_order_of_pairs() {
    let mut random = Random::new(61);
    for _ in 0..10_000 {
        let mut set = || (random.next() >> random.below(64)) as u32 & (random.next() as u32 | 1);
        let (held, shared) = ([set(), set()], [set(), set()]);
        let any = random.chance(50);
        let mut pair = |at: usize| {
            let (held, shared) = if any { (held[at], shared[at]) } else { (held[0], shared[at]) };
            Pair { held, shared, wanted: random.below(32) as u32, by_hold: random.chance(50) }
        };
        let (a, b) = (pair(0), pair(1));
        assert_eq!(a.cmp(&b), a.words().cmp(&b.words()));
    }
}

/// Free or deadlock by all reachable states and by the condition over pairs.
#[test]
fn both_verdicts_agree() {
    let (mut free, mut deadlocks, mut given_up, mut refused, mut missed) = (0, 0, 0, 0, 0);
    let mut sizes = [0; 7];
    for index in 0..texts(30_000) {
        let random = &mut Random::of_text(71, index);
        let draft = small_plan(random);
        let Ok(plan) = read(&draft.text()) else {
            refused += 1;
            continue;
        };
        let Some(explored) = explore(&plan, 20_000) else {
            given_up += 1;
            continue;
        };
        let found = conflict(&pairs_of_threads(&plan));
        match explored {
            Verdict::Free => {
                assert_eq!(found, None, "{}", String::from_utf8(draft.text()).unwrap());
                free += 1;
            }
            Verdict::Deadlock { schedule: shortest, stuck } => {
                let Some(found) = found else {
                    panic!("{}", String::from_utf8(draft.text()).unwrap());
                };
                assert!(conflicting(&found));
                right(&plan, &shortest, stuck);
                // A schedule from any conflict, whether or not a run comes to it.
                for _ in 0..3 {
                    let mut pairs = pairs_of_threads(&plan);
                    pairs.iter_mut().for_each(|own| random.shuffle(own));
                    let any = conflict(&pairs).expect("the order does not matter");
                    let (other, reached) = schedule_told(&plan, &any);
                    right(&plan, &other, replay(&plan, &other).unwrap().largest_stuck(&plan));
                    missed += usize::from(!reached);
                }
                deadlocks += 1;
                sizes[stuck.count_ones() as usize] += 1;
            }
        }
    }
    println!("{free} free, {deadlocks} deadlocks, {given_up} given up, {refused} refused");
    println!("deadlocks by stuck threads: {sizes:?}; conflicts that no run came to: {missed}");
    assert!(deadlocks > 5_000 && free > 5_000);
}

/// The search for cycles against the theorem word for word.
#[test]
fn cycles_are_enough() {
    let mut conflicts = 0;
    let count = texts(20_000);
    for index in 0..count {
        let random = &mut Random::of_text(81, index);
        let (locks, shares) = (random.between(2, 5), random.chance(70));
        let threads: Vec<Vec<Pair>> = (0..random.between(1, 5))
            .map(|_| {
                let pair = |random: &mut Random| {
                    let mut set = || random.below(1 << locks) as u32 & random.below(1 << locks) as u32;
                    let (held, shared) = (set(), if shares { set() } else { 0 });
                    let (wanted, by_hold) = (random.below(locks) as u32, !shares || random.chance(60));
                    let had = if by_hold { held } else { held | shared };
                    (had >> wanted & 1 == 0).then_some(Pair { held, shared, wanted, by_hold })
                };
                (0..random.between(1, 5)).filter_map(|_| pair(random)).collect()
            })
            .collect();
        let found = conflict(&threads);
        assert_eq!(found.is_some(), conflict_by_choice(&threads).is_some(), "{threads:?}");
        if let Some(found) = found {
            assert!(conflicting(&found));
            conflicts += 1;
        }
    }
    println!("{conflicts} conflicts of {count}");
}

/// The largest stuck set a second time: drop threads that may step until none may.
#[test]
fn largest_stuck_set_is_what_remains() {
    let mut stuck = 0;
    for index in 0..texts(4_000) {
        let random = &mut Random::of_text(91, index);
        let Ok(plan) = read(&small_plan(random).text()) else {
            continue;
        };
        let mut state = State::new(&plan);
        for _ in 0..60 {
            let had: Vec<Locks> = state.threads.iter().map(|thread| thread.had()).collect();
            let mut set: Vec<usize> = (0..had.len()).filter(|t| !state.threads[*t].finished()).collect();
            while let Some(place) = set.iter().position(|t| {
                let others = Locks::joined(set.iter().filter(|o| *o != t).map(|o| had[*o]));
                state.threads[*t].steps(&plan).any(|(_, next)| next.had().beside(others))
            }) {
                set.remove(place);
            }
            let remains = set.iter().fold(0, |all, thread| all | 1_u32 << thread);
            assert_eq!(state.largest_stuck(&plan), remains);
            stuck += usize::from(remains != 0);
            // Any step, permitted or not.
            for _ in 0..8 {
                if state.step(&plan, random.below(8), random.below(4) as u16) {
                    break;
                }
            }
        }
    }
    println!("{stuck} states with a stuck set");
    assert!(stuck > 1_000);
}

#[test]
fn steps_that_are_never_permitted() {
    let plan = read(&shelf().remove(0).text).unwrap();
    for word in [2, 7, 8, 16, 24, 255, 256, 0x8000, 0xffff] {
        assert_eq!(replay(&plan, &[word]), Err(0), "{word}");
    }
    // To the end of thread 0, and one step more.
    assert!(replay(&plan, &[0; 5]).unwrap().threads[0].finished());
    assert_eq!(replay(&plan, &[0; 6]), Err(5));
    assert_eq!(replay(&plan, &[0, 1, 0]), Err(2));
    assert_eq!(replay(&plan, &[]).unwrap().largest_stuck(&plan), 0);
}

#[test]
fn families_give_what_they_say() {
    // Where more pairs are tried, the verdict is known by how the plan is made alone.
    const TRIES: u64 = 8_000_000;
    let mut given_up = Vec::new();
    for (name, draft, deadlock) in families::all().into_iter().chain(shares::all()) {
        let plan = read(&draft.text()).unwrap_or_else(|refusal| panic!("{name}: {refusal:?}"));
        let pairs: Vec<usize> = plan.threads.iter().map(|proc| plan.pairs[*proc].len()).collect();
        println!("{name}: pairs {pairs:?}, sizes {}", plan.size_of_threads());
        let Some((found, _)) = conflict_within(&pairs_of_threads(&plan), TRIES) else {
            assert!(!deadlock, "{name}");
            given_up.push(name);
            continue;
        };
        assert_eq!(found.is_some(), deadlock, "{name}");
        if let Some(found) = found {
            let entries = schedule(&plan, &found);
            right(&plan, &entries, replay(&plan, &entries).unwrap().largest_stuck(&plan));
        }
    }
    println!("given up: {given_up:?}");
    assert!(given_up.len() <= 3);
    let late = read(&families::late(6).text()).unwrap();
    let Verdict::Deadlock { schedule, .. } = judge(&late) else { panic!() };
    assert_eq!((late.size_of_threads(), schedule.len()), (6_144, 6_120));
}

/// A climb by the pairs that the reference tries: the same twice, and higher.
#[test]
fn climbs() {
    let (_, start, _) = families::all().into_iter().find(|(name, _, _)| name == "lists-3-of-17-own").unwrap();
    let climb = |seed: u64| {
        let measure = |text: &[u8], _: u64| {
            let plan = read(text).expect("an accepted plan");
            let (found, left) = conflict_within(&pairs_of_threads(&plan), 1_000_000)?;
            Some((found.is_some(), 1_000_000 - left))
        };
        let mut climb = Climb::new(Chains::of(&start), Some(false), seed, measure).unwrap();
        let first = climb.best.1;
        (0..60).for_each(|_| {
            climb.step();
        });
        (first, climb.best.1, climb.best.0.text(), climb.kept)
    };
    let (first, best, text, kept) = climb(1);
    println!("from {first} to {best} pairs tried, {kept} changes kept");
    assert!(best > first && kept > 5);
    assert_eq!(climb(1), (first, best, text.clone(), kept));
    assert_ne!(climb(2).2, text);
    assert!(conflict(&pairs_of_threads(&read(&text).unwrap())).is_none());
}

/// A climb never comes to a refused plan, also from a start with bodies that no thread
/// comes to.
#[test]
fn climbs_over_accepted_plans() {
    let (mut idle_starts, mut steps) = (0, 0);
    for seed in 0..texts(60) {
        let start = Chains::random(&mut Random::new(seed));
        idle_starts += usize::from(!idle(&start.draft()).is_empty());
        let measure =
            |text: &[u8], _: u64| Some((false, read(text).expect("an accepted plan").size_of_threads()));
        let mut climb = Climb::new(start, None, seed, measure).expect("a start that fits");
        for _ in 0..40 {
            climb.step();
        }
        steps += climb.kept;
    }
    println!("{idle_starts} starts with idle bodies, {steps} changes kept");
    assert!(idle_starts > 10 && steps > 500);
}

/// A schedule for every generated deadlock, also of plans too large for all states.
#[test]
fn every_deadlock_has_a_schedule() {
    let (mut deadlocks, mut longest) = (0, 0);
    for index in 0..texts(30_000) {
        let case = generate(&mut Random::of_text(101, index));
        let Ok(plan) = read(&case.text) else {
            continue;
        };
        if let Some(found) = conflict(&pairs_of_threads(&plan)) {
            let entries = schedule(&plan, &found);
            right(&plan, &entries, replay(&plan, &entries).unwrap().largest_stuck(&plan));
            deadlocks += 1;
            longest = longest.max(entries.len());
        }
    }
    println!("{deadlocks} schedules, the longest of {longest} entries");
}

/// Every rule is met, every kind generated, often enough.
#[test]
fn generator_meets_everything() {
    const TEXTS: usize = 40_000;
    let mut outcomes = BTreeMap::new();
    let mut kinds = BTreeMap::new();
    let (mut over, mut called, mut summed) = (Over::default(), Called::default(), Summed::default());
    let (mut paired, mut unused) = (Paired::default(), Unused::default());
    let (mut crossings, mut branches) = (crossings::Crossings::default(), straight::Branches::default());
    let mut shared = shared::Shared::default();
    for index in 0..TEXTS {
        let case = generate(&mut Random::of_text(1, index as u64));
        let outcome = match read(&case.text) {
            Err(refusal) => Outcome::Refused(refusal.rule),
            Ok(plan) if conflict(&pairs_of_threads(&plan)).is_some() => Outcome::Deadlock,
            Ok(_) => Outcome::Free,
        };
        *outcomes.entry(outcome).or_insert(0) += 1;
        *kinds.entry(case.kind).or_insert(0) += 1;
        over.count(&case.text);
        called.count(&case.text);
        summed.count(&case.text);
        paired.count(&case.text);
        unused.count(&case.text);
        crossings.count(&case.text);
        branches.count(&case.text);
        shared.count(&case.text);
    }
    let accepted = outcomes[&Outcome::Free] + outcomes[&Outcome::Deadlock];
    println!("{outcomes:?}\n{kinds:?}\n{over:?}\n{called:?}\n{summed:?}\n{paired:?}\n{unused:?}");
    println!("{crossings:?}\n{branches:?}\n{shared:?}");
    println!("{accepted} of {TEXTS} accepted, {} refused by rule 13", outcomes[&Outcome::Refused(13)]);
    over.enough();
    called.enough();
    summed.enough();
    paired.enough();
    unused.enough();
    crossings.enough();
    branches.enough();
    shared.enough();
    for rule in RULES {
        assert!(outcomes[&Outcome::Refused(rule)] >= 30, "rule {rule}");
    }
    assert!(outcomes[&Outcome::Free] > 3_000 && outcomes[&Outcome::Deadlock] > 3_000);
    assert!(enough_accepted(accepted, TEXTS as u64));
}

/// The share of accepted texts that the comparison asks for.
#[test]
fn a_third_is_not_enough() {
    let told = [(0, 999), (0, 1_000), (333, 999), (333, 1_000), (334, 1_000), (334, 1_002), (335, 1_002)];
    let enough = told.map(|(accepted, generated)| enough_accepted(accepted, generated));
    assert_eq!(enough, [true, false, true, false, true, false, true]);
}

/// The rules that a plan can break.
const RULES: [u8; 10] = [2, 3, 4, 5, 6, 7, 8, 12, 13, 9];

/// What there is of calls.
#[derive(Debug, Default)]
struct Called {
    /// Accepted texts with calls of later procedures, and with calls of both kinds.
    later: usize,
    both: usize,
    /// Recursive texts by the number of procedures in the shortest circle.
    circles: BTreeMap<usize, usize>,
    /// Of these, where the procedure that is named is not the lowest that reaches a circle.
    reaching_before: usize,
    /// Recursive and refused by 7 or 8; refused by 12 and too large, or with too many pairs.
    absent_call: usize,
    absent_thread: usize,
    too_large: usize,
    too_many_pairs: usize,
}

impl Called {
    fn count(&mut self, text: &[u8]) {
        let Ok(plan) = lines(text).and_then(|lines| structure(&lines)) else {
            return;
        };
        let count = plan.procs.len();
        let calls = || (0..count).flat_map(|proc| plan.callees(proc).map(move |callee| (proc, callee)));
        let (later, earlier) = (calls().any(|(a, b)| b > a), calls().any(|(a, b)| b < a));
        let part = |kept: &dyn Fn(usize) -> bool| {
            let statement = |_, callee| if kept(callee) { Tree::Call(callee) } else { Tree::Skip };
            structure(&lines(&tree(&plan).with_calls(statement).text()).unwrap()).unwrap()
        };
        match read(text) {
            Ok(_) => {
                self.later += usize::from(later);
                self.both += usize::from(later && earlier);
            }
            Err(Refusal { rule: 7, .. }) => {
                self.absent_call += usize::from(!part(&|callee| callee < count).recursive().is_empty());
            }
            Err(Refusal { rule: 8, .. }) => self.absent_thread += usize::from(!plan.recursive().is_empty()),
            Err(Refusal { rule: 12, .. }) => {
                let recursive = plan.recursive();
                let rest = part(&|callee| !recursive.contains(&callee));
                self.too_large += usize::from(sizes(&rest).iter().any(|size| *size > MAX_SIZE));
                let pairs = compositional(&rest);
                self.too_many_pairs += usize::from(pairs.iter().any(|pairs| pairs.len() > MAX_PAIRS));
                let reaches = |proc: usize| plan.reached(proc).iter().any(|other| recursive.contains(other));
                self.reaching_before += usize::from((0..recursive[0]).any(reaches));
                *self.circles.entry(shortest_circle(&plan)).or_default() += 1;
            }
            Err(_) => {}
        }
    }

    /// Of 40,000 texts.
    fn enough(&self) {
        assert!(self.later > 3_000 && self.both > 2_000);
        assert!([1, 2, 3].iter().all(|length| self.circles[length] >= 50));
        assert!(self.circles.range(4..13).map(|(_, count)| count).sum::<usize>() >= 50);
        assert!(self.circles.range(13..).map(|(_, count)| count).sum::<usize>() >= 20);
        assert!(self.reaching_before >= 100);
        assert!(self.absent_call >= 20 && self.absent_thread >= 20);
        assert!(self.too_large >= 20 && self.too_many_pairs >= 20);
    }
}

/// What there is of sums, in accepted texts.
#[derive(Debug, Default)]
struct Summed {
    /// With one thread, with a procedure that several run, and with one that is only called.
    one_thread: usize,
    shared: usize,
    only_called: usize,
    /// Near the largest sum.
    large: usize,
}

impl Summed {
    fn count(&mut self, text: &[u8]) {
        let Ok(plan) = sized(text) else {
            return;
        };
        let run: BTreeSet<usize> = plan.threads.iter().copied().collect();
        self.one_thread += usize::from(plan.threads.len() == 1);
        self.shared += usize::from(run.len() < plan.threads.len());
        self.only_called += usize::from(run.len() < plan.procs.len());
        self.large += usize::from(plan.size_of_threads() as usize > MAX_SUM - 20);
    }

    /// Of 40,000 texts.
    fn enough(&self) {
        assert!(self.one_thread >= 300 && self.shared >= 1_000 && self.only_called >= 1_000);
        assert!(self.large >= 50);
    }
}

/// What there is of idle procedures, and of those that are used by little.
#[derive(Debug, Default)]
struct Unused {
    /// Refused by rule 13: with one idle procedure, with several, with all but one.
    one: usize,
    several: usize,
    all_but_one: usize,
    /// Of these, the first idle, the last; an idle one that an idle one calls, and one that
    /// calls a used one.
    first: usize,
    last: usize,
    called_by_idle: usize,
    calls_used: usize,
    /// Refused by 13 with a size past the limit, and with idle ones by 12 and by 8.
    too_large: usize,
    recursive: usize,
    absent_thread: usize,
    /// Accepted: with a procedure that is reached through 20 calls or more, through 63, by
    /// the last of several threads alone, through calls inside alone.
    far: usize,
    farthest: usize,
    by_the_last: usize,
    inside: usize,
}

impl Unused {
    fn count(&mut self, text: &[u8]) {
        let Ok(plan) = lines(text).and_then(|lines| structure(&lines)) else {
            return;
        };
        match read(text) {
            Ok(_) => self.accepted(&plan),
            Err(Refusal { rule: 13, .. }) => self.refused(&plan),
            Err(Refusal { rule: 12, .. }) => self.recursive += usize::from(!plan.idle().is_empty()),
            Err(Refusal { rule: 8, .. }) => self.absent_thread += usize::from(!idle(&tree(&plan)).is_empty()),
            Err(_) => {}
        }
    }

    fn refused(&mut self, plan: &Plan) {
        let (idle, count) = (plan.idle(), plan.procs.len());
        let calls = || idle.iter().flat_map(|proc| plan.callees(*proc));
        self.one += usize::from(idle.len() == 1);
        self.several += usize::from(idle.len() > 1);
        self.all_but_one += usize::from(idle.len() > 1 && idle.len() + 1 == count);
        self.first += usize::from(idle[0] == 0);
        self.last += usize::from(idle.contains(&(count - 1)));
        self.called_by_idle += usize::from(calls().any(|callee| idle.contains(&callee)));
        self.calls_used += usize::from(calls().any(|callee| !idle.contains(&callee)));
        self.too_large += usize::from(sizes(plan).iter().any(|size| *size > MAX_SIZE));
    }

    fn accepted(&mut self, plan: &Plan) {
        let mut left: BTreeSet<usize> = (0..plan.procs.len()).collect();
        let mut last: BTreeSet<usize> = plan.threads.iter().copied().collect();
        let mut calls = 0;
        while left.len() > last.len() {
            left.retain(|proc| !last.contains(proc));
            last =
                last.iter().flat_map(|proc| plan.callees(*proc)).filter(|proc| left.contains(proc)).collect();
            calls += 1;
        }
        self.far += usize::from(calls >= 20);
        self.farthest += usize::from(calls == 63);
        let draft = tree(plan);
        let but_the_last = draft.threads[..draft.threads.len() - 1].to_vec();
        self.by_the_last += usize::from(!idle(&Draft { threads: but_the_last, ..draft.clone() }).is_empty());
        let outside = |block: &Vec<Tree>| -> Vec<Tree> {
            block.iter().filter(|tree| matches!(tree, Tree::Call(_))).cloned().collect()
        };
        let procs = draft.procs.iter().map(outside).collect();
        self.inside += usize::from(!idle(&Draft { procs, ..draft }).is_empty());
    }

    /// Of 40,000 texts.
    fn enough(&self) {
        assert!([self.one, self.several, self.all_but_one].iter().all(|count| *count >= 50));
        assert!([self.first, self.last, self.called_by_idle, self.calls_used]
            .iter()
            .all(|count| *count >= 100));
        assert!([self.too_large, self.recursive, self.absent_thread].iter().all(|count| *count >= 20));
        assert!(self.far >= 50 && self.farthest >= 5 && self.by_the_last >= 1_000 && self.inside >= 500);
    }
}

/// What there is of many pairs, in the procedure of a text that has most.
#[derive(Debug, Default)]
struct Paired {
    /// Accepted texts with up to 128, and with more: up to 255, up to 495, and 496.
    few: usize,
    from_129: usize,
    from_256: usize,
    most: usize,
    /// Of those from 129 on, free ones and deadlocks of two threads or more.
    free: usize,
    deadlock: usize,
    /// Refused by rule 9 with more pairs than a buffer has words.
    refused: usize,
}

impl Paired {
    fn count(&mut self, text: &[u8]) {
        match read(text) {
            Ok(plan) => self.accepted(&plan),
            Err(Refusal { rule: 9, .. }) => {
                let pairs = compositional(&named(text).unwrap());
                self.refused += usize::from(pairs.iter().any(|pairs| pairs.len() > MAX_PAIRS));
            }
            Err(_) => {}
        }
    }

    fn accepted(&mut self, plan: &Plan) {
        let most = plan.pairs.iter().map(|pairs| pairs.len()).max().unwrap();
        match most {
            0..=128 => self.few += 1,
            129..=255 => self.from_129 += 1,
            256..MOST_PAIRS => self.from_256 += 1,
            _ => self.most += 1,
        }
        if most > 128 && plan.threads.len() > 1 {
            let found = conflict(&pairs_of_threads(plan)).is_some();
            self.deadlock += usize::from(found);
            self.free += usize::from(!found);
        }
    }

    /// Of 40,000 texts.
    fn enough(&self) {
        assert!(self.from_129 >= 150 && self.from_256 >= 150 && self.most >= 30);
        assert!(self.free >= 50 && self.deadlock >= 100 && self.refused >= 50);
    }
}

/// No procedure of a plan that keeps rule 9 has more pairs than a buffer has words, since
/// twice the pairs and one are at most the size.
#[test]
fn pairs_are_fewer_than_half_the_size() {
    let (mut procs, mut most, mut equal) = (0, 0, 0);
    let fixed = all().into_iter().map(|entry| entry.text);
    let plans = families::all().into_iter().chain(shares::all()).map(|(_, draft, _)| draft.text());
    let generated = (0..texts(20_000)).map(|index| generate(&mut Random::of_text(131, index)).text);
    for text in fixed.chain(plans).chain(generated) {
        let Ok(plan) = read(&text) else {
            continue;
        };
        for (pairs, size) in plan.pairs.iter().zip(&plan.sizes) {
            let least = 2 * pairs.len() as u64 + 1;
            assert!(least <= *size, "{} pairs, size {size}", pairs.len());
            assert!(pairs.len() <= MOST_PAIRS && MOST_PAIRS <= MAX_PAIRS);
            procs += 1;
            most = most.max(pairs.len());
            equal += usize::from(least == *size);
        }
    }
    println!("{procs} procedures, at most {most} pairs, {equal} with no more than a skip beside");
    assert!(most == MOST_PAIRS && equal > 1_000);
}

/// The number of procedures in a shortest circle of calls.
fn shortest_circle(plan: &Plan) -> usize {
    let around = |proc: usize| {
        let mut ends: BTreeSet<usize> = plan.callees(proc).collect();
        (1..=plan.procs.len()).find(|_| {
            let back = ends.contains(&proc);
            ends = ends.iter().flat_map(|end| plan.callees(*end)).collect();
            back
        })
    };
    (0..plan.procs.len()).filter_map(around).min().expect("a circle")
}

/// What there is of texts with something that is passed over.
#[derive(Debug, Default)]
struct Over {
    texts: usize,
    accepted: usize,
    /// By rule, with a line that is passed over before the one that is named.
    before: [usize; 14],
    /// A remark or blank line that is not ended.
    not_ended: usize,
    /// Too long, and nothing else is broken.
    too_long: usize,
    /// As long as allowed.
    longest: usize,
}

impl Over {
    fn count(&mut self, text: &[u8]) {
        let lines: Vec<&[u8]> = text.split_inclusive(|byte| *byte == 10).collect();
        let over = |line: &&[u8]| passed_over(bare(line.strip_suffix(b"\n").unwrap_or(line)));
        self.texts += usize::from(lines.iter().any(|line| line.starts_with(b" ") || over(line)));
        let without = without_over(text);
        match read(text) {
            Ok(_) => {
                self.accepted += usize::from(without != text);
                self.longest += usize::from(text.len() == MAX_BYTES);
            }
            Err(Refusal { rule: 2, .. }) => self.too_long += usize::from(read(&without).is_ok()),
            Err(Refusal { rule, line }) => {
                let before = &lines[..line.saturating_sub(1).min(lines.len())];
                self.before[rule as usize] += usize::from(before.iter().any(over));
                self.not_ended += usize::from(!text.ends_with(b"\n") && lines.last().is_some_and(over));
            }
        }
    }

    /// Of 40,000 texts.
    fn enough(&self) {
        assert!(self.texts > 6_700 && self.accepted > 3_000);
        assert!(RULES[1..].iter().all(|rule| self.before[*rule as usize] >= 30));
        assert!(self.not_ended >= 100 && self.too_long >= 30 && self.longest >= 100);
    }
}

fn run(calls: Calls, count: u64, edges: bool) -> Result<Bench, (u64, String)> {
    let mut bench = Bench::new(edges);
    let fixed: Vec<Vec<u8>> = all().into_iter().map(|entry| entry.text).collect();
    for index in 0..count {
        let random = &mut Random::of_text(111, index);
        let text = match fixed.get(index as usize) {
            Some(text) => text.clone(),
            None => generate(random).text,
        };
        bench.check(calls, &text, random).map_err(|message| (index, message))?;
    }
    Ok(bench)
}

/// The comparison accepts the stand-in made of the reference.
#[test]
fn comparison_accepts_the_stand_in() {
    let bench = run(standin::CALLS, texts(4_000), true)
        .unwrap_or_else(|(index, message)| panic!("{index}: {message}"));
    println!("{:?}", bench.counts);
    assert!(bench.counts.at_the_sum > 1_000 && bench.counts.one_less > 1_000);
    assert!(bench.counts.least_words > 1_000 && bench.counts.one_word_less > 500);
    assert!(bench.counts.all_couples > 500 && bench.counts.some_couples > 1_000);
    assert!(bench.counts.not_two > 1_000);
    let twins = bench.twins;
    println!("{} couples of one plan, {} of two", twins.equal, twins.different);
    println!("{} accepted plans shuffled, {} refused ones", twins.shuffled, twins.shuffled_refused);
    assert!(twins.shuffled > 1_000 && twins.shuffled_refused > 150);
    println!("two threads alone: {} free, {} deadlocks", twins.alone_free, twins.alone_deadlock);
    assert!(twins.alone_free > 1_000 && twins.alone_deadlock > 1_000);
    println!("straightened: {} free, {} deadlocks", twins.straight_free, twins.straight_deadlock);
    println!("{} plans with more eithers and loops", twins.bent);
    assert!(twins.straight_free > 700 && twins.straight_deadlock > 500 && twins.bent > 1_000);
}

/// The comparison finds each fault of the stand-in, and soon.
#[test]
fn comparison_finds_every_fault() {
    let found = |what: &str, name: &str, calls: Calls| {
        let (index, message) =
            run(calls, 4_000, false).err().unwrap_or_else(|| panic!("{name} is not found"));
        println!("{what}, {name}: text {index}, {message}");
    };
    for (name, pairs) in standin::FAULTY_PAIRS {
        found("pairs", name, Calls { pairs, ..standin::CALLS });
    }
    for (name, verdict) in standin::FAULTY_VERDICTS {
        found("verdict", name, Calls { verdict, ..standin::CALLS });
    }
    for (name, tidy) in standin::FAULTY_TIDIES.into_iter().chain(faulty_copies::<Tidy>()) {
        found("tidy", name, Calls { tidy, ..standin::CALLS });
    }
    for (name, straight) in standin::FAULTY_STRAIGHTS.into_iter().chain(faulty_copies::<Straight>()) {
        found("straight", name, Calls { straight, ..standin::CALLS });
    }
    for (name, space) in standin::FAULTY_SPACES {
        found("space", name, Calls { space, ..standin::CALLS });
    }
    for (name, crossings) in standin::FAULTY_CROSSINGS {
        found("crossings", name, Calls { crossings, ..standin::CALLS });
    }
    for (name, Calls { verdict, space, .. }) in standin::FAULTY_SUMS {
        found("verdict by a sum", name, Calls { verdict, ..standin::CALLS });
        found("space by a sum", name, Calls { space, ..standin::CALLS });
    }
    for (name, calls) in standin::FAULTY_READINGS.into_iter().chain(standin::FAULTY_SHARES) {
        found("reading", name, calls);
    }
}

/// What is said of the procedures in another order finds each fault of a reading that
/// concerns texts of right names, without what the reference says of the text itself.
#[test]
fn shuffled_procedures_find_faults() {
    let names = [
        "absent from 64 on",
        "six bits of a callee",
        "rule 12 before rule 7",
        "rule 12 before rule 8",
        "rule 13 before rule 8",
    ];
    let entries = shelf::calls().into_iter().chain(shelf::idle_procedures());
    let fixed: Vec<Vec<u8>> = entries.map(|entry| entry.text).collect();
    let readings = standin::FAULTY_READINGS.into_iter().filter(|(name, _)| !names.contains(name));
    let sum = standin::FAULTY_SUMS.into_iter().filter(|(name, _)| name.contains("threads' numbers"));
    let space = sum.map(|(name, Calls { space, .. })| (name, Calls { space, ..standin::CALLS }));
    for (name, calls) in readings.chain(space) {
        let mut twins = Twins::default();
        // Each fixed text in sixty orders.
        let found = (0..60 * fixed.len()).find_map(|index| {
            let (text, random) = (&fixed[index % fixed.len()], &mut Random::of_text(113, index as u64));
            let message = twins.check(calls, text, &read(text), random).err()?;
            message.starts_with("the procedures shuffled").then_some((index, message))
        });
        let (index, message) = found.unwrap_or_else(|| panic!("{name} is not found"));
        println!("{name}: text {index}, {message}");
    }
}

/// The same fault at inaccessible memory; ends the process.
#[test]
#[ignore = "run by the next test in a process of its own"]
fn memory_fault() {
    guard::report_faults();
    let (_, pairs) = standin::FAULTY_PAIRS.iter().find(|(name, _)| name.contains("behind")).unwrap();
    let calls = Calls { pairs: *pairs, ..standin::CALLS };
    let mut bench = Bench::new(true);
    let text = shelf().remove(0).text;
    for index in 0..1_000 {
        guard::now(7, index);
        let _ = bench.check(calls, &text, &mut Random::new(index));
    }
}

#[test]
#[cfg(target_os = "linux")]
fn a_memory_fault_names_the_text() {
    let program = std::env::current_exe().unwrap();
    let arguments = ["--exact", "memory_fault", "--ignored", "--nocapture"];
    let output = std::process::Command::new(program).args(arguments).output().unwrap();
    let message = String::from_utf8_lossy(&output.stderr);
    assert_eq!(output.status.code(), Some(101), "{message}");
    assert!(message.contains("memory fault inside the call: --seed 7 --only "), "{message}");
}

#[test]
fn check_of_a_report() {
    let mut deadlocks = 0;
    for index in 0..texts(2_000) {
        let case = generate(&mut Random::of_text(121, index));
        let printed = report(&case.text);
        assert_eq!(check(&case.text, &printed), Ok(()), "{}", case.kind);
        // One byte changed is another report.
        let mut wrong = printed.clone();
        let at = index as usize % wrong.len();
        wrong[at] ^= 1;
        if check(&case.text, &wrong).is_ok() {
            // Only a choice or thread of another run.
            let line = wrong[..at].iter().rposition(|byte| *byte == 10).unwrap() + 1;
            assert!(wrong[line..].starts_with(b"(step "), "{}", String::from_utf8_lossy(&wrong));
        }
        deadlocks += usize::from(printed.windows(9).any(|part| part == b"(deadlock"));
    }
    println!("{deadlocks} reports with a schedule");
}
