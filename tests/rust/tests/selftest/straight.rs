//! The straightened copy: what it is, and what is said of it.

use lockplan_tests::answer::FREE;
use lockplan_tests::askew;
use lockplan_tests::branches::{about_branches, bent};
use lockplan_tests::reference::{MAX_BRACKETS, MAX_STATEMENTS};
use lockplan_tests::shares::mixed;
use lockplan_tests::straight::{printed, straight, straightened};

use super::*;

#[test]
fn shelf_straightened() {
    let mut stated = 0;
    for entry in all().into_iter().chain(all_indented()) {
        let name = entry.name;
        let Ok(plan) = read(&entry.text) else {
            assert!(entry.straight.is_empty(), "{name}");
            continue;
        };
        if entry.straight.is_empty() {
            continue;
        }
        stated += 1;
        let expected = Draft { procs: entry.straight, threads: plan.threads.clone() };
        assert_eq!(straightened(&tree(&plan)), expected, "{name}");
        assert_eq!(straight(&plan), expected.text(), "{name}");
    }
    println!("{stated} straightened copies");
    assert!(stated >= 150);
}

/// What is printed of a shelf's plan.
fn printed_of(name: &str) -> String {
    String::from_utf8(printed(&named_entry(name).text)).unwrap()
}

#[test]
fn straightened_copies_as_they_are_printed() {
    let h =
        "(plan\n(proc\n(hold 0\n(hold 1\n(skip)\n)\n)\n(skip)\n)\n(proc\n(hold 1\n(hold 0\n(skip)\n)\n)\n)\n\
        (thread 0)\n(thread 1)\n)\n";
    assert_eq!(printed_of("H"), h);
    assert_eq!(printed_of("I"), "(plan\n(proc\n(hold 0\n(skip)\n)\n)\n(thread 0)\n(thread 0)\n)\n");
    assert_eq!(printed_of("16 loops"), "(plan\n(proc\n(skip)\n)\n(thread 0)\n)\n");
    assert_eq!(printed_of("A indented").as_bytes(), named_entry("A").text);
    assert_eq!(printed_of("17 loops"), "(refused 5 19)\n");
    assert_eq!(printed_of("J"), "(refused 4 1)\n");
    assert_eq!(printed_of("32,769 line ends"), "(refused 2 0)\n");
    assert_eq!(printed_of("size 1,025 of 341 loops"), "(refused 9 2)\n");
    assert_eq!(printed_of("an idle one called in an idle loop"), "(refused 13 5)\n");
    assert_eq!(printed_of("a circle through an either and a loop"), "(refused 12 2)\n");
}

/// The straightened copy from the tree is that from the lines, and that of a plan with the same
/// pairs and threads, and so the same verdict, which is no larger; where there is a deadlock it has
/// a schedule.
#[test]
fn straightened_copies() {
    let (mut shorter, mut unchanged, mut deadlocks) = (0, 0, 0);
    for index in 0..texts(20_000) {
        let random = &mut Random::of_text(301, index);
        let text = if random.chance(40) { about_branches(random).text() } else { generate(random).text };
        let Ok(plan) = read(&text) else {
            continue;
        };
        let copy = straight(&plan);
        assert_eq!(copy, askew::copy_by_lines(&text));
        let own = read(&copy).expect("an accepted copy");
        assert_eq!((tidy(&own), straight(&own)), (copy.clone(), copy.clone()));
        assert_eq!((&own.threads, &own.pairs), (&plan.threads, &plan.pairs));
        assert!(own.sizes.iter().zip(&plan.sizes).all(|(own, size)| own <= size));
        assert!(own.blocks.iter().flatten().all(|stmt| !matches!(stmt, Stmt::Loop(_) | Stmt::Either(..))));
        let found = conflict(&pairs_of_threads(&own));
        let tidied = tidy(&plan);
        assert!(copy.len() <= tidied.len());
        if copy == tidied {
            unchanged += 1;
            continue;
        }
        shorter += 1;
        if let Some(found) = found {
            let entries = schedule(&own, &found);
            right(&own, &entries, replay(&own, &entries).unwrap().largest_stuck(&own));
            deadlocks += 1;
        }
    }
    println!("{shorter} shorter copies, {deadlocks} of them with a deadlock; {unchanged} tidy copies");
    assert!(shorter > 4_000 && unchanged > 2_000 && deadlocks > 1_000);
}

/// Some state of the copy has a stuck set exactly where one of the plan has, and its pairs are
/// those of the plan's executions.
#[test]
fn straightened_plans_by_their_states() {
    let (mut free, mut stuck, mut given_up, mut other_schedules) = (0, 0, 0, 0);
    for index in 0..texts(6_000) {
        let random = &mut Random::of_text(302, index);
        let draft =
            if random.chance(50) { about_branches(random) } else { bent(&small_plan(random), random) };
        let Ok(plan) = read(&draft.text()) else {
            continue;
        };
        let own = read(&straight(&plan)).expect("an accepted copy");
        if tree(&own) == tree(&plan) || plan.size_of_threads() > 300 {
            continue;
        }
        for proc in 0..plan.procs.len() {
            assert_eq!(by_execution(&own, proc), by_execution(&plan, proc));
        }
        let (Some(one), Some(two)) = (explore(&plan, 20_000), explore(&own, 20_000)) else {
            given_up += 1;
            continue;
        };
        match (one, two) {
            (Verdict::Free, Verdict::Free) => free += 1,
            (Verdict::Deadlock { schedule, .. }, Verdict::Deadlock { .. }) => {
                stuck += 1;
                other_schedules += usize::from(replay(&own, &schedule).is_err());
            }
            _ => panic!("{}", String::from_utf8(draft.text()).unwrap()),
        }
    }
    println!(
        "{free} free, {stuck} stuck, {given_up} given up; {other_schedules} schedules are no run of the copy"
    );
    assert!(free > 1_000 && stuck > 800 && other_schedules > 300);
}

/// A plan with more eithers and loops straightens to the same, and these are more.
#[test]
fn bent_plans() {
    let (mut same, mut accepted) = (0, 0);
    for index in 0..texts(3_000) {
        let random = &mut Random::of_text(303, index);
        let draft = small_plan(random);
        let other = bent(&draft, random);
        assert_eq!(straightened(&other), straightened(&draft));
        same += usize::from(other == draft);
        accepted += usize::from(read(&other.text()).is_ok());
    }
    println!("{same} as they were, {accepted} accepted");
    assert!(same < 300 && accepted > 2_800);
}

/// What is said of the straightened copy, of the text's twins and of the plan with more eithers
/// and loops finds each fault of a copy, without what the reference says of the text itself; but
/// for those of rules that are the same for all of them.
#[test]
fn straightened_copies_find_faults() {
    let names = ["rule 5 of the copy", "rule 1 by the bytes of the text"];
    let entries = shelf::branching().into_iter().chain(shelf::shares());
    let fixed: Vec<Vec<u8>> = entries.map(|entry| entry.text).collect();
    let faulty = standin::FAULTY_STRAIGHTS.into_iter().filter(|(name, _)| !names.contains(name));
    for (name, straight) in faulty {
        let calls = Calls { straight, ..standin::CALLS };
        let mut twins = Twins::default();
        let found = (0..2_000).find_map(|index| {
            let random = &mut Random::of_text(304, index as u64);
            let branches = |random: &mut Random| {
                let draft = about_branches(random);
                mixed(&draft, 30, 0, random).text()
            };
            let text = fixed.get(index).cloned().unwrap_or_else(|| branches(random));
            let message = twins.check(calls, &text, &read(&text), random).err()?;
            Some((index, message))
        });
        let (index, message) = found.unwrap_or_else(|| panic!("{name} is not found"));
        println!("{name}: text {index}, {message}");
    }
}

/// A call on a plan without eithers and loops that is not refused.
fn plain(text: &[u8], number: u64) -> bool {
    number % 256 != REFUSED && read(text).is_ok_and(|plan| straight(&plan) == tidy(&plan))
}

/// A number of one more where the plan has no eithers and loops.
fn one_more(text: &[u8], number: u64) -> u64 {
    number + 65_536 * u64::from(plain(text, number))
}

/// Calls with a fault each on plans without eithers and loops, by what the comparison says of the
/// straightened copy.
const FAULTY_WHERE_PLAIN: [(&str, Calls); 6] = [
    (
        "verdict",
        Calls {
            verdict: |text, out| {
                let number = standin::verdict(text, out);
                if plain(text, number) {
                    FREE
                } else {
                    number
                }
            },
            ..standin::CALLS
        },
    ),
    (
        "pairs",
        Calls { pairs: |text, proc, out| one_more(text, standin::pairs(text, proc, out)), ..standin::CALLS },
    ),
    (
        "space",
        Calls {
            space: |text| {
                standin::space(text) + 65_536 * MAX_SUM as u64 * u64::from(plain(text, standin::space(text)))
            },
            ..standin::CALLS
        },
    ),
    (
        "crossings",
        Calls {
            crossings: |text, first, second, out| {
                one_more(text, standin::crossings(text, first, second, out))
            },
            ..standin::CALLS
        },
    ),
    (
        "another tidy copy",
        Calls { tidy: |text, out| one_more(text, standin::tidy(text, out)), ..standin::CALLS },
    ),
    (
        "straightened again",
        Calls { straight: |text, out| one_more(text, standin::straight(text, out)), ..standin::CALLS },
    ),
];

/// What is said of the straightened copy is compared with what is said of the text, call by call.
#[test]
fn straightened_copies_are_asked_about() {
    for (name, calls) in FAULTY_WHERE_PLAIN {
        let mut twins = Twins::default();
        let found = (0..2_000).find_map(|index| {
            let random = &mut Random::of_text(305, index);
            let text = about_branches(random).text();
            let message = twins.check(calls, &text, &read(&text), random).err()?;
            message.starts_with(&format!("the straightened copy: {name}")).then_some((index, message))
        });
        let (index, message) = found.unwrap_or_else(|| panic!("{name} is not compared"));
        println!("{name}: text {index}, {message}");
    }
}

/// What there is of eithers and loops, in accepted texts.
#[derive(Debug, Default)]
pub struct Branches {
    /// With eithers, with loops, with either in the other, with either in a hold.
    eithers: usize,
    loops: usize,
    loop_in_either: usize,
    either_in_loop: usize,
    in_hold: usize,
    in_share: usize,
    /// With both blocks of an either equal.
    equal_blocks: usize,
    /// With an either as a procedure's last statement.
    last: usize,
    /// With eight eithers in each other, and with sixteen brackets of any kind.
    eight: usize,
    sixteen: usize,
    /// With neither, free ones and deadlocks with some.
    none: usize,
    free: usize,
    deadlock: usize,
    /// With size or number of statements 1,024, and eithers or loops.
    full: usize,
    statements: usize,
    /// With a procedure that is used through calls in eithers or loops alone.
    called: usize,
    /// Refused, though the straightened copy would not be: by rule 5, by rule 9.
    brackets: usize,
    too_large: usize,
}

/// What stands somewhere in a block.
fn any(block: &[Tree], told: &dyn Fn(&Tree) -> bool) -> bool {
    block.iter().any(|tree| {
        told(tree)
            || match tree {
                Tree::Skip | Tree::Call(_) => false,
                Tree::Hold(_, body) | Tree::Share(_, body) | Tree::Loop(body) => any(body, told),
                Tree::Either(one, two) => any(one, told) || any(two, told),
            }
    })
}

/// Eithers in each other, and brackets.
fn depths(block: &[Tree]) -> (usize, usize) {
    let most = |one: (usize, usize), two: (usize, usize)| (one.0.max(two.0), one.1.max(two.1));
    let of = |tree: &Tree| match tree {
        Tree::Skip | Tree::Call(_) => (0, 0),
        Tree::Hold(_, body) | Tree::Share(_, body) | Tree::Loop(body) => {
            let (eithers, brackets) = depths(body);
            (eithers, brackets + 1)
        }
        Tree::Either(one, two) => {
            let (eithers, brackets) = most(depths(one), depths(two));
            (eithers + 1, brackets + 2)
        }
    };
    block.iter().map(of).fold((0, 0), most)
}

fn either(tree: &Tree) -> bool {
    matches!(tree, Tree::Either(..))
}

fn round(tree: &Tree) -> bool {
    matches!(tree, Tree::Loop(_))
}

impl Branches {
    pub fn count(&mut self, text: &[u8]) {
        self.brackets += usize::from(askew::accepted_by_its_copy(text, 5).is_some());
        self.too_large += usize::from(askew::accepted_by_its_copy(text, 9).is_some());
        let Ok(plan) = read(text) else {
            return;
        };
        let draft = tree(&plan);
        let count =
            |told: &dyn Fn(&Tree) -> bool| usize::from(draft.procs.iter().any(|body| any(body, told)));
        let branch = |tree: &Tree| either(tree) || round(tree);
        if count(&branch) == 0 {
            self.none += 1;
            return;
        }
        self.eithers += count(&either);
        self.loops += count(&round);
        self.loop_in_either +=
            count(&|tree| matches!(tree, Tree::Either(one, two) if any(one, &round) || any(two, &round)));
        self.either_in_loop += count(&|tree| matches!(tree, Tree::Loop(body) if any(body, &either)));
        self.in_hold += count(&|tree| matches!(tree, Tree::Hold(_, body) if any(body, &branch)));
        self.in_share += count(&|tree| matches!(tree, Tree::Share(_, body) if any(body, &branch)));
        self.equal_blocks += count(&|tree| matches!(tree, Tree::Either(one, two) if one == two));
        self.last += usize::from(draft.procs.iter().any(|body| body.last().is_some_and(either)));
        let depths: Vec<(usize, usize)> = draft.procs.iter().map(|body| depths(body)).collect();
        self.eight += usize::from(depths.iter().any(|(eithers, _)| *eithers == 8));
        self.sixteen += usize::from(depths.iter().any(|(_, brackets)| *brackets == MAX_BRACKETS));
        let found = conflict(&pairs_of_threads(&plan)).is_some();
        self.deadlock += usize::from(found);
        self.free += usize::from(!found);
        self.full += usize::from(plan.sizes.contains(&MAX_SIZE));
        let statements: usize = draft.procs.iter().map(|body| generate::statements(body)).sum();
        self.statements += usize::from(statements == MAX_STATEMENTS);
        let outside =
            |body: &Vec<Tree>| -> Vec<Tree> { body.iter().filter(|tree| !branch(tree)).cloned().collect() };
        let procs = draft.procs.iter().map(outside).collect();
        self.called += usize::from(!idle(&Draft { procs, ..draft }).is_empty());
    }

    /// Of 40,000 texts.
    pub fn enough(&self) {
        assert!(self.eithers > 2_000 && self.loops > 2_000 && self.none > 2_000);
        assert!(self.loop_in_either > 500 && self.either_in_loop > 500 && self.in_hold > 1_000);
        assert!(self.in_share > 500);
        assert!(self.equal_blocks >= 300 && self.last >= 300);
        assert!(self.eight >= 20 && self.sixteen >= 100);
        assert!(self.free > 1_000 && self.deadlock > 1_000);
        assert!(self.full >= 30 && self.statements >= 10 && self.called >= 500);
        assert!(self.brackets >= 50 && self.too_large >= 50);
    }
}
