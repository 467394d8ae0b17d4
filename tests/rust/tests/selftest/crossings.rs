//! Where two threads cross: the couples, and what is printed of them.

use lockplan_tests::compare::not_two;
use lockplan_tests::crossings::{alone, bytes, crossed, each_two, printed, Couple, COUPLE_BYTES};
use lockplan_tests::miscross;
use lockplan_tests::opposed::{about_crossings, both_around, Opposed, MOST_COUPLES};

use super::*;

fn count(plan: &Plan, first: usize, second: usize) -> usize {
    crossed(plan, first as u64, second as u64).unwrap().len()
}

#[test]
fn shelf_couples() {
    let mut stated = 0;
    for entry in all().into_iter().chain(all_indented()) {
        let name = entry.name;
        let Ok(plan) = read(&entry.text) else {
            assert!(entry.couples.is_empty(), "{name}");
            continue;
        };
        for (first, second, number) in &entry.couples {
            stated += 1;
            assert_eq!(crossed(&plan, *first, *second).unwrap().len(), *number, "{name}");
            let answer = standin::crossings(&entry.text, *first, *second, &mut []);
            assert_eq!(answer, 65_536 * *number as u64, "{name}");
        }
        // Threads that cross deadlock, whatever the others do.
        let any = each_two(&plan).into_iter().any(|(first, second)| count(&plan, first, second) > 0);
        assert!(!any || matches!(entry.gives, Gives::Deadlock(_)), "{name}");
    }
    println!("{stated} counts");
    assert!(stated > 400);
}

/// The couples a second time: each choice of one pair of either thread, by the condition
/// over pairs of any threads.
fn by_choice(plan: &Plan, first: usize, second: usize) -> Vec<Couple> {
    let pairs = pairs_of_threads(plan);
    let others = |one: Pair| pairs[second].iter().map(move |two| (one, *two));
    let all = pairs[first].iter().flat_map(|one| others(*one));
    all.filter(|(one, two)| conflicting(&[(first, *one), (second, *two)])).collect()
}

#[test]
fn couples_are_the_choices_that_conflict() {
    let (mut some, mut none, mut most) = (0, 0, 0);
    for index in 0..texts(6_000) {
        let random = &mut Random::of_text(201, index);
        let text = if random.chance(50) { about_crossings(random).text() } else { generate(random).text };
        let Ok(plan) = read(&text) else {
            continue;
        };
        for (first, second) in each_two(&plan) {
            let found = crossed(&plan, first as u64, second as u64).unwrap();
            assert_eq!(found, by_choice(&plan, first, second));
            let words: Vec<[[u64; 3]; 2]> =
                found.iter().map(|(one, two)| [one.words(), two.words()]).collect();
            assert!(words.is_sorted_by(|one, two| one < two));
            let mut exchanged = crossed(&plan, second as u64, first as u64).unwrap();
            exchanged.iter_mut().for_each(|couple| *couple = (couple.1, couple.0));
            exchanged.sort_unstable();
            assert_eq!(exchanged, found);
            *(if found.is_empty() { &mut none } else { &mut some }) += 1;
            most = most.max(found.len());
        }
    }
    println!("{some} that cross, {none} that do not, {most} couples at most");
    assert!(some > 3_000 && none > 3_000 && most > 1_000);
}

/// What is printed of a shelf's plan.
fn printed_of(name: &str, arguments: &[&str]) -> String {
    String::from_utf8(printed(&named_entry(name).text, arguments).unwrap()).unwrap()
}

#[test]
fn crossings_as_they_are_printed() {
    assert_eq!(printed_of("A", &[]), "(crossings\n(cross 0 1 1)\n)\n");
    assert_eq!(printed_of("A", &["0", "1"]), "(cross 0 1 1\n(couple (pair 1 0) (pair 0 1))\n)\n");
    assert_eq!(printed_of("A", &["1", "0"]), "(cross 1 0 1\n(couple (pair 0 1) (pair 1 0))\n)\n");
    assert_eq!(printed_of("B", &["0", "1"]), "(cross 0 1 0\n)\n");
    assert_eq!(printed_of("D", &[]), "(crossings\n(cross 0 1 0)\n(cross 0 2 0)\n(cross 1 2 0)\n)\n");
    assert_eq!(printed_of("F", &[]), "(crossings\n)\n");
    assert_eq!(
        printed_of("G", &["0", "1"]),
        "(cross 0 1 3\n(couple (pair 1 0) (pair 0 1))\n(couple (pair 1 0) (pair 0 1 2))\n\
        (couple (pair 2 0) (pair 0 1 2))\n)\n"
    );
    assert_eq!(
        printed_of("both orders in two threads", &["1", "0"]),
        "(cross 1 0 2\n(couple (pair 1 0) (pair 0 1))\n(couple (pair 0 1) (pair 1 0))\n)\n"
    );
    assert_eq!(
        printed_of("crossed by a guard between", &["0", "1"]),
        "(cross 0 1 2\n(couple (pair 5 0) (pair 0 1 5))\n(couple (pair 1 0 5) (pair 5 1))\n)\n"
    );
    assert_eq!(printed_of("J", &[]), "(refused 4 1)\n");
    assert_eq!(printed_of("forty procedures and one thread line", &["0", "0"]), "(refused 13 5)\n");
    assert_eq!(printed_of("doubling, procedure 9", &["7", "7"]), "(refused 9 37)\n");
}

#[test]
fn arguments_of_the_program() {
    let greatest = u64::MAX.to_string();
    let absent = ["2", "6", "999", "4294967296", "4294967297", &greatest, "18446744073709551616"];
    for thread in absent.into_iter().chain(["99999999999999999999999999999999999999999"]) {
        assert_eq!(printed_of("A", &[thread, "0"]), "(refused 14 0)\n", "{thread}");
        assert_eq!(printed_of("A", &["1", thread]), "(refused 14 0)\n", "{thread}");
    }
    assert_eq!(printed_of("A", &["1", "1"]), "(refused 14 0)\n");
    assert_eq!(printed_of("F", &["0", "1"]), "(refused 14 0)\n");
    assert_eq!(printed_of("A", &["00", "0000000000000000000000001"]), printed_of("A", &["0", "1"]));
    for others in [&["0"][..], &["0", "1", "2"], &["", "1"], &["0", "x"], &["+0", "1"], &["0", "-1"]] {
        assert!(printed(&named_entry("A").text, others).is_none(), "{others:?}");
        assert!(printed(&named_entry("J").text, others).is_none(), "{others:?}");
    }
}

#[test]
fn words_of_couples() {
    let plan = read(&named_entry("the highest locks crossed").text).unwrap();
    let words = |words: &[u64]| -> Vec<u8> { words.iter().copied().flat_map(u64::to_le_bytes).collect() };
    let (top, next) = (1 << 31, 1 << 30);
    assert_eq!(bytes(&crossed(&plan, 0, 1).unwrap()), words(&[top, 0, 61, next, 0, 63]));
    // Two of three couples, and no part of the third.
    let mut out = [0xa5; 3 * COUPLE_BYTES - 1];
    assert_eq!(standin::crossings(&named_entry("G").text, 0, 1, &mut out), 3 * 65_536);
    let first = words(&[1, 0, 3, 2, 0, 1, 1, 0, 3, 6, 0, 1]);
    let (written, rest) = out.split_at(2 * COUPLE_BYTES);
    assert_eq!((written, rest), (&first[..], &[0xa5; COUPLE_BYTES - 1][..]));
    let mut out = [0xa5; COUPLE_BYTES];
    assert_eq!(standin::crossings(&named_entry("two upgraders").text, 0, 1, &mut out), 65_536);
    assert_eq!(out.to_vec(), words(&[0, 1, 1, 0, 1, 1]));
}

/// Rule 14 behind the plan's rules, and nothing written.
#[test]
fn two_threads_or_rule_14() {
    for index in 0..texts(3_000) {
        let random = &mut Random::of_text(203, index);
        let text = generate(random).text;
        let said = read(&text);
        let (first, second) = not_two(&said, random);
        let refusal = said.err().unwrap_or(Refusal::NOT_TWO);
        let mut out = [0xa5; 48];
        assert_eq!(standin::crossings(&text, first, second, &mut out), Answer::refused(refusal).number());
        assert_eq!(out, [0xa5; 48]);
    }
}

/// No couples exactly where no reachable state of the two threads alone has a stuck set.
#[test]
fn two_threads_alone() {
    let (mut free, mut stuck, mut given_up, mut others) = (0, 0, 0, 0);
    for index in 0..texts(5_000) {
        let random = &mut Random::of_text(204, index);
        let draft = if random.chance(50) { about_crossings(random) } else { small_plan(random) };
        let Ok(plan) = read(&draft.text()) else {
            continue;
        };
        for (first, second) in each_two(&plan) {
            let threads = vec![plan.threads[first], plan.threads[second]];
            let found = count(&plan, first, second);
            // All procedures kept.
            let Some(explored) = explore(&Plan { threads, ..plan.clone() }, 20_000) else {
                given_up += 1;
                continue;
            };
            assert_eq!(explored == Verdict::Free, found == 0, "{}", String::from_utf8(draft.text()).unwrap());
            let two = read(&alone(&draft, first, second).text()).expect("an accepted plan");
            assert_eq!(two.pairs[two.threads[0]], plan.pairs[plan.threads[first]]);
            assert_eq!(two.pairs[two.threads[1]], plan.pairs[plan.threads[second]]);
            assert_eq!(conflict(&pairs_of_threads(&two)).is_none(), found == 0);
            assert_eq!(count(&two, 0, 1), found);
            others += usize::from(two.procs.len() < plan.procs.len());
            *(if found == 0 { &mut free } else { &mut stuck }) += 1;
        }
    }
    println!("{free} free, {stuck} stuck, {given_up} given up; {others} with fewer procedures alone");
    assert!(free > 8_000 && stuck > 4_000 && others > 8_000);
}

/// What is said of two threads alone finds each fault that concerns whether they cross,
/// without what the reference says of the text.
#[test]
fn threads_alone_find_faults() {
    let names = [
        "locks in common",
        "the first wants alone",
        "the second wants alone",
        "the same lock wanted",
        "one lock held alone",
        "upwards alone",
        "none in one procedure",
        "procedures by the threads' numbers",
        "one more than there are",
        "one less",
        "eight bits of the count",
    ];
    let crossings = standin::FAULTY_CROSSINGS.into_iter().filter(|(name, _)| names.contains(name));
    let crossings = crossings.map(|(name, crossings)| (name, Calls { crossings, ..standin::CALLS }));
    let faulty: Vec<(&str, Calls)> = crossings.collect();
    assert_eq!(faulty.len(), names.len());
    let fixed: Vec<Vec<u8>> = shelf::crossings().into_iter().map(|entry| entry.text).collect();
    let generated = |random: &mut Random| about_crossings(random).text();
    for (name, calls) in faulty {
        let mut twins = Twins::default();
        let found = (0..2_000).find_map(|index| {
            let random = &mut Random::of_text(205, index as u64);
            let text = fixed.get(index).cloned().unwrap_or_else(|| generated(random));
            let message = twins.check(calls, &text, &read(&text), random).err()?;
            message.contains(" alone: ").then_some((index, message))
        });
        let (index, message) = found.unwrap_or_else(|| panic!("{name} is not found"));
        println!("{name}: text {index}, {message}");
    }
}

/// The plans with as many pairs or couples as there can be are as they say.
#[test]
fn plans_of_many_couples() {
    let draft = MOST_COUPLES.draft();
    let plan = read(&draft.text()).unwrap();
    assert_eq!((count(&plan, 0, 1), MOST_COUPLES.couples()), (90_000, 90_000));
    let more = Opposed { sets: MOST_COUPLES.sets + 1, ..MOST_COUPLES };
    assert_eq!(read(&more.draft().text()).err().map(|refusal| refusal.rule), Some(9));
    let plan = read(&both_around().text()).unwrap();
    assert_eq!(plan.pairs[0].len(), MOST_PAIRS);
    // A chain upwards from an even lock to one before that at which a chain downwards, from an
    // odd one, has come to; in 496 pairs all are different.
    let ends = |from: usize| (1..16).flat_map(move |up| (1..16).map(move |down| (from + up + down - 1) % 32));
    let met = (0..31).step_by(2).flat_map(ends).filter(|end| end % 2 == 1 && *end < 31).count();
    assert_eq!(count(&plan, 0, 1), 2 * met);
}

/// What there is of threads that cross, in accepted texts.
#[derive(Debug, Default)]
pub struct Crossings {
    /// With one thread; with threads of which some cross, and some do not beside them.
    one_thread: usize,
    crossed: usize,
    beside: usize,
    /// With a deadlock, though no two cross.
    three: usize,
    /// With two threads of one procedure that cross, and that do not.
    one_procedure: usize,
    not_in_one: usize,
    /// With two threads that do not cross, though the one wants a lock of the other, and
    /// though they would but for a lock that both hold.
    one_direction: usize,
    in_common: usize,
    /// With more than 100 and more than 1,000 couples of two threads.
    from_101: usize,
    from_1001: usize,
    /// With two threads of 496 pairs each that cross, and that do not.
    most_pairs: usize,
    most_pairs_not: usize,
}

impl Crossings {
    pub fn count(&mut self, text: &[u8]) {
        let Ok(plan) = read(text) else {
            return;
        };
        let two = each_two(&plan);
        let counts: Vec<usize> = two.iter().map(|(first, second)| count(&plan, *first, *second)).collect();
        let most = counts.iter().max().copied().unwrap_or(0);
        self.one_thread += usize::from(two.is_empty());
        self.crossed += usize::from(most > 0);
        self.beside += usize::from(most > 0 && counts.contains(&0));
        self.three += usize::from(most == 0 && conflict(&pairs_of_threads(&plan)).is_some());
        self.from_101 += usize::from(most > 100);
        self.from_1001 += usize::from(most > 1_000);
        let any = |told: &dyn Fn(usize, usize, usize) -> bool| {
            usize::from(two.iter().zip(&counts).any(|((first, second), count)| told(*first, *second, *count)))
        };
        let one = |first: usize, second: usize| plan.threads[first] == plan.threads[second];
        self.one_procedure += any(&|first, second, count| count > 0 && one(first, second));
        self.not_in_one += any(&|first, second, count| count == 0 && one(first, second));
        let full = |thread: usize| plan.pairs[plan.threads[thread]].len() == MOST_PAIRS;
        self.most_pairs += any(&|first, second, count| count > 0 && full(first) && full(second));
        self.most_pairs_not += any(&|first, second, count| count == 0 && full(first) && full(second));
        self.one_direction += any(&|first, second, count| {
            count == 0 && !miscross::first_wants_alone(&plan, first, second).is_empty()
        });
        self.in_common += any(&|first, second, count| {
            count == 0 && !miscross::locks_in_common(&plan, first, second).is_empty()
        });
    }

    /// Of 40,000 texts.
    pub fn enough(&self) {
        assert!(self.one_thread >= 300 && self.crossed >= 1_000 && self.beside >= 1_000);
        assert!(self.three >= 100 && self.one_procedure >= 300 && self.not_in_one >= 300);
        assert!(self.one_direction >= 300 && self.in_common >= 100);
        assert!(self.from_101 >= 100 && self.from_1001 >= 30);
        assert!(self.most_pairs >= 10 && self.most_pairs_not >= 10);
    }
}
