//! Where two threads of a plan cross: the couples of their pairs, and what the program
//! `crossings` prints of them.

use std::collections::{BTreeMap, BTreeSet};

use crate::families::Draft;
use crate::idle::without_idle;
use crate::pairs::{Pair, Pairs};
use crate::reference::{read, Plan, Refusal, PAIR_WORDS};

/// A pair of the first thread and one of the second.
pub type Couple = (Pair, Pair);

/// The bytes of a couple in a buffer.
pub const COUPLE_BYTES: usize = 2 * 8 * PAIR_WORDS;

/// The wishes, by lock and whether by a hold, that may not stand beside what a pair has.
fn barred(pair: &Pair) -> BTreeSet<(u32, bool)> {
    let has = |set: u32, lock: u32| set >> lock & 1 == 1;
    let holds = (0..32).filter(|lock| has(pair.had().any(), *lock)).map(|lock| (lock, true));
    let shares = (0..32).filter(|lock| has(pair.held, *lock)).map(|lock| (lock, false));
    holds.chain(shares).collect()
}

/// The couples of two lists of pairs that cross: their locks may stand together, and the
/// wish of each may not stand beside what the other has. In the order of the first's words,
/// then of the second's.
pub fn couples(first: &Pairs, second: &Pairs) -> Vec<Couple> {
    let mut wanting: BTreeMap<(u32, bool), Vec<(Pair, BTreeSet<(u32, bool)>)>> = BTreeMap::new();
    for pair in second {
        wanting.entry((pair.wanted, pair.by_hold)).or_default().push((*pair, barred(pair)));
    }
    let mut all = Vec::new();
    for pair in first {
        // Those whose wish is barred here.
        let others = barred(pair).into_iter().filter_map(|wish| wanting.get(&wish)).flatten();
        let both = others.filter(|(_, barred)| barred.contains(&(pair.wanted, pair.by_hold)));
        all.extend(both.filter(|(other, _)| pair.beside(*other)).map(|(other, _)| (*pair, *other)));
    }
    all.sort_by_cached_key(|(one, two)| (one.words(), two.words()));
    all
}

/// The couples of two threads of a plan, or rule 14.
pub fn crossed(plan: &Plan, first: u64, second: u64) -> Result<Vec<Couple>, Refusal> {
    let pairs = |thread: u64| {
        let proc = usize::try_from(thread).ok().and_then(|thread| plan.threads.get(thread));
        proc.map(|proc| &plan.pairs[*proc]).ok_or(Refusal::NOT_TWO)
    };
    match first == second {
        true => Err(Refusal::NOT_TWO),
        false => Ok(couples(pairs(first)?, pairs(second)?)),
    }
}

/// The bytes of couples: the words of the first's pair, then those of the second's.
pub fn bytes(couples: &[Couple]) -> Vec<u8> {
    couples.iter().flat_map(|(one, two)| one.bytes().chain(two.bytes())).collect()
}

/// The plan with these two threads alone, without the procedures that are idle then.
pub fn alone(draft: &Draft, first: usize, second: usize) -> Draft {
    let threads = [first, second].map(|thread| draft.threads[thread]).to_vec();
    without_idle(Draft { threads, ..draft.clone() })
}

/// Each two threads of a plan, the lower first.
pub fn each_two(plan: &Plan) -> Vec<(usize, usize)> {
    let count = plan.threads.len();
    (0..count).flat_map(|first| (first + 1..count).map(move |second| (first, second))).collect()
}

/// The numbers of couples of each two threads.
fn table(plan: &Plan) -> Result<String, Refusal> {
    let mut out = String::from("(crossings\n");
    for (first, second) in each_two(plan) {
        out += &format!("(cross {first} {second} {})\n", crossed(plan, first as u64, second as u64)?.len());
    }
    Ok(out + ")\n")
}

/// The couples of two threads.
fn listing(plan: &Plan, first: u64, second: u64) -> Result<String, Refusal> {
    let couples = crossed(plan, first, second)?;
    let lines: String = couples.iter().map(|(one, two)| format!("(couple {one} {two})\n")).collect();
    Ok(format!("(cross {first} {second} {}\n{lines})\n", couples.len()))
}

/// The most bytes of an argument that is a number.
const ARGUMENT_BYTES: usize = 64;

/// A number of decimal digits; one that 64 bits do not hold is the greatest that they do.
fn number(argument: &str) -> Option<u64> {
    let digits = argument.bytes().all(|byte| byte.is_ascii_digit());
    let fits = (1..=ARGUMENT_BYTES).contains(&argument.len());
    (digits && fits).then(|| argument.parse().unwrap_or(u64::MAX))
}

/// What the program `crossings` prints of a text: the table, or the couples of the two
/// threads that its arguments name. Nothing where these are others.
pub fn printed(text: &[u8], arguments: &[&str]) -> Option<Vec<u8>> {
    let said = match arguments {
        [] => read(text).and_then(|plan| table(&plan)),
        [first, second] => {
            let (first, second) = (number(first)?, number(second)?);
            read(text).and_then(|plan| listing(&plan, first, second))
        }
        _ => return None,
    };
    Some(said.unwrap_or_else(|refusal| format!("{refusal}\n")).into_bytes())
}
