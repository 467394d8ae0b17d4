//! The calls made of the reference, right or with a fault: what the
//! comparison has to accept and to find.

use crate::answer::{Answer, COPIED, CROSSED, DEADLOCK, FREE, PAIRS, SPACE};
use crate::compare::{Calls, CopyCall, CrossingsCall, PairsCall, SpaceCall, VerdictCall};
use crate::crossings::{self, crossed, Couple, COUPLE_BYTES};
use crate::families::Draft;
use crate::pairs::{Pair, Pairs};
use crate::reference::{
    bare, lines, named, passed_over, read, sized, sizes, structure, Plan, Refusal, MAX_BYTES, MAX_PAIRS,
    MAX_SIZE, MAX_SUM, MAX_WORDS, PAIR_WORDS,
};
use crate::straight;
use crate::tidy::{self, tree, COPY_BYTES};
use crate::verdict::{conflict, judge, pairs_of_threads, schedule, Verdict};
use crate::{askew, miscross, misread};

/// The bytes of a pair in a buffer.
const PAIR_BYTES: usize = 8 * PAIR_WORDS;

/// The calls over a reading of texts.
macro_rules! calls_over {
    ($reading:path) => {
        Calls {
            verdict: |text, out| verdict_of($reading(text), out),
            pairs: |text, proc, out| pairs_of($reading(text), proc, out),
            tidy: |text, out| copy_of($reading(text), out, tidy::tidy),
            straight: |text, out| copy_of($reading(text), out, straight::straight),
            space: |text| space_of($reading(text), Plan::size_of_threads),
            crossings: |text, first, second, out| crossings_of($reading(text), first, second, out),
        }
    };
}

/// The calls that go by the sum, over another one.
macro_rules! calls_by_sum {
    ($sum:path) => {
        Calls {
            verdict: |text, out| verdict_where(read(text), out, |plan, bytes| bytes as u64 / 2 >= $sum(plan)),
            space: |text| space_of(sized(text), $sum),
            ..CALLS
        }
    };
}

/// The right ones.
pub const CALLS: Calls = Calls { verdict, pairs, tidy, straight, space, crossings };

pub fn pairs(text: &[u8], proc: u64, out: &mut [u8]) -> u64 {
    pairs_of(read(text), proc, out)
}

pub fn verdict(text: &[u8], out: &mut [u8]) -> u64 {
    verdict_of(read(text), out)
}

pub fn tidy(text: &[u8], out: &mut [u8]) -> u64 {
    copy_of(read(text), out, tidy::tidy)
}

pub fn straight(text: &[u8], out: &mut [u8]) -> u64 {
    copy_of(read(text), out, straight::straight)
}

pub fn space(text: &[u8]) -> u64 {
    space_of(sized(text), Plan::size_of_threads)
}

pub fn crossings(text: &[u8], first: u64, second: u64, out: &mut [u8]) -> u64 {
    crossings_of(read(text), first, second, out)
}

fn short() -> u64 {
    Answer::refused(Refusal::SHORT).number()
}

fn pairs_of(plan: Result<Plan, Refusal>, proc: u64, out: &mut [u8]) -> u64 {
    if out.len() / 8 < MAX_WORDS {
        return short();
    }
    let plan = match plan {
        Ok(plan) => plan,
        Err(refusal) => return Answer::refused(refusal).number(),
    };
    let Some(pairs) = usize::try_from(proc).ok().and_then(|proc| plan.pairs.get(proc)) else {
        return Answer::refused(Refusal { rule: 11, line: 0 }).number();
    };
    put_words(pairs, out);
    Answer { kind: PAIRS, a: 0, b: pairs.len() as u64 }.number()
}

/// Writes the words of pairs.
fn put_words<'a>(pairs: impl IntoIterator<Item = &'a Pair>, out: &mut [u8]) {
    let bytes = pairs.into_iter().flat_map(|pair| pair.bytes());
    out.iter_mut().zip(bytes).for_each(|(place, byte)| *place = byte);
}

fn verdict_of(plan: Result<Plan, Refusal>, out: &mut [u8]) -> u64 {
    verdict_where(plan, out, |plan, bytes| bytes as u64 / 2 >= plan.size_of_threads())
}

/// The verdict by a test of the plan and the lent bytes for rule 1.
fn verdict_where(plan: Result<Plan, Refusal>, out: &mut [u8], enough: fn(&Plan, usize) -> bool) -> u64 {
    match plan {
        Ok(plan) if enough(&plan, out.len()) => put_verdict(&plan, out),
        Ok(_) => short(),
        Err(refusal) => Answer::refused(refusal).number(),
    }
}

/// Judges a plan and writes its schedule, as much of it as there is room for.
fn put_verdict(plan: &Plan, out: &mut [u8]) -> u64 {
    match judge(plan) {
        Verdict::Free => Answer { kind: FREE, a: 0, b: 0 }.number(),
        Verdict::Deadlock { schedule, stuck } => {
            for (entry, place) in schedule.iter().zip(out.chunks_exact_mut(2)) {
                place.copy_from_slice(&entry.to_le_bytes());
            }
            Answer { kind: DEADLOCK, a: u64::from(stuck), b: schedule.len() as u64 }.number()
        }
    }
}

fn copy_of(plan: Result<Plan, Refusal>, out: &mut [u8], copy: impl FnOnce(&Plan) -> Vec<u8>) -> u64 {
    if out.len() < COPY_BYTES {
        return short();
    }
    match plan {
        Ok(plan) => put_copy(&copy(&plan), out),
        Err(refusal) => Answer::refused(refusal).number(),
    }
}

fn space_of(plan: Result<Plan, Refusal>, sum: fn(&Plan) -> u64) -> u64 {
    plan.map_or_else(Answer::refused, |plan| Answer { kind: SPACE, a: 0, b: sum(&plan) }).number()
}

fn crossings_of(plan: Result<Plan, Refusal>, first: u64, second: u64, out: &mut [u8]) -> u64 {
    match plan.and_then(|plan| crossed(&plan, first, second)) {
        Ok(couples) => put_couples(&couples, out),
        Err(refusal) => Answer::refused(refusal).number(),
    }
}

/// Writes the couples that fit whole, and counts all.
fn put_couples(couples: &[Couple], out: &mut [u8]) -> u64 {
    for (couple, place) in couples.iter().zip(out.chunks_exact_mut(COUPLE_BYTES)) {
        place.copy_from_slice(&crossings::bytes(std::slice::from_ref(couple)));
    }
    Answer { kind: CROSSED, a: 0, b: couples.len() as u64 }.number()
}

/// Writes a copy, as much of it as there is room for.
fn put_copy(copy: &[u8], out: &mut [u8]) -> u64 {
    let length = copy.len().min(out.len());
    out[..length].copy_from_slice(&copy[..length]);
    Answer { kind: COPIED, a: 0, b: length as u64 }.number()
}

/// What is written of a line: the form behind its spaces, and its end.
pub fn tidy_line(line: &[u8]) -> Option<&[u8]> {
    let rest = bare(line);
    (!passed_over(rest.strip_suffix(b"\n").unwrap_or(rest))).then_some(rest)
}

/// A copy made from the lines of a text.
pub fn copy_by(text: &[u8], line: fn(&[u8]) -> Option<&[u8]>) -> Vec<u8> {
    text.split_inclusive(|byte| *byte == 10).filter_map(line).flatten().copied().collect()
}

/// The tidy call with a copy made from the lines.
fn tidy_by(text: &[u8], out: &mut [u8], line: fn(&[u8]) -> Option<&[u8]>) -> u64 {
    copy_of(read(text), out, |_| copy_by(text, line))
}

/// The tidy call with the lines of the copy changed.
fn tidy_lines(text: &[u8], out: &mut [u8], line: fn(&[u8]) -> Vec<u8>) -> u64 {
    copy_of(read(text), out, |plan| lines_by(&tidy::tidy(plan), line))
}

/// A text whose lines, with their ends, are changed before it is read.
fn lines_by(text: &[u8], change: fn(&[u8]) -> Vec<u8>) -> Vec<u8> {
    text.split_inclusive(|byte| *byte == 10).flat_map(change).collect()
}

/// A text with its last line ended where it ends so.
fn ended_where(text: &[u8], last: fn(&[u8]) -> bool) -> Vec<u8> {
    let line = text.rsplit(|byte| *byte == 10).next().expect("a line at least");
    let end: &[u8] = if !line.is_empty() && last(bare(line)) { b"\n" } else { b"" };
    [text, end].concat()
}

fn tabs_as_spaces(line: &[u8]) -> Vec<u8> {
    let blanks = line.iter().take_while(|byte| b" \t".contains(byte)).count();
    [&vec![b' '; blanks], &line[blanks..]].concat()
}

fn without_returns(line: &[u8]) -> Vec<u8> {
    line.strip_suffix(b"\r\n").map_or(line.to_vec(), |line| [line, b"\n"].concat())
}

fn without_blanks_behind(line: &[u8]) -> Vec<u8> {
    let Some(ended) = line.strip_suffix(b"\n") else {
        return line.to_vec();
    };
    let kept = ended.iter().rposition(|byte| *byte != b' ').map_or(0, |last| last + 1);
    [&ended[..kept], b"\n"].concat()
}

fn without_remark(line: &[u8]) -> Vec<u8> {
    match line.iter().position(|byte| *byte == b';') {
        Some(at) if line.ends_with(b"\n") => {
            let form = line[..at].iter().rposition(|byte| *byte != b' ').map_or(0, |last| last + 1);
            [&line[..form], b"\n"].concat()
        }
        _ => line.to_vec(),
    }
}

/// A refusal by a rule over the forms that names the number of a form for its line.
fn forms_for_lines(text: &[u8], number: u64) -> u64 {
    let answer = Answer::new(number);
    match lines(text) {
        Ok(lines) if refused(number) && matches!(answer.a, 4..=9 | 12 | 13) => {
            let before = lines.forms.iter().filter(|line| (line.number as u64) < answer.b).count();
            Answer { b: before as u64 + 1, ..answer }.number()
        }
        _ => number,
    }
}

/// A text that ends too early, refused behind its last form.
fn behind_the_last_form(text: &[u8], number: u64) -> u64 {
    let answer = Answer::new(number);
    match lines(text) {
        Ok(lines) if refused(number) && answer.a == 4 && answer.b > lines.count as u64 => {
            let last = lines.forms.last().map_or(0, |line| line.number);
            Answer { b: last as u64 + 1, ..answer }.number()
        }
        _ => number,
    }
}

/// A text whose first line is empty, if it is passed over: refused 3 there.
fn first_line_read(text: &[u8]) -> Option<u64> {
    let line = text.split(|byte| *byte == 10).next().expect("a line at least");
    let over = text.len() > line.len() && text.len() <= MAX_BYTES && passed_over(bare(line));
    over.then_some(Answer::refused(Refusal { rule: 3, line: 1 }).number())
}

fn refused(number: u64) -> bool {
    Answer::new(number).kind == crate::answer::REFUSED
}

fn found(number: u64) -> bool {
    Answer::new(number).kind == DEADLOCK
}

/// A pair list with a fault each.
pub const FAULTY_PAIRS: [(&str, PairsCall); 39] = [
    ("one more than there are", |text, proc, out| {
        let number = pairs(text, proc, out);
        if refused(number) {
            number
        } else {
            number + 65_536
        }
    }),
    ("one less", |text, proc, out| {
        let number = pairs(text, proc, out);
        if refused(number) || number == 0 {
            number
        } else {
            number - 65_536
        }
    }),
    ("an empty list", |text, proc, out| {
        let number = pairs(text, proc, &mut out.to_vec());
        if refused(number) {
            number
        } else {
            0
        }
    }),
    ("an untouched buffer", |text, proc, out| pairs(text, proc, &mut out.to_vec())),
    ("the first two changed about", |text, proc, out| {
        let number = pairs(text, proc, out);
        if !refused(number) && number >> 16 >= 2 {
            out[..2 * PAIR_BYTES].rotate_left(PAIR_BYTES);
        }
        number
    }),
    ("highest byte first", |text, proc, out| {
        let number = pairs(text, proc, out);
        if !refused(number) {
            let words = PAIR_WORDS * (number >> 16) as usize;
            out.chunks_exact_mut(8).take(words).for_each(<[u8]>::reverse);
        }
        number
    }),
    ("the rest cleared", |text, proc, out| {
        let number = pairs(text, proc, out);
        if !refused(number) {
            out[(number >> 16) as usize * PAIR_BYTES..].fill(0);
        }
        number
    }),
    ("the last byte written", |text, proc, out| {
        let number = pairs(text, proc, out);
        if let (false, Some(last)) = (refused(number), out.last_mut()) {
            *last ^= 0x55;
        }
        number
    }),
    ("a byte behind the buffer written", |text, proc, out| {
        // SAFETY: none; the comparison keeps the byte accessible unless it faults.
        unsafe { *out.as_mut_ptr().add(out.len()) ^= 0x55 };
        pairs(text, proc, out)
    }),
    ("a byte before the buffer written", |text, proc, out| {
        // SAFETY: as above.
        unsafe { *out.as_mut_ptr().sub(1) ^= 0x55 };
        pairs(text, proc, out)
    }),
    ("written and then refused", |text, proc, out| {
        let number = pairs(text, proc, out);
        if let (true, Some(first)) = (refused(number), out.first_mut()) {
            *first ^= 0x55;
        }
        number
    }),
    ("lengths in bytes", |text, proc, out| {
        if out.len() < MAX_WORDS {
            return pairs(text, proc, out);
        }
        let mut copy = vec![0; 8 * MAX_WORDS];
        let number = pairs(text, proc, &mut copy);
        let len = if refused(number) { 0 } else { ((number >> 16) as usize * PAIR_BYTES).min(out.len()) };
        out[..len].copy_from_slice(&copy[..len]);
        number
    }),
    ("rule 1 behind the others", |text, proc, out| {
        let number = pairs(text, proc, &mut [0; 8 * MAX_WORDS]);
        if refused(number) {
            number
        } else {
            pairs(text, proc, out)
        }
    }),
    ("the procedure's number cut off", |text, proc, out| pairs(text, proc & 0xffff_ffff, out)),
    ("a line too far", |text, proc, out| {
        let number = pairs(text, proc, out);
        if refused(number) && number >> 16 > 0 {
            number + 65_536
        } else {
            number
        }
    }),
    ("forms counted for lines", |text, proc, out| forms_for_lines(text, pairs(text, proc, out))),
    ("too early behind the last form", |text, proc, out| behind_the_last_form(text, pairs(text, proc, out))),
    ("nothing passed over before the plan", |text, proc, out| match first_line_read(text) {
        Some(number) if out.len() / 8 >= MAX_WORDS => number,
        _ => pairs(text, proc, out),
    }),
    ("129 pairs refused", |text, proc, out| pairs_of(misread::more_than_128_pairs_refused(text), proc, out)),
    ("idle procedures let through", |text, proc, out| pairs_of(misread::idle_let_through(text), proc, out)),
    ("511 words are enough", |text, proc, out| pairs_lent(text, proc, out, MAX_PAIRS)),
    ("1,532 words are enough", |text, proc, out| pairs_lent(text, proc, out, MAX_WORDS - 1)),
    ("1,534 words are needed", |text, proc, out| pairs_lent(text, proc, out, MAX_WORDS + 1)),
    ("12,263 bytes are enough", |text, proc, out| match out.len() + 1 == 8 * MAX_WORDS {
        true => pairs_lent(text, proc, out, 0),
        false => pairs(text, proc, out),
    }),
    ("a count of words", |text, proc, out| {
        let number = pairs(text, proc, out);
        if refused(number) {
            number
        } else {
            PAIR_WORDS as u64 * number
        }
    }),
    ("held and shared sets exchanged", |text, proc, out| {
        pairs_by(text, proc, out, |pair| Pair { held: pair.shared, shared: pair.held, ..pair })
    }),
    ("shared sets among the held", |text, proc, out| {
        pairs_by(text, proc, out, |pair| Pair { held: pair.held | pair.shared, shared: 0, ..pair })
    }),
    ("shared sets left out", |text, proc, out| pairs_by(text, proc, out, |pair| Pair { shared: 0, ..pair })),
    ("a lock had both ways but held", |text, proc, out| {
        pairs_by(text, proc, out, |pair| Pair { shared: pair.shared & !pair.held, ..pair })
    }),
    ("every wish by a hold", |text, proc, out| {
        pairs_by(text, proc, out, |pair| Pair { by_hold: true, ..pair })
    }),
    ("held sets times 32", |text, proc, out| {
        let number = pairs(text, proc, out);
        if !refused(number) {
            for pair in out.chunks_exact_mut(PAIR_BYTES).take((number >> 16) as usize) {
                let held = u64::from_le_bytes(pair[..8].try_into().expect("a word"));
                pair[..8].copy_from_slice(&(32 * held).to_le_bytes());
            }
        }
        number
    }),
    ("by the shared set first", |text, proc, out| {
        pairs_sorted(text, proc, out, |pair| (pair.shared, pair.held, pair.wanted, pair.by_hold))
    }),
    ("by the wanted lock first", |text, proc, out| {
        pairs_sorted(text, proc, out, |pair| {
            (pair.wanted, u32::from(pair.by_hold), pair.held, pair.shared != 0)
        })
    }),
    ("holds before shares", |text, proc, out| {
        pairs_sorted(text, proc, out, |pair| (pair.held, pair.shared, pair.wanted, !pair.by_hold))
    }),
    ("no hold under a share of its lock", |text, proc, out| pairs_of(misread::no_upgrades(text), proc, out)),
    ("a share under a hold of its lock", |text, proc, out| {
        pairs_of(misread::shares_fresh_under_holds(text), proc, out)
    }),
    ("a share under a share of its lock", |text, proc, out| {
        pairs_of(misread::shares_fresh_under_shares(text), proc, out)
    }),
    ("a list cut at 128", |text, proc, out| {
        let mut copy = out.to_vec();
        let number = pairs(text, proc, &mut copy);
        if refused(number) {
            return number;
        }
        let count = (number >> 16).min(128);
        let length = PAIR_BYTES * count as usize;
        out[..length].copy_from_slice(&copy[..length]);
        Answer { kind: PAIRS, a: 0, b: count }.number()
    }),
    ("eight bits of the count", |text, proc, out| {
        let number = pairs(text, proc, out);
        if refused(number) {
            number
        } else {
            number & 0xff_ffff
        }
    }),
];

/// The pair list by another least buffer, in words.
fn pairs_lent(text: &[u8], proc: u64, out: &mut [u8], words: usize) -> u64 {
    if out.len() / 8 < words {
        return short();
    }
    let mut longer = out.to_vec();
    longer.resize(out.len().max(8 * MAX_WORDS), 0);
    let number = pairs(text, proc, &mut longer);
    out.copy_from_slice(&longer[..out.len()]);
    number
}

/// The pair list with other pairs, each in the place of a right one.
fn pairs_by(text: &[u8], proc: u64, out: &mut [u8], other: fn(Pair) -> Pair) -> u64 {
    listed_by(text, proc, out, |pairs| pairs.iter().copied().map(other).collect())
}

/// The pair list in another order.
fn pairs_sorted<K: Ord>(text: &[u8], proc: u64, out: &mut [u8], key: fn(&Pair) -> K) -> u64 {
    listed_by(text, proc, out, |pairs| {
        let mut all: Vec<Pair> = pairs.iter().copied().collect();
        all.sort_by_key(key);
        all
    })
}

/// The pair list with others in the place of those of a procedure.
fn listed_by(text: &[u8], proc: u64, out: &mut [u8], other: impl Fn(&Pairs) -> Vec<Pair>) -> u64 {
    let number = pairs(text, proc, out);
    if !refused(number) {
        let plan = read(text).expect("an accepted plan");
        put_words(&other(&plan.pairs[proc as usize]), out);
    }
    number
}

/// A verdict with a fault each.
pub const FAULTY_VERDICTS: [(&str, VerdictCall); 34] = [
    ("always free", |text, out| {
        let number = verdict(text, &mut out.to_vec());
        if found(number) {
            0
        } else {
            number
        }
    }),
    ("deadlock before any step", |text, out| {
        let number = verdict(text, &mut out.to_vec());
        if refused(number) {
            number
        } else {
            DEADLOCK + 256 * 3
        }
    }),
    ("a schedule without its last step", |text, out| {
        let number = verdict(text, out);
        if found(number) {
            number - 65_536
        } else {
            number
        }
    }),
    ("one entry more than written", |text, out| {
        let number = verdict(text, out);
        if found(number) {
            number + 65_536
        } else {
            number
        }
    }),
    ("the first step alone", |text, out| {
        let mut copy = out.to_vec();
        let number = verdict(text, &mut copy);
        if !found(number) {
            return number;
        }
        out[..2].copy_from_slice(&copy[..2]);
        number
    }),
    ("a stuck thread forgotten", |text, out| {
        let number = verdict(text, out);
        if found(number) {
            number - 256 * (Answer::new(number).a & Answer::new(number).a.wrapping_neg())
        } else {
            number
        }
    }),
    ("a thread too many stuck", |text, out| {
        let number = verdict(text, out);
        if found(number) {
            number | 0x3f00
        } else {
            number
        }
    }),
    ("the rest cleared", |text, out| {
        let number = verdict(text, out);
        if found(number) {
            out[(number >> 16) as usize * 2..].fill(0);
        }
        number
    }),
    ("free, and the buffer written", |text, out| {
        let number = verdict(text, out);
        if number == FREE {
            out[0] ^= 0x55;
        }
        number
    }),
    ("highest byte first", |text, out| {
        let number = verdict(text, out);
        if found(number) {
            let count = (number >> 16) as usize;
            out.chunks_exact_mut(2).take(count).for_each(<[u8]>::reverse);
        }
        number
    }),
    ("choice 3 for leaving", |text, out| {
        let number = verdict(text, out);
        if found(number) {
            for entry in out.chunks_exact_mut(2).take((number >> 16) as usize) {
                if entry[0] / 8 == 2 {
                    entry[0] += 8;
                }
            }
        }
        number
    }),
    ("rule 1 only where it deadlocks", |text, out| {
        let number = verdict(text, &mut vec![0; 2 * MAX_SUM]);
        if number == FREE {
            number
        } else {
            verdict(text, out)
        }
    }),
    ("rule 1 only where the schedule does not fit", |text, out| {
        verdict_where(read(text), out, |plan, bytes| match judge(plan) {
            Verdict::Free => true,
            Verdict::Deadlock { schedule, .. } => 2 * schedule.len() <= bytes,
        })
    }),
    ("rule 1 before the others, over 6,144 entries", |text, out| {
        if out.len() / 2 < MAX_SUM {
            short()
        } else {
            verdict(text, out)
        }
    }),
    ("rule 1 before rule 9", |text, out| short_before(9, text, out)),
    ("rule 1 before rule 13", |text, out| short_before(13, text, out)),
    ("idle procedures let through", |text, out| verdict_of(misread::idle_let_through(text), out)),
    ("129 pairs refused", |text, out| verdict_of(misread::more_than_128_pairs_refused(text), out)),
    ("pairs behind the 128th left out", |text, out| {
        let number = verdict(text, &mut out.to_vec());
        match read(text) {
            Ok(plan) if found(number) => {
                let mut pairs = pairs_of_threads(&plan);
                pairs.iter_mut().for_each(|own| own.truncate(128));
                if conflict(&pairs).is_none() {
                    FREE
                } else {
                    verdict(text, out)
                }
            }
            _ => number,
        }
    }),
    ("shares exclude each other", |text, out| {
        judged_by(text, out, |pair| Some(Pair { held: pair.held | pair.shared, shared: 0, ..pair }))
    }),
    ("shares exclude nothing", |text, out| judged_by(text, out, |pair| Some(Pair { shared: 0, ..pair }))),
    ("wanted shares never wait", |text, out| judged_by(text, out, |pair| pair.by_hold.then_some(pair))),
    ("no upgrades", |text, out| judged_by(text, out, |pair| (!upgrades(&pair)).then_some(pair))),
    ("an upgrader alone is stuck", |text, out| {
        let number = verdict(text, out);
        let stuck = |plan: Plan| plan.threads.iter().position(|proc| plan.pairs[*proc].iter().any(upgrades));
        match read(text).ok().and_then(stuck) {
            Some(thread) if number == FREE => DEADLOCK + 256 * (1 << thread),
            _ => number,
        }
    }),
    ("no entry refused first", |text, out| if out.len() < 2 { short() } else { verdict(text, out) }),
    ("written as far as it fits, and then refused", |text, out| {
        let number = verdict(text, out);
        if Answer::new(number) == Answer::refused(Refusal::SHORT) {
            verdict_where(read(text), out, |_, _| true);
        }
        number
    }),
    ("lengths in bytes", |text, out| {
        verdict_where(read(text), out, |plan, bytes| bytes as u64 >= plan.size_of_threads())
    }),
    ("an odd byte for an entry", |text, out| {
        verdict_where(read(text), out, |plan, bytes| bytes.div_ceil(2) as u64 >= plan.size_of_threads())
    }),
    ("threads two by two only", |text, out| {
        let number = verdict(text, &mut out.to_vec());
        if found(number) && Answer::new(number).a.count_ones() > 2 {
            FREE
        } else {
            verdict(text, out)
        }
    }),
    ("forms counted for lines", |text, out| forms_for_lines(text, verdict(text, out))),
    ("too early behind the last form", |text, out| behind_the_last_form(text, verdict(text, out))),
    ("tabs taken for spaces", |text, out| verdict(&lines_by(text, tabs_as_spaces), out)),
    ("rule 2 over the forms alone", |text, out| match lines(text) {
        Ok(_) if text.len() > MAX_BYTES => verdict(&copy_by(text, tidy_line), out),
        _ => verdict(text, out),
    }),
    ("another schedule where the text is indented", |text, out| {
        let number = verdict(text, &mut out.to_vec());
        if !found(number) || !text.starts_with(b" ") && !text.starts_with(b";") {
            return verdict(text, out);
        }
        let plan = read(text).expect("a deadlock is of a plan");
        let mut pairs = pairs_of_threads(&plan);
        pairs.iter_mut().for_each(|own| own.reverse());
        let entries = schedule(&plan, &conflict(&pairs).expect("the order does not matter"));
        let state = crate::gateway::replay(&plan, &entries).expect("a run");
        for (entry, place) in entries.iter().zip(out.chunks_exact_mut(2)) {
            place.copy_from_slice(&entry.to_le_bytes());
        }
        let a = u64::from(state.largest_stuck(&plan));
        Answer { kind: DEADLOCK, a, b: entries.len() as u64 }.number()
    }),
];

/// Whether a thread wants to hold what it shares.
fn upgrades(pair: &Pair) -> bool {
    pair.shared >> pair.wanted & 1 == 1
}

/// Free where no deadlock is found among other pairs, each in the place of a right one.
fn judged_by(text: &[u8], out: &mut [u8], other: fn(Pair) -> Option<Pair>) -> u64 {
    let number = verdict(text, &mut out.to_vec());
    let Ok(plan) = read(text) else {
        return number;
    };
    let pairs = pairs_of_threads(&plan);
    let others: Vec<Vec<Pair>> =
        pairs.into_iter().map(|own| own.into_iter().filter_map(other).collect()).collect();
    match found(number) && conflict(&others).is_none() {
        true => FREE,
        false => verdict(text, out),
    }
}

/// The verdict with rule 1 before another rule, by the sizes that the threads would have.
fn short_before(rule: u64, text: &[u8], out: &mut [u8]) -> u64 {
    let number = verdict(text, out);
    match named(text) {
        Ok(plan) if refused(number) && Answer::new(number).a == rule => {
            let sizes = sizes(&plan);
            let sum = plan.threads.iter().fold(0_u64, |sum, proc| sum.saturating_add(sizes[*proc]));
            if (out.len() as u64) / 2 < sum {
                short()
            } else {
                number
            }
        }
        _ => number,
    }
}

/// A copy of a plan that a call writes.
pub trait Copying {
    fn copy(plan: &Plan) -> Vec<u8>;

    /// The right call.
    fn call(text: &[u8], out: &mut [u8]) -> u64 {
        copy_of(read(text), out, Self::copy)
    }
}

pub struct Tidy;

impl Copying for Tidy {
    fn copy(plan: &Plan) -> Vec<u8> {
        tidy::tidy(plan)
    }
}

pub struct Straight;

impl Copying for Straight {
    fn copy(plan: &Plan) -> Vec<u8> {
        straight::straight(plan)
    }
}

/// A copy with a fault each, whichever it is.
pub fn faulty_copies<C: Copying>() -> [(&'static str, CopyCall); 28] {
    [
        ("one byte more than written", |text, out| {
            let number = C::call(text, out);
            if refused(number) {
                number
            } else {
                number + 65_536
            }
        }),
        ("one byte less than written", |text, out| {
            let number = C::call(text, out);
            if refused(number) {
                number
            } else {
                number - 65_536
            }
        }),
        ("the last line not ended", |text, out| {
            let mut copy = out.to_vec();
            let number = C::call(text, &mut copy);
            if refused(number) {
                return number;
            }
            put_copy(&copy[..(number >> 16) as usize - 1], out)
        }),
        ("an untouched buffer", |text, out| C::call(text, &mut out.to_vec())),
        ("a zero behind the copy", |text, out| {
            let number = C::call(text, out);
            if !refused(number) {
                out[(number >> 16) as usize] = 0;
            }
            number
        }),
        ("the rest cleared", |text, out| {
            let number = C::call(text, out);
            if !refused(number) {
                out[(number >> 16) as usize..].fill(0);
            }
            number
        }),
        ("the last byte written", |text, out| {
            let number = C::call(text, out);
            if let (false, Some(last)) = (refused(number), out.last_mut()) {
                *last ^= 0x55;
            }
            number
        }),
        ("a byte behind the buffer written", |text, out| {
            // SAFETY: none; the comparison keeps the byte accessible unless it faults.
            unsafe { *out.as_mut_ptr().add(out.len()) ^= 0x55 };
            C::call(text, out)
        }),
        ("a byte before the buffer written", |text, out| {
            // SAFETY: as above.
            unsafe { *out.as_mut_ptr().sub(1) ^= 0x55 };
            C::call(text, out)
        }),
        ("written and then refused", |text, out| {
            let number = C::call(text, out);
            if let (true, Some(first)) = (refused(number), out.first_mut()) {
                *first ^= 0x55;
            }
            number
        }),
        ("rule 1 behind the others", |text, out| {
            let number = C::call(text, &mut [0; COPY_BYTES]);
            if refused(number) {
                number
            } else {
                C::call(text, out)
            }
        }),
        ("rule 1 only where the copy does not fit", |text, out| {
            let mut copy = vec![0; COPY_BYTES];
            let number = C::call(text, &mut copy);
            if refused(number) || (number >> 16) as usize > out.len() {
                return C::call(text, out);
            }
            put_copy(&copy[..(number >> 16) as usize], out)
        }),
        ("a byte less is enough", |text, out| {
            let mut longer = [&*out, &[0]].concat();
            let number = C::call(text, &mut longer);
            out.copy_from_slice(&longer[..out.len()]);
            number
        }),
        ("a byte more is needed", |text, out| {
            if out.len() == COPY_BYTES {
                return C::call(text, &mut []);
            }
            C::call(text, out)
        }),
        ("a line too far", |text, out| {
            let number = C::call(text, out);
            if refused(number) && number >> 16 > 0 {
                number + 65_536
            } else {
                number
            }
        }),
        ("forms counted for lines", |text, out| forms_for_lines(text, C::call(text, out))),
        ("too early behind the last form", |text, out| behind_the_last_form(text, C::call(text, out))),
        ("rule 2 over the forms alone", |text, out| match lines(text) {
            Ok(_) if text.len() > MAX_BYTES => C::call(&copy_by(text, tidy_line), out),
            _ => C::call(text, out),
        }),
        ("tabs taken for spaces", |text, out| C::call(&lines_by(text, tabs_as_spaces), out)),
        ("carriage returns passed over", |text, out| C::call(&lines_by(text, without_returns), out)),
        ("blanks behind a form passed over", |text, out| {
            C::call(&lines_by(text, without_blanks_behind), out)
        }),
        ("a remark behind a form passed over", |text, out| C::call(&lines_by(text, without_remark), out)),
        ("a last remark not ended", |text, out| {
            C::call(&ended_where(text, |rest| rest.starts_with(b";")), out)
        }),
        ("a last blank line not ended", |text, out| C::call(&ended_where(text, <[u8]>::is_empty), out)),
        ("a last form not ended", |text, out| {
            C::call(&ended_where(text, |rest| rest.starts_with(b")")), out)
        }),
        ("nothing passed over before the plan", |text, out| match first_line_read(text) {
            Some(number) if out.len() >= COPY_BYTES => number,
            _ => C::call(text, out),
        }),
        ("129 pairs refused", |text, out| copy_of(misread::more_than_128_pairs_refused(text), out, C::copy)),
        ("idle procedures let through", |text, out| copy_of(misread::idle_let_through(text), out, C::copy)),
    ]
}

/// A tidy copy with a fault each that it alone can have.
pub const FAULTY_TIDIES: [(&str, CopyCall); 8] = [
    ("the text as it stands", |text, out| tidy_by(text, out, |line| Some(line))),
    ("indentation kept", |text, out| tidy_by(text, out, |line| tidy_line(line).map(|_| line))),
    ("empty lines kept", |text, out| {
        tidy_by(text, out, |line| if line == b"\n" { Some(line) } else { tidy_line(line) })
    }),
    ("remarks kept", |text, out| {
        tidy_by(text, out, |line| if line.starts_with(b";") { Some(line) } else { tidy_line(line) })
    }),
    ("numbers cut to two digits", |text, out| {
        tidy_lines(text, out, |line| match line {
            [b'(', b'h', .., a, _, 10] if a.is_ascii_digit() => [&line[..line.len() - 2], b"\n"].concat(),
            _ => line.to_vec(),
        })
    }),
    ("shares written as holds", |text, out| {
        tidy_lines(text, out, |line| match line.strip_prefix(b"(share ") {
            Some(rest) => [b"(hold ", rest].concat(),
            None => line.to_vec(),
        })
    }),
    ("a share's lock lost", |text, out| {
        tidy_lines(text, out, |line| match line.starts_with(b"(share ") {
            true => b"(share 0\n".to_vec(),
            false => line.to_vec(),
        })
    }),
    ("an either's second block for the first", |text, out| {
        let number = tidy(text, out);
        if let Some(at) = out[..].windows(5).position(|line| line == b"(one\n") {
            if !refused(number) {
                out[at + 1..at + 4].copy_from_slice(b"two");
            }
        }
        number
    }),
];

/// The straightened copy by another one of the plan.
fn straight_by(text: &[u8], out: &mut [u8], other: fn(&Draft) -> Vec<u8>) -> u64 {
    copy_of(read(text), out, |plan| other(&tree(plan)))
}

/// The straightened copy by the lines of a text that stay, each changed.
fn straight_lines(
    text: &[u8],
    out: &mut [u8],
    stay: fn(&[u8]) -> Vec<&[u8]>,
    line: fn(&[u8]) -> &[u8],
) -> u64 {
    copy_of(read(text), out, |_| stay(text).into_iter().flat_map(line).copied().collect())
}

/// The straightened copy, also where a rule refuses the text and not its copy.
fn straight_despite(rule: u8, text: &[u8], out: &mut [u8]) -> u64 {
    match askew::accepted_by_its_copy(text, rule) {
        Some(copy) if out.len() >= COPY_BYTES => put_copy(&copy, out),
        _ => straight(text, out),
    }
}

/// A straightened copy with a fault each that it alone can have.
pub const FAULTY_STRAIGHTS: [(&str, CopyCall); 43] = [
    ("nothing straightened", |text, out| straight_by(text, out, askew::nothing)),
    ("the first block alone", |text, out| straight_by(text, out, askew::first_block_alone)),
    ("the second block alone", |text, out| straight_by(text, out, askew::second_block_alone)),
    ("the blocks exchanged", |text, out| straight_by(text, out, askew::blocks_exchanged)),
    ("the first block twice", |text, out| straight_by(text, out, askew::first_block_twice)),
    ("equal blocks once", |text, out| straight_by(text, out, askew::equal_blocks_once)),
    ("a skip for nothing", |text, out| straight_by(text, out, askew::skip_for_nothing)),
    ("a skip for a choice", |text, out| straight_by(text, out, askew::skip_for_a_choice)),
    ("eithers kept", |text, out| straight_by(text, out, askew::eithers_kept)),
    ("loops kept", |text, out| straight_by(text, out, askew::loops_kept)),
    ("loops twice", |text, out| straight_by(text, out, askew::loops_twice)),
    ("loops left out", |text, out| straight_by(text, out, askew::loops_left_out)),
    ("loops as they stand", |text, out| straight_by(text, out, askew::loops_as_they_stand)),
    ("eithers as they stand", |text, out| straight_by(text, out, askew::eithers_as_they_stand)),
    ("second blocks as they stand", |text, out| straight_by(text, out, askew::second_block_as_it_stands)),
    ("holds as they stand", |text, out| straight_by(text, out, askew::holds_as_they_stand)),
    ("shares as they stand", |text, out| straight_by(text, out, askew::shares_as_they_stand)),
    ("holds for shares", |text, out| straight_by(text, out, askew::holds_for_shares)),
    ("shares lost", |text, out| straight_by(text, out, askew::shares_lost)),
    ("eithers in loops kept", |text, out| straight_by(text, out, askew::eithers_of_loops_kept)),
    ("holds lost", |text, out| straight_by(text, out, askew::holds_lost)),
    ("holds in eithers and loops lost", |text, out| straight_by(text, out, askew::holds_of_branches_lost)),
    ("the first statement of a loop alone", |text, out| straight_by(text, out, askew::first_of_a_loop_alone)),
    ("the first statement of a block alone", |text, out| {
        straight_by(text, out, askew::first_of_each_block_alone)
    }),
    ("the rest of a hold left out", |text, out| straight_by(text, out, askew::rest_of_a_hold_left_out)),
    ("equal neighbours once", |text, out| straight_by(text, out, askew::equal_neighbours_once)),
    ("the first procedure alone", |text, out| straight_by(text, out, askew::first_procedure_alone)),
    ("the last procedure kept", |text, out| straight_by(text, out, askew::last_procedure_kept)),
    ("a last either kept", |text, out| straight_by(text, out, askew::last_either_kept)),
    ("calls replaced", |text, out| straight_by(text, out, askew::calls_replaced)),
    ("the deepest kept", |text, out| straight_by(text, out, askew::deepest_kept)),
    ("threads lost", |text, out| straight_by(text, out, askew::threads_lost)),
    ("the last thread lost", |text, out| straight_by(text, out, askew::last_thread_lost)),
    ("threads ascending", |text, out| straight_by(text, out, askew::threads_ascending)),
    ("closing lines of loops kept", |text, out| straight_lines(text, out, askew::with_closed_loops, bare)),
    ("closing lines of eithers kept", |text, out| {
        straight_lines(text, out, askew::with_closed_eithers, bare)
    }),
    ("lines of blocks kept", |text, out| straight_lines(text, out, askew::with_parts, bare)),
    ("indentation kept", |text, out| straight_lines(text, out, askew::lines_that_stay, |line| line)),
    ("the line ends lost", |text, out| {
        straight_lines(text, out, askew::lines_that_stay, |line| &bare(line)[..bare(line).len() - 1])
    }),
    ("rule 5 of the copy", |text, out| straight_despite(5, text, out)),
    ("rule 9 of the copy", |text, out| straight_despite(9, text, out)),
    ("rule 1 by the bytes of the text", |text, out| {
        let mut longer = [&*out, &vec![0; COPY_BYTES]].concat();
        let number = if out.len() < text.len() { short() } else { straight(text, &mut longer) };
        out.copy_from_slice(&longer[..out.len()]);
        number
    }),
    ("the bytes of the tidy copy told", |text, out| {
        let number = straight(text, out);
        if refused(number) {
            number
        } else {
            tidy(text, &mut [0; COPY_BYTES])
        }
    }),
];

/// A space call with a fault each.
pub const FAULTY_SPACES: [(&str, SpaceCall); 6] = [
    ("129 pairs refused", |text| space_of(misread::more_than_128_pairs_refused(text), Plan::size_of_threads)),
    ("idle procedures let through", |text| space_of(misread::idle_let_through(text), Plan::size_of_threads)),
    ("a size of 1,025 let through", |text| {
        let number = space(text);
        match named(text) {
            Ok(plan) if refused(number) && Answer::new(number).a == 9 => {
                let plan = Plan { sizes: sizes(&plan), ..plan };
                let let_through = plan.sizes.iter().all(|size| *size <= MAX_SIZE + 1);
                if let_through {
                    space_of(Ok(plan), Plan::size_of_threads)
                } else {
                    number
                }
            }
            _ => number,
        }
    }),
    ("a refusal for nothing needed", |text| {
        let number = space(text);
        if refused(number) {
            SPACE
        } else {
            number
        }
    }),
    ("forms counted for lines", |text| forms_for_lines(text, space(text))),
    ("too early behind the last form", |text| behind_the_last_form(text, space(text))),
];

/// The crossings of two threads by another list of couples.
fn crossed_by(
    text: &[u8],
    (first, second): (u64, u64),
    out: &mut [u8],
    other: fn(&Plan, usize, usize) -> Vec<Couple>,
) -> u64 {
    match read(text).and_then(|plan| crossed(&plan, first, second).map(|_| plan)) {
        Ok(plan) => put_couples(&other(&plan, first as usize, second as usize), out),
        Err(refusal) => Answer::refused(refusal).number(),
    }
}

/// All couples of a text as bytes, empty where the call is refused.
fn couples_of(text: &[u8], first: u64, second: u64) -> Vec<u8> {
    let couples = read(text).and_then(|plan| crossed(&plan, first, second));
    crossings::bytes(&couples.unwrap_or_default())
}

/// The crossings, with so many bytes of all couples written as there is room for.
fn crossings_in(piece: usize, text: &[u8], (first, second): (u64, u64), out: &mut [u8]) -> u64 {
    let all = couples_of(text, first, second);
    let length = all.len().min(out.len() / piece * piece);
    out[..length].copy_from_slice(&all[..length]);
    crossings(text, first, second, &mut [])
}

/// The crossings, with rule 14 before another rule.
fn threads_before(rule: u64, text: &[u8], (first, second): (u64, u64), out: &mut [u8]) -> u64 {
    let number = crossings(text, first, second, out);
    let there = |plan: Plan| [first, second].iter().all(|thread| *thread < plan.threads.len() as u64);
    let two = first != second && lines(text).and_then(|lines| structure(&lines)).is_ok_and(there);
    if refused(number) && Answer::new(number).a == rule && !two {
        Answer::refused(Refusal::NOT_TWO).number()
    } else {
        number
    }
}

/// The crossings by other numbers of threads.
fn crossings_at(text: &[u8], threads: [u64; 2], out: &mut [u8]) -> u64 {
    crossings(text, threads[0], threads[1], out)
}

/// The crossings, with an answer by what the right one is where the call is not refused.
fn recounted(text: &[u8], threads: [u64; 2], out: &mut [u8], count: impl Fn(u64, usize) -> u64) -> u64 {
    let number = crossings_at(text, threads, out);
    match Answer::new(number) {
        Answer { kind: CROSSED, a, b } => Answer { kind: CROSSED, a, b: count(b, out.len()) }.number(),
        _ => number,
    }
}

/// Crossings with a fault each.
pub const FAULTY_CROSSINGS: [(&str, CrossingsCall); 62] = [
    ("locks in common", |text, a, b, out| crossed_by(text, (a, b), out, miscross::locks_in_common)),
    ("the first wants alone", |text, a, b, out| crossed_by(text, (a, b), out, miscross::first_wants_alone)),
    ("the second wants alone", |text, a, b, out| crossed_by(text, (a, b), out, miscross::second_wants_alone)),
    ("the same lock wanted", |text, a, b, out| crossed_by(text, (a, b), out, miscross::the_same_wanted)),
    ("one lock held alone", |text, a, b, out| crossed_by(text, (a, b), out, miscross::one_lock_alone)),
    ("shares in common", |text, a, b, out| crossed_by(text, (a, b), out, miscross::shares_in_common)),
    ("held locks alone", |text, a, b, out| crossed_by(text, (a, b), out, miscross::held_locks_alone)),
    ("shares wait for shares", |text, a, b, out| {
        crossed_by(text, (a, b), out, miscross::shares_wait_for_shares)
    }),
    ("held locks wanted alone", |text, a, b, out| {
        crossed_by(text, (a, b), out, miscross::held_locks_wanted_alone)
    }),
    ("no upgrades", |text, a, b, out| crossed_by(text, (a, b), out, miscross::no_upgrades)),
    ("by the shared word first", |text, a, b, out| {
        crossed_by(text, (a, b), out, miscross::shared_word_first)
    }),
    ("by the second word first", |text, a, b, out| {
        crossed_by(text, (a, b), out, miscross::second_word_first)
    }),
    ("by the wanted locks", |text, a, b, out| crossed_by(text, (a, b), out, miscross::by_wanted_locks)),
    ("the threads exchanged", |text, a, b, out| crossed_by(text, (a, b), out, miscross::threads_exchanged)),
    ("the lower thread first", |text, a, b, out| crossed_by(text, (a, b), out, miscross::lower_thread_first)),
    ("upwards alone", |text, a, b, out| crossed_by(text, (a, b), out, miscross::upwards_alone)),
    ("the words exchanged", |text, a, b, out| crossed_by(text, (a, b), out, miscross::words_exchanged)),
    ("either way once", |text, a, b, out| crossed_by(text, (a, b), out, miscross::either_way_once)),
    ("none in one procedure", |text, a, b, out| {
        crossed_by(text, (a, b), out, miscross::none_in_one_procedure)
    }),
    ("procedures by the threads' numbers", |text, a, b, out| {
        crossed_by(text, (a, b), out, miscross::procedures_by_thread_numbers)
    }),
    ("one for each pair", |text, a, b, out| crossed_by(text, (a, b), out, miscross::one_for_each)),
    ("pairs behind the 128th left out", |text, a, b, out| {
        crossed_by(text, (a, b), out, miscross::up_to_128_pairs)
    }),
    ("a count of what fits", |text, a, b, out| {
        recounted(text, [a, b], out, |count, length| count.min((length / COUPLE_BYTES) as u64))
    }),
    ("a count of words", |text, a, b, out| recounted(text, [a, b], out, |count, _| 6 * count)),
    ("one more than there are", |text, a, b, out| recounted(text, [a, b], out, |count, _| count + 1)),
    ("one less", |text, a, b, out| recounted(text, [a, b], out, |count, _| count.saturating_sub(1))),
    ("whether there are any", |text, a, b, out| recounted(text, [a, b], out, |count, _| count.min(1))),
    ("eight bits of the count", |text, a, b, out| recounted(text, [a, b], out, |count, _| count % 256)),
    ("sixteen bits of the count", |text, a, b, out| recounted(text, [a, b], out, |count, _| count % 65_536)),
    ("511 couples at most", |text, a, b, out| {
        recounted(text, [a, b], out, |count, _| count.min(MAX_PAIRS as u64))
    }),
    ("half a couple written", |text, a, b, out| crossings_in(PAIR_BYTES, text, (a, b), out)),
    ("words of a couple written", |text, a, b, out| crossings_in(8, text, (a, b), out)),
    ("bytes of a couple written", |text, a, b, out| crossings_in(1, text, (a, b), out)),
    ("couples two by two", |text, a, b, out| crossings_in(2 * COUPLE_BYTES, text, (a, b), out)),
    ("nothing written where not all fit", |text, a, b, out| {
        let fit = couples_of(text, a, b).len() <= out.len();
        crossings(text, a, b, if fit { out } else { &mut [] })
    }),
    ("no couple at the end of the buffer", |text, a, b, out| {
        let length = out.len().saturating_sub(1);
        crossings(text, a, b, &mut out[..length])
    }),
    ("1,533 words at most", |text, a, b, out| {
        let length = out.len().min(8 * MAX_WORDS);
        crossings(text, a, b, &mut out[..length])
    }),
    ("an untouched buffer", |text, a, b, _| crossings(text, a, b, &mut [])),
    ("the last ones that fit", |text, a, b, out| {
        let all = couples_of(text, a, b);
        let length = all.len().min(out.len() / COUPLE_BYTES * COUPLE_BYTES);
        out[..length].copy_from_slice(&all[all.len() - length..]);
        crossings(text, a, b, &mut [])
    }),
    ("the rest cleared", |text, a, b, out| {
        let number = crossings(text, a, b, out);
        if !refused(number) {
            let length = couples_of(text, a, b).len().min(out.len() / COUPLE_BYTES * COUPLE_BYTES);
            out[length..].fill(0);
        }
        number
    }),
    ("a zero behind the couples", |text, a, b, out| {
        let number = crossings(text, a, b, out);
        if let (false, Some(byte)) = (refused(number), out.get_mut(couples_of(text, a, b).len())) {
            *byte = 0;
        }
        number
    }),
    ("highest byte first", |text, a, b, out| {
        let number = crossings(text, a, b, out);
        if !refused(number) {
            let words = 2 * PAIR_WORDS * Answer::new(number).b as usize;
            let length = out.len() / COUPLE_BYTES * COUPLE_BYTES;
            out[..length].chunks_exact_mut(8).take(words).for_each(<[u8]>::reverse);
        }
        number
    }),
    ("a byte behind the buffer written", |text, a, b, out| {
        // SAFETY: none; the comparison keeps the byte accessible unless it faults.
        unsafe { *out.as_mut_ptr().add(out.len()) ^= 0x55 };
        crossings(text, a, b, out)
    }),
    ("a byte before the buffer written", |text, a, b, out| {
        // SAFETY: as above.
        unsafe { *out.as_mut_ptr().sub(1) ^= 0x55 };
        crossings(text, a, b, out)
    }),
    ("written and then refused", |text, a, b, out| {
        let number = crossings(text, a, b, out);
        if let (true, Some(first)) = (refused(number), out.first_mut()) {
            *first ^= 0x55;
        }
        number
    }),
    ("no room refused", |text, a, b, out| {
        let number = crossings(text, a, b, out);
        if out.is_empty() && !refused(number) {
            short()
        } else {
            number
        }
    }),
    ("room for less than a couple refused", |text, a, b, out| {
        if out.len() < COUPLE_BYTES {
            short()
        } else {
            crossings(text, a, b, out)
        }
    }),
    ("room for less than all refused", |text, a, b, out| {
        if out.len() < couples_of(text, a, b).len() {
            short()
        } else {
            crossings(text, a, b, out)
        }
    }),
    ("equal threads let through", |text, a, b, out| match read(text) {
        Ok(plan) if a == b && a < plan.threads.len() as u64 => {
            let pairs = &plan.pairs[plan.threads[a as usize]];
            put_couples(&crossings::couples(pairs, pairs), out)
        }
        _ => crossings(text, a, b, out),
    }),
    ("no couples of equal threads", |text, a, b, out| match read(text) {
        Ok(plan) if a == b && a < plan.threads.len() as u64 => CROSSED,
        _ => crossings(text, a, b, out),
    }),
    ("no couples of an absent thread", |text, a, b, out| match read(text) {
        Ok(plan) if a != b && a.max(b) >= plan.threads.len() as u64 => CROSSED,
        _ => crossings(text, a, b, out),
    }),
    ("an absent second thread let through", |text, a, b, out| match read(text) {
        Ok(plan) if a < plan.threads.len() as u64 && b == plan.threads.len() as u64 => CROSSED,
        _ => crossings(text, a, b, out),
    }),
    ("three bits of a thread", |text, a, b, out| crossings_at(text, [a, b].map(|thread| thread % 8), out)),
    ("a byte of a thread", |text, a, b, out| crossings_at(text, [a, b].map(|thread| thread % 256), out)),
    ("32 bits of a thread", |text, a, b, out| {
        crossings_at(text, [a, b].map(|thread| thread % (1 << 32)), out)
    }),
    ("63 bits of a thread", |text, a, b, out| {
        crossings_at(text, [a, b].map(|thread| thread % (1 << 63)), out)
    }),
    ("rule 11 for rule 14", |text, a, b, out| {
        let number = crossings(text, a, b, out);
        if Answer::new(number) == Answer::refused(Refusal::NOT_TWO) {
            Answer::refused(Refusal { rule: 11, line: 0 }).number()
        } else {
            number
        }
    }),
    ("rule 14 at the last line", |text, a, b, out| {
        let number = crossings(text, a, b, out);
        if Answer::new(number) == Answer::refused(Refusal::NOT_TWO) {
            Answer { b: lines(text).map_or(0, |lines| lines.count as u64), ..Answer::new(number) }.number()
        } else {
            number
        }
    }),
    ("rule 14 before rule 8", |text, a, b, out| threads_before(8, text, (a, b), out)),
    ("rule 14 before rule 13", |text, a, b, out| threads_before(13, text, (a, b), out)),
    ("rule 14 before rule 9", |text, a, b, out| threads_before(9, text, (a, b), out)),
    ("equal threads before the plan", |text, a, b, out| {
        if a == b {
            Answer::refused(Refusal::NOT_TWO).number()
        } else {
            crossings(text, a, b, out)
        }
    }),
];

/// The calls that go by the sum, over sums with a fault each.
pub const FAULTY_SUMS: [(&str, Calls); 8] = [
    ("one too small", calls_by_sum!(misread::one_too_small)),
    ("one too large", calls_by_sum!(misread::one_too_large)),
    ("of all procedures", calls_by_sum!(misread::sum_of_all_procedures)),
    ("each procedure once", calls_by_sum!(misread::each_procedure_once)),
    ("procedures by the threads' numbers", calls_by_sum!(misread::procedures_by_thread_numbers)),
    ("the largest thread alone", calls_by_sum!(misread::largest_thread_alone)),
    ("twelve bits of the sum", calls_by_sum!(misread::twelve_bits_of_the_sum)),
    ("shares of size one", calls_by_sum!(misread::shares_of_size_one)),
];

/// The calls over readings with a fault each.
pub const FAULTY_READINGS: [(&str, Calls); 34] = [
    ("calls of earlier ones alone", calls_over!(misread::calls_of_earlier_ones_alone)),
    ("absent from 64 on", calls_over!(misread::absent_from_64_on)),
    ("six bits of a callee", calls_over!(misread::six_bits_of_a_callee)),
    ("the lowest that reaches a circle", calls_over!(misread::lowest_that_reaches_a_circle)),
    ("the lowest between circles", calls_over!(misread::lowest_between_circles)),
    ("the highest of a circle", calls_over!(misread::highest_of_a_circle)),
    ("calls of itself alone", calls_over!(misread::calls_of_itself_alone)),
    ("circles of threads alone", calls_over!(misread::circles_of_threads_alone)),
    ("two ways for a circle", calls_over!(misread::two_ways_for_a_circle)),
    ("all others for a circle", calls_over!(misread::all_others_for_a_circle)),
    ("rule 12 before rule 7", calls_over!(misread::recursion_before_calls)),
    ("rule 12 before rule 8", calls_over!(misread::recursion_before_threads)),
    ("rule 9 before rule 12", calls_over!(misread::size_before_recursion)),
    ("rule 13 not asked", calls_over!(misread::idle_let_through)),
    ("rule 13 before rule 8", calls_over!(misread::idle_before_threads)),
    ("rule 13 before rule 12", calls_over!(misread::idle_before_recursion)),
    ("rule 9 before rule 13", calls_over!(misread::size_before_idle)),
    ("the highest idle one", calls_over!(misread::highest_idle)),
    ("called by any for used", calls_over!(misread::called_by_any_for_used)),
    ("used by one call alone", calls_over!(misread::one_call_alone)),
    ("used by 62 calls alone", calls_over!(misread::calls_62_deep_alone)),
    ("used by calls outside alone", calls_over!(misread::calls_outside_alone)),
    ("used by name alone", calls_over!(misread::named_alone)),
    ("used by calls alone", calls_over!(misread::called_alone)),
    ("used by the first thread alone", calls_over!(misread::first_thread_alone)),
    ("used by the last thread alone", calls_over!(misread::last_thread_alone)),
    ("used by threads' numbers", calls_over!(misread::used_by_thread_numbers)),
    ("five bits of a used one", calls_over!(misread::five_bits_of_a_used_one)),
    ("rule 9 of the threads' procedures alone", calls_over!(misread::size_of_threads_alone)),
    ("more than 128 pairs refused", calls_over!(misread::more_than_128_pairs_refused)),
    ("more than 511 pairs before rule 9", calls_over!(misread::pairs_before_sizes)),
    ("more than 511 pairs before rule 12", calls_over!(misread::pairs_before_recursion)),
    ("sizes in text order", calls_over!(misread::sizes_in_text_order)),
    ("pairs in text order", calls_over!(misread::pairs_in_text_order)),
];

/// The calls over readings of shares with a fault each.
pub const FAULTY_SHARES: [(&str, Calls); 9] = [
    ("no upgrades", calls_over!(misread::no_upgrades)),
    ("shares fresh under holds", calls_over!(misread::shares_fresh_under_holds)),
    ("shares fresh under shares", calls_over!(misread::shares_fresh_under_shares)),
    ("shares as holds", calls_over!(misread::shares_as_holds)),
    ("rule 6 for holds alone", calls_over!(misread::locks_of_shares_let_through)),
    ("rule 6 for holds first", calls_over!(misread::locks_of_holds_first)),
    ("shares are no brackets", calls_over!(misread::shares_are_no_brackets)),
    ("shares are no statements", calls_over!(misread::shares_are_no_statements)),
    ("empty shares let through", calls_over!(misread::empty_shares_let_through)),
];
