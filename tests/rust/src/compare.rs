//! The comparison of the library with the reference on one text.

use crate::answer::{Answer, COPIED, CROSSED, DEADLOCK, FREE, PAIRS, REFUSED, SPACE};
use crate::crossings::{bytes, crossed, Couple, COUPLE_BYTES};
use crate::gateway::replay;
use crate::guard::Pages;
use crate::random::Random;
use crate::reference::{read, Plan, Refusal, MAX_SUM, MAX_WORDS};
use crate::straight::straight;
use crate::tidy::{tidy, COPY_BYTES};
use crate::twins::Twins;
use crate::verdict::deadlocks;

/// Text and output.
pub type VerdictCall = fn(&[u8], &mut [u8]) -> u64;
/// Text and output, for the tidy or the straightened copy.
pub type CopyCall = fn(&[u8], &mut [u8]) -> u64;
/// Text, procedure and output.
pub type PairsCall = fn(&[u8], u64, &mut [u8]) -> u64;
/// Text.
pub type SpaceCall = fn(&[u8]) -> u64;
/// Text, first and second thread, and output.
pub type CrossingsCall = fn(&[u8], u64, u64, &mut [u8]) -> u64;

/// The calls of a library.
#[derive(Clone, Copy)]
pub struct Calls {
    pub verdict: VerdictCall,
    pub pairs: PairsCall,
    pub tidy: CopyCall,
    pub straight: CopyCall,
    pub space: SpaceCall,
    pub crossings: CrossingsCall,
}

/// The least buffer of a call: its bytes, and those of one entry of it.
#[derive(Clone, Copy)]
struct Least {
    bytes: usize,
    entry: usize,
}

const PAIR_LIST: Least = Least { bytes: 8 * MAX_WORDS, entry: 8 };
const COPY: Least = Least { bytes: COPY_BYTES, entry: 1 };

impl Least {
    /// A random length, mostly enough.
    fn about(self, random: &mut Random) -> usize {
        let Least { bytes: least, entry } = self;
        match random.below(16) {
            0 => 0,
            1 => least - 1,
            2 => least - entry,
            3 => random.below(least),
            4..=6 => least,
            7 | 8 => least + 1,
            9 => least + entry - 1,
            10 => least + entry,
            _ => least + random.below(5_000),
        }
    }
}

/// The bytes lent to the verdicts of a text: exactly the sum of its threads' sizes, one
/// entry less and none, each with an odd byte now and then, and some number about the
/// sum. Where there is no sum, none and any.
fn lent_to_verdicts(sum: Result<u64, Refusal>, random: &mut Random) -> Vec<usize> {
    let Ok(sum) = sum else {
        return vec![random.below(2), random.below(2 * MAX_SUM + 2)];
    };
    let least = Least { bytes: 2 * sum as usize, entry: 2 };
    let whole = [least.bytes, least.bytes - least.entry, 0];
    let mut lengths: Vec<usize> = whole.map(|bytes| bytes + usize::from(random.chance(30))).into();
    lengths.push(least.about(random));
    lengths
}

/// Numbers of bytes below this are small, where couples are lent for: up to three of them
/// and a byte more.
const FEW: usize = 3 * COUPLE_BYTES + 2;

/// The bytes lent for couples: a small number, or each of them now and then where there are
/// couples; and a number about what all of them need. Where the call is refused, any.
fn lent_to_crossings(couples: &Result<Vec<Couple>, Refusal>, random: &mut Random) -> Vec<usize> {
    let few = random.below(FEW);
    let Ok(couples) = couples else {
        return vec![if random.chance(50) { few } else { random.below(5_000) }];
    };
    let all = COUPLE_BYTES * couples.len();
    let each = !couples.is_empty() && random.chance(4);
    let mut lengths = if each { (0..FEW).collect() } else { vec![few] };
    lengths.push(match random.below(11) {
        0..=2 => all,
        3 => all.saturating_sub(1),
        4 => all + 1,
        5 => all.saturating_sub(8 * random.between(1, 5)),
        6 => all + COUPLE_BYTES / 2,
        7 => all + COUPLE_BYTES,
        8 => all + random.below(5_000),
        _ => random.below(all + 1),
    });
    lengths
}

/// What a text gave, for the summary.
#[derive(Clone, Copy, Debug, PartialEq, Eq, PartialOrd, Ord)]
pub enum Outcome {
    Free,
    Deadlock,
    Refused(u8),
}

/// Counts of the calls made.
#[derive(Clone, Copy, Debug, Default)]
pub struct Counts {
    pub pair_lists: u64,
    /// Lent exactly as many whole words as must be, and one less.
    pub least_words: u64,
    pub one_word_less: u64,
    pub verdicts: u64,
    /// Of accepted plans, lent exactly the sum of their threads' sizes.
    pub at_the_sum: u64,
    /// Of accepted plans, lent one entry less.
    pub one_less: u64,
    pub copies: u64,
    pub straights: u64,
    pub spaces: u64,
    pub crossings: u64,
    /// Refused by rule 14.
    pub not_two: u64,
    /// Of threads that cross, lent exactly what all couples need, less, and so that one of
    /// them fits in part.
    pub all_couples: u64,
    pub some_couples: u64,
    pub part_of_a_couple: u64,
    pub pairs: u64,
    pub entries: u64,
    pub copied: u64,
    pub straightened: u64,
    pub couples: u64,
}

/// A text and what the reference says of it.
struct Said {
    text: Vec<u8>,
    plan: Result<Plan, Refusal>,
    outcome: Outcome,
    /// The tidy copy and the straightened one, empty where the text is refused.
    tidy: Vec<u8>,
    straight: Vec<u8>,
}

impl Said {
    /// The sum of the threads' sizes.
    fn sum(&self) -> Result<u64, Refusal> {
        self.plan.as_ref().map(Plan::size_of_threads).map_err(|refusal| *refusal)
    }

    /// The couples of two threads.
    fn crossed(&self, first: u64, second: u64) -> Crossed {
        let couples =
            self.plan.as_ref().map_err(|refusal| *refusal).and_then(|plan| crossed(plan, first, second));
        Crossed { first, second, couples }
    }
}

/// Two threads, and what the reference says of them.
struct Crossed {
    first: u64,
    second: u64,
    couples: Result<Vec<Couple>, Refusal>,
}

/// The bytes of the memory for output parts. Only couples can need more.
const ROOM: usize = 65_536;

/// The memory lent to the calls.
pub struct Bench {
    text: Pages,
    out: Pages,
    /// What `out` held before the call.
    before: Vec<u8>,
    /// What the reference says of the last text.
    last: Option<Said>,
    /// Whether buffers also begin and end at inaccessible memory.
    edges: bool,
    pub counts: Counts,
    pub twins: Twins,
}

impl Bench {
    pub fn new(edges: bool) -> Bench {
        let (text, mut out) = (Pages::new(1 << 20), Pages::new(ROOM));
        let before = vec![0; out.bytes().len()];
        Bench { text, out, before, last: None, edges, counts: Counts::default(), twins: Twins::default() }
    }

    /// Compares the calls on a text; the lent lengths and places come from `random`.
    pub fn check(&mut self, calls: Calls, text: &[u8], random: &mut Random) -> Result<Outcome, String> {
        self.check_known(calls, text, None, random)
    }

    /// The same where it is known whether an accepted text deadlocks: the reference does
    /// not search for it.
    pub fn check_known(
        &mut self,
        calls: Calls,
        text: &[u8],
        known: Option<bool>,
        random: &mut Random,
    ) -> Result<Outcome, String> {
        let said = match self.last.take() {
            Some(last) if last.text == text => last,
            _ => say(text, known),
        };
        for proc in requested(&said.plan, random) {
            let lent = self.lend(text, PAIR_LIST.about(random), random);
            self.pairs(calls.pairs, &said.plan, proc, lent)?;
        }
        for bytes in lent_to_verdicts(said.sum(), random) {
            let lent = self.lend(text, bytes, random);
            self.verdict(calls.verdict, &said, lent)?;
        }
        let lent = self.lend(text, COPY.about(random), random);
        self.tidy(calls.tidy, &said, lent)?;
        let lent = self.lend(text, COPY.about(random), random);
        self.straight(calls.straight, &said, lent)?;
        let lent = self.lend(text, 0, random);
        self.space(calls.space, &said, lent)?;
        let two = two_threads(&said.plan, 6, random);
        let others = [(); 3].map(|()| not_two(&said.plan, random));
        for (first, second) in two.into_iter().chain(others) {
            self.all_crossings(calls.crossings, text, &said.crossed(first, second), random)?;
        }
        self.twins.check(calls, text, &said.plan, random)?;
        let outcome = said.outcome;
        self.last = Some(said);
        Ok(outcome)
    }

    /// The crossings of two threads with several lengths lent.
    fn all_crossings(
        &mut self,
        call: CrossingsCall,
        text: &[u8],
        crossed: &Crossed,
        random: &mut Random,
    ) -> Result<(), String> {
        for bytes in lent_to_crossings(&crossed.couples, random) {
            self.make_room(bytes);
            let lent = self.lend(text, bytes, random);
            self.crossings(call, crossed, lent)?;
        }
        self.make_room(0);
        Ok(())
    }

    /// Room for an output part of so many bytes, no more than usual where that is enough.
    fn make_room(&mut self, bytes: usize) {
        let room = (2 * bytes).next_multiple_of(ROOM).max(ROOM);
        if self.out.bytes().len() != room {
            self.out = Pages::new(room);
            self.before = vec![0; room];
        }
    }

    /// Places a text and an output part of so many bytes.
    fn lend(&mut self, text: &[u8], len: usize, random: &mut Random) -> Lent {
        let room = self.text.bytes();
        let start = match random.below(3) {
            0 => 0,
            1 => random.below(room.len() - text.len() + 1),
            _ => room.len() - text.len(),
        };
        room[start..start + text.len()].copy_from_slice(text);
        let room = self.out.bytes();
        let out = match random.below(4) {
            0 if self.edges => 0,
            1 if self.edges => room.len() - len,
            0 | 1 => 64,
            2 => 64 + random.below(64),
            _ => 1 + 2 * random.below((room.len() - len) / 2),
        };
        // Bytes that no answer has by chance all over.
        for bytes in room.chunks_exact_mut(8) {
            bytes.copy_from_slice(&random.next().to_le_bytes());
        }
        self.before.copy_from_slice(room);
        Lent { start, text: text.to_vec(), out, len }
    }

    /// What a pair list or a copy must answer by the lent length and the text, if
    /// it is refused.
    fn refusal(plan: &Result<Plan, Refusal>, lent: &Lent, least: Least) -> Option<Refusal> {
        if lent.len < least.bytes {
            return Some(Refusal::SHORT);
        }
        plan.as_ref().err().copied()
    }

    /// A call on the memory that is lent to it.
    fn call(&mut self, lent: &Lent, call: impl FnOnce(&[u8], &mut [u8]) -> u64) -> u64 {
        let text = &self.text.bytes()[lent.start..lent.start + lent.text.len()];
        call(text, &mut self.out.bytes()[lent.out..lent.out + lent.len])
    }

    /// Whether a call's answer was right and it left the memory that is expected.
    fn left(
        &mut self,
        what: &str,
        answered: Result<(), String>,
        expected: Vec<u8>,
        lent: &Lent,
    ) -> Result<(), String> {
        let result = answered.and_then(|()| self.same_memory(&expected, lent));
        self.before = expected;
        result.map_err(|message| format!("{what}, {} bytes lent at offset {}: {message}", lent.len, lent.out))
    }

    fn pairs(
        &mut self,
        call: PairsCall,
        plan: &Result<Plan, Refusal>,
        proc: u64,
        lent: Lent,
    ) -> Result<(), String> {
        self.counts.pair_lists += 1;
        self.counts.least_words += u64::from(lent.len / 8 == MAX_WORDS);
        self.counts.one_word_less += u64::from(lent.len / 8 == MAX_WORDS - 1);
        let number = self.call(&lent, |text, out| call(text, proc, out));
        let mut expected = std::mem::take(&mut self.before);
        let refusal = Bench::refusal(plan, &lent, PAIR_LIST);
        let listed = match plan {
            Ok(plan) if proc < plan.pairs.len() as u64 => Some(&plan.pairs[proc as usize]),
            _ => None,
        };
        let answer = match (refusal, listed) {
            (Some(refusal), _) => Answer::refused(refusal),
            (None, None) => Answer::refused(Refusal { rule: 11, line: 0 }),
            (None, Some(pairs)) => {
                let words = pairs.iter().flat_map(|pair| pair.bytes());
                for (place, byte) in expected[lent.out..].iter_mut().zip(words) {
                    *place = byte;
                }
                self.counts.pairs += pairs.len() as u64;
                Answer { kind: PAIRS, a: 0, b: pairs.len() as u64 }
            }
        };
        let what = format!("pairs of procedure {proc}");
        self.left(&what, same_answer(number, answer), expected, &lent)
    }

    /// The rules of the plan come before the length of the buffer.
    fn verdict(&mut self, call: VerdictCall, said: &Said, lent: Lent) -> Result<(), String> {
        self.counts.verdicts += 1;
        let number = self.call(&lent, call);
        let mut expected = std::mem::take(&mut self.before);
        let answered = match &said.plan {
            Err(refusal) => same_answer(number, Answer::refused(*refusal)),
            Ok(plan) => {
                let (entries, sum) = (lent.len as u64 / 2, plan.size_of_threads());
                self.counts.at_the_sum += u64::from(entries == sum);
                self.counts.one_less += u64::from(entries + 1 == sum);
                if entries < sum {
                    same_answer(number, Answer::refused(Refusal::SHORT))
                } else if said.outcome == Outcome::Deadlock {
                    self.schedule(plan, Answer::new(number), &mut expected, &lent)
                } else {
                    same_answer(number, Answer { kind: FREE, a: 0, b: 0 })
                }
            }
        };
        self.left("verdict", answered, expected, &lent)
    }

    fn tidy(&mut self, call: CopyCall, said: &Said, lent: Lent) -> Result<(), String> {
        self.counts.copies += 1;
        self.counts.copied += self.copy("tidy copy", call, said, &said.tidy, lent)?;
        Ok(())
    }

    fn straight(&mut self, call: CopyCall, said: &Said, lent: Lent) -> Result<(), String> {
        self.counts.straights += 1;
        self.counts.straightened += self.copy("straightened copy", call, said, &said.straight, lent)?;
        Ok(())
    }

    /// The bytes of a copy that is written where nothing is refused.
    fn copy(
        &mut self,
        what: &str,
        call: CopyCall,
        said: &Said,
        copy: &[u8],
        lent: Lent,
    ) -> Result<u64, String> {
        let number = self.call(&lent, call);
        let mut expected = std::mem::take(&mut self.before);
        let (answer, written) = match Bench::refusal(&said.plan, &lent, COPY) {
            Some(refusal) => (Answer::refused(refusal), 0),
            None => {
                expected[lent.out..lent.out + copy.len()].copy_from_slice(copy);
                (Answer { kind: COPIED, a: 0, b: copy.len() as u64 }, copy.len() as u64)
            }
        };
        self.left(what, same_answer(number, answer), expected, &lent).map(|()| written)
    }

    /// No buffer is lent to it, and nothing changes.
    fn space(&mut self, call: SpaceCall, said: &Said, lent: Lent) -> Result<(), String> {
        self.counts.spaces += 1;
        let number = self.call(&lent, |text, _| call(text));
        let expected = std::mem::take(&mut self.before);
        let answer = said.sum().map_or_else(Answer::refused, |sum| Answer { kind: SPACE, a: 0, b: sum });
        self.left("space", same_answer(number, answer), expected, &lent)
    }

    /// The count is of all couples, and the first that fit whole are written.
    fn crossings(&mut self, call: CrossingsCall, crossed: &Crossed, lent: Lent) -> Result<(), String> {
        self.counts.crossings += 1;
        let Crossed { first, second, couples } = crossed;
        let number = self.call(&lent, |text, out| call(text, *first, *second, out));
        let mut expected = std::mem::take(&mut self.before);
        let answer = match couples {
            Err(refusal) => {
                self.counts.not_two += u64::from(*refusal == Refusal::NOT_TWO);
                Answer::refused(*refusal)
            }
            Ok(couples) => {
                let (count, fit) = (couples.len(), lent.len / COUPLE_BYTES);
                let written = bytes(&couples[..fit.min(count)]);
                expected[lent.out..lent.out + written.len()].copy_from_slice(&written);
                self.counts.all_couples += u64::from(count > 0 && lent.len == COUPLE_BYTES * count);
                self.counts.some_couples += u64::from(fit < count);
                self.counts.part_of_a_couple += u64::from(fit < count && lent.len % COUPLE_BYTES >= 8);
                self.counts.couples += fit.min(count) as u64;
                Answer { kind: CROSSED, a: 0, b: count as u64 }
            }
        };
        let what = format!("crossings of threads {first} and {second}");
        self.left(&what, same_answer(number, answer), expected, &lent)
    }

    /// A deadlock's schedule is a run, short enough, with the stuck set at its end.
    fn schedule(
        &mut self,
        plan: &Plan,
        answer: Answer,
        expected: &mut [u8],
        lent: &Lent,
    ) -> Result<(), String> {
        if answer.kind != DEADLOCK {
            return Err(format!("answer {answer:?}, not a deadlock"));
        }
        if answer.b > plan.size_of_threads() {
            return Err(format!("{} entries, more than {}", answer.b, plan.size_of_threads()));
        }
        let bytes = 2 * answer.b as usize;
        let written = &self.out.bytes()[lent.out..lent.out + bytes];
        expected[lent.out..lent.out + bytes].copy_from_slice(written);
        let entries: Vec<u16> =
            written.chunks_exact(2).map(|entry| u16::from_le_bytes([entry[0], entry[1]])).collect();
        self.counts.entries += answer.b;
        let state = replay(plan, &entries)
            .map_err(|index| format!("entry {index} of {} is not permitted", entries.len()))?;
        let stuck = u64::from(state.largest_stuck(plan));
        if stuck == 0 {
            return Err("no thread is stuck at the end of the schedule".into());
        }
        if stuck != answer.a {
            return Err(format!("stuck set {:#b}, not {stuck:#b}", answer.a));
        }
        Ok(())
    }

    /// Nothing but the promised bytes has changed.
    fn same_memory(&mut self, expected: &[u8], lent: &Lent) -> Result<(), String> {
        let text = &self.text.bytes()[lent.start..lent.start + lent.text.len()];
        if text != lent.text {
            return Err("the text has changed".into());
        }
        let found = self.out.bytes();
        if found == expected {
            return Ok(());
        }
        let at = (0..found.len()).find(|at| found[*at] != expected[*at]).unwrap();
        let (place, end) = (at as i64 - lent.out as i64, lent.len);
        let (found, expected) = (found[at], expected[at]);
        Err(format!("byte {place} of the buffer (of {end}) is {found:#04x}, not {expected:#04x}"))
    }
}

/// The outcome by the reference.
pub fn outcome(text: &[u8]) -> Outcome {
    say(text, None).outcome
}

/// What the reference says of a text, by what is known of its verdict.
fn say(text: &[u8], known: Option<bool>) -> Said {
    let plan = read(text);
    let outcome = match &plan {
        Err(refusal) => Outcome::Refused(refusal.rule),
        Ok(plan) if known.unwrap_or_else(|| deadlocks(plan)) => Outcome::Deadlock,
        Ok(_) => Outcome::Free,
    };
    let (tidy, straight) = plan.as_ref().map(|plan| (tidy(plan), straight(plan))).unwrap_or_default();
    Said { text: text.to_vec(), plan, outcome, tidy, straight }
}

fn same_answer(number: u64, expected: Answer) -> Result<(), String> {
    if number == expected.number() {
        return Ok(());
    }
    Err(format!("answer {:?}, not {expected:?}", Answer::new(number)))
}

/// A text and an output part in the memory of a bench.
struct Lent {
    start: usize,
    text: Vec<u8>,
    out: usize,
    len: usize,
}

/// Some procedures whose pairs are requested, present and absent.
fn requested(plan: &Result<Plan, Refusal>, random: &mut Random) -> Vec<u64> {
    let count = plan.as_ref().map_or(1, |plan| plan.procs.len());
    let mut procs: Vec<u64> = (0..count as u64).collect();
    random.shuffle(&mut procs);
    procs.truncate(4);
    let last = count as u64 - 1;
    match random.below(6) {
        0 => procs.push(last + 1),
        1 => procs.push(*random.pick(&[u64::MAX, 1 << 32, 1 << 63, 64, 256, 65_536])),
        2 => procs.push(last + (1 << 32)),
        3 => procs.push(last),
        _ => {}
    }
    procs
}

/// Two different threads of a plan, in any order, so often at most; the first two where
/// it is refused.
pub fn two_threads(plan: &Result<Plan, Refusal>, most: usize, random: &mut Random) -> Vec<(u64, u64)> {
    let count = plan.as_ref().map_or(2, |plan| plan.threads.len()) as u64;
    let all = (0..count).flat_map(|first| (0..count).map(move |second| (first, second)));
    let mut two: Vec<(u64, u64)> = all.filter(|(first, second)| first != second).collect();
    random.shuffle(&mut two);
    two.truncate(most);
    two
}

/// Two numbers of which one at least is that of no thread, or twice the same.
pub fn not_two(plan: &Result<Plan, Refusal>, random: &mut Random) -> (u64, u64) {
    let count = plan.as_ref().map_or(2, |plan| plan.threads.len()) as u64;
    let there = random.below(count as usize) as u64;
    let other = (there + 1) % count;
    // Some are that of a thread in their low bits.
    let any = vec![count, 6, 7, 8, 64, 999, 1 << 32, 1 << 63, u64::MAX];
    let low_bits = [8, 64, 256, 65_536, 1 << 32, 1 << 63].map(|more| there + more).to_vec();
    let mut absent = || {
        let numbers = if random.chance(50) { &any } else { &low_bits };
        (*random.pick(numbers)).max(count)
    };
    let (one, two) = (absent(), absent());
    match random.below(6) {
        0 => (there, there),
        1 => (one, two),
        2 | 3 => (one, other),
        _ => (other, one),
    }
}

/// Removes lines while the text still fails, to make it short.
pub fn shorten(text: &[u8], fails: &mut dyn FnMut(&[u8]) -> bool) -> Vec<u8> {
    let mut lines: Vec<&[u8]> = text.split_inclusive(|byte| *byte == 10).collect();
    let mut piece = lines.len() / 2;
    while piece > 0 {
        let mut at = 0;
        while at < lines.len() {
            let end = (at + piece).min(lines.len());
            let shorter: Vec<&[u8]> = [&lines[..at], &lines[end..]].concat();
            if fails(&shorter.concat()) {
                lines = shorter;
            } else {
                at = end;
            }
        }
        piece /= 2;
    }
    // An opening line and its closing one together.
    let mut at = 0;
    while at < lines.len() {
        let mut other = at + 1;
        let mut removed = false;
        while other < lines.len() {
            if lines[other] == b")\n" {
                let mut shorter = lines.clone();
                shorter.remove(other);
                shorter.remove(at);
                if fails(&shorter.concat()) {
                    lines = shorter;
                    removed = true;
                    break;
                }
            }
            other += 1;
        }
        if !removed {
            at += 1;
        }
    }
    lines.concat()
}

/// The kind of an answer in words.
pub fn kind(answer: Answer) -> &'static str {
    match answer.kind {
        FREE => "free",
        DEADLOCK => "deadlock",
        REFUSED => "refused",
        _ => "unknown",
    }
}
