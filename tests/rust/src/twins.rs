//! What a library says of texts of one plan: of a text, of its tidy copy and of
//! the text indented; of the plan with its procedures in another order; of two threads of
//! it alone; of its straightened copy, and of the plan with more eithers and loops. By the
//! library alone, but for the trees of the plans, the replay of a schedule, the pairs and
//! sizes of the straightened copy and the lines of refusals in the other order.

use crate::answer::{Answer, COPIED, CROSSED, DEADLOCK, FREE, REFUSED, SPACE};
use crate::branches::bent;
use crate::compare::{not_two, two_threads, Calls, CopyCall};
use crate::crossings::{alone, COUPLE_BYTES};
use crate::families::Draft;
use crate::gateway::replay;
use crate::generate::neighbour;
use crate::indent::indent;
use crate::random::Random;
use crate::reference::{named, read, Plan, Refusal, MAX_SUM, MAX_WORDS};
use crate::straight::straightened;
use crate::tidy::{tree, COPY_BYTES};

/// An answer, and the whole buffer as the call left it.
#[derive(PartialEq, Eq)]
struct Left {
    answer: Answer,
    buffer: Vec<u8>,
}

fn left(bytes: usize, call: impl FnOnce(&mut [u8]) -> u64) -> Left {
    let mut buffer = vec![0xa5; bytes];
    let answer = Answer::new(call(&mut buffer));
    Left { answer, buffer }
}

impl Left {
    /// The copy, where the text is accepted.
    fn copied(&self) -> Result<Option<&[u8]>, String> {
        if self.answer.kind != COPIED {
            return Ok(None);
        }
        match self.buffer.get(..self.answer.b as usize) {
            Some(copy) => Ok(Some(copy)),
            None => Err(format!("a copy of {} bytes", self.answer.b)),
        }
    }
}

/// The bytes lent for couples: for some of them, and half a one.
const COUPLES: usize = COUPLE_BYTES * 40 + COUPLE_BYTES / 2;

/// All that the calls of a library say of a text.
struct Told {
    verdict: Left,
    /// Procedure by procedure, and that there are no more.
    pairs: Vec<Left>,
    tidy: Left,
    straight: Left,
    space: Left,
    /// By the threads that are asked about.
    crossings: Vec<Left>,
    threads: Vec<(u64, u64)>,
}

fn tell(calls: Calls, text: &[u8], threads: &[(u64, u64)]) -> Told {
    let verdict = left(2 * MAX_SUM, |out| (calls.verdict)(text, out));
    let tidy = left(COPY_BYTES, |out| (calls.tidy)(text, out));
    let straight = left(COPY_BYTES, |out| (calls.straight)(text, out));
    let space = left(0, |_| (calls.space)(text));
    let mut pairs: Vec<Left> = Vec::new();
    while pairs.last().is_none_or(|last| last.answer.kind != REFUSED) && pairs.len() < 70 {
        let proc = pairs.len() as u64;
        pairs.push(left(8 * MAX_WORDS, |out| (calls.pairs)(text, proc, out)));
    }
    let crossed =
        |(first, second): &(u64, u64)| left(COUPLES, |out| (calls.crossings)(text, *first, *second, out));
    let crossings = threads.iter().map(crossed).collect();
    Told { verdict, pairs, tidy, straight, space, crossings, threads: threads.to_vec() }
}

impl Told {
    /// Whether another text is told alike, its refusals on the lines given.
    fn same(&self, other: &Told, moved: impl Fn(usize) -> usize) -> Result<(), String> {
        let expected = |answer: Answer| match answer.kind {
            REFUSED => Answer { b: moved(answer.b as usize) as u64, ..answer },
            _ => answer,
        };
        let same = |what: String, one: &Left, two: &Left| {
            if two.answer != expected(one.answer) {
                return Err(format!("{what}: answer {:?}, not {:?}", two.answer, expected(one.answer)));
            }
            match one.buffer == two.buffer {
                true => Ok(()),
                false => Err(format!("{what}: other bytes in the buffer")),
            }
        };
        same("verdict".into(), &self.verdict, &other.verdict)?;
        same("tidy copy".into(), &self.tidy, &other.tidy)?;
        same("straightened copy".into(), &self.straight, &other.straight)?;
        same("space".into(), &self.space, &other.space)?;
        if self.pairs.len() != other.pairs.len() {
            return Err(format!("{} pair lists, not {}", other.pairs.len(), self.pairs.len()));
        }
        let mut lists = self.pairs.iter().zip(&other.pairs).enumerate();
        lists.try_for_each(|(proc, (one, two))| same(format!("pairs of procedure {proc}"), one, two))?;
        let mut crossings = self.crossings.iter().zip(&other.crossings);
        crossings.try_for_each(|(one, two)| same("crossings".into(), one, two))
    }

    /// Whether the text of another plan with the same pairs is told the same verdict and
    /// the same crossings, with a schedule that is a run of a plan.
    fn same_verdict(&self, other: &Told, plan: &Plan) -> Result<(), String> {
        let (one, two) = (self.verdict.answer, other.verdict.answer);
        if one.kind != two.kind {
            return Err(format!("verdict: answer {two:?}, not as {one:?}"));
        }
        if two.kind == DEADLOCK {
            other.run_of(plan).map_err(|message| format!("verdict: {message}"))?;
        }
        match self.crossings == other.crossings {
            true => Ok(()),
            false => Err("crossings: other ones".into()),
        }
    }

    /// Whether another text of an accepted plan, its procedures at other numbers, is
    /// told the same verdict, the same space, the same crossings and the same pairs, and
    /// has a schedule of this plan.
    fn same_shuffled(&self, other: &Told, plan: &Plan, numbers: &[usize]) -> Result<(), String> {
        self.same_verdict(other, plan)?;
        if self.space != other.space {
            return Err(format!("space: answer {:?}, not {:?}", other.space.answer, self.space.answer));
        }
        if self.pairs.len() != numbers.len() + 1 || other.pairs.len() != numbers.len() + 1 {
            return Err(format!("{} pair lists, not {}", other.pairs.len(), numbers.len() + 1));
        }
        let moved = (0..numbers.len()).find(|proc| self.pairs[*proc] != other.pairs[numbers[*proc]]);
        match moved {
            Some(proc) => Err(format!("pairs of procedure {proc}, now {}: other ones", numbers[proc])),
            None => Ok(()),
        }
    }

    /// Whether the straightened copy is told the same verdict, the same crossings and the
    /// same pairs, procedure by procedure, and no more space, has a schedule of its own plan,
    /// and is its own tidy and straightened copy.
    fn same_straightened(&self, other: &Told, plan: &Plan) -> Result<(), String> {
        self.same_verdict(other, plan)?;
        let (one, two) = (self.space.answer, other.space.answer);
        if two.kind != SPACE || two.b > one.b {
            return Err(format!("space: answer {two:?}, of the text {one:?}"));
        }
        if self.pairs != other.pairs {
            let proc = self.pairs.iter().zip(&other.pairs).take_while(|(one, two)| one == two).count();
            return Err(format!("pairs of procedure {proc}: other ones"));
        }
        match (other.tidy == self.straight, other.straight == self.straight) {
            (true, true) => Ok(()),
            (false, _) => Err("another tidy copy".into()),
            (_, false) => Err("straightened again it is another".into()),
        }
    }

    /// Whether the schedule is a run of a plan with the stuck set at its end.
    fn run_of(&self, plan: &Plan) -> Result<(), String> {
        let Answer { a, b, .. } = self.verdict.answer;
        let entries = self.verdict.buffer.chunks_exact(2).take(b as usize);
        let entries: Vec<u16> = entries.map(|entry| u16::from_le_bytes([entry[0], entry[1]])).collect();
        if b > plan.size_of_threads() || b > entries.len() as u64 {
            return Err(format!("{b} entries, more than {}", plan.size_of_threads()));
        }
        let state = replay(plan, &entries).map_err(|index| format!("entry {index} is not permitted"))?;
        match u64::from(state.largest_stuck(plan)) == a && a != 0 {
            true => Ok(()),
            false => Err(format!("stuck set {a:#b}, not the largest")),
        }
    }
}

/// The plan of an accepted text, and its copies.
struct Copied {
    tree: Draft,
    tidy: Vec<u8>,
    straight: Vec<u8>,
}

/// The texts that are compared with each other.
#[derive(Default)]
pub struct Twins {
    /// The accepted text before.
    previous: Option<Copied>,
    /// Couples of accepted texts of one plan and of two.
    pub equal: u64,
    pub different: u64,
    /// Plans compared with themselves in another order, accepted and refused ones.
    pub shuffled: u64,
    pub shuffled_refused: u64,
    /// Two threads of a plan compared with the plan of them alone, free and with a deadlock.
    pub alone_free: u64,
    pub alone_deadlock: u64,
    /// Plans compared with their straightened copies, free and with a deadlock, where these are
    /// not the tidy ones; and plans compared with themselves with more eithers and loops.
    pub straight_free: u64,
    pub straight_deadlock: u64,
    pub bent: u64,
}

impl Twins {
    /// Compares what is said of a text, which is known to be accepted or refused,
    /// with what is said of others.
    pub fn check(
        &mut self,
        calls: Calls,
        text: &[u8],
        plan: &Result<Plan, Refusal>,
        random: &mut Random,
    ) -> Result<(), String> {
        let two = two_threads(plan, 2, random);
        let threads = [two.as_slice(), &[not_two(plan, random)]].concat();
        let told = tell(calls, text, &threads);
        let twin = indent(text, random);
        told.same(&tell(calls, &twin.text, &threads), |line| twin.moved(line))
            .map_err(|message| format!("the text indented: {message}"))?;
        self.shuffled(calls, text, &told, plan, random)
            .map_err(|message| format!("the procedures shuffled: {message}"))?;
        let (Ok(plan), Some(copy)) = (plan, told.tidy.copied()?) else {
            return Ok(());
        };
        told.same(&tell(calls, copy, &threads), |line| line)
            .map_err(|message| format!("the tidy copy: {message}"))?;
        self.straightened(calls, &told, plan)
            .map_err(|message| format!("the straightened copy: {message}"))?;
        self.alone(calls, text, plan, &two)?;
        let straight = told.straight.copied()?.unwrap_or_default().to_vec();
        let own = Copied { tree: tree(plan), tidy: copy.to_vec(), straight };
        self.with_branches(calls, &own, random)?;
        if let Some(previous) = self.previous.take() {
            self.couple("the text before", &own, &previous)?;
        }
        let other = neighbour(&own.tidy, random);
        if let Ok(other_plan) = read(&other) {
            let copied = |call: CopyCall| {
                let told = left(COPY_BYTES, |out| call(&other, out));
                let length = (told.answer.b as usize).min(COPY_BYTES);
                told.buffer[..length].to_vec()
            };
            let (tidy, straight) = (copied(calls.tidy), copied(calls.straight));
            self.couple("a neighbour", &own, &Copied { tree: tree(&other_plan), tidy, straight })?;
        }
        self.previous = Some(own);
        Ok(())
    }

    /// Compares what is said of a text that keeps rules 2 to 8 with what is said of its
    /// plan in another order. The rules behind them are about some procedure, so that
    /// the same one refuses both, if any; the reference says at which line.
    fn shuffled(
        &mut self,
        calls: Calls,
        text: &[u8],
        told: &Told,
        plan: &Result<Plan, Refusal>,
        random: &mut Random,
    ) -> Result<(), String> {
        let own = match named(text) {
            Ok(plan) if plan.procs.len() > 1 => tree(&plan),
            _ => return Ok(()),
        };
        let mut numbers = random.permutation(own.procs.len());
        if numbers.is_sorted() {
            numbers.reverse();
        }
        let bare = own.permuted(&numbers).text();
        let twin = if random.chance(50) { indent(&bare, random).text } else { bare.clone() };
        let other = tell(calls, &twin, &told.threads);
        let Ok(plan) = plan else {
            self.shuffled_refused += 1;
            let line = read(&twin).map_or_else(|refusal| refusal.line, |_| 0);
            return told.same(&other, |_| line);
        };
        self.shuffled += 1;
        told.same_shuffled(&other, plan, &numbers)?;
        if other.tidy.copied()? != Some(&bare) {
            return Err("another tidy copy".into());
        }
        let straight = told.straight.copied()?.and_then(|copy| named(copy).ok());
        let straight = straight.map(|plan| tree(&plan).permuted(&numbers).text());
        match other.straight.copied()? == straight.as_deref() {
            true => Ok(()),
            false => Err("another straightened copy".into()),
        }
    }

    /// The straightened copy of an accepted plan has neither eithers nor loops, is accepted,
    /// and is told what is told of the plan. Where it is the tidy copy, that is known.
    fn straightened(&mut self, calls: Calls, told: &Told, plan: &Plan) -> Result<(), String> {
        let Some(copy) = told.straight.copied()? else {
            return Err(format!("answer {:?}", told.straight.answer));
        };
        let gone = [b"(either\n".as_slice(), b"(one\n", b"(two\n", b"(loop\n"];
        if let Some(line) = copy.split_inclusive(|byte| *byte == 10).find(|line| gone.contains(line)) {
            return Err(format!("a line {}", String::from_utf8_lossy(line).trim_end()));
        }
        let own = read(copy).map_err(|refusal| refusal.to_string())?;
        let smaller = own.sizes.iter().zip(&plan.sizes).all(|(own, size)| own <= size);
        if own.pairs != plan.pairs || own.threads != plan.threads || !smaller {
            return Err("other pairs or threads, or a larger size".into());
        }
        if told.tidy.copied()? == Some(copy) {
            return Ok(());
        }
        let other = tell(calls, copy, &told.threads);
        told.same_straightened(&other, &own)?;
        match other.verdict.answer.kind {
            FREE => self.straight_free += 1,
            _ => self.straight_deadlock += 1,
        }
        Ok(())
    }

    /// The plan with more eithers and loops, where it is accepted, has the same straightened
    /// copy.
    fn with_branches(&mut self, calls: Calls, own: &Copied, random: &mut Random) -> Result<(), String> {
        let text = bent(&own.tree, random).text();
        if read(&text).is_err() {
            return Ok(());
        }
        self.bent += 1;
        let told = left(COPY_BYTES, |out| (calls.straight)(&text, out));
        match told.copied()? == Some(&own.straight) {
            true => Ok(()),
            false => Err("with more eithers and loops: another straightened copy".into()),
        }
    }

    /// Two threads of an accepted plan cross exactly where the plan of them alone is not
    /// free.
    fn alone(&mut self, calls: Calls, text: &[u8], plan: &Plan, two: &[(u64, u64)]) -> Result<(), String> {
        for (first, second) in two {
            let counted = Answer::new((calls.crossings)(text, *first, *second, &mut []));
            let two = alone(&tree(plan), *first as usize, *second as usize).text();
            let verdict = left(2 * MAX_SUM, |out| (calls.verdict)(&two, out)).answer;
            match (counted.kind, counted.b, verdict.kind) {
                (CROSSED, 0, FREE) => self.alone_free += 1,
                (CROSSED, 1.., DEADLOCK) => self.alone_deadlock += 1,
                _ => {
                    let threads = format!("threads {first} and {second} alone");
                    return Err(format!("{threads}: crossings {counted:?}, verdict {verdict:?}"));
                }
            }
        }
        Ok(())
    }

    /// Two accepted texts: their tidy copies are equal exactly where their plans are, and
    /// their straightened copies where their plans are once eithers and loops are gone.
    fn couple(&mut self, what: &str, one: &Copied, two: &Copied) -> Result<(), String> {
        let plans = one.tree == two.tree;
        if plans {
            self.equal += 1;
        } else {
            self.different += 1;
        }
        alike(what, "tidy", plans, one.tidy == two.tidy)?;
        let plans = straightened(&one.tree) == straightened(&two.tree);
        alike(what, "straightened", plans, one.straight == two.straight)
    }
}

/// Whether copies are equal exactly where the plans are of which they are.
fn alike(what: &str, kind: &str, plans: bool, copies: bool) -> Result<(), String> {
    let words = |equal| if equal { "equal" } else { "different" };
    match plans == copies {
        true => Ok(()),
        false => Err(format!("{what}: {} plans, {} {kind} copies", words(plans), words(copies))),
    }
}
