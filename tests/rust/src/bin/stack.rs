//! The stack that a call of the library needs, on plans made for it.
//!
//!   cargo run --release --features library --bin stack -- [--texts N] [--seed S] [--program P]
//!
//! A figure is the least number of bytes, in steps of 16, on which the call
//! returns: found by halving, each try in a process of its own, since a call on
//! too few ends the process. The frames of the caller are not counted. The plans
//! are towers, as high as the rules allow, the shelf, the families and generated
//! texts. Of several plans that one counts which wrote farthest down on a stack
//! filled with a pattern. The tries are made by this program, in which the loader
//! has bound memset and memcpy at start, or by that of `--program`: `../c/stack.c`.

use std::arch::asm;
use std::io::{Read, Write};
use std::path::{Path, PathBuf};
use std::process::{Command, Stdio};

use lockplan_tests::answer::{Answer, DEADLOCK};
use lockplan_tests::families::{self, hold, nest, share, skips, Draft, Tree};
use lockplan_tests::generate::{generate, statements};
use lockplan_tests::guard::{report_faults, Pages};
use lockplan_tests::random::Random;
use lockplan_tests::reference::{read, MAX_BRACKETS, MAX_PROCS, MAX_SIZE, MAX_SUM, MAX_WORDS};
use lockplan_tests::shares;
use lockplan_tests::shelf::all;
use lockplan_tests::tidy::COPY_BYTES;

// The functions of `library`. Only their addresses are taken: the arguments are
// put into registers below.
extern "C" {
    fn lockplan_verdict();
    fn lockplan_pairs();
    fn lockplan_tidy();
    fn lockplan_straight();
    fn lockplan_space();
    fn lockplan_crossings();
}

/// A call of the library.
#[derive(Clone, Copy)]
enum Call {
    Verdict,
    /// The pair list of a procedure.
    Pairs(usize),
    Tidy,
    Straight,
    Space,
    /// The crossings of the first two threads.
    Crossings,
}

impl Call {
    /// As an argument of this program.
    fn word(self) -> String {
        match self {
            Call::Verdict => "verdict".into(),
            Call::Pairs(proc) => proc.to_string(),
            Call::Tidy => "tidy".into(),
            Call::Straight => "straight".into(),
            Call::Space => "space".into(),
            Call::Crossings => "crossings".into(),
        }
    }

    fn of_word(word: &str) -> Call {
        match word {
            "verdict" => Call::Verdict,
            "tidy" => Call::Tidy,
            "straight" => Call::Straight,
            "space" => Call::Space,
            "crossings" => Call::Crossings,
            _ => Call::Pairs(word.parse().expect("a procedure")),
        }
    }
}

/// Makes a call on the stack that ends at `top`, a multiple of 16.
fn call_on(top: *mut u8, call: Call, text: &[u8]) -> Answer {
    let mut out = vec![0_u8; COPY_BYTES.max(2 * MAX_SUM).max(8 * MAX_WORDS)];
    let (at, bytes) = (out.as_mut_ptr() as usize, out.len());
    let (function, words) = match call {
        Call::Verdict => (lockplan_verdict as *const (), [at, bytes, 0, 0]),
        Call::Pairs(proc) => (lockplan_pairs as *const (), [proc, at, bytes, 0]),
        Call::Tidy => (lockplan_tidy as *const (), [at, bytes, 0, 0]),
        Call::Straight => (lockplan_straight as *const (), [at, bytes, 0, 0]),
        Call::Space => (lockplan_space as *const (), [0; 4]),
        Call::Crossings => (lockplan_crossings as *const (), [0, 1, at, bytes]),
    };
    let answer: u64;
    // SAFETY: the text and the buffer are lent for the call with their lengths,
    // and the caller's stack pointer is kept and put back.
    unsafe {
        asm!(
            "mov r12, rsp",
            "mov rsp, r13",
            "call r14",
            "mov rsp, r12",
            in("rdi") text.as_ptr(),
            in("rsi") text.len(),
            in("rdx") words[0],
            in("rcx") words[1],
            in("r8") words[2],
            in("r9") words[3],
            in("r13") top,
            in("r14") function,
            out("r12") _,
            lateout("rax") answer,
            clobber_abi("C"),
        );
    }
    Answer::new(answer)
}

/// Room for every call.
const ROOM: usize = 2 << 20;
const PATTERN: u8 = 0xa5;

/// A stack filled with the pattern.
struct Painted(Pages);

impl Painted {
    fn new() -> Painted {
        let mut pages = Pages::new(ROOM);
        pages.bytes().fill(PATTERN);
        Painted(pages)
    }

    /// How far down a call wrote, a multiple of 16, and its answer.
    fn wrote(&mut self, call: Call, text: &[u8]) -> (usize, Answer) {
        let answer = call_on(self.0.bytes().as_mut_ptr_range().end, call, text);
        let bytes = self.0.bytes();
        let free = bytes.iter().position(|byte| *byte != PATTERN).unwrap_or(bytes.len());
        bytes[free..].fill(PATTERN);
        ((bytes.len() - free).div_ceil(16) * 16, answer)
    }
}

/// The child's part: a call on so many bytes, which ends the process otherwise
/// where they are too few.
fn try_on(size: usize, call: Call) {
    let mut text = Vec::new();
    std::io::stdin().lock().read_to_end(&mut text).expect("a text");
    let mut pages = Pages::new(size);
    report_faults();
    call_on(pages.bytes()[..size].as_mut_ptr_range().end, call, &text);
}

/// Whether a call of a program returns on so many bytes.
fn returns(program: &Path, size: usize, call: Call, text: &[u8]) -> bool {
    let mut child = Command::new(program)
        .args(["--try", &size.to_string(), &call.word()])
        .stdin(Stdio::piped())
        .stderr(Stdio::null())
        .spawn()
        .expect("a process");
    child.stdin.take().expect("a pipe").write_all(text).expect("a text that is read");
    child.wait().expect("an end").success()
}

/// The plan that needs most of several.
struct Most {
    wrote: usize,
    call: Call,
    text: Vec<u8>,
    plan: String,
}

impl Most {
    fn new(call: Call) -> Most {
        Most { wrote: 0, call, text: Vec::new(), plan: String::new() }
    }

    fn take(&mut self, painted: &mut Painted, call: Call, text: &[u8], plan: &str) -> Answer {
        let (wrote, answer) = painted.wrote(call, text);
        if wrote > self.wrote {
            *self = Most { wrote, call, text: text.to_vec(), plan: plan.into() };
        }
        answer
    }

    /// The least stack. A call can read a little below what it writes, and the
    /// loader can have something to bind.
    fn least(&self, program: &Path) -> usize {
        let returns = |size| returns(program, size, self.call, &self.text);
        let (mut low, mut high) = (self.wrote - 16, self.wrote + 16_384);
        assert!(!returns(low) && returns(high), "{}: not between {low} and {high}", self.plan);
        while high - low > 16 {
            let middle = (low + high) / 32 * 16;
            if returns(middle) {
                high = middle;
            } else {
                low = middle;
            }
        }
        high
    }
}

/// What stands around a block of a tower.
#[derive(Clone, Copy)]
enum Around {
    Hold,
    Share,
    Loop,
    One,
    Two,
}

impl Around {
    fn brackets(self) -> usize {
        match self {
            Around::Hold | Around::Share | Around::Loop => 1,
            Around::One | Around::Two => 2,
        }
    }

    fn put(self, block: Vec<Tree>) -> Tree {
        match self {
            Around::Hold => hold(2, block),
            Around::Share => share(2, block),
            Around::Loop => Tree::Loop(block),
            Around::One => Tree::Either(block, skips(1)),
            Around::Two => Tree::Either(skips(1), block),
        }
    }
}

/// Procedure 0 holds lock 0 around lock 1, and each other one calls that before
/// it from inside brackets. One thread runs the last of them. The other takes the
/// locks in the other order: a deadlock. Skips stand at the beginning of the
/// blocks. Measured as it stands and with its procedures from the last to the first.
#[derive(Clone, Copy)]
struct Tower {
    calls: usize,
    around: Around,
    /// The blocks with something around them, in all procedures.
    inner: usize,
    skips: usize,
}

impl Tower {
    /// The most brackets open together in one procedure.
    fn brackets(self) -> usize {
        self.inner.div_ceil(self.calls.max(1)) * self.around.brackets()
    }

    fn draft(self) -> Draft {
        let (mut skips_left, mut inner_left) = (self.skips, self.inner);
        let mut blocks_left = 1 + self.calls + self.inner;
        let mut block = |statement: Tree| {
            let some = skips_left / blocks_left;
            (skips_left, blocks_left) = (skips_left - some, blocks_left - 1);
            let mut block = skips(some);
            block.push(statement);
            block
        };
        let mut procs = vec![block(nest(&[0, 1], vec![]))];
        for proc in 1..=self.calls {
            let inner = inner_left.div_ceil(self.calls + 1 - proc);
            inner_left -= inner;
            let mut body = block(Tree::Call(proc - 1));
            for _ in 0..inner {
                body = block(self.around.put(body));
            }
            procs.push(body);
        }
        // Where there is no room for one procedure more, the first has both orders.
        let other = if procs.len() < MAX_PROCS { procs.len() } else { 0 };
        procs.resize(procs.len().max(other + 1), Vec::new());
        procs[other].push(nest(&[1, 0], vec![]));
        Draft { procs, threads: vec![self.calls, other] }
    }

    fn accepted(self) -> bool {
        self.brackets() <= MAX_BRACKETS && read(&self.draft().text()).is_ok()
    }

    /// As many inner blocks as the rules allow, where some are asked for, and then
    /// as many skips.
    fn filled(self) -> Tower {
        let inner = most(|inner| Tower { inner: inner * self.inner, ..self }.accepted());
        let tower = Tower { inner: inner * self.inner, ..self };
        Tower { skips: most(|skips| Tower { skips, ..tower }.accepted()), ..tower }
    }
}

/// The highest number, not above the size that the rules allow, that passes.
fn most(passes: impl Fn(usize) -> bool) -> usize {
    let (mut low, mut high) = (0, MAX_SIZE as usize + 1);
    while high - low > 1 {
        let middle = (low + high) / 2;
        if passes(middle) {
            low = middle;
        } else {
            high = middle;
        }
    }
    low
}

/// The towers that are measured, by name.
fn towers() -> Vec<(String, Vec<Tower>)> {
    let tower = |calls, around, inner| Tower { calls, around, inner, skips: 0 }.filled();
    let mut all = vec![
        ("flat".into(), vec![tower(0, Around::Hold, 0)]),
        ("calls".into(), vec![tower(MAX_PROCS - 1, Around::Hold, 0)]),
    ];
    let kinds = [
        ("hold", Around::Hold),
        ("share", Around::Share),
        ("loop", Around::Loop),
        ("one", Around::One),
        ("two", Around::Two),
    ];
    for (name, around) in kinds {
        all.push((format!("nested, {name}"), vec![tower(1, around, 1)]));
    }
    for (name, around) in kinds {
        let calls = 2..MAX_PROCS;
        all.push((format!("both, {name}"), calls.map(|calls| tower(calls, around, 1)).collect()));
    }
    all
}

/// Texts, each with a name.
type Texts = Vec<(String, Vec<u8>)>;

/// Other plans that are measured, by name.
fn others_of(texts: u64, seed: u64) -> Vec<(String, Texts)> {
    let fixed = all().into_iter().map(|entry| (entry.name.to_string(), entry.text));
    let families = families::all().into_iter().chain(shares::all());
    let families = families.map(|(name, draft, _)| (name, draft.text()));
    let random = |index| (format!("text {index}"), generate(&mut Random::of_text(seed, index)).text);
    vec![
        ("shelf".into(), fixed.collect()),
        ("families".into(), families.collect()),
        (format!("seed {seed}"), (0..texts).map(random).collect()),
    ]
}

/// The plans of a row that need most, by call.
struct Row([Most; 6]);

impl Row {
    fn new() -> Row {
        let calls = [Call::Verdict, Call::Pairs(0), Call::Tidy, Call::Straight, Call::Space, Call::Crossings];
        Row(calls.map(Most::new))
    }

    /// The verdict's answer.
    fn take(&mut self, painted: &mut Painted, proc: usize, text: &[u8], plan: &str) -> Answer {
        let [verdict, pairs, tidy, straight, space, crossings] = &mut self.0;
        pairs.take(painted, Call::Pairs(proc), text, plan);
        tidy.take(painted, Call::Tidy, text, plan);
        straight.take(painted, Call::Straight, text, plan);
        space.take(painted, Call::Space, text, plan);
        crossings.take(painted, Call::Crossings, text, plan);
        verdict.take(painted, Call::Verdict, text, plan)
    }

    /// The tower in both orders.
    fn take_tower(&mut self, painted: &mut Painted, tower: Tower) {
        for (order, draft) in [("backward", tower.draft()), ("forward", tower.draft().reversed())] {
            let all: usize = draft.procs.iter().map(|body| statements(body)).sum();
            let (calls, brackets, skips) = (tower.calls, tower.brackets(), tower.skips);
            let plan = format!("{calls} calls {order}, {brackets} brackets, {skips} skips, {all} statements");
            let answer = self.take(painted, draft.threads[0], &draft.text(), &plan);
            assert_eq!(answer.kind, DEADLOCK, "{plan}");
        }
    }

    fn print(&self, name: &str, program: &Path) {
        let [verdict, others @ ..] = &self.0;
        let mut plans = verdict.plan.clone();
        for (call, most) in ["pairs", "tidy", "straight", "space", "crossings"].into_iter().zip(others) {
            if most.plan != verdict.plan {
                plans += &format!("; {call}: {}", most.plan);
            }
        }
        let figures: String = self.0.iter().map(|most| format!(" {:9}", most.least(program))).collect();
        println!("{name:14}{figures}  {plans}");
    }
}

fn main() {
    let (mut texts, mut seed) = (2_000, 1);
    let mut program = std::env::current_exe().expect("this program");
    let mut arguments = std::env::args().skip(1);
    while let Some(name) = arguments.next() {
        let mut value = || arguments.next().unwrap_or_else(|| panic!("{name} needs a value"));
        match name.as_str() {
            "--texts" => texts = value().parse().expect("a number"),
            "--seed" => seed = value().parse().expect("a number"),
            "--program" => program = PathBuf::from(value()),
            "--try" => {
                let size = value().parse().expect("a number");
                return try_on(size, Call::of_word(&value()));
            }
            _ => panic!("unknown: {name}"),
        }
    }
    let mut painted = Painted::new();
    println!(
        "{:14} {:>9} {:>9} {:>9} {:>9} {:>9} {:>9}  plan of the verdict's figure; of the others where they have another",
        "plans", "verdict", "pairs", "tidy", "straight", "space", "crossings"
    );
    for (name, towers) in towers() {
        let mut row = Row::new();
        towers.into_iter().for_each(|tower| row.take_tower(&mut painted, tower));
        row.print(&name, &program);
    }
    for (name, plans) in others_of(texts, seed) {
        let mut row = Row::new();
        for (plan, text) in &plans {
            row.take(&mut painted, 0, text, plan);
        }
        row.print(&name, &program);
    }
}
