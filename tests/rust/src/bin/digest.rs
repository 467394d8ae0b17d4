//! One number for all that the library answers and writes on fixed and generated
//! texts: two builds that print the same number give the same answers.
//!
//!   cargo run --release --features library --bin digest -- [--texts N] [--seed S] [--without-share] [--recode]
//!
//! LOCKPLAN_LIB names the folder of another build. Of each text it asks for the verdict, the
//! space, the pair list of each procedure and of one behind the last, the tidy and the
//! straightened copy, and the crossings of each two of the numbers 0 to 6, with room for some
//! couples and half a one; and takes in the answers and the whole buffers. Each verdict is lent
//! 6,144 entries, which are enough for every plan; a pair list is also lent a word and a byte
//! too few. What the programs print of the text is taken in, too, where LOCKPLAN_PROGRAM,
//! LOCKPLAN_TIDY, LOCKPLAN_STRAIGHT, LOCKPLAN_SLIP and LOCKPLAN_CROSSINGS name them.
//!
//! With `--without-share` there is no share in any text, fixed or generated. With `--recode` the
//! library is one from before shares, and its pairs are taken in as records: of texts without
//! share it has the number that the library with shares has.

use std::io::Write;
use std::process::{Command, Stdio};

use lockplan_tests::answer::{Answer, REFUSED};
use lockplan_tests::compare::Calls;
use lockplan_tests::crossings::COUPLE_BYTES;
use lockplan_tests::families;
use lockplan_tests::generate::{generate, without_share};
use lockplan_tests::library::{CALLS, RECODED};
use lockplan_tests::random::Random;
use lockplan_tests::reference::{MAX_SUM, MAX_WORDS};
use lockplan_tests::shares::{self, has_share};
use lockplan_tests::shelf::{all, all_indented};
use lockplan_tests::tidy::COPY_BYTES;

/// What a buffer holds before a call.
const LENT: u8 = 0xa5;

/// The bytes lent for couples.
const COUPLES: usize = 25 * COUPLE_BYTES + COUPLE_BYTES / 2;

/// The variables that name programs.
const PROGRAMS: [&str; 5] =
    ["LOCKPLAN_PROGRAM", "LOCKPLAN_TIDY", "LOCKPLAN_STRAIGHT", "LOCKPLAN_SLIP", "LOCKPLAN_CROSSINGS"];

/// A hash of bytes (FNV-1a), of the calls of a library and of programs.
struct Digest {
    hash: u64,
    calls: Calls,
    programs: Vec<String>,
}

impl Digest {
    fn take(&mut self, bytes: &[u8]) {
        for byte in bytes {
            self.hash = (self.hash ^ u64::from(*byte)).wrapping_mul(0x0100_0000_01b3);
        }
    }

    /// A call with a buffer of so many bytes: its answer, taken in with the buffer.
    fn call(&mut self, length: usize, call: impl FnOnce(&mut [u8]) -> u64) -> Answer {
        let mut out = vec![LENT; length];
        let answer = call(&mut out);
        self.take(&answer.to_le_bytes());
        self.take(&out);
        Answer::new(answer)
    }

    /// All calls on a text: whether it is accepted.
    fn text(&mut self, text: &[u8]) -> bool {
        let calls = self.calls;
        let judged = self.call(2 * MAX_SUM, |out| (calls.verdict)(text, out));
        self.call(0, |_| (calls.space)(text));
        for bytes in [8 * MAX_WORDS - 8, 8 * MAX_WORDS - 1] {
            self.call(bytes, |out| (calls.pairs)(text, 0, out));
        }
        for proc in 0.. {
            let listed = self.call(8 * MAX_WORDS, |out| (calls.pairs)(text, proc, out));
            if listed.kind == REFUSED {
                break;
            }
        }
        self.call(COPY_BYTES, |out| (calls.tidy)(text, out));
        self.call(COPY_BYTES, |out| (calls.straight)(text, out));
        for (first, second) in (0..7).flat_map(|first| (0..7).map(move |second| (first, second))) {
            self.call(COUPLES, |out| (calls.crossings)(text, first, second, out));
        }
        for program in self.programs.clone() {
            self.take(&printed(&program, text));
        }
        judged.kind != REFUSED
    }
}

/// What a program prints of a text.
fn printed(program: &str, text: &[u8]) -> Vec<u8> {
    let mut command = Command::new(program);
    let mut child = command.stdin(Stdio::piped()).stdout(Stdio::piped()).spawn().expect("a program");
    let mut input = child.stdin.take().expect("a pipe");
    let text = text.to_vec();
    // A program can end before it has read all.
    let writer = std::thread::spawn(move || drop(input.write_all(&text)));
    let output = child.wait_with_output().expect("an end");
    writer.join().expect("an end");
    output.stdout
}

fn option(name: &str, default: u64) -> u64 {
    let mut words = std::env::args().skip_while(|word| word != name).skip(1);
    words.next().map_or(default, |word| word.parse().expect("a number"))
}

fn main() {
    let given = |name: &str| std::env::args().any(|word| word == name);
    let (texts, seed) = (option("--texts", 10_000), option("--seed", 1));
    let without = given("--without-share");
    let fixed = all().into_iter().chain(all_indented()).map(|entry| entry.text);
    let plans = families::all().into_iter().chain(shares::all());
    let plans = plans.map(|(_, draft, _)| draft.text());
    let generated = (0..texts).map(|index| {
        let random = &mut Random::of_text(seed, index);
        if without {
            without_share(random).text
        } else {
            generate(random).text
        }
    });
    let mut digest = Digest {
        hash: 0xcbf2_9ce4_8422_2325,
        calls: if given("--recode") { RECODED } else { CALLS },
        programs: PROGRAMS.iter().filter_map(|name| std::env::var(name).ok()).collect(),
    };
    let (mut count, mut accepted) = (0_u64, 0_u64);
    for text in fixed.chain(plans).chain(generated).filter(|text| !without || !has_share(text)) {
        count += 1;
        accepted += u64::from(digest.text(&text));
    }
    let programs = digest.programs.len();
    println!("{count} texts, {accepted} accepted, {programs} programs, seed {seed}: {:016x}", digest.hash);
}
