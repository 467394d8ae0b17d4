//! Texts as long as a text may be: bare ones, and ones that are mostly passed
//! over, each beside a bare one. Their times say what passing over costs.

use crate::branches::choices;
use crate::families::{hold, nest, skips, Draft, Tree};
use crate::generate::bytes;
use crate::indent::Padding;
use crate::random::Random;
use crate::reference::MAX_BYTES;

/// A text of 32,768 bytes.
pub struct Long {
    pub name: String,
    pub text: Vec<u8>,
    /// The rule that refuses it, if any.
    pub rule: Option<u8>,
    /// The bare text beside it.
    pub beside: &'static str,
}

/// Bare texts. None is accepted: 1,024 statements do not fill a text.
fn bare() -> Vec<Long> {
    let long = |name: &'static str, text: Vec<u8>, rule| Long { name: name.into(), text, rule, beside: name };
    let limits = bytes(MAX_BYTES, &mut Random::new(0));
    let mut early = bytes(MAX_BYTES + 2, &mut Random::new(0));
    early.truncate(MAX_BYTES);
    let last = [&limits[..MAX_BYTES - 2], b"x\n"].concat();
    vec![
        long("bare-3-at-the-end", last, Some(3)),
        long("bare-4-too-early", early, Some(4)),
        long("bare-5", limits, Some(5)),
        long("bare-5-brackets", brackets(), Some(5)),
    ]
}

/// The most lines that a bare text of right structure has.
fn brackets() -> Vec<u8> {
    let (open, close) = (b"(loop\n".repeat(4_090), b")\n".repeat(4_090));
    [b"(plan\n(proc\n", open.as_slice(), &b"(skip)\n".repeat(3), &close, b")\n(thread 0)\n)\n"].concat()
}

/// Case A filled up with a padding, accepted and refused at its end. The line of
/// a refusal by rule 4 or 8 stands behind all that is passed over.
fn padded(padding: Padding) -> Vec<Long> {
    let a = |threads| {
        let procs = vec![vec![nest(&[0, 1], vec![])], vec![nest(&[1, 0], vec![])]];
        Draft { procs, threads }.text()
    };
    let end = a(vec![0, 1]).len() - 2;
    // Before the last line, or before the last two.
    let lines = |text: &[u8]| text.iter().filter(|byte| **byte == 10).count();
    let long = |what: &str, text: Vec<u8>, back: usize, rule, beside| Long {
        name: format!("{}-{what}", padding.name()),
        text: padding.fill(&text, MAX_BYTES, lines(&text) - back),
        rule,
        beside,
    };
    vec![
        long("accepted", a(vec![0, 1]), 1, None, "bare-5"),
        long("3-at-the-end", [&a(vec![0, 1])[..end], b"x\n"].concat(), 1, Some(3), "bare-3-at-the-end"),
        long("4-at-the-end", [&a(vec![0, 1])[..], b")\n"].concat(), 1, Some(4), "bare-4-too-early"),
        long("4-too-early", a(vec![0, 1])[..end].to_vec(), 1, Some(4), "bare-4-too-early"),
        long("8-at-the-end", a(vec![0, 1, 2]), 2, Some(8), "bare-5"),
    ]
}

/// The shelf's plan of 1,021 skips with as much before each line, of each kind.
fn spread_skips() -> Vec<Long> {
    spread("spread", [skips(1_021), vec![hold(0, vec![])]].concat())
}

/// That of 341 eithers, of which a straightened copy leaves out most lines.
fn spread_eithers() -> Vec<Long> {
    spread("eithers", [choices(341), skips(1)].concat())
}

/// A thread of a body with as much before each line, of each kind.
fn spread(name: &str, body: Vec<Tree>) -> Vec<Long> {
    let text = Draft::each(vec![body]).text();
    let lines: Vec<&[u8]> = text.split_inclusive(|byte| *byte == 10).collect();
    let each = (MAX_BYTES - text.len()) / lines.len();
    let one = |padding: Padding| {
        let body: Vec<u8> =
            lines.iter().flat_map(|line| [padding.bytes(each).as_slice(), *line].concat()).collect();
        let text = padding.fill(&body, MAX_BYTES, 0);
        Long { name: format!("{name}-{}", padding.name()), text, rule: None, beside: "bare-5" }
    };
    Padding::ALL.into_iter().map(one).collect()
}

/// All of them, the bare ones first.
pub fn all() -> Vec<Long> {
    let padded = Padding::ALL.into_iter().flat_map(padded);
    bare().into_iter().chain(padded).chain(spread_skips()).chain(spread_eithers()).collect()
}
