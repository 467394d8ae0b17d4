//! Texts with what is passed over put into them: spaces before forms, empty and
//! all-space lines, remarks; and texts that break a rule with such things.

use crate::random::Random;
use crate::reference::{bare, passed_over, MAX_BYTES};

/// Spaces before the lines of a text.
#[derive(Clone, Copy)]
enum Spaces {
    /// So many for each bracket that is open.
    ByDepth(usize),
    /// At most so many.
    UpTo(usize),
}

/// How densely a text is indented.
#[derive(Clone, Copy)]
struct Style {
    spaces: Spaces,
    /// Another line that is passed over, in a hundred, before each line.
    over: usize,
    /// The longest remark.
    remark: usize,
}

/// As engineers do it, lightly, densely, with long remarks, by spaces alone.
const STYLES: [Style; 6] = [
    Style { spaces: Spaces::ByDepth(2), over: 15, remark: 60 },
    Style { spaces: Spaces::ByDepth(4), over: 5, remark: 60 },
    Style { spaces: Spaces::UpTo(0), over: 10, remark: 20 },
    Style { spaces: Spaces::UpTo(12), over: 60, remark: 10 },
    Style { spaces: Spaces::UpTo(3), over: 10, remark: 3_000 },
    Style { spaces: Spaces::UpTo(40), over: 0, remark: 0 },
];

/// A text made of another one, whose lines it still has in their order.
pub struct Indented {
    pub text: Vec<u8>,
    /// Where the lines of the other one stand, and one more than its last.
    lines: Vec<usize>,
}

impl Indented {
    /// Where a line of the other text stands; a number that names none stays.
    pub fn moved(&self, line: usize) -> usize {
        line.checked_sub(1).and_then(|at| self.lines.get(at)).copied().unwrap_or(line)
    }
}

/// Puts spaces and lines that are passed over into a text, as many as it may
/// have: a text that is not too long is not too long afterwards.
pub fn indent(text: &[u8], random: &mut Random) -> Indented {
    let style = *random.pick(&STYLES);
    let mut room = MAX_BYTES.checked_sub(text.len()).unwrap_or(1_000);
    let mut made = Indented { text: Vec::new(), lines: Vec::new() };
    let (mut count, mut depth) = (0, 0_usize);
    for line in text.split_inclusive(|byte| *byte == 10) {
        count += put_over(&mut made.text, &mut room, style, random);
        depth = depth.saturating_sub(usize::from(bare(line).starts_with(b")")));
        let spaces = match style.spaces {
            Spaces::ByDepth(each) => each * depth,
            Spaces::UpTo(most) => random.between(0, most),
        };
        let spaces = spaces.min(room);
        room -= spaces;
        made.text.resize(made.text.len() + spaces, b' ');
        made.text.extend_from_slice(line);
        depth += usize::from(bare(line).starts_with(b"(") && !line.ends_with(b")\n"));
        count += 1;
        made.lines.push(count);
    }
    // Behind a line that is not ended there is no other line.
    if matches!(text.last(), None | Some(10)) {
        count += put_over(&mut made.text, &mut room, style, random);
    }
    made.lines.push(count + 1);
    made
}

/// Puts lines that are passed over, as long as there is room; their number.
fn put_over(text: &mut Vec<u8>, room: &mut usize, style: Style, random: &mut Random) -> usize {
    let mut count = 0;
    while random.chance(style.over) {
        let line = over(style.remark, random);
        if line.len() <= *room {
            *room -= line.len();
            text.extend_from_slice(&line);
            count += 1;
        }
    }
    count
}

/// A line that is passed over.
pub fn over(longest: usize, random: &mut Random) -> Vec<u8> {
    let mut line = vec![b' '; if random.chance(50) { random.below(10) } else { 0 }];
    if random.chance(60) {
        line.push(b';');
        line.extend(remark(longest, random));
    }
    line.push(10);
    line
}

/// What stands behind the `;`: bytes of all kinds but 10.
fn remark(longest: usize, random: &mut Random) -> Vec<u8> {
    let forms: [&[u8]; 8] =
        [b"(skip)", b" (plan", b")", b" )", b"(thread 0)", b"; (hold 3", b" (refused 3 1)", b"(proc"];
    let length = random.between(0, longest);
    match random.below(7) {
        0 => Vec::new(),
        1 => random.pick(&forms).to_vec(),
        2 => (0..length).map(|_| random.next() as u8).filter(|byte| *byte != 10).collect(),
        3 => (0..length).map(|_| *random.pick(b"; \t\r\0(0)\xff")).collect(),
        4 => vec![*random.pick(b"; \t\r\0-"); length],
        5 => b" as on the wiring sheet\r".to_vec(),
        _ => b" the pump waits for the valve".to_vec(),
    }
}

/// What a text is filled up with.
#[derive(Clone, Copy, Debug, PartialEq, Eq)]
pub enum Padding {
    /// Spaces before the next line.
    Spaces,
    LineEnds,
    SpaceLine,
    SpaceLines,
    Remark,
    Remarks,
    ShortRemarks,
}

impl Padding {
    pub const ALL: [Padding; 7] = [
        Padding::Spaces,
        Padding::LineEnds,
        Padding::SpaceLine,
        Padding::SpaceLines,
        Padding::Remark,
        Padding::Remarks,
        Padding::ShortRemarks,
    ];

    pub fn name(self) -> &'static str {
        match self {
            Padding::Spaces => "spaces",
            Padding::LineEnds => "line-ends",
            Padding::SpaceLine => "space-line",
            Padding::SpaceLines => "space-lines",
            Padding::Remark => "remark",
            Padding::Remarks => "remarks",
            Padding::ShortRemarks => "short-remarks",
        }
    }

    /// So many bytes of it.
    pub fn bytes(self, count: usize) -> Vec<u8> {
        match self {
            Padding::Spaces => vec![b' '; count],
            Padding::LineEnds => vec![10; count],
            Padding::SpaceLine => rows(count, count, b' ', b' '),
            Padding::SpaceLines => rows(count, 80, b' ', b' '),
            Padding::Remark => rows(count, count, b';', b'x'),
            Padding::Remarks => rows(count, 80, b';', b'x'),
            Padding::ShortRemarks => rows(count, 2, b';', b'x'),
        }
    }

    /// A text filled up to a length before one of its lines, counted from 0.
    pub fn fill(self, text: &[u8], length: usize, line: usize) -> Vec<u8> {
        let before: usize = text.split_inclusive(|byte| *byte == 10).take(line).map(<[u8]>::len).sum();
        let padding = self.bytes(length.saturating_sub(text.len()));
        [&text[..before], &padding, &text[before..]].concat()
    }
}

/// Lines of a width, the last one shorter, by their first byte and the others.
fn rows(count: usize, width: usize, first: u8, other: u8) -> Vec<u8> {
    let mut all = Vec::new();
    while all.len() < count {
        let mut line = vec![other; width.min(count - all.len())];
        line[0] = first;
        *line.last_mut().expect("a line has a byte") = 10;
        all.extend(line);
    }
    all
}

/// An ended text filled up to a length with a padding, before any of its lines.
pub fn padded(text: &[u8], length: usize, random: &mut Random) -> Vec<u8> {
    let lines = text.iter().filter(|byte| **byte == 10).count();
    match *random.pick(&Padding::ALL) {
        // Behind the last line they would be a line that is not ended.
        Padding::Spaces => Padding::Spaces.fill(text, length, random.below(lines)),
        padding => padding.fill(text, length, random.between(0, lines)),
    }
}

/// Bytes that look like a blank and are none.
const NO_BLANKS: &[u8] = b"\t\r\0\x0b\x0c\x1f\x7f\x85\xa0";

/// Breaks an ended text in a way that concerns what is passed over.
pub fn damage(text: &[u8], random: &mut Random) -> Vec<u8> {
    let mut lines: Vec<Vec<u8>> = text.split_inclusive(|byte| *byte == 10).map(<[u8]>::to_vec).collect();
    let forms: Vec<usize> =
        (0..lines.len()).filter(|at| !passed_over(bare(&lines[*at][..lines[*at].len() - 1]))).collect();
    if forms.is_empty() {
        return over(5, random);
    }
    let at = *random.pick(&forms);
    let end = lines[at].len() - 1;
    let spaces = end - bare(&lines[at][..end]).len();
    match random.below(12) {
        // Before a form, before its spaces or behind them.
        0 | 1 => lines[at].insert(random.between(0, spaces), *random.pick(NO_BLANKS)),
        // Behind a form.
        2 => lines[at].insert(end, *random.pick(NO_BLANKS)),
        3 => drop(lines[at].splice(end..end, vec![b' '; random.between(1, 4)])),
        4 => drop(lines[at].splice(end..end, *b";x")),
        5 => drop(lines[at].splice(end..end, *b" ; x")),
        // Inside a form.
        6 => lines[at].insert(random.between(spaces, end), *random.pick(b" ;\n")),
        // A form made a remark.
        7 => lines[at].insert(spaces, b';'),
        // A line that is no blank one.
        8 | 9 => {
            let mut line = vec![b' '; random.below(3)];
            line.push(*random.pick(NO_BLANKS));
            line.extend(*random.pick(&[b"\n".as_slice(), b" \n", b";\n", b" ;x\n"]));
            lines.insert(random.between(0, lines.len()), line);
        }
        // A last line that is not ended.
        10 => lines.push(random.pick(&[b";".as_slice(), b" ", b"   ; x", b";)", b"    "]).to_vec()),
        _ => {
            let mut line = over(20, random);
            line.pop();
            lines.push(line);
        }
    }
    lines.concat()
}

/// A text without any form: remarks, blank lines, line ends alone.
pub fn formless(random: &mut Random) -> Vec<u8> {
    let mut text: Vec<u8> = match random.below(4) {
        0 => vec![10; *random.pick(&[1, 2, 3, 100, 32_767, 32_768, 32_769])],
        1 => random.pick(&Padding::ALL[1..]).bytes(*random.pick(&[1, 2, 81, 32_767, 32_768, 32_769])),
        _ => (0..random.between(1, 12)).flat_map(|_| over(30, random)).collect(),
    };
    if random.chance(25) {
        text.pop();
    }
    text
}
