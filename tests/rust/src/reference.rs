//! Reading a plan text: rules 2 to 9, 12 and 13, the tree, the calls, the sizes.

use std::collections::BTreeSet;

use crate::pairs::{self, Pairs};

pub const MAX_BYTES: usize = 32_768;
pub const MAX_PROCS: usize = 64;
pub const MAX_STATEMENTS: usize = 1_024;
pub const MAX_THREADS: usize = 6;
pub const MAX_BRACKETS: usize = 16;
pub const MAX_LOCK: u32 = 31;
pub const MAX_SIZE: u64 = 1_024;
/// A plan that keeps rule 9 has no more pairs in a procedure: each has a hold or a share of
/// its own, of size 2, and something is inside.
pub const MAX_PAIRS: usize = (MAX_SIZE as usize - 1) / 2;
/// The words of a pair, and those of a pair buffer.
pub const PAIR_WORDS: usize = 3;
pub const MAX_WORDS: usize = PAIR_WORDS * MAX_PAIRS;
/// The most pairs that a procedure can have: a hold or a share for each, and for each
/// sixteen of them a statement inside.
pub const MOST_PAIRS: usize = MAX_SIZE as usize / (2 * MAX_BRACKETS + 1) * MAX_BRACKETS;
/// The largest sum of threads' sizes: so many entries are enough for every schedule.
pub const MAX_SUM: usize = MAX_THREADS * MAX_SIZE as usize;

#[derive(Clone, Copy, Debug, PartialEq, Eq)]
pub struct Refusal {
    pub rule: u8,
    pub line: usize,
}

impl Refusal {
    /// The lent buffer is too short.
    pub const SHORT: Refusal = Refusal { rule: 1, line: 0 };
    /// A thread is not there, or the same one is named twice.
    pub const NOT_TWO: Refusal = Refusal { rule: 14, line: 0 };
}

impl std::fmt::Display for Refusal {
    fn fmt(&self, out: &mut std::fmt::Formatter) -> std::fmt::Result {
        write!(out, "(refused {} {})", self.rule, self.line)
    }
}

fn refuse<T>(rule: u8, line: usize) -> Result<T, Refusal> {
    Err(Refusal { rule, line })
}

/// The kind of a line.
#[derive(Clone, Copy, Debug, PartialEq, Eq, Hash)]
pub enum Form {
    Plan,
    Proc,
    Thread(u32),
    Close,
    Skip,
    Call(u32),
    Hold(u32),
    Share(u32),
    Loop,
    Either,
    One,
    Two,
}

/// One to three digits, no leading zero except `0` itself.
fn number(digits: &[u8]) -> Option<u32> {
    if digits.is_empty() || digits.len() > 3 || !digits.iter().all(u8::is_ascii_digit) {
        return None;
    }
    if digits.len() > 1 && digits[0] == b'0' {
        return None;
    }
    Some(digits.iter().fold(0, |n, d| 10 * n + u32::from(d - b'0')))
}

/// What remains of a line behind its leading spaces. A space is byte 32 alone.
pub fn bare(line: &[u8]) -> &[u8] {
    let spaces = line.iter().take_while(|byte| **byte == b' ').count();
    &line[spaces..]
}

/// Whether a line of which this remains is passed over: nothing, or a remark.
pub fn passed_over(rest: &[u8]) -> bool {
    matches!(rest.first(), None | Some(b';'))
}

/// The form that these bytes are, a line without leading spaces and end.
pub fn form(line: &[u8]) -> Option<Form> {
    let plain: [(&[u8], Form); 8] = [
        (b"(plan", Form::Plan),
        (b"(proc", Form::Proc),
        (b")", Form::Close),
        (b"(skip)", Form::Skip),
        (b"(loop", Form::Loop),
        (b"(either", Form::Either),
        (b"(one", Form::One),
        (b"(two", Form::Two),
    ];
    if let Some((_, form)) = plain.iter().find(|(bytes, _)| *bytes == line) {
        return Some(*form);
    }
    if let Some(rest) = line.strip_prefix(b"(hold ") {
        return number(rest).map(Form::Hold);
    }
    if let Some(rest) = line.strip_prefix(b"(share ") {
        return number(rest).map(Form::Share);
    }
    if let Some(rest) = line.strip_prefix(b"(call ") {
        return number(rest.strip_suffix(b")")?).map(Form::Call);
    }
    if let Some(rest) = line.strip_prefix(b"(thread ") {
        return number(rest.strip_suffix(b")")?).map(Form::Thread);
    }
    None
}

/// Blocks are numbered in text order; a procedure's blocks follow each other,
/// its body first, an outer block before its inner ones.
pub type BlockId = usize;

#[derive(Clone, Copy, Debug, PartialEq, Eq)]
pub enum Stmt {
    Skip,
    Call(usize),
    Hold(u32, BlockId),
    Share(u32, BlockId),
    Loop(BlockId),
    Either(BlockId, BlockId),
}

#[derive(Clone, Debug)]
pub struct Proc {
    pub body: BlockId,
    /// Line of `(proc`.
    pub line: usize,
    /// Bytes from the start of the `(proc` line to the end of its closing line.
    pub start: usize,
    pub end: usize,
}

#[derive(Clone, Debug)]
pub struct Plan {
    pub blocks: Vec<Vec<Stmt>>,
    pub procs: Vec<Proc>,
    pub threads: Vec<usize>,
    /// By procedure.
    pub sizes: Vec<u64>,
    /// By procedure.
    pub pairs: Vec<Pairs>,
}

impl Plan {
    /// The blocks of a procedure.
    pub fn blocks_of(&self, proc: usize) -> std::ops::Range<BlockId> {
        let end = self.procs.get(proc + 1).map_or(self.blocks.len(), |next| next.body);
        self.procs[proc].body..end
    }

    /// The procedures that a procedure calls, one for each call.
    pub fn callees(&self, proc: usize) -> impl Iterator<Item = usize> + '_ {
        self.blocks_of(proc).flat_map(|block| &self.blocks[block]).filter_map(|stmt| match stmt {
            Stmt::Call(callee) => Some(*callee),
            _ => None,
        })
    }

    /// Some procedures, and those that they reach through calls.
    fn walked(&self, mut left: Vec<usize>) -> BTreeSet<usize> {
        let mut walked = BTreeSet::new();
        while let Some(proc) = left.pop() {
            if walked.insert(proc) {
                left.extend(self.callees(proc));
            }
        }
        walked
    }

    /// The procedures that a procedure reaches through one call or more.
    pub fn reached(&self, proc: usize) -> BTreeSet<usize> {
        self.walked(self.callees(proc).collect())
    }

    /// The procedures that reach themselves, ascending.
    pub fn recursive(&self) -> Vec<usize> {
        (0..self.procs.len()).filter(|proc| self.reached(*proc).contains(proc)).collect()
    }

    /// The procedures that no thread names or reaches through calls, ascending.
    pub fn idle(&self) -> Vec<usize> {
        let used = self.walked(self.threads.clone());
        (0..self.procs.len()).filter(|proc| !used.contains(proc)).collect()
    }

    /// All procedures, each behind those that it calls. None may reach itself.
    pub fn callees_first(&self) -> Vec<usize> {
        fn put(plan: &Plan, proc: usize, order: &mut Vec<usize>) {
            if !order.contains(&proc) {
                plan.callees(proc).for_each(|callee| put(plan, callee, order));
                order.push(proc);
            }
        }
        let mut order = Vec::new();
        (0..self.procs.len()).for_each(|proc| put(self, proc, &mut order));
        order
    }

    /// The sum of the threads' sizes: the longest a schedule may be, and the entries
    /// that a verdict must be lent.
    pub fn size_of_threads(&self) -> u64 {
        self.threads.iter().map(|proc| self.sizes[*proc]).sum()
    }
}

/// Rules 2 to 8, then 12, 13 and 9: the plan with its sizes and pairs.
pub fn read(text: &[u8]) -> Result<Plan, Refusal> {
    let mut plan = sized(text)?;
    plan.pairs = pairs::compositional(&plan);
    Ok(plan)
}

/// Rules 2 to 8, then 12, 13 and 9: the sizes. Pairs are left empty.
pub fn sized(text: &[u8]) -> Result<Plan, Refusal> {
    let mut plan = named(text)?;
    if let Some(proc) = plan.recursive().first() {
        return refuse(12, plan.procs[*proc].line);
    }
    if let Some(proc) = plan.idle().first() {
        return refuse(13, plan.procs[*proc].line);
    }
    plan.sizes = sizes(&plan);
    if let Some(proc) = plan.sizes.iter().position(|size| *size > MAX_SIZE) {
        return refuse(9, plan.procs[proc].line);
    }
    Ok(plan)
}

/// Rules 2 to 8: the tree, all of whose names are there. Sizes and pairs are left empty.
pub fn named(text: &[u8]) -> Result<Plan, Refusal> {
    if text.len() > MAX_BYTES {
        return refuse(2, 0);
    }
    let lines = lines(text)?;
    let plan = structure(&lines)?;
    limits(&lines.forms)?;
    names(&lines.forms, plan.procs.len())?;
    Ok(plan)
}

/// A form, and the line of the file on which it stands.
#[derive(Clone, Copy, Debug, PartialEq, Eq)]
pub struct Line {
    pub form: Form,
    /// From 1; lines that are passed over count.
    pub number: usize,
    /// The bytes of the whole line, leading spaces and end included.
    pub start: usize,
    pub end: usize,
}

/// The forms of a text in order, and the number of all its lines.
#[derive(Clone, Debug, Default)]
pub struct Lines {
    pub forms: Vec<Line>,
    pub count: usize,
}

/// Rule 3: each line is ended, and passed over or a form behind its spaces.
pub fn lines(text: &[u8]) -> Result<Lines, Refusal> {
    let mut all = Lines::default();
    let mut start = 0;
    for line in text.split_inclusive(|byte| *byte == 10) {
        let end = start + line.len();
        all.count += 1;
        let number = all.count;
        let Some(ended) = line.strip_suffix(b"\n") else {
            return refuse(3, number);
        };
        let rest = bare(ended);
        if !passed_over(rest) {
            let Some(form) = form(rest) else {
                return refuse(3, number);
            };
            all.forms.push(Line { form, number, start, end });
        }
        start = end;
    }
    Ok(all)
}

/// What is open at a place of the text.
enum Open {
    Text {
        plans: usize,
    },
    Plan,
    Block(BlockId),
    /// Parts already begun, and the blocks of both.
    Either(usize, [BlockId; 2]),
}

/// Rule 4, and the tree; sizes and pairs are left empty.
pub fn structure(lines: &Lines) -> Result<Plan, Refusal> {
    let mut plan = Plan {
        blocks: Vec::new(),
        procs: Vec::new(),
        threads: Vec::new(),
        sizes: Vec::new(),
        pairs: Vec::new(),
    };
    let mut open = vec![Open::Text { plans: 0 }];
    for line in &lines.forms {
        if !place(&mut plan, &mut open, *line) {
            return refuse(4, line.number);
        }
    }
    match open.as_slice() {
        [Open::Text { plans: 1 }] => Ok(plan),
        _ => refuse(4, lines.count + 1),
    }
}

fn new_block(plan: &mut Plan) -> BlockId {
    plan.blocks.push(Vec::new());
    plan.blocks.len() - 1
}

/// Puts a line in its place; false where there is none.
fn place(plan: &mut Plan, open: &mut Vec<Open>, line: Line) -> bool {
    let form = line.form;
    let top = open.last_mut().expect("the text stays open");
    match top {
        Open::Text { plans } => {
            if form != Form::Plan || *plans > 0 {
                return false;
            }
            *plans = 1;
            open.push(Open::Plan);
        }
        Open::Plan => match form {
            Form::Proc if plan.threads.is_empty() => {
                let body = new_block(plan);
                plan.procs.push(Proc { body, line: line.number, start: line.start, end: line.end });
                open.push(Open::Block(body));
            }
            Form::Thread(proc) if !plan.procs.is_empty() => plan.threads.push(proc as usize),
            Form::Close if !plan.threads.is_empty() => {
                open.pop();
            }
            _ => return false,
        },
        Open::Either(parts, blocks) => match (form, *parts) {
            (Form::One, 0) | (Form::Two, 1) => {
                let block = blocks[*parts];
                *parts += 1;
                open.push(Open::Block(block));
            }
            (Form::Close, 2) => {
                open.pop();
            }
            _ => return false,
        },
        Open::Block(block) => {
            let block = *block;
            let stmt = match form {
                Form::Skip => Stmt::Skip,
                Form::Call(proc) => Stmt::Call(proc as usize),
                Form::Hold(lock) => {
                    let body = new_block(plan);
                    open.push(Open::Block(body));
                    Stmt::Hold(lock, body)
                }
                Form::Share(lock) => {
                    let body = new_block(plan);
                    open.push(Open::Block(body));
                    Stmt::Share(lock, body)
                }
                Form::Loop => {
                    let body = new_block(plan);
                    open.push(Open::Block(body));
                    Stmt::Loop(body)
                }
                Form::Either => {
                    let parts = [new_block(plan), new_block(plan)];
                    open.push(Open::Either(0, parts));
                    Stmt::Either(parts[0], parts[1])
                }
                Form::Close if !plan.blocks[block].is_empty() => {
                    open.pop();
                    if let Some(Open::Plan) = open.last() {
                        plan.procs.last_mut().expect("a procedure was open").end = line.end;
                    }
                    return true;
                }
                _ => return false,
            };
            plan.blocks[block].push(stmt);
        }
    }
    true
}

/// Rule 5: the first line at which a count passes its limit.
fn limits(lines: &[Line]) -> Result<(), Refusal> {
    let (mut procs, mut statements, mut threads, mut brackets) = (0, 0, 0, 0_usize);
    for line in lines {
        match line.form {
            Form::Plan => {}
            Form::Proc => procs += 1,
            Form::Thread(_) => threads += 1,
            // The closing lines of procedures and of the plan end no bracket.
            Form::Close => brackets = brackets.saturating_sub(1),
            Form::Skip | Form::Call(_) => statements += 1,
            Form::Hold(_) | Form::Share(_) | Form::Loop | Form::Either => {
                statements += 1;
                brackets += 1;
            }
            Form::One | Form::Two => brackets += 1,
        }
        if procs > MAX_PROCS
            || statements > MAX_STATEMENTS
            || threads > MAX_THREADS
            || brackets > MAX_BRACKETS
        {
            return refuse(5, line.number);
        }
    }
    Ok(())
}

/// Rules 6, 7 and 8.
fn names(lines: &[Line], procs: usize) -> Result<(), Refusal> {
    let first = |bad: &dyn Fn(Form) -> bool| lines.iter().find(|line| bad(line.form));
    if let Some(line) = first(&|form| matches!(form, Form::Hold(lock) | Form::Share(lock) if lock > MAX_LOCK))
    {
        return refuse(6, line.number);
    }
    if let Some(line) = first(&|form| matches!(form, Form::Call(proc) if proc as usize >= procs)) {
        return refuse(7, line.number);
    }
    if let Some(line) = first(&|form| matches!(form, Form::Thread(proc) if proc as usize >= procs)) {
        return refuse(8, line.number);
    }
    Ok(())
}

/// Sizes by procedure, where none reaches itself; a sum past 64 bits stays at the
/// greatest number.
pub fn sizes(plan: &Plan) -> Vec<u64> {
    let mut blocks = vec![0_u64; plan.blocks.len()];
    let mut procs = vec![0_u64; plan.procs.len()];
    for proc in plan.callees_first() {
        for block in plan.blocks_of(proc).rev() {
            blocks[block] = plan.blocks[block].iter().fold(0, |sum: u64, stmt| {
                sum.saturating_add(match stmt {
                    Stmt::Skip => 1,
                    Stmt::Call(callee) => procs[*callee].saturating_add(1),
                    Stmt::Hold(_, body) | Stmt::Share(_, body) | Stmt::Loop(body) => {
                        blocks[*body].saturating_add(2)
                    }
                    Stmt::Either(one, two) => blocks[*one].saturating_add(blocks[*two]).saturating_add(1),
                })
            });
        }
        procs[proc] = blocks[plan.procs[proc].body];
    }
    procs
}

/// The text of a procedure, empty where the plan is refused or the procedure is absent.
pub fn proc_text(text: &[u8], proc: usize) -> &[u8] {
    match read(text) {
        Ok(plan) => plan.procs.get(proc).map_or(&[], |proc| &text[proc.start..proc.end]),
        Err(_) => &[],
    }
}
