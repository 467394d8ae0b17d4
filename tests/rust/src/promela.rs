//! A plan as a Promela model, for SPIN.
//!
//! One process for each thread, with the bodies of its calls written out. A
//! step of a thread is a step of its process; the begin of a hold waits until
//! no thread owns the lock and no other shares it, that of a share until no other
//! owns it. A hold inside a hold of the same lock only counts up and down, and no other
//! thread sees it: its begin and its end are plain steps; a share inside a share likewise.
//!
//! SPIN looks for invalid end states: no process can step, and one has not come
//! to its end. A stuck set is a set of some threads, while others may go on.
//! Yet a plan reaches the one exactly when it reaches the other:
//! - Where no process can step, each that has not ended waits for a lock that
//!   another has. That one has not ended either, since holds and shares are balanced. So
//!   the processes that have not ended are a stuck set, of two or more.
//! - Where a set is stuck, its members keep their locks and wait for each other
//!   whatever the others do. Let these go on, and leave each loop that they
//!   come to: what is left of them gets shorter with each step, so at last
//!   nobody can step, and the members of the set have not ended.
//!
//! So only a process's own end is a valid end state, as SPIN takes it without
//! any label, and the model needs no claim.

use std::fmt::Write;

use crate::locks::Locks;
use crate::reference::{BlockId, Plan, Stmt};

/// The locks' owners: 0 for none, thread + 1 otherwise.
const HEAD: &str = "byte owner[32];
inline take(lock, thread) { d_step { owner[lock] == 0 -> owner[lock] = thread } }
inline release(lock) { owner[lock] = 0 }
";

/// The same where locks are shared, and how many threads do. A thread takes a lock where the
/// others share it not at all: `own` is 1 where it does itself.
const SHARED_HEAD: &str = "byte owner[32];
byte readers[32];
inline take(lock, thread, own) { d_step { owner[lock] == 0 && readers[lock] == own -> owner[lock] = thread } }
inline release(lock) { owner[lock] = 0 }
inline share(lock) { d_step { owner[lock] == 0 -> readers[lock] = readers[lock] + 1 } }
inline share_own(lock) { readers[lock] = readers[lock] + 1 }
inline unshare(lock) { readers[lock] = readers[lock] - 1 }
";

/// The model of a plan.
pub fn model(plan: &Plan) -> String {
    let shares = plan.blocks.iter().flatten().any(|stmt| matches!(stmt, Stmt::Share(..)));
    let mut out = String::from(if shares { SHARED_HEAD } else { HEAD });
    for (thread, proc) in plan.threads.iter().enumerate() {
        writeln!(out, "active proctype thread_{thread}() {{").unwrap();
        Process { plan, shares, owner: thread + 1, had: Locks::NONE, out: &mut out }
            .block(plan.procs[*proc].body);
        out.push_str("}\n");
    }
    out
}

/// What is written of a process, and the locks had there.
struct Process<'a> {
    plan: &'a Plan,
    /// Whether the plan has shares.
    shares: bool,
    owner: usize,
    had: Locks,
    out: &'a mut String,
}

impl Process<'_> {
    fn block(&mut self, id: BlockId) {
        for stmt in &self.plan.blocks[id] {
            match *stmt {
                Stmt::Skip => self.line("skip;"),
                Stmt::Call(proc) => {
                    self.line("skip;");
                    self.block(self.plan.procs[proc].body);
                }
                Stmt::Hold(lock, body) => self.hold(lock, body),
                Stmt::Share(lock, body) => self.share(lock, body),
                Stmt::Loop(body) => {
                    self.line("do :: true ->");
                    self.block(body);
                    self.line(":: true -> break od;");
                }
                Stmt::Either(one, two) => {
                    self.line("if :: true ->");
                    self.block(one);
                    self.line(":: true ->");
                    self.block(two);
                    self.line("fi;");
                }
            }
        }
    }

    fn hold(&mut self, lock: u32, body: BlockId) {
        let (had, own) = (self.had, self.had.shared >> lock & 1);
        let begin = match self.shares {
            true => format!("take({lock}, {}, {own});", self.owner),
            false => format!("take({lock}, {});", self.owner),
        };
        self.had = had.with(Locks::one(lock, true));
        self.around(had, body, &begin, &format!("release({lock});"));
    }

    fn share(&mut self, lock: u32, body: BlockId) {
        let had = self.had;
        let begin = if had.held >> lock & 1 == 1 { "share_own" } else { "share" };
        self.had = had.with(Locks::one(lock, false));
        self.around(had, body, &format!("{begin}({lock});"), &format!("unshare({lock});"));
    }

    /// A block between two steps, which are plain where nothing more is had inside.
    fn around(&mut self, before: Locks, body: BlockId, begin: &str, end: &str) {
        let again = self.had == before;
        self.line(if again { "skip;" } else { begin });
        self.block(body);
        self.line(if again { "skip;" } else { end });
        self.had = before;
    }

    fn line(&mut self, text: &str) {
        self.out.push_str(text);
        self.out.push('\n');
    }
}
