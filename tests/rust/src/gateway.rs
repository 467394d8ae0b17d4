//! How a gateway steps.

use std::collections::HashMap;

use crate::locks::Locks;
use crate::reference::{BlockId, Plan, Stmt};

/// A part of a thread's remainder.
#[derive(Clone, Copy, Debug, PartialEq, Eq, Hash)]
enum Part {
    /// The statements of a block from a place on.
    Rest(BlockId, usize),
    /// The end of a hold, and that of a share.
    EndHold(u32),
    EndShare(u32),
}

/// A thread: its remainder, the next part last, and its two counts of each lock.
#[derive(Clone, Debug, PartialEq, Eq, Hash)]
pub struct Thread {
    remainder: Vec<Part>,
    holds: [u32; 32],
    shares: [u32; 32],
}

impl Thread {
    pub fn new(plan: &Plan, proc: usize) -> Thread {
        let remainder = vec![Part::Rest(plan.procs[proc].body, 0)];
        Thread { remainder, holds: [0; 32], shares: [0; 32] }
    }

    pub fn finished(&self) -> bool {
        self.remainder.is_empty()
    }

    /// The locks with a positive count, of holds and of shares.
    pub fn had(&self) -> Locks {
        let set = |counts: &[u32; 32]| (0..32).filter(|lock| counts[*lock] > 0).map(|lock| 1 << lock).sum();
        Locks { held: set(&self.holds), shared: set(&self.shares) }
    }

    /// The counts of holds, then those of shares.
    pub fn counts(&self) -> [&[u32; 32]; 2] {
        [&self.holds, &self.shares]
    }

    /// One step by itself; nothing where the remainder does not offer the choice.
    pub fn step(&self, plan: &Plan, choice: u16) -> Option<Thread> {
        let mut next = self.clone();
        match next.remainder.pop()? {
            Part::EndHold(_) | Part::EndShare(_) if choice != 0 => return None,
            Part::EndHold(lock) => next.holds[lock as usize] -= 1,
            Part::EndShare(lock) => next.shares[lock as usize] -= 1,
            Part::Rest(block, place) => {
                let behind = Part::Rest(block, place + 1);
                match (plan.blocks[block][place], choice) {
                    (Stmt::Skip, 0) => next.remainder.push(behind),
                    (Stmt::Call(proc), 0) => {
                        next.remainder.extend([behind, Part::Rest(plan.procs[proc].body, 0)]);
                    }
                    (Stmt::Hold(lock, body), 0) => {
                        next.remainder.extend([behind, Part::EndHold(lock), Part::Rest(body, 0)]);
                        next.holds[lock as usize] += 1;
                    }
                    (Stmt::Share(lock, body), 0) => {
                        next.remainder.extend([behind, Part::EndShare(lock), Part::Rest(body, 0)]);
                        next.shares[lock as usize] += 1;
                    }
                    (Stmt::Either(one, _), 1) => next.remainder.extend([behind, Part::Rest(one, 0)]),
                    (Stmt::Either(_, two), 2) => next.remainder.extend([behind, Part::Rest(two, 0)]),
                    (Stmt::Loop(body), 1) => {
                        next.remainder.extend([Part::Rest(block, place), Part::Rest(body, 0)]);
                    }
                    (Stmt::Loop(_), 2) => next.remainder.push(behind),
                    _ => return None,
                }
            }
        }
        // Sequencing costs no step: a block at its end leaves nothing.
        while let Some(Part::Rest(block, place)) = next.remainder.last() {
            if *place < plan.blocks[*block].len() {
                break;
            }
            next.remainder.pop();
        }
        Some(next)
    }

    /// The steps that the remainder offers, by choice.
    pub fn steps<'a>(&'a self, plan: &'a Plan) -> impl Iterator<Item = (u16, Thread)> + 'a {
        (0..3).filter_map(move |choice| self.step(plan, choice).map(|next| (choice, next)))
    }
}

/// No lock has a positive count of holds in one thread and any positive count in another.
fn agree<'a>(threads: impl Iterator<Item = &'a Thread> + Clone) -> bool {
    (0..32).all(|lock| {
        let holds = threads.clone().any(|thread| thread.holds[lock] > 0);
        let having = threads.clone().filter(|thread| thread.holds[lock] > 0 || thread.shares[lock] > 0);
        !holds || having.count() < 2
    })
}

/// All threads.
#[derive(Clone, Debug, PartialEq, Eq, Hash)]
pub struct State {
    pub threads: Vec<Thread>,
}

impl State {
    pub fn new(plan: &Plan) -> State {
        State { threads: plan.threads.iter().map(|proc| Thread::new(plan, *proc)).collect() }
    }

    /// Takes the step if it is permitted; otherwise keeps the state and says false.
    pub fn step(&mut self, plan: &Plan, thread: usize, choice: u16) -> bool {
        let Some(next) = self.threads.get(thread).and_then(|own| own.step(plan, choice)) else {
            return false;
        };
        let before = std::mem::replace(&mut self.threads[thread], next);
        if agree(self.threads.iter()) {
            return true;
        }
        self.threads[thread] = before;
        false
    }

    /// The set of threads is stuck.
    pub fn stuck(&self, plan: &Plan, set: u32) -> bool {
        let members: Vec<usize> = (0..self.threads.len()).filter(|thread| set >> thread & 1 == 1).collect();
        members.len() >= 2
            && members.iter().all(|member| {
                let mut steps = self.threads[*member].steps(plan).peekable();
                steps.peek().is_some()
                    && steps.all(|(_, next)| {
                        let afterwards =
                            members.iter().map(
                                |other| {
                                    if other == member {
                                        &next
                                    } else {
                                        &self.threads[*other]
                                    }
                                },
                            );
                        !agree(afterwards)
                    })
            })
    }

    /// The largest stuck set, by trying every set; 0 where none is stuck.
    pub fn largest_stuck(&self, plan: &Plan) -> u32 {
        let sets = 1_u32 << self.threads.len();
        let stuck: Vec<u32> = (0..sets).filter(|set| self.stuck(plan, *set)).collect();
        let union = stuck.iter().fold(0, |all, set| all | set);
        assert!(union == 0 || stuck.contains(&union), "one stuck set contains every other");
        union
    }
}

/// A schedule entry taken apart: thread and choice.
pub fn entry(word: u16) -> (usize, u16) {
    (usize::from(word % 8), word / 8)
}

/// The state after a schedule, or the index of its first step that is not permitted.
pub fn replay(plan: &Plan, schedule: &[u16]) -> Result<State, usize> {
    let mut state = State::new(plan);
    for (index, word) in schedule.iter().enumerate() {
        let (thread, choice) = entry(*word);
        if !state.step(plan, thread, choice) {
            return Err(index);
        }
    }
    Ok(state)
}

/// A state of one thread by itself.
pub struct Local {
    pub had: Locks,
    /// Choice and next state.
    pub moves: Vec<(u16, usize)>,
}

/// All states that a procedure reaches by itself, the start first.
pub struct Automaton {
    pub states: Vec<Local>,
}

impl Automaton {
    pub fn new(plan: &Plan, proc: usize) -> Automaton {
        let mut numbers = HashMap::new();
        let mut threads = vec![Thread::new(plan, proc)];
        numbers.insert(threads[0].clone(), 0);
        let mut states = Vec::new();
        while states.len() < threads.len() {
            let thread = threads[states.len()].clone();
            let mut moves = Vec::new();
            for (choice, next) in thread.steps(plan) {
                let number = *numbers.entry(next.clone()).or_insert_with(|| {
                    threads.push(next);
                    threads.len() - 1
                });
                moves.push((choice, number));
            }
            states.push(Local { had: thread.had(), moves });
        }
        Automaton { states }
    }

    /// The choices of a shortest way from the start to each state, and the
    /// states on it (the start first, the state itself last).
    pub fn way(&self, target: usize) -> (Vec<u16>, Vec<usize>) {
        let mut from = vec![None; self.states.len()];
        let mut queue = std::collections::VecDeque::from([0]);
        while let Some(state) = queue.pop_front() {
            if state == target {
                break;
            }
            for (choice, next) in &self.states[state].moves {
                if *next != 0 && from[*next].is_none() {
                    from[*next] = Some((*choice, state));
                    queue.push_back(*next);
                }
            }
        }
        let (mut choices, mut states) = (Vec::new(), vec![target]);
        let mut at = target;
        while let Some((choice, before)) = from[at] {
            choices.push(choice);
            states.push(before);
            at = before;
        }
        assert_eq!(at, 0, "every state is reached from the start");
        choices.reverse();
        states.reverse();
        (choices, states)
    }
}
