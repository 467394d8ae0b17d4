//! Couples of two threads of a plan with a fault each.

use crate::crossings::{couples, Couple};
use crate::pairs::{Pair, Pairs};
use crate::reference::Plan;

/// The pairs of a thread.
fn pairs(plan: &Plan, thread: usize) -> &Pairs {
    &plan.pairs[plan.threads[thread]]
}

/// All couples that pass a test, in order.
fn that(plan: &Plan, first: usize, second: usize, crosses: impl Fn(Pair, Pair) -> bool) -> Vec<Couple> {
    let others = pairs(plan, second);
    let with = |one: &Pair| others.iter().map(move |two| (*one, *two)).collect::<Vec<_>>();
    pairs(plan, first).iter().flat_map(with).filter(|(one, two)| crosses(*one, *two)).collect()
}

/// Whether each waits for the other.
fn both_wait(one: Pair, two: Pair) -> bool {
    one.waits_for(two) && two.waits_for(one)
}

/// The locks had in any way.
fn any(pair: Pair) -> u32 {
    pair.had().any()
}

/// Locks that may not stand together are let through.
pub fn locks_in_common(plan: &Plan, first: usize, second: usize) -> Vec<Couple> {
    that(plan, first, second, both_wait)
}

/// It is enough that the first waits for the second.
pub fn first_wants_alone(plan: &Plan, first: usize, second: usize) -> Vec<Couple> {
    that(plan, first, second, |one, two| one.beside(two) && one.waits_for(two))
}

/// It is enough that the second waits for the first.
pub fn second_wants_alone(plan: &Plan, first: usize, second: usize) -> Vec<Couple> {
    that(plan, first, second, |one, two| one.beside(two) && two.waits_for(one))
}

/// Both want the same lock.
pub fn the_same_wanted(plan: &Plan, first: usize, second: usize) -> Vec<Couple> {
    that(plan, first, second, |one, two| one.beside(two) && one.wanted == two.wanted)
}

/// Each wants the only lock that the other has.
pub fn one_lock_alone(plan: &Plan, first: usize, second: usize) -> Vec<Couple> {
    that(plan, first, second, |one, two| {
        both_wait(one, two) && any(one) == 1 << two.wanted && any(two) == 1 << one.wanted
    })
}

/// Two that share a lock do not stand together.
pub fn shares_in_common(plan: &Plan, first: usize, second: usize) -> Vec<Couple> {
    that(plan, first, second, |one, two| both_wait(one, two) && any(one) & any(two) == 0)
}

/// Only the held locks are looked at for what may stand together.
pub fn held_locks_alone(plan: &Plan, first: usize, second: usize) -> Vec<Couple> {
    that(plan, first, second, |one, two| both_wait(one, two) && one.held & two.held == 0)
}

/// A lock that is had in any way is waited for by a share, too.
pub fn shares_wait_for_shares(plan: &Plan, first: usize, second: usize) -> Vec<Couple> {
    let wants = |one: Pair, two: Pair| any(two) >> one.wanted & 1 == 1;
    that(plan, first, second, |one, two| one.beside(two) && wants(one, two) && wants(two, one))
}

/// Only held locks are waited for.
pub fn held_locks_wanted_alone(plan: &Plan, first: usize, second: usize) -> Vec<Couple> {
    let wants = |one: Pair, two: Pair| two.held >> one.wanted & 1 == 1;
    that(plan, first, second, |one, two| one.beside(two) && wants(one, two) && wants(two, one))
}

/// A wish of a lock that the thread has already waits for nothing.
pub fn no_upgrades(plan: &Plan, first: usize, second: usize) -> Vec<Couple> {
    let mut all = right(plan, first, second);
    let upgrades = |pair: Pair| any(pair) >> pair.wanted & 1 == 1;
    all.retain(|(one, two)| !upgrades(*one) && !upgrades(*two));
    all
}

/// In the order of the shared sets, then of the held ones.
pub fn shared_word_first(plan: &Plan, first: usize, second: usize) -> Vec<Couple> {
    let mut all = right(plan, first, second);
    let key = |pair: Pair| (pair.shared, pair.held, pair.wanted, pair.by_hold);
    all.sort_by_key(|(one, two)| (key(*one), key(*two)));
    all
}

/// The right couples of two threads.
fn right(plan: &Plan, first: usize, second: usize) -> Vec<Couple> {
    couples(pairs(plan, first), pairs(plan, second))
}

/// In the order of the second words, then of the first.
pub fn second_word_first(plan: &Plan, first: usize, second: usize) -> Vec<Couple> {
    let mut all = right(plan, first, second);
    all.sort_by_key(|(one, two)| (*two, *one));
    all
}

/// In the order of the wanted locks.
pub fn by_wanted_locks(plan: &Plan, first: usize, second: usize) -> Vec<Couple> {
    let mut all = right(plan, first, second);
    all.sort_by_key(|(one, two)| (one.wanted, one.held, two.wanted, two.held));
    all
}

/// Those of the second with the first.
pub fn threads_exchanged(plan: &Plan, first: usize, second: usize) -> Vec<Couple> {
    right(plan, second, first)
}

/// Always those of the lower thread with the higher.
pub fn lower_thread_first(plan: &Plan, first: usize, second: usize) -> Vec<Couple> {
    right(plan, first.min(second), first.max(second))
}

/// None where the first thread is the higher.
pub fn upwards_alone(plan: &Plan, first: usize, second: usize) -> Vec<Couple> {
    if first < second {
        right(plan, first, second)
    } else {
        vec![]
    }
}

/// The second's pair before the first's.
pub fn words_exchanged(plan: &Plan, first: usize, second: usize) -> Vec<Couple> {
    right(plan, first, second).into_iter().map(|(one, two)| (two, one)).collect()
}

/// Of two threads of one procedure each couple but once, whichever way round.
pub fn either_way_once(plan: &Plan, first: usize, second: usize) -> Vec<Couple> {
    let mut all = right(plan, first, second);
    if plan.threads[first] == plan.threads[second] {
        all.retain(|(one, two)| one < two);
    }
    all
}

/// Two threads of one procedure have none.
pub fn none_in_one_procedure(plan: &Plan, first: usize, second: usize) -> Vec<Couple> {
    if plan.threads[first] == plan.threads[second] {
        vec![]
    } else {
        right(plan, first, second)
    }
}

/// A thread's number taken for that of its procedure.
pub fn procedures_by_thread_numbers(plan: &Plan, first: usize, second: usize) -> Vec<Couple> {
    let pairs = |thread: usize| plan.pairs.get(thread).unwrap_or(&plan.pairs[0]);
    couples(pairs(first), pairs(second))
}

/// One couple for each pair of the first.
pub fn one_for_each(plan: &Plan, first: usize, second: usize) -> Vec<Couple> {
    let mut all = right(plan, first, second);
    all.dedup_by_key(|(one, _)| *one);
    all
}

/// The pairs behind the 128th are left out.
pub fn up_to_128_pairs(plan: &Plan, first: usize, second: usize) -> Vec<Couple> {
    let some = |thread: usize| pairs(plan, thread).iter().take(128).copied().collect();
    couples(&some(first), &some(second))
}
