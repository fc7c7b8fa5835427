//! Tasks that start tasks, 02, job 1, as statements about the calls: questions, relations, loads and
//! closures; patterns and schedules are in `forked`.

use crate::again::{holds, matches};
use crate::calls::{
    c_list, c_verdict, check, close, list, load, relations, schedule, verdict, witness, Listed, Witnessed,
};
use crate::protocol::hexadecimal;
use crate::recording::{encode, Event, Operation, Refusal, LOCKS, TASKS, VARIABLES};
use crate::relations::Relations;
use crate::rows::{closes, row, Statements};

/// A task that starts another with a lock held, and joins it.
const FORKED: &str = "T0 a0 s1 r0, T1 W0 R0, T0 j1";
/// A task starts another, which starts a third, with joins in the other order.
const NESTED: &str = "T0 s1, T1 s2, T2 W0 W0, T1 j2, T0 j1";

/// The statements, each with its name and whether it holds.
pub fn statements() -> Statements {
    [records(), forks(), joins(), order(), every_call(), relations_of_events(), loads(), closures()].concat()
}

fn gives(text: &str, number: u64, event: u64) -> bool {
    check(&row(text)) == Err(Refusal { number, event })
}

fn accepts(text: &str) -> bool {
    check(&row(text)) == Ok(())
}

/// "An acquire record with object 64 to 79 is a start of task object − 64; a release record with such an
/// object is a join of that task."; "Question 4 now takes objects up to 79."
fn records() -> Statements {
    let answer = |operation, task, object| check(&encode(&[Event { operation, task, object }]));
    let refused = |number| Err(Refusal { number, event: 1 });
    let named = |task: usize| LOCKS + task;
    let others = |operation| (1..TASKS).all(|task| answer(operation, 0, named(task)) == Ok(()));
    let own = |operation, number| (0..TASKS).all(|t| answer(operation, t, named(t)) == refused(number));
    let unknown = |operation| {
        (LOCKS + TASKS..VARIABLES)
            .all(|object| (0..TASKS).all(|t| answer(operation, t, object) == refused(4)))
    };
    vec![
        ("start: in hexadecimal", hexadecimal(&row("T0 s1, T1 s15")) == "10028041844f"),
        ("join: in hexadecimal", hexadecimal(&row("T0 j1, T15 j0")) == "1002c041fc40"),
        ("start: of every other task", others(Operation::Acquire)),
        ("start: of the own task gives 15", own(Operation::Acquire, 15)),
        ("join: of every other task", others(Operation::Release)),
        ("join: of the own task gives 16", own(Operation::Release, 16)),
        ("objects from 80 on: an acquire gives 4", unknown(Operation::Acquire)),
        ("objects from 80 on: a release gives 4", unknown(Operation::Release)),
        ("objects from 64 on: variables", accepts("T0 W64 W79 W80, T1 R64 R79 R80")),
    ]
}

/// "Number 15 answers a start of the own task or of one already started, already joined or with earlier
/// events"
fn forks() -> Statements {
    vec![
        ("start: of task 15, then of task 0", accepts("T1 s15, T15 s0, T0 W0")),
        ("start: of a task that another one joins", accepts("T0 s1, T1 W0, T2 j1")),
        ("start: of the own task with earlier events", gives("T2 W0 s2", 15, 2)),
        ("start: of the own task, which was started", gives("T0 s2, T2 s2", 15, 2)),
        ("start: twice", gives("T0 s1 s1", 15, 2)),
        ("start: twice, by another task", gives("T0 s1, T2 s1", 15, 2)),
        ("start: twice, with events between", gives("T0 s1, T1 W0, T0 s1", 15, 3)),
        ("start: of the starter", gives("T0 s1, T1 s0", 15, 2)),
        ("start: of a task joined without events", gives("T0 j1 s1", 15, 2)),
        ("start: of a task joined by another", gives("T0 j1, T2 s1", 15, 2)),
        ("start: of a task started and joined", gives("T0 s1 j1 s1", 15, 3)),
        ("start: of a task with a write", gives("T1 W0, T0 s1", 15, 2)),
        ("start: of a task with a start", gives("T1 s2, T0 s1", 15, 2)),
        ("start: of a task with a join", gives("T1 j2, T0 s1", 15, 2)),
    ]
}

/// "16 a join of the own task or an event of a task already joined"; a join of a task that was never started,
/// or is joined already, is neither.
fn joins() -> Statements {
    vec![
        ("join: of a task never started", accepts("T1 W0, T0 j1")),
        ("join: of a task never started and without events", accepts("T0 j1")),
        ("join: of a task started and without events", accepts("T0 s1 j1")),
        ("join: twice", accepts("T0 s1, T1 W0, T0 j1 j1, T2 j1")),
        ("join: of the starter", accepts("T0 s1, T1 j0 W0")),
        ("join: in a nest", accepts(NESTED)),
        ("join: of tasks 0 and 15", accepts("T0 W0, T1 j0 j15")),
        ("join: of a task that holds a lock", accepts("T1 a0, T0 j1")),
        ("join: a lock stays with the joined task", gives("T1 a0, T0 j1 a0", 5, 3)),
        ("join: of the own task with earlier events", gives("T0 W0 j0", 16, 2)),
        ("join: of the own task, which was started", gives("T1 s0, T0 j0", 16, 2)),
        ("over: a read", gives("T0 W0 j1, T1 R0", 16, 3)),
        ("over: a write", gives("T1 W0, T0 j1, T1 W0", 16, 3)),
        ("over: an acquire", gives("T0 j1, T1 a0", 16, 2)),
        ("over: an inner acquire", gives("T1 a0, T0 j1, T1 a0", 16, 3)),
        ("over: a release", gives("T1 a0, T0 j1, T1 r0", 16, 3)),
        ("over: a start", gives("T0 j1, T1 s2", 16, 2)),
        ("over: a join", gives("T0 j1, T1 j2", 16, 2)),
        ("over: a join of the joiner", gives("T0 j1, T1 j0", 16, 2)),
        ("over: after a second join", gives("T0 j1 j1, T1 W0", 16, 3)),
        ("over: the starter", gives("T0 s1, T1 j0, T0 W0", 16, 3)),
    ]
}

/// "for each event 15 and then 16 follow question 7"; the earliest failing event decides.
fn order() -> Statements {
    vec![
        ("order: an unknown object of a joined task", gives("T0 j1, T1 a80", 4, 2)),
        ("order: a held lock and a joined task", gives("T0 j1 a0, T1 a0", 5, 3)),
        ("order: a release by a joined task", gives("T0 j1, T1 r0", 6, 2)),
        ("order: a read without a write by a joined task", gives("T0 j1, T1 R0", 7, 2)),
        ("order: a joined task that starts itself", gives("T0 j1, T1 s1", 15, 2)),
        ("order: a joined task that starts a started one", gives("T0 s2 j1, T1 s2", 15, 3)),
        ("order: 16 before a later 15", gives("T0 j1, T1 W0, T2 s2", 16, 2)),
        ("order: 15 before a later 4", gives("T0 s0 a80", 15, 1)),
    ]
}

/// 15 and 16 come before the questions about any call's arguments, and change no lent byte.
fn every_call() -> Statements {
    let all_give = |text: &str, number: u64, event: u64| {
        let (recording, refusal) = (row(text), Refusal { number, event });
        let (mut set, mut out) = ([0xff, 0x77], [0x77; 3]);
        let in_c = 2 * (65_536 * number + event) + 1;
        let refused = check(&recording) == Err(refusal)
            && relations(&recording, 0) == Err(refusal)
            && load(&recording, 64) == Err(refusal)
            && close(&recording, &mut set) == Err(refusal)
            && list(&recording, 1, &mut out) == Err::<Listed, _>(refusal)
            && verdict(&recording, &[0]) == Err(refusal)
            && witness(&recording, &[0], &mut out) == Err::<Witnessed, _>(refusal)
            && schedule(&recording, &[0], &[0]) == Err(refusal)
            && c_list(&recording, 1, &mut out) == in_c
            && c_verdict(&recording, &[0]) == in_c;
        refused && set == [0xff, 0x77] && out == [0x77; 3]
    };
    vec![
        ("every call: 15 at 1", all_give("T0 s0", 15, 1)),
        ("every call: 15 at 2", all_give("T1 W0, T0 s1", 15, 2)),
        ("every call: 16 at 1", all_give("T0 j0", 16, 1)),
        ("every call: 16 at 3", all_give("T1 a0, T0 j1, T1 r0", 16, 3)),
    ]
}

/// "Neither touches a lock; both have match 0."; "The predecessor of a started task's first event is its
/// start".
fn relations_of_events() -> Statements {
    let all = |text, field: fn(Relations) -> usize, expected: &[usize]| {
        let found = (1..=expected.len()).map(|event| relations(&row(text), event as u64).map(field));
        found.eq(expected.iter().map(|&event| Ok(event)))
    };
    let predecessors = |text, expected: &[usize]| all(text, |found| found.predecessor, expected);
    vec![
        ("forked: matches", matches(&row(FORKED), &[3, 0, 1, 0, 0, 0])),
        ("forked: held locks", holds(&row(FORKED), &[0, 1, 1, 0, 0, 0])),
        ("forked: writers", all(FORKED, |found| found.writer, &[0, 0, 0, 0, 4, 0])),
        ("forked: predecessors", predecessors(FORKED, &[0, 1, 2, 2, 4, 3])),
        ("nested: predecessors", predecessors(NESTED, &[0, 1, 2, 3, 2, 1])),
        ("a start of task 1 is no acquire of lock 1", matches(&row("T0 s1 a1 r1"), &[0, 3, 2])),
        ("a join of task 1 is no release of lock 1", matches(&row("T0 a1 j1 r1"), &[3, 0, 1])),
        ("starts and joins hold no locks", holds(&row("T0 s1 s2 j1 W0"), &[0, 0, 0, 0])),
        ("a first event that joins", predecessors("T0 s1, T2 W0, T1 j2 W0", &[0, 0, 1, 3])),
        ("a start between outer and inner acquire", matches(&row("T0 a0 s1 a0 r0 r0"), &[5, 0, 0, 0, 1])),
        ("a join at depth 2", matches(&row("T0 a0 a0 j1 r0 r0"), &[5, 0, 0, 0, 1])),
        ("a join at depth 2: held locks", holds(&row("T0 a0 a0 j1 r0 r0"), &[0, 1, 1, 1, 1])),
    ]
}

/// h and n count all events, starts and joins too, which hold no lock; question 14 is as it was.
fn loads() -> Statements {
    let loads = |text, lock, per_cent| load(&row(text), lock) == Ok(per_cent);
    vec![
        ("load: between acquire and release", loads("T0 a0 s1 j1 r0", 0, 75)),
        ("load: a start of task 1 holds no lock 1", loads("T0 s1 s2 j1", 1, 0)),
        ("load: a join of task 0 releases no lock 0", loads("T1 a0 j0 W0", 0, 100)),
        ("load: starts and joins of one in eight", loads("T0 a0 r0 s1 s2 s3 j1 j2 j3", 0, 12)),
        ("load: lock 64 gives 14", load(&row("T1 s0"), 64) == Err(Refusal::without_event(14))),
    ]
}

/// "A joined task's last event, or its start if it has no event, also belongs to any closure holding the
/// join."
fn closures() -> Statements {
    let closes = |text, events: &[usize], closure: &[usize]| closes(&row(text), events, closure);
    vec![
        ("closure: a first event has its start", closes("T2 W0, T0 s1, T1 W0", &[3], &[2, 3])),
        ("closure: a start has no event of its task", closes("T0 s1, T1 W0", &[1], &[1])),
        ("closure: a start has what came before it", closes(FORKED, &[4], &[1, 2, 4])),
        ("closure: a join has the last event", closes("T1 W0 W1, T0 W0 j1", &[4], &[1, 2, 3, 4])),
        ("closure: a join has the start", closes("T0 s1, T2 j1", &[2], &[1, 2])),
        ("closure: a join of a task without either", closes("T0 W0, T2 j1", &[2], &[2])),
        ("closure: joins of a nest", closes(NESTED, &[6], &[1, 2, 3, 4, 5, 6])),
        ("closure: the inner join of a nest", closes(NESTED, &[5], &[1, 2, 3, 4, 5])),
        ("closure: a second join", closes("T1 W0, T0 j1, T2 j1", &[3], &[1, 3])),
        ("closure: a last event that starts", closes("T1 W0 s2, T0 j1, T2 W0", &[3], &[1, 2, 3])),
        ("closure: an acquire and a start", closes("T0 a1 r1, T2 s1", &[1, 3], &[1, 3])),
        ("closure: a section that a join waits for", closes("T1 a0 W0 r0, T0 j1 a0", &[5], &[1, 2, 3, 4, 5])),
    ]
}
