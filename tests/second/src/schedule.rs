//! The checker of 01: schedules, order-keeping, and which events are next.

use crate::recording::{Operation, Recording, LOCKS, VARIABLES};

/// 01: "A schedule is a list of event numbers, each 1 to n and at most once."
pub struct Schedule<'a> {
    recording: &'a Recording,
    list: Vec<usize>,
    /// For each event its place in the list, counted from 1, or 0 if it isn't listed.
    place: Vec<usize>,
}

impl<'a> Schedule<'a> {
    /// None for a list that is no schedule, 01: "each 1 to n and at most once".
    pub fn new(recording: &'a Recording, list: Vec<usize>) -> Option<Schedule<'a>> {
        let mut place = vec![0; recording.count() + 1];
        for (index, &event) in list.iter().enumerate() {
            if event == 0 || event > recording.count() || place[event] != 0 {
                return None;
            }
            place[event] = index + 1;
        }
        Some(Schedule { recording, list, place })
    }

    /// 01: "It is order-keeping if:" and the four conditions that follow; 02, job 9: "Only the acquire from
    /// depth 0 and the release to depth 0 count as acquire and release in [...] schedules [...]; inner ones
    /// [...] follow task order only"; job 1: "A start comes before every event of its task, a join after
    /// all of them and after the start. A schedule lists them so, none missing."
    pub fn is_order_keeping(&self) -> bool {
        self.keeps_task_order()
            && self.joins_after_events()
            && self.acquires_free_locks()
            && self.reads_from_writers()
            && self.keeps_acquire_order()
    }

    /// 01: "An event is next after a schedule if it isn't listed and all earlier events of its task
    /// are."; 02, job 1, of a started task's first event: "that event is next only once the start is listed".
    pub fn leaves_next(&self, event: usize) -> bool {
        let task = self.recording.event(event).task;
        let mut earlier = self.events_of(task).filter(|&e| e < event);
        let is_started = self.recording.fork_of(task).is_none_or(|fork| self.place[fork] != 0);
        self.place[event] == 0 && is_started && earlier.all(|e| self.place[e] != 0)
    }

    /// The events of a task, listed or not.
    fn events_of(&self, task: usize) -> impl Iterator<Item = usize> + '_ {
        (1..=self.recording.count()).filter(move |&event| self.recording.event(event).task == task)
    }

    /// "all earlier events of a listed event's task stand before it" and "A start comes before every event of
    /// its task": it is enough that each listed event has its predecessor before it, which is the start for a
    /// started task's first event.
    fn keeps_task_order(&self) -> bool {
        let predecessor = |event: usize| self.recording.relations(event).predecessor;
        let in_order = |&event: &usize| predecessor(event) == 0 || self.before(predecessor(event), event);
        self.list.iter().all(in_order)
    }

    /// "a join after all of them and after the start": a listed join has all events of the task that it names
    /// before it, and the start.
    fn joins_after_events(&self) -> bool {
        let is_join = |&&event: &&usize| self.recording.event(event).operation == Operation::Join;
        self.list.iter().filter(is_join).all(|&join| {
            let joined = self.recording.event(join).object;
            self.events_of(joined).chain(self.recording.fork_of(joined)).all(|event| self.before(event, join))
        })
    }

    /// Whether the first event is listed and stands before the second, which is listed.
    fn before(&self, event: usize, listed: usize) -> bool {
        self.place[event] != 0 && self.place[event] < self.place[listed]
    }

    /// "an acquire stands only where its lock is free: each acquire of that lock before it in the
    /// list has its match before it in the list too"
    fn acquires_free_locks(&self) -> bool {
        let matching = |event: usize| self.recording.relations(event).matching;
        let freed = |event: usize, later: usize| matching(event) != 0 && self.before(matching(event), later);
        self.acquires_by_lock().iter().all(|acquires| {
            let lock_is_free = |i: usize| acquires[..i].iter().all(|&earlier| freed(earlier, acquires[i]));
            (0..acquires.len()).all(lock_is_free)
        })
    }

    /// "a read's latest earlier write of its variable in the list is its writer in the recording"
    fn reads_from_writers(&self) -> bool {
        let mut latest_write = [0; VARIABLES];
        for &number in &self.list {
            let event = self.recording.event(number);
            let writer = self.recording.relations(number).writer;
            match event.operation {
                Operation::Write => latest_write[event.object] = number,
                Operation::Read if latest_write[event.object] != writer => return false,
                _ => {}
            }
        }
        true
    }

    /// "two listed acquires of one lock stand as in the recording"
    fn keeps_acquire_order(&self) -> bool {
        self.acquires_by_lock().iter().all(|acquires| acquires.is_sorted())
    }

    /// For each lock its listed outer acquires, in the list's order: those that count.
    fn acquires_by_lock(&self) -> Vec<Vec<usize>> {
        let mut acquires = vec![Vec::new(); LOCKS];
        for &event in self.list.iter().filter(|&&e| self.recording.is_outer_acquire(e)) {
            acquires[self.recording.event(event).object].push(event);
        }
        acquires
    }
}

#[cfg(test)]
mod tests {
    use super::*;
    use crate::draws::draws_of_few;
    use crate::random::Random;
    use crate::recording::{encode, Event};

    /// Whether the last event of the list stands as 01 and 02 say, where the events before it do.
    fn last_stands_by_the_words(recording: &Recording, list: &[usize]) -> bool {
        let Some((&last, before)) = list.split_last() else {
            return true;
        };
        let events = |wanted: &dyn Fn(usize, Event) -> bool| -> Vec<usize> {
            (1..=recording.count()).filter(|&e| wanted(e, recording.event(e))).collect()
        };
        let all_before = |events: Vec<usize>| events.iter().all(|event| before.contains(event));
        let starts = |task: usize| events(&|_, e| e.operation == Operation::Fork && e.object == task);
        let Event { operation, task, object } = recording.event(last);
        let latest = |wanted: &dyn Fn(usize) -> bool| before.iter().rev().copied().find(|&e| wanted(e));
        let is_write = |e: usize| {
            let other = recording.event(e);
            other.operation == Operation::Write && other.object == object
        };
        let same_lock = |e: usize| recording.is_outer_acquire(e) && recording.event(e).object == object;
        let is_freed = |e: usize| before.contains(&recording.relations(e).matching);
        let stands_by_kind = match operation {
            Operation::Join => all_before(events(&|_, e| e.task == object)) && all_before(starts(object)),
            Operation::Read => latest(&is_write) == Some(recording.relations(last).writer),
            Operation::Acquire if recording.is_outer_acquire(last) => {
                before.iter().filter(|&&e| same_lock(e)).all(|&e| is_freed(e) && e < last)
            }
            _ => true,
        };
        stands_by_kind
            && all_before(events(&|e, event| event.task == task && e < last))
            && all_before(starts(task))
    }

    /// Whether an event is next after a list, as 01 and 02 say.
    fn is_next_by_the_words(recording: &Recording, list: &[usize], event: usize) -> bool {
        let task = recording.event(event).task;
        let is_start = |e: usize| recording.event(e) == Event::fork(recording.event(e).task, task);
        let is_earlier = |e: usize| recording.event(e).task == task && e < event;
        let mut needed = (1..=recording.count()).filter(|&e| is_start(e) || is_earlier(e));
        !list.contains(&event) && needed.all(|e| list.contains(&e))
    }

    #[test]
    fn order_keeping_and_next_are_as_worded() {
        let random = &mut Random::new(23);
        let mut valid_joins = 0;
        for _ in 0..400 {
            let recording = Recording::read(&encode(&draws_of_few(random, 14))).ok().unwrap();
            let count = recording.count();
            let mut list = Vec::new();
            for event in [random.permutation(count), random.permutation(count)].concat() {
                if list.contains(&(event + 1)) {
                    continue;
                }
                list.push(event + 1);
                let expected = last_stands_by_the_words(&recording, &list);
                let schedule = Schedule::new(&recording, list.clone()).unwrap();
                assert_eq!(schedule.is_order_keeping(), expected, "{list:?}");
                for event in 1..=count {
                    assert_eq!(schedule.leaves_next(event), is_next_by_the_words(&recording, &list, event));
                }
                if !expected {
                    list.pop();
                }
            }
            valid_joins += list.iter().filter(|&&e| recording.relations(e).awaited != 0).count();
        }
        assert!(valid_joins > 50);
    }
}
