//! Requests asked again about a recording without its starts or its joins.

use crate::protocol::{answer, hexadecimal};
use crate::recording::{encode, Event, Operation, VARIABLES};

/// The most events of a recording that is asked about again.
const MOST_EVENTS: usize = 200;

/// The answer line if the recording had writes of a variable that it has not in place of all events of this
/// operation, which are starts or joins; none where it has none, or is long.
pub fn answer_without(words: &[&str], events: &[Event], unwanted: Operation) -> Option<String> {
    let is_unwanted = |event: &Event| event.operation == unwanted;
    if events.len() > MOST_EVENTS || !events.iter().any(is_unwanted) {
        return None;
    }
    let accesses = |event: &Event, variable: usize| {
        !event.uses_lock() && !event.names_task() && event.object == variable
    };
    let unused = (0..VARIABLES).find(|&variable| !events.iter().any(|event| accesses(event, variable)))?;
    let replaced = |event: &Event| match is_unwanted(event) {
        true => Event { operation: Operation::Write, task: event.task, object: unused },
        false => *event,
    };
    let without: Vec<Event> = events.iter().map(replaced).collect();
    let recording = hexadecimal(&encode(&without));
    let request = [&[words[0], &recording], &words[2..]].concat().join(" ");
    Some(answer(&request)?.line)
}

#[cfg(test)]
mod tests {
    use super::answer_without;
    use crate::protocol::{events_of, hexadecimal};
    use crate::recording::Operation;
    use crate::rows::row;

    #[test]
    fn writes_take_the_place_of_starts_or_joins() {
        let again = |text: &str, set: &str, unwanted| {
            let recording = hexadecimal(&row(text));
            answer_without(&["close", &recording, set], &events_of(&recording).unwrap(), unwanted)
        };
        let text = "T0 s1, T1 W0 R0, T2 j1";
        assert_eq!(again(text, "10", Operation::Fork), Some("0 0 2 70".to_string()));
        assert_eq!(again(text, "10", Operation::Join), Some("0 0 0 10".to_string()));
        assert_eq!(again("T0 s1, T1 W0", "40", Operation::Join), None);
        assert_eq!(again("T1 W0, T2 j1", "40", Operation::Fork), None);
        let long = format!("T0 s1{}", " W0".repeat(200));
        assert_eq!(again(&long, "00", Operation::Fork), None);
    }
}
