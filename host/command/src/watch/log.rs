//! What was told, put in the order of the times at which it happened.

use super::event::Event;
use std::collections::BTreeMap;
use std::time::Duration;

/// Events that wait to be told, by their times, and by when they were heard of.
#[derive(Default)]
pub struct Log {
    waiting: BTreeMap<(Duration, u64), Event>,
    added: u64,
}

impl Log {
    pub fn add(&mut self, event: Event) {
        self.waiting.insert((event.at, self.added), event);
        self.added += 1;
    }

    /// The events before a time up to which everything has been heard of, in order.
    pub fn take_before(&mut self, time: Duration) -> Vec<Event> {
        let waits = self.waiting.split_off(&(time, 0));
        std::mem::replace(&mut self.waiting, waits).into_values().collect()
    }

    /// Every event, in order.
    pub fn take_all(&mut self) -> Vec<Event> {
        std::mem::take(&mut self.waiting).into_values().collect()
    }
}

#[cfg(test)]
mod tests {
    use super::*;
    use crate::watch::event::Kind;

    #[test]
    fn events_come_in_the_order_of_their_times() {
        let event = |millis: u64, what: &str| Event::new(Duration::from_millis(millis), Kind::Works, 0, what);
        let texts = |events: Vec<Event>| events.iter().map(|event| event.text[7..].to_string()).collect::<String>();
        let mut log = Log::default();
        for (millis, what) in [(3, "c"), (1, "a"), (3, "d"), (2, "b"), (9, "e")] {
            log.add(event(millis, what));
        }
        assert_eq!(texts(log.take_before(Duration::from_millis(3))), "ab");
        assert_eq!(texts(log.take_before(Duration::from_millis(9))), "cd");
        assert_eq!(texts(log.take_all()), "e");
    }
}
