//! The text of a schedule, which is the same in every language.

use crate::Error;
use std::collections::VecDeque;

/// The clients of a schedule, turn by turn.
pub(crate) fn read_schedule(schedule: &str) -> Result<VecDeque<usize>, Error> {
    let mut clients = VecDeque::new();
    for word in schedule.split_whitespace() {
        let (client, count) = word.split_once('x').unwrap_or((word, "1"));
        match (client.parse::<usize>(), count.parse::<usize>()) {
            (Ok(client), Ok(count)) => clients.extend((0..count).map(|_| client)),
            _ => {
                let why = format!("schedule must be as 1x4 2 1x2, and {:?} is not", word);
                return Err(Error::Argument(why));
            }
        }
    }
    Ok(clients)
}

/// Runs of one client's turns, as `1x4 2 1x2`.
pub(crate) fn write_schedule(clients: &[usize]) -> String {
    let mut runs: Vec<(usize, usize)> = Vec::new();
    for client in clients {
        match runs.last_mut() {
            Some((last, count)) if last == client => *count += 1,
            _ => runs.push((*client, 1)),
        }
    }
    let words = runs.iter().map(|(client, count)| match count {
        1 => client.to_string(),
        count => format!("{}x{}", client, count),
    });
    words.collect::<Vec<_>>().join(" ")
}

#[cfg(test)]
mod tests {
    use super::*;

    #[test]
    fn schedules_as_text() {
        for (clients, text) in
            [(&[][..], ""), (&[3], "3"), (&[1, 1, 1, 1, 2, 1, 1], "1x4 2 1x2"), (&[12; 3], "12x3")]
        {
            assert_eq!(write_schedule(clients), text);
            assert_eq!(read_schedule(text).unwrap(), clients);
        }
        for wrong in ["1 b", "x", "1x", "-1", "1xx2"] {
            assert!(matches!(read_schedule(wrong), Err(Error::Argument(_))), "{}", wrong);
        }
    }
}
