//! The timeline of a race, as a page of HTML.

use crate::racing::State;
use crate::schedules::write_schedule;
use crate::{Answer, Call, Turn};
use std::collections::BTreeMap;
use std::fmt::Write;

/// A page that draws a race. The data replaces a mark in it.
const PAGE: &str = include_str!("../timeline.html");
const MARK: &str = "@RACE@";
const EOF: u32 = 1;

/// A call of a race. Turns are numbered from 1.
struct Span<'a> {
    client: usize,
    call: &'a Call,
    /// The turn that read the request.
    request: usize,
    /// The turn in which the call took effect.
    point: usize,
    /// The turn that wrote the reply; 0 if none has yet.
    reply: usize,
    /// The number of the other client's call that completed it; 0 if none.
    helper: u64,
}

/// The page for a race whose records are complete.
pub(crate) fn page(state: &State, calls: &[Call], name: &str) -> String {
    let clients: Vec<usize> = state.turns.iter().map(|one| one.client).collect();
    let turns = state.turns.iter().map(|one| {
        let did = format!("{:?}", one.turn).to_uppercase();
        let did = did.split('(').next().unwrap_or_default();
        object(&[("client", one.client.to_string()), ("did", text(did))])
    });
    let data = object(&[
        ("title", text(&format!("Race by {}", name))),
        ("clients", state.clients.to_string()),
        ("schedule", text(&write_schedule(&clients))),
        ("stray", text(state.stray.as_deref().unwrap_or_default())),
        ("turns", array(turns)),
        ("calls", array(spans(state, calls).iter().map(json))),
    ]);
    PAGE.replacen(MARK, &data, 1)
}

/// The calls of clients, in the order in which they took effect.
fn spans<'a>(state: &State, calls: &'a [Call]) -> Vec<Span<'a>> {
    let numbers = state.racers.iter().enumerate();
    let numbers: BTreeMap<u64, usize> =
        numbers.map(|(at, racer)| (racer.session.number(), at + 1)).collect();
    let mut found: Vec<Span<'a>> = Vec::new();
    let (mut requests, mut pending) = (BTreeMap::new(), BTreeMap::new());
    let mut begin = 0;
    for (at, turn) in state.turns.iter().enumerate() {
        if turn.turn == Turn::Begun {
            requests.insert(turn.client, at + 1);
        }
        let new = &calls[begin..turn.recorded as usize];
        begin = turn.recorded as usize;
        let is_own = |call: &&Call| numbers.get(&call.session) == Some(&turn.client);
        let own = new.iter().find(is_own).map_or(0, |call| call.number);
        for call in new {
            if let Some(&client) = numbers.get(&call.session) {
                let helper = if client == turn.client { 0 } else { own };
                let request = requests.get(&client).copied().unwrap_or(0);
                pending.insert(client, found.len());
                found.push(Span { client, call, request, point: at + 1, reply: 0, helper });
            }
        }
        if turn.turn == Turn::Wrote {
            if let Some(span) = pending.remove(&turn.client) {
                found[span].reply = at + 1;
            }
        }
    }
    found
}

fn json(span: &Span<'_>) -> String {
    let paths = [&span.call.path, &span.call.new_path];
    let paths = paths.into_iter().filter(|path| !path.is_empty());
    let is_end = span.call.answer == Answer::Status(EOF);
    object(&[
        ("client", span.client.to_string()),
        ("number", span.call.number.to_string()),
        ("text", text(&span.call.to_string())),
        ("kind", text(&span.call.kind.to_string())),
        ("paths", array(paths.map(|path| text(&String::from_utf8_lossy(path))))),
        ("failed", (!span.call.answer.is_ok() && !is_end).to_string()),
        ("request", span.request.to_string()),
        ("point", span.point.to_string()),
        ("reply", span.reply.to_string()),
        ("helper", span.helper.to_string()),
    ])
}

fn object(fields: &[(&str, String)]) -> String {
    let fields = fields.iter().map(|(name, value)| format!("{}:{}", text(name), value));
    format!("{{{}}}", fields.collect::<Vec<_>>().join(","))
}

fn array(values: impl Iterator<Item = String>) -> String {
    format!("[{}]", values.collect::<Vec<_>>().join(","))
}

/// A string of JSON, which may stand in HTML.
fn text(value: &str) -> String {
    let mut quoted = String::from('"');
    for character in value.chars() {
        match character {
            '"' | '\\' => quoted.extend(['\\', character]),
            '<' | '\u{2028}' | '\u{2029}' | '\0'..='\x1f' => {
                // Writing to a string cannot fail.
                let _ = write!(quoted, "\\u{:04x}", u32::from(character));
            }
            character => quoted.push(character),
        }
    }
    quoted + "\""
}

#[cfg(test)]
mod tests {
    use super::*;

    #[test]
    fn strings_of_json() {
        assert_eq!(text("a\"b\\c\n</d>\u{e9}"), "\"a\\\"b\\\\c\\u000a\\u003c/d>\u{e9}\"");
    }
}
