//! What is promised after every list of calls (RULES.md section 15), checked
//! against a log of the accepted calls.
//!
//! The records are worked out a second time here, from the log alone, by the
//! record law of 15.1.

use crate::kinds::Value;
use crate::panel::{Panel, ECHO, READY, SEND};
use crate::sets::Set;
use crate::sorting::Sorting;

/// An accepted call that did not answer `already`.
#[derive(Clone, Copy)]
pub enum Event {
    Proposed { slot: u32, value: Value },
    /// A message that an accepted forge or hand brought (ignored ones too).
    Came { slot: u32, kind: u32, from: u32, to: u32, value: Value, by_hand: bool },
}

#[derive(Clone, Copy)]
struct Message {
    kind: u32,
    from: u32,
    value: Value,
}

fn messages_to(log: &[Event], wanted_slot: u32, wanted_to: u32) -> Vec<Message> {
    log.iter()
        .filter_map(|event| match event {
            Event::Came { slot, kind, from, to, value, .. } if *slot == wanted_slot && *to == wanted_to => {
                Some(Message { kind: *kind, from: *from, value: *value })
            }
            _ => None,
        })
        .collect()
}

/// The value of the first message of this kind from this node.
fn first_of(messages: &[Message], kind: u32, from: u32) -> Option<Value> {
    messages.iter().find(|m| m.kind == kind && m.from == from).map(|m| m.value)
}

/// The nodes whose ECHO (or READY) among these messages has this value.
fn nodes_with(messages: &[Message], n: u32, kind: u32, value: &Value) -> Set {
    let row: Vec<u32> =
        (1..=n).filter(|j| first_of(messages, kind, *j).is_some_and(|first| first.same(value))).collect();
    Set::of(&row)
}

/// The value of the first message such that, counted with it, the test holds.
fn first_with(messages: &[Message], test: impl Fn(&[Message], &Value) -> bool) -> Option<Value> {
    (0..messages.len()).find(|at| test(&messages[..=*at], &messages[*at].value)).map(|at| messages[at].value)
}

struct LawRecord {
    echoed: Option<Value>,
    readied: Option<Value>,
    delivered: Option<Value>,
    echo_of: Vec<Option<Value>>,
    ready_of: Vec<Option<Value>>,
}

fn law_record(panel: &Panel, log: &[Event], slot: u32, node: u32) -> LawRecord {
    let rule = panel.rule();
    let n = rule.size();
    let messages = messages_to(log, slot, node);
    LawRecord {
        echoed: first_of(&messages, SEND, panel.sender(slot)),
        readied: first_with(&messages, |so_far, v| {
            rule.holds_quorum(node, &nodes_with(so_far, n, ECHO, v))
                || rule.holds_kernel(node, &nodes_with(so_far, n, READY, v))
        }),
        delivered: first_with(&messages, |so_far, v| rule.holds_quorum(node, &nodes_with(so_far, n, READY, v))),
        echo_of: (1..=n).map(|j| first_of(&messages, ECHO, j)).collect(),
        ready_of: (1..=n).map(|j| first_of(&messages, READY, j)).collect(),
    }
}

/// The names of all laws and promises that are broken; none if all is well.
pub fn broken(panel: &Panel, roll: &[Value], log: &[Event], sorting: &Sorting) -> Vec<String> {
    let mut found = Vec::new();
    found.extend(broken_places(panel, roll));
    for slot in 0..panel.slot_count() {
        found.extend(broken_records(panel, roll, log, slot));
        found.extend(broken_counts(panel, log, slot));
        found.extend(broken_promises(panel, roll, log, sorting, slot));
    }
    found.extend(broken_tallies(panel, roll, sorting));
    found
}

/// Place law.
fn broken_places(panel: &Panel, roll: &[Value]) -> Vec<String> {
    let mut found = Vec::new();
    for one in 0..panel.used() {
        for two in 0..one {
            if roll[one].same(&roll[two]) {
                found.push(format!("place law: places {two} and {one}"));
            }
        }
    }
    found
}

/// Record law, waiting law and proposal law.
fn broken_records(panel: &Panel, roll: &[Value], log: &[Event], slot: u32) -> Vec<String> {
    let mut found = Vec::new();
    let n = panel.rule().size();
    let agree = |place: Option<usize>, value: Option<Value>| match (place, value) {
        (None, None) => true,
        (Some(place), Some(value)) => place < panel.used() && roll[place].same(&value),
        _ => false,
    };
    let by_law: Vec<LawRecord> = (1..=n).map(|k| law_record(panel, log, slot, k)).collect();
    for node in 1..=n {
        let record = panel.record(slot, node);
        let law = &by_law[node as usize - 1];
        let entries_agree = (1..=n).all(|j| {
            agree(record.echo_of.get(&j).copied(), law.echo_of[j as usize - 1])
                && agree(record.ready_of.get(&j).copied(), law.ready_of[j as usize - 1])
        });
        if !entries_agree
            || !agree(record.echoed, law.echoed)
            || !agree(record.readied, law.readied)
            || !agree(record.delivered, law.delivered)
        {
            found.push(format!("record law: slot {slot} node {node}"));
        }
    }
    let proposals: Vec<Value> = log
        .iter()
        .filter_map(|event| match event {
            Event::Proposed { slot: s, value } if *s == slot => Some(*value),
            _ => None,
        })
        .collect();
    if proposals.len() > 1 || !agree(panel.proposal(slot), proposals.first().copied()) {
        found.push(format!("proposal law: slot {slot}"));
    }
    for kind in [SEND, ECHO, READY] {
        for from in 1..=n {
            for to in 1..=n {
                let sent = match kind {
                    SEND => from == panel.sender(slot) && !proposals.is_empty(),
                    ECHO => by_law[from as usize - 1].echoed.is_some(),
                    _ => by_law[from as usize - 1].readied.is_some(),
                };
                let brought = log.iter().any(|event| {
                    matches!(event, Event::Came { slot: s, kind: m, from: i, to: k, by_hand: true, .. }
                        if *s == slot && *m == kind && *i == from && *k == to)
                });
                let by_law = !panel.is_faulty(from) && !panel.is_faulty(to) && sent && !brought;
                if panel.waits(kind, slot, from, to) != by_law
                    || panel.waits_by_record(kind, slot, from, to) != by_law
                {
                    found.push(format!("waiting law: slot {slot} kind {kind} from {from} to {to}"));
                }
            }
        }
    }
    found
}

/// Heard, balance, bound.
fn broken_counts(panel: &Panel, log: &[Event], slot: u32) -> Vec<String> {
    let mut found = Vec::new();
    let counts = panel.counts(slot).expect("the slot is in range");
    let correct = panel.correct();
    let c = correct.len();
    let hands =
        log.iter().filter(|e| matches!(e, Event::Came { slot: s, by_hand: true, .. } if *s == slot)).count();
    let from_records: usize = correct
        .iter()
        .map(|k| {
            let record = panel.record(slot, *k);
            let by_send = !panel.is_faulty(panel.sender(slot)) && record.echoed.is_some();
            let echoes = correct.iter().filter(|i| record.echo_of.contains_key(i)).count();
            let readies = correct.iter().filter(|i| record.ready_of.contains_key(i)).count();
            by_send as usize + echoes + readies
        })
        .sum();
    if counts.heard != hands || counts.heard != from_records {
        found.push(format!("heard: slot {slot}"));
    }
    if counts.heard + counts.waiting != c * (counts.proposed + counts.echoed + counts.readied) {
        found.push(format!("balance: slot {slot}"));
    }
    if counts.heard + counts.waiting > c + 2 * c * c {
        found.push(format!("bound: slot {slot}"));
    }
    found
}

/// Agreement, integrity, totality.
fn broken_promises(panel: &Panel, roll: &[Value], log: &[Event], sorting: &Sorting, slot: u32) -> Vec<String> {
    let mut found = Vec::new();
    let held = |node: u32| panel.record(slot, node).delivered.map(|place| roll[place]);
    let proposed = |value: &Value| {
        log.iter().any(|e| matches!(e, Event::Proposed { slot: s, value: v } if *s == slot && v.same(value)))
    };
    let wise = sorting.wise.nodes();
    for one in wise {
        for two in wise {
            if let (Some(a), Some(b)) = (held(*one), held(*two)) {
                if !a.same(&b) {
                    found.push(format!("agreement: slot {slot} nodes {one} and {two}"));
                }
            }
        }
    }
    let sender_correct = !panel.is_faulty(panel.sender(slot));
    if !sorting.guild.is_empty() && sender_correct {
        for node in wise {
            if held(*node).is_some_and(|value| !proposed(&value)) {
                found.push(format!("integrity: slot {slot} node {node}"));
            }
        }
    }
    if panel.waiting_messages(slot).is_empty() {
        let mut must_hold: Vec<Value> = wise.iter().filter_map(|node| held(*node)).collect();
        if sender_correct {
            must_hold.extend(panel.proposal(slot).map(|place| roll[place]));
        }
        for value in must_hold {
            for node in sorting.guild.nodes() {
                if !held(*node).is_some_and(|h| h.same(&value)) {
                    found.push(format!("totality: slot {slot} node {node}"));
                }
            }
        }
    }
    found
}

/// Same tally, one count.
fn broken_tallies(panel: &Panel, roll: &[Value], sorting: &Sorting) -> Vec<String> {
    let mut found = Vec::new();
    let all_quiet = (0..panel.slot_count()).all(|slot| panel.waiting_messages(slot).is_empty());
    if !all_quiet {
        return found;
    }
    let guild = sorting.guild.nodes();
    for value in &roll[..panel.used()] {
        let tallies: Vec<_> = guild.iter().map(|k| panel.tally(*k, value.account(), roll)).collect();
        if tallies.iter().any(|t| *t != tallies[0]) {
            found.push(format!("same tally: account {}", value.account()));
        }
    }
    for node in guild {
        for (_, claimed) in panel.delivered_values(*node, roll) {
            // The slots in which the claim counts, for one guild node.
            let counting = |k: u32| -> Vec<u32> {
                panel
                    .delivered_values(k, roll)
                    .iter()
                    .filter(|(slot, value)| value.same_claim(&claimed) && panel.slot_counts(k, *slot, roll))
                    .map(|(slot, _)| *slot)
                    .collect()
            };
            let expected = counting(*node);
            if expected.len() != 1 || guild.iter().any(|k| counting(*k) != expected) {
                found.push(format!("one count: claim of {}", claimed.show()));
            }
        }
    }
    found
}
