//! The roll, messages, records, the panel and its readings (RULES.md
//! sections 10 to 14).
//!
//! Every call writes down all refusal conditions that hold and gives the
//! smallest.

use crate::kinds::Value;
use crate::rules::Rule;
use crate::sets::Set;
use std::collections::{BTreeMap, BTreeSet};
use std::rc::Rc;

pub const SEND: u32 = 1;
pub const ECHO: u32 = 2;
pub const READY: u32 = 3;

#[derive(Clone, Copy, Debug, PartialEq, Eq)]
pub enum Step {
    Echoed,
    Readied,
    Delivered,
    ReadiedAndDelivered,
    Recorded,
    Ignored,
}

impl Step {
    pub fn word(self) -> &'static str {
        match self {
            Step::Echoed => "echoed",
            Step::Readied => "readied",
            Step::Delivered => "delivered",
            Step::ReadiedAndDelivered => "readied and delivered",
            Step::Recorded => "recorded",
            Step::Ignored => "ignored",
        }
    }
}

/// Section 12.1. Values are kept as places on the roll; an entry that is not
/// in the map is absent.
#[derive(Clone, Debug, Default, PartialEq, Eq)]
pub struct Record {
    pub echoed: Option<usize>,
    pub readied: Option<usize>,
    pub delivered: Option<usize>,
    pub echo_of: BTreeMap<u32, usize>,
    pub ready_of: BTreeMap<u32, usize>,
}

#[derive(Clone, Debug, PartialEq, Eq)]
struct Slot {
    proposal: Option<usize>,
    /// The record of node k is at k - 1.
    records: Vec<Record>,
    /// (kind, from, to) of every accepted hand.
    handed: BTreeSet<(u32, u32, u32)>,
}

#[derive(Clone, Copy, Debug, PartialEq, Eq)]
pub struct Counts {
    pub proposed: usize,
    pub echoed: usize,
    pub readied: usize,
    pub heard: usize,
    pub waiting: usize,
}

#[derive(Clone)]
pub struct Panel {
    rule: Rc<Rule>,
    slot_count: u32,
    faulty: Set,
    used: usize,
    slots: Vec<Slot>,
}

/// The smallest of the conditions that hold, if any.
fn refuse_with_smallest(holding: &[u32]) -> Result<(), u32> {
    match holding.iter().min() {
        Some(number) => Err(*number),
        None => Ok(()),
    }
}

impl Panel {
    // 13.1
    pub fn open(rule: &Rc<Rule>, slot_count: u32, faulty: &Set, roll_length: usize) -> Result<Panel, u32> {
        let n = rule.size();
        let mut holding = Vec::new();
        if slot_count < 1 || slot_count > 16 {
            holding.push(6);
        }
        if roll_length == 0 || roll_length > 255 {
            holding.push(7);
        }
        if !faulty.in_range(n) {
            holding.push(8);
        }
        if !rule.sound() {
            holding.push(9);
        }
        refuse_with_smallest(&holding)?;
        let fresh = Slot {
            proposal: None,
            records: (1..=n).map(|_| Record::default()).collect(),
            handed: BTreeSet::new(),
        };
        Ok(Panel {
            rule: Rc::clone(rule),
            slot_count,
            faulty: faulty.clone(),
            used: 0,
            slots: (0..slot_count).map(|_| fresh.clone()).collect(),
        })
    }

    // 13.2
    pub fn propose(&mut self, slot: u32, value: &Value, roll: &mut [Value]) -> Result<&'static str, u32> {
        let mut holding = Vec::new();
        let roll_ok = self.roll_ok(roll.len());
        let slot_ok = slot < self.slot_count;
        if !roll_ok {
            holding.push(7);
        }
        if !slot_ok {
            holding.push(10);
        }
        if slot_ok && self.is_faulty(self.sender(slot)) {
            holding.push(11);
        }
        if !value.fit() {
            holding.push(12);
        }
        if roll_ok && slot_ok {
            let place = self.place_of(value, roll);
            let proposal = self.proposal(slot);
            if proposal.is_some() && place != proposal {
                holding.push(13);
            }
            if place.is_none() && roll.len() == self.used {
                holding.push(15);
            }
        }
        refuse_with_smallest(&holding)?;
        if self.proposal(slot).is_some() {
            return Ok("already");
        }
        let place = self.store(value, roll);
        self.slots[slot as usize].proposal = Some(place);
        Ok("proposed")
    }

    // 13.3
    pub fn forge(
        &mut self,
        kind: u32,
        slot: u32,
        from: u32,
        to: u32,
        value: &Value,
        roll: &mut [Value],
    ) -> Result<Step, u32> {
        let mut holding = Vec::new();
        let roll_ok = self.roll_ok(roll.len());
        let numbers_ok = self.numbers_ok(kind, slot, from, to);
        if !roll_ok {
            holding.push(7);
        }
        if !numbers_ok {
            holding.push(10);
        }
        if numbers_ok && (!self.is_faulty(from) || self.is_faulty(to)) {
            holding.push(11);
        }
        if !value.fit() {
            holding.push(12);
        }
        let ignored = numbers_ok && self.would_ignore(kind, slot, from, to);
        if roll_ok && numbers_ok && !ignored && self.place_of(value, roll).is_none() && roll.len() == self.used {
            holding.push(15);
        }
        refuse_with_smallest(&holding)?;
        if ignored {
            return Ok(Step::Ignored);
        }
        let place = self.store(value, roll);
        Ok(self.step(kind, slot, from, to, place))
    }

    // 13.4
    pub fn hand(&mut self, kind: u32, slot: u32, from: u32, to: u32) -> Result<Step, u32> {
        let mut holding = Vec::new();
        let numbers_ok = self.numbers_ok(kind, slot, from, to);
        if !numbers_ok {
            holding.push(10);
        }
        if numbers_ok && (self.is_faulty(from) || self.is_faulty(to)) {
            holding.push(11);
        }
        if numbers_ok && !self.waits(kind, slot, from, to) {
            holding.push(14);
        }
        refuse_with_smallest(&holding)?;
        let place = self.sent(kind, slot, from).expect("a waiting message was sent");
        let step = self.step(kind, slot, from, to, place);
        self.slots[slot as usize].handed.insert((kind, from, to));
        Ok(step)
    }

    // 14.1
    pub fn receipt(&self, slot: u32, node: u32) -> Result<Option<usize>, u32> {
        let mut holding = Vec::new();
        if slot >= self.slot_count || !self.is_node(node) {
            holding.push(10);
        }
        if self.is_node(node) && self.is_faulty(node) {
            holding.push(11);
        }
        refuse_with_smallest(&holding)?;
        Ok(self.record(slot, node).delivered)
    }

    // 14.2
    pub fn counts(&self, slot: u32) -> Result<Counts, u32> {
        if slot >= self.slot_count {
            return Err(10);
        }
        let having = |entry: fn(&Record) -> Option<usize>| {
            self.correct().iter().filter(|k| entry(self.record(slot, **k)).is_some()).count()
        };
        Ok(Counts {
            proposed: self.proposal(slot).iter().count(),
            echoed: having(|record| record.echoed),
            readied: having(|record| record.readied),
            heard: self.slots[slot as usize].handed.len(),
            waiting: self.waiting_messages(slot).len(),
        })
    }

    // 14.3
    pub fn tally(&self, node: u32, account: u16, roll: &[Value]) -> Result<(usize, usize), u32> {
        let mut holding = Vec::new();
        if !self.roll_ok(roll.len()) {
            holding.push(7);
        }
        if !self.is_node(node) {
            holding.push(10);
        }
        if self.is_node(node) && self.is_faulty(node) {
            holding.push(11);
        }
        refuse_with_smallest(&holding)?;
        let (mut counting, mut not_counting) = (0, 0);
        for (slot, value) in self.delivered_values(node, roll) {
            if value.account() != account {
                continue;
            }
            if self.slot_counts(node, slot, roll) {
                counting += 1;
            } else {
                not_counting += 1;
            }
        }
        Ok((counting, not_counting))
    }

    /// The slots that the node delivered, with the values.
    pub fn delivered_values(&self, node: u32, roll: &[Value]) -> Vec<(u32, Value)> {
        (0..self.slot_count)
            .filter_map(|slot| self.record(slot, node).delivered.map(|place| (slot, roll[place])))
            .collect()
    }

    /// A slot that the node delivered counts when no lower slot that the same
    /// node delivered has a value with the same claim.
    pub fn slot_counts(&self, node: u32, slot: u32, roll: &[Value]) -> bool {
        let delivered = self.delivered_values(node, roll);
        let here = delivered.iter().find(|(s, _)| *s == slot).expect("a delivered slot").1;
        !delivered.iter().any(|(lower, value)| *lower < slot && value.same_claim(&here))
    }

    // 12.2

    /// "Any other message is ignored."
    fn would_ignore(&self, kind: u32, slot: u32, from: u32, to: u32) -> bool {
        let record = self.record(slot, to);
        match kind {
            SEND => from != self.sender(slot) || record.echoed.is_some(),
            ECHO => record.echo_of.contains_key(&from),
            READY => record.ready_of.contains_key(&from),
            _ => unreachable!("the kind was tried"),
        }
    }

    /// The step of node `to`; the message is not one that is ignored.
    fn step(&mut self, kind: u32, slot: u32, from: u32, to: u32, value: usize) -> Step {
        let rule = Rc::clone(&self.rule);
        let record = &mut self.slots[slot as usize].records[to as usize - 1];
        let nodes_with = |entries: &BTreeMap<u32, usize>| -> Set {
            let row: Vec<u32> = entries.iter().filter(|(_, v)| **v == value).map(|(j, _)| *j).collect();
            Set::of(&row)
        };
        match kind {
            SEND => {
                record.echoed = Some(value);
                Step::Echoed
            }
            ECHO => {
                record.echo_of.insert(from, value);
                let s = nodes_with(&record.echo_of);
                if record.readied.is_none() && rule.holds_quorum(to, &s) {
                    record.readied = Some(value);
                    Step::Readied
                } else {
                    Step::Recorded
                }
            }
            READY => {
                record.ready_of.insert(from, value);
                let s = nodes_with(&record.ready_of);
                let readies = record.readied.is_none() && rule.holds_kernel(to, &s);
                if readies {
                    record.readied = Some(value);
                }
                let delivers = record.delivered.is_none() && rule.holds_quorum(to, &s);
                if delivers {
                    record.delivered = Some(value);
                }
                match (readies, delivers) {
                    (true, true) => Step::ReadiedAndDelivered,
                    (true, false) => Step::Readied,
                    (false, true) => Step::Delivered,
                    (false, false) => Step::Recorded,
                }
            }
            _ => unreachable!("the kind was tried"),
        }
    }

    // 13.5

    /// The value that a correct node has sent by a message of this kind.
    pub fn sent(&self, kind: u32, slot: u32, from: u32) -> Option<usize> {
        match kind {
            SEND if from == self.sender(slot) => self.proposal(slot),
            SEND => None,
            ECHO => self.record(slot, from).echoed,
            READY => self.record(slot, from).readied,
            _ => None,
        }
    }

    /// Both nodes are correct, the one has sent it, and no accepted hand has
    /// brought it to the other.
    pub fn waits(&self, kind: u32, slot: u32, from: u32, to: u32) -> bool {
        !self.is_faulty(from)
            && !self.is_faulty(to)
            && self.sent(kind, slot, from).is_some()
            && !self.slots[slot as usize].handed.contains(&(kind, from, to))
    }

    /// The same with the last point read from the record of the receiver.
    pub fn waits_by_record(&self, kind: u32, slot: u32, from: u32, to: u32) -> bool {
        let record = self.record(slot, to);
        let came = match kind {
            SEND => record.echoed.is_some(),
            ECHO => record.echo_of.contains_key(&from),
            READY => record.ready_of.contains_key(&from),
            _ => true,
        };
        !self.is_faulty(from) && !self.is_faulty(to) && self.sent(kind, slot, from).is_some() && !came
    }

    /// (kind, from, to) of all messages that wait in a slot.
    pub fn waiting_messages(&self, slot: u32) -> Vec<(u32, u32, u32)> {
        let mut found = Vec::new();
        for kind in [SEND, ECHO, READY] {
            for from in 1..=self.rule.size() {
                for to in 1..=self.rule.size() {
                    if self.waits(kind, slot, from, to) {
                        found.push((kind, from, to));
                    }
                }
            }
        }
        found
    }

    // Section 10

    fn roll_ok(&self, length: usize) -> bool {
        length >= 1 && length <= 255 && length >= self.used
    }

    /// The lowest of the used places with this value; nothing if it is new.
    pub fn place_of(&self, value: &Value, roll: &[Value]) -> Option<usize> {
        (0..self.used).find(|place| roll[*place].same(value))
    }

    /// The place of the value; a new value is written to the place `used`.
    fn store(&mut self, value: &Value, roll: &mut [Value]) -> usize {
        if let Some(place) = self.place_of(value, roll) {
            return place;
        }
        roll[self.used] = *value;
        self.used += 1;
        self.used - 1
    }

    // Parts

    pub fn rule(&self) -> &Rule {
        &self.rule
    }

    pub fn slot_count(&self) -> u32 {
        self.slot_count
    }

    pub fn faulty(&self) -> &Set {
        &self.faulty
    }

    pub fn used(&self) -> usize {
        self.used
    }

    pub fn proposal(&self, slot: u32) -> Option<usize> {
        self.slots[slot as usize].proposal
    }

    pub fn record(&self, slot: u32, node: u32) -> &Record {
        &self.slots[slot as usize].records[node as usize - 1]
    }

    /// For slot s the node with the number (s mod n) + 1.
    pub fn sender(&self, slot: u32) -> u32 {
        slot % self.rule.size() + 1
    }

    pub fn is_faulty(&self, node: u32) -> bool {
        self.faulty.has(node)
    }

    /// The correct nodes, rising.
    pub fn correct(&self) -> Vec<u32> {
        self.faulty.rest(self.rule.size()).nodes().to_vec()
    }

    fn is_node(&self, node: u32) -> bool {
        node >= 1 && node <= self.rule.size()
    }

    /// What 10 tries in forge and hand.
    fn numbers_ok(&self, kind: u32, slot: u32, from: u32, to: u32) -> bool {
        (1..=3).contains(&kind) && slot < self.slot_count && self.is_node(from) && self.is_node(to)
    }
}

impl PartialEq for Panel {
    fn eq(&self, other: &Panel) -> bool {
        Rc::ptr_eq(&self.rule, &other.rule)
            && self.slot_count == other.slot_count
            && self.faulty == other.faulty
            && self.used == other.used
            && self.slots == other.slots
    }
}
