//! The work of program `rounds`, call by call. README.md describes it.

use crate::kinds::Value;
use crate::panel::{Panel, ECHO, READY};
use crate::rules::Rule;
use crate::sets::Set;
use std::rc::Rc;

const NODES: u32 = 16;
const SLOTS: u32 = 16;

#[derive(Default)]
struct Totals {
    accepted: u64,
    refused: u64,
    heard: u64,
    waiting: u64,
    delivered: u64,
    counted: u64,
    left_out: u64,
}

impl Totals {
    fn called<T>(&mut self, answer: Result<T, u32>) {
        match answer {
            Ok(_) => self.accepted += 1,
            Err(_) => self.refused += 1,
        }
    }
}

fn withdrawal(account: u16, low: u32) -> Value {
    Value::Withdrawal { serial: account as u64 * 281_474_976_710_656 + low as u64 }
}

fn play(rule: &Rc<Rule>, account: u16, totals: &mut Totals) {
    let mut roll = [Value::Withdrawal { serial: 0 }; 16];
    let mut panel = Panel::open(rule, SLOTS, &Set::of(&[16]), roll.len()).expect("a panel");
    for slot in 0..SLOTS - 1 {
        totals.called(panel.propose(slot, &withdrawal(account, slot + 1), &mut roll));
    }
    for slot in 0..SLOTS {
        for kind in [ECHO, READY] {
            for to in 1..NODES {
                totals.called(panel.forge(kind, slot, 16, to, &withdrawal(account, 1), &mut roll));
            }
        }
    }
    for slot in 0..SLOTS {
        for kind in 1..=3 {
            for from in 1..=NODES {
                for to in 1..=NODES {
                    totals.called(panel.hand(kind, slot, from, to));
                }
            }
        }
    }
    for slot in 0..SLOTS {
        let counts = panel.counts(slot).expect("the slot is in range");
        totals.heard += counts.heard as u64;
        totals.waiting += counts.waiting as u64;
    }
    for slot in 0..SLOTS {
        for node in 1..=NODES {
            totals.delivered += panel.receipt(slot, node).is_ok_and(|place| place.is_some()) as u64;
        }
    }
    for node in 1..=NODES {
        if let Ok((counted, left_out)) = panel.tally(node, account, &roll) {
            totals.counted += counted as u64;
            totals.left_out += left_out as u64;
        }
    }
}

/// What program `rounds` prints.
pub fn rounds(count: u64) -> String {
    let rule = Rc::new(Rule::threshold(NODES, 5, 11).expect("a rule"));
    let mut t = Totals::default();
    for number in 0..count {
        play(&rule, (number % 1_000) as u16 + 1, &mut t);
    }
    format!(
        "accepted {}\nrefused {}\nheard {}\nwaiting {}\ndelivered {}\ncounted {}\nleft out {}\n",
        t.accepted, t.refused, t.heard, t.waiting, t.delivered, t.counted, t.left_out
    )
}
