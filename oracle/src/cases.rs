//! Generated panel cases. The format is described in README.md.
//!
//! Each case is played while it is made, so that waiting messages, full rolls
//! and the like can be aimed at.

use crate::casefile::Player;
use crate::kinds::{Kind, Value};
use crate::panel::{ECHO, READY, SEND};
use crate::prng::Prng;
use crate::sets::{show, show_mask, Set};
use crate::texts::{largest_draft, random_draft, sample_draft, sound_draft};

struct Script {
    prng: Prng,
    player: Player,
    lines: Vec<String>,
    kind: Kind,
    n: u32,
    slots: u32,
    /// The roll length that most calls pass.
    roll: usize,
    /// The fit values of the case.
    values: Vec<Value>,
    /// A node that gets SENDs and ECHOs only when nothing else waits; it
    /// readies by kernel.
    late: Option<u32>,
    measure: Measure,
}

pub const ROW: usize = 300;

/// How long a case may be.
#[derive(Clone, Copy)]
pub struct Measure {
    most_nodes: u32,
    most_slots: u32,
    /// Turns of a style that repeats something.
    most_turns: usize,
    /// Messages handed in one run.
    most_hands: usize,
    /// The dear styles come once in so many rounds of styles.
    dear_rounds: usize,
}

const FULL: Measure =
    Measure { most_nodes: 16, most_slots: 16, most_turns: usize::MAX, most_hands: 2_000, dear_rounds: 4 };
const SHORT: Measure = Measure { most_nodes: 4, most_slots: 2, most_turns: 14, most_hands: 70, dear_rounds: 8 };
const MIDDLE: Measure = Measure { most_nodes: 7, most_slots: 5, most_turns: 40, most_hands: 200, dear_rounds: 8 };

// Rules

pub fn sound_threshold(prng: &mut Prng, least: u32, most: u32) -> (u32, u32, u32) {
    let n = prng.between(least, most);
    let f = prng.between(0, (n - 1) / 3);
    let lowest = (n + f) / 2 + 1;
    (n, f, prng.between(lowest, n - f))
}

/// The `rule` line of a threshold rule, and its size.
fn threshold((n, f, q): (u32, u32, u32)) -> (String, u32) {
    (format!("rule threshold {n} {f} {q}"), n)
}

/// A `rule` line of a sound rule, and its size. Most have at most `most`
/// nodes.
fn sound_rule(prng: &mut Prng, most: u32) -> (String, u32) {
    let few = most.min(6);
    match prng.below(10) {
        0..=2 => threshold(sound_threshold(prng, 1, few)),
        // A kernel is a quorum here.
        3 => threshold(prng.pick(&[(1, 0, 1), (3, 0, 2), (5, 0, 3)])),
        4 => threshold(sound_threshold(prng, most.min(7), most.min(9))),
        5 => (format!("rule text {}", sample_draft().notation()), 5),
        which @ 6..=8 => {
            let n = prng.between(2, few);
            let draft = sound_draft(prng, n, which == 8);
            (format!("rule text {}", draft.notation()), n)
        }
        _ => {
            let n = prng.between(1, most.min(5));
            let draft = sound_draft(prng, n, true);
            (format!("rule lists {}", draft.lists_notation(prng)), n)
        }
    }
}

/// A `rule` line of any rule, of an unsound one, or of a refused one.
fn odd_rule(prng: &mut Prng) -> (String, u32) {
    match prng.below(9) {
        0 => {
            let (n, f, q) = (prng.between(1, 6), prng.between(0, 7), prng.between(0, 7));
            threshold((n, f, q))
        }
        1 => {
            let (n, f, q) = prng.pick(&[(0, 0, 0), (17, 0, 9), (4, 17, 3), (4, 1, 17), (272, 0, 9), (4, 65537, 3)]);
            (format!("rule threshold {n} {f} {q}"), n.min(16))
        }
        2 => threshold(prng.pick(&[(3, 1, 2), (2, 0, 3), (4, 1, 0), (4, 4, 3), (4, 16, 16), (1, 0, 0), (6, 2, 4)])),
        3 | 4 => {
            let n = prng.between(1, 5);
            let with_quorums = prng.chance(1, 2);
            (format!("rule text {}", random_draft(prng, n, with_quorums).notation()), n)
        }
        5 => {
            let text = prng.pick(&["N 1/F 1 0001/", "N 1/", "N 2/F 1 0004/", "N 1/F 1 0000", "N 1/F 1 0000/F 1 0000/"]);
            (format!("rule text {text}"), 1)
        }
        6 => {
            let lists = prng.pick(&[
                "2/F 1 0000/F 2 0000/Q 1 0003/",
                "2/F 1 0000/Q 1 0003/Q 2 0003/",
                "2/F 1 0000/F 2 0004/Q 1 0003/Q 2 0003/",
                "2/F 1 0004/Q 1 0003/Q 2 0003/",
                "0/",
                "17/F 1 0000/Q 1 0001/",
                "1/F 1 0000/Q 1 0001/F 2 ffff/Q 3 ffff/",
            ]);
            (format!("rule lists {lists}"), 2)
        }
        _ => sound_rule(prng, FULL.most_nodes),
    }
}

// Values

fn random_issue(prng: &mut Prng) -> Value {
    let start = prng.pick(&[0, 1, 1_000, 1_700_000_000, u64::MAX - 7_776_000]);
    let lifetime = prng.pick(&[1, 3_600, 7_775_999, 7_776_000]);
    Value::Issue {
        account: prng.pick(&[0, 1, 7, 256, 65535]),
        device: prng.pick(&[0, 1, 65536, u32::MAX]),
        request: prng.pick(&[0, 1, 2, u32::MAX]),
        key: prng.pick(&[0, 1, 1 << 32, u64::MAX]),
        start,
        end: start + lifetime,
    }
}

/// An issue that differs from another in one field.
fn near_issue(prng: &mut Prng, value: Value) -> Value {
    let Value::Issue { account, device, request, key, start, end } = value else { return value };
    match prng.below(6) {
        0 => Value::Issue { account: account ^ 1 << prng.below(16), device, request, key, start, end },
        1 => Value::Issue { account, device: device ^ 1 << prng.below(32), request, key, start, end },
        2 => Value::Issue { account, device, request: request ^ 1 << prng.below(32), key, start, end },
        3 => Value::Issue { account, device, request, key: key ^ 1 << prng.below(64), start, end },
        4 if end - start > 1 => Value::Issue { account, device, request, key, start: start + 1, end },
        _ if end - start > 1 => Value::Issue { account, device, request, key, start, end: end - 1 },
        _ => Value::Issue { account, device, request, key: key ^ 1, start, end },
    }
}

fn random_withdrawal(prng: &mut Prng) -> Value {
    let account = prng.pick(&[0u64, 1, 7, 256, 65535]);
    let low = prng.pick(&[0, 1, 2, 1 << 32, (1 << 48) - 1]);
    Value::Withdrawal { serial: (account * (1 << 48) + low).max(1) }
}

fn near_withdrawal(prng: &mut Prng, value: Value) -> Value {
    let Value::Withdrawal { serial } = value else { return value };
    Value::Withdrawal { serial: (serial ^ 1 << prng.below(64)).max(1) }
}

/// Fit values, pairwise different; many differ in one field only.
fn fit_values(prng: &mut Prng, kind: Kind, count: usize) -> Vec<Value> {
    let mut values: Vec<Value> = Vec::new();
    while values.len() < count {
        let near = !values.is_empty() && prng.chance(1, 2);
        let value = match (kind, near) {
            (Kind::Issue, false) => random_issue(prng),
            (Kind::Issue, true) => {
                let base = prng.pick(&values);
                near_issue(prng, base)
            }
            (_, false) => random_withdrawal(prng),
            (_, true) => {
                let base = prng.pick(&values);
                near_withdrawal(prng, base)
            }
        };
        if value.fit() && !values.iter().any(|v| v.same(&value)) {
            values.push(value);
        }
    }
    values
}

fn unfit_value(prng: &mut Prng, kind: Kind) -> Value {
    if kind == Kind::Withdrawal {
        return Value::Withdrawal { serial: 0 };
    }
    let (start, end) = prng.pick(&[
        (0, 0),
        (1_000, 1_000),
        (1_000, 999),
        (0, 7_776_001),
        (1_000, 7_777_001),
        (0, u64::MAX),
        (u64::MAX, 0),
        (u64::MAX, u64::MAX),
        (u64::MAX, 7_775_999),
        (5, 5 + (1 << 32) + 60),
    ]);
    Value::Issue { account: 1, device: 1, request: 1, key: 1, start, end }
}

impl Script {
    fn begin(seed: u64, name: &str, measure: Measure) -> Script {
        let mut prng = Prng::new(seed);
        let kind = prng.pick(&[Kind::Issue, Kind::Withdrawal]);
        let count = 2 + prng.below(5);
        let values = fit_values(&mut prng, kind, count);
        let mut script = Script {
            prng,
            player: Player::new(),
            lines: vec![format!("case {name}")],
            kind,
            n: 0,
            slots: 1,
            roll: 8,
            values,
            late: None,
            measure,
        };
        script.late = script.prng.pick(&[None, Some(1), Some(2), Some(3)]);
        script.say(format!("kind {}", kind.name()));
        // What the row has at first has no effect.
        let first = if script.prng.chance(1, 2) { kind.zero() } else { script.values[0] };
        script.say(format!("row {ROW} {}", first.show()));
        script
    }

    fn end(mut self) -> String {
        self.lines.push("end".to_string());
        self.lines.join("\n") + "\n"
    }

    /// Adds a line and plays it.
    fn say(&mut self, line: String) -> String {
        let answer = self.player.line(&line).expect("a line of the format");
        self.lines.push(line);
        answer.unwrap_or_default()
    }

    fn rule(&mut self, (line, n): (String, u32)) {
        self.n = n.max(1);
        self.say(line);
    }

    fn sound_rule(&mut self) {
        let rule = sound_rule(&mut self.prng, self.measure.most_nodes);
        self.rule(rule);
    }

    /// At most `turns`.
    fn turns(&self, turns: usize) -> usize {
        turns.min(self.measure.most_turns)
    }

    fn some_slots(&mut self, least: u32, most: u32) -> u32 {
        self.prng.between(least, most.min(self.measure.most_slots).max(least))
    }

    fn open(&mut self, slots: u32, faulty: u16) {
        self.slots = slots;
        self.say(format!("open {slots} {} {}", show_mask(faulty), self.roll));
    }

    /// Any faulty nodes, and from `least` to `most` slots.
    fn open_some(&mut self, least: u32, most: u32) {
        let faulty = self.some_faulty();
        let slots = self.some_slots(least, most);
        self.open(slots, faulty);
    }

    fn some_faulty(&mut self) -> u16 {
        let n = self.n;
        let mut nodes: Vec<u32> = (1..=n).collect();
        self.prng.shuffle(&mut nodes);
        let count = match self.prng.below(8) {
            0 | 1 => 0,
            2 | 3 => n.min(1),
            4 => n / 3,
            5 => n / 2,
            6 => n - 1,
            _ => self.prng.between(0, n),
        };
        Set::of(&nodes[..count as usize]).mask()
    }

    // State of the panel

    fn used(&self) -> usize {
        self.player.panel.as_ref().map_or(0, |p| p.used())
    }

    fn correct(&self) -> Vec<u32> {
        self.player.panel.as_ref().map_or(Vec::new(), |p| p.correct())
    }

    fn faulty(&self) -> Vec<u32> {
        self.player.panel.as_ref().map_or(Vec::new(), |p| p.faulty().nodes().to_vec())
    }

    fn waiting(&self) -> Vec<(u32, (u32, u32, u32))> {
        let Some(panel) = &self.player.panel else { return Vec::new() };
        (0..panel.slot_count())
            .flat_map(|slot| panel.waiting_messages(slot).into_iter().map(move |message| (slot, message)))
            .collect()
    }

    // Calls

    fn propose(&mut self, slot: u32, value: Value, roll: usize) -> String {
        self.say(format!("propose {slot} {} {roll}", value.show()))
    }

    fn forge(&mut self, kind: u32, slot: u32, from: u32, to: u32, value: Value, roll: usize) -> String {
        self.say(format!("forge {kind} {slot} {from} {to} {} {roll}", value.show()))
    }

    fn hand(&mut self, kind: u32, slot: u32, from: u32, to: u32) -> String {
        self.say(format!("hand {kind} {slot} {from} {to}"))
    }

    /// Hands one of the waiting messages; no if none waits.
    fn hand_one(&mut self) -> bool {
        let waiting = self.waiting();
        if waiting.is_empty() {
            return false;
        }
        let in_time: Vec<_> =
            waiting.iter().copied().filter(|(_, (kind, _, to))| *kind == READY || Some(*to) != self.late).collect();
        let (slot, (kind, from, to)) = self.prng.pick(if in_time.is_empty() { &waiting } else { &in_time });
        self.hand(kind, slot, from, to);
        if self.prng.chance(1, 12) {
            self.hand(kind, slot, from, to);
        }
        true
    }

    /// A good forge from a faulty to a correct node, if there are such nodes.
    fn forge_one(&mut self, roll: usize) {
        let (faulty, correct) = (self.faulty(), self.correct());
        if faulty.is_empty() || correct.is_empty() {
            return;
        }
        let kind = self.prng.pick(&[SEND, ECHO, ECHO, READY, READY]);
        let slot = self.prng.between(0, self.slots - 1);
        let (from, to) = (self.prng.pick(&faulty), self.prng.pick(&correct));
        let value = self.some_value(20);
        self.forge(kind, slot, from, to, value, roll);
    }

    /// The faulty sender of a slot sends, mostly one value to all.
    fn forge_sends(&mut self, slot: u32) {
        let sender = slot % self.n + 1;
        let one = self.prng.pick(&self.values);
        for to in self.correct() {
            let value = if self.prng.chance(1, 5) { self.prng.pick(&self.values) } else { one };
            if self.prng.chance(9, 10) {
                self.forge(SEND, slot, sender, to, value, self.roll);
            }
        }
    }

    /// Proposals in all slots with a correct sender, SENDs in the others.
    fn start_all_slots(&mut self) {
        for slot in 0..self.slots {
            if self.faulty().contains(&(slot % self.n + 1)) {
                self.forge_sends(slot);
            } else if self.prng.chance(9, 10) {
                let value = self.prng.pick(&self.values);
                self.propose(slot, value, self.roll);
            }
        }
    }

    /// Hands messages, with forged ones in between, until nothing waits.
    fn play_until_quiet(&mut self, forges_of_100: u64) {
        for _ in 0..self.measure.most_hands {
            if self.prng.chance(forges_of_100, 100) {
                self.forge_one(self.roll);
            }
            if self.prng.chance(1, 40) {
                self.read_one();
            }
            if !self.hand_one() {
                break;
            }
        }
    }

    // Arguments

    /// Fit, but unfit in one of `whole` cases.
    fn some_value(&mut self, whole: u64) -> Value {
        if self.prng.chance(1, whole) {
            unfit_value(&mut self.prng, self.kind)
        } else {
            self.prng.pick(&self.values)
        }
    }

    fn some_roll(&mut self) -> usize {
        let used = self.used();
        let lengths = [self.roll, self.roll, used, used + 1, used.saturating_sub(1), 0, 1, 2, 254, 255, 256, 257, ROW];
        self.prng.pick(&lengths)
    }

    fn odd_number(&mut self, last: u32) -> u32 {
        let numbers = [
            last.wrapping_add(1), 0, 1, 3, 4, 16, 17, 255, 256, 257, 258, 65535, 65536, 65537, 65538, 1 << 24,
            (1 << 24) + 1, 1 << 31, (1 << 31) + 1, u32::MAX - 1, u32::MAX,
        ];
        self.prng.pick(&numbers)
    }

    fn some_number(&mut self, first: u32, last: u32, odd_of_100: u64) -> u32 {
        if self.prng.chance(odd_of_100, 100) {
            self.odd_number(last)
        } else {
            self.prng.between(first, last)
        }
    }

    fn some_slot(&mut self, odd_of_100: u64) -> u32 {
        self.some_number(0, self.slots - 1, odd_of_100)
    }

    fn some_node(&mut self, odd_of_100: u64) -> u32 {
        self.some_number(1, self.n, odd_of_100)
    }

    fn some_kind(&mut self, odd_of_100: u64) -> u32 {
        self.some_number(1, 3, odd_of_100)
    }

    /// Any propose, forge or hand.
    fn any_act(&mut self, odd_of_100: u64) {
        let slot = self.some_slot(odd_of_100);
        let kind = self.some_kind(odd_of_100);
        let (from, to) = (self.some_node(odd_of_100), self.some_node(odd_of_100));
        let value = self.some_value(6);
        let roll = if self.prng.chance(odd_of_100, 100) { self.some_roll() } else { self.roll };
        match self.prng.below(6) {
            0 => self.propose(slot, value, roll),
            1 | 2 => self.forge(kind, slot, from, to, value, roll),
            _ => self.hand(kind, slot, from, to),
        };
    }

    fn read_one(&mut self) {
        let odd = 10;
        let call = match self.prng.below(3) {
            0 => format!("receipt {} {}", self.some_slot(odd), self.some_node(odd)),
            1 => format!("counts {}", self.some_slot(odd)),
            _ => {
                let account = if self.prng.chance(3, 4) {
                    self.prng.pick(&self.values).account()
                } else {
                    self.prng.pick(&[0, 1, 65535])
                };
                format!("tally {} {account} {}", self.some_node(odd), self.some_roll())
            }
        };
        self.say(call);
    }
}

// Styles

/// A run to the end; some messages of faulty nodes.
fn run_to_the_end(mut s: Script) -> Script {
    s.sound_rule();
    s.open_some(1, 3);
    s.start_all_slots();
    s.play_until_quiet(15);
    s
}

/// Many messages of faulty nodes.
fn many_forged(mut s: Script) -> Script {
    s.sound_rule();
    s.roll = 40;
    s.open_some(1, 2);
    let count = s.prng.below(40);
    for _ in 0..s.turns(count) {
        s.forge_one(s.roll);
    }
    s.start_all_slots();
    s.play_until_quiet(60);
    s
}

/// Rolls of 1 to 4 places, and lengths that vary.
fn tight_roll(mut s: Script) -> Script {
    s.sound_rule();
    s.roll = 1 + s.prng.below(4);
    s.values = fit_values(&mut s.prng, s.kind, 12);
    s.open_some(1, 8);
    for _ in 0..s.turns(60) {
        let full = s.used().max(1);
        let roll = if s.prng.chance(1, 2) { full } else { s.some_roll() };
        match s.prng.below(4) {
            0 => {
                let (slot, value) = (s.some_slot(2), s.some_value(12));
                let answer = s.propose(slot, value, roll);
                if answer == "15" && s.prng.chance(1, 2) {
                    // The same with one place more, then again.
                    s.propose(slot, value, roll + 1);
                    s.propose(slot, value, roll);
                }
            }
            1 => s.forge_one(roll),
            2 => {
                s.read_one();
            }
            _ => {
                s.hand_one();
            }
        }
    }
    s
}

/// Any calls in any order; so many of 100 numbers are out of range. A waiting
/// message is handed after one of `hands` calls, a reading made after one of
/// `readings`.
fn any_calls(s: &mut Script, turns: usize, odd_of_100: u64, hands: u64, readings: u64) {
    for _ in 0..s.turns(turns) {
        s.any_act(odd_of_100);
        if s.prng.chance(1, hands) {
            s.hand_one();
        }
        if s.prng.chance(1, readings) {
            s.read_one();
        }
    }
}

/// Numbers out of range.
fn odd_numbers(mut s: Script) -> Script {
    s.sound_rule();
    s.open_some(1, 16);
    any_calls(&mut s, 80, 30, 3, 4);
    s
}

/// Many openings, most of them refused, and calls in between.
fn openings(mut s: Script) -> Script {
    for _ in 0..3 {
        let rule = odd_rule(&mut s.prng);
        s.rule(rule);
        let times = if s.player.rule.is_some() { s.turns(24) / 3 } else { 1 };
        for _ in 0..times {
            let odd_slots = s.prng.pick(&[0, 15, 16, 17, 256, 257, 65536, 65537, u32::MAX]);
            let slots = s.prng.pick(&[1, 2, 3, odd_slots]);
            let in_range = s.some_faulty();
            let above = Set::of(&[(s.n + 1).min(16)]).mask();
            let odd_faulty = s.prng.pick(&[above, in_range | above, 0x8000, 0xffff]);
            let faulty = s.prng.pick(&[0, in_range, in_range, odd_faulty]);
            let odd_roll = s.prng.pick(&[0, 254, 255, 256, 300]);
            let roll = s.prng.pick(&[1, 8, 9, odd_roll]);
            let answer = s.say(format!("open {slots} {} {roll}", show_mask(faulty)));
            if answer == "opened" {
                s.slots = slots;
            }
            for _ in 0..2 {
                s.any_act(10);
            }
        }
    }
    s
}

/// The roll is filled up to 255 places.
fn fill_the_roll(mut s: Script) -> Script {
    let (n, f, q) = sound_threshold(&mut s.prng, 8, 10);
    s.rule(threshold((n, f, q)));
    let mut nodes: Vec<u32> = (1..=n).collect();
    s.prng.shuffle(&mut nodes);
    let count = s.prng.between(4, n - 2) as usize;
    let faulty = Set::of(&nodes[..count]);
    s.roll = 255;
    s.say(format!("open 16 {} 255", show(&faulty)));
    s.slots = 16;
    let value = |number: usize| match s.kind {
        Kind::Issue => {
            Value::Issue { account: 9, device: number as u32 % 5, request: 0, key: number as u64, start: 0, end: 9 }
        }
        _ => Value::Withdrawal { serial: (number as u64 + 1) << 40 },
    };
    let most = s.prng.pick(&[60, 250, 255]);
    let mut all: Vec<(u32, u32, u32, u32)> = Vec::new();
    for slot in 0..16 {
        for from in &nodes[..count] {
            for to in &nodes[count..] {
                all.extend([(ECHO, slot, *from, *to), (READY, slot, *from, *to)]);
            }
        }
    }
    s.prng.shuffle(&mut all);
    let values: Vec<Value> = (0..300).map(value).collect();
    for (number, (kind, slot, from, to)) in all.iter().enumerate() {
        if number < most {
            s.forge(*kind, *slot, *from, *to, values[number], 255);
        } else if number < most + 12 {
            // New and known values on full, short and long rolls.
            let roll = s.prng.pick(&[most, most - 1, most + 1, 255, 256, 254]);
            let known = s.prng.below(most);
            let which = s.prng.pick(&[number, known]);
            s.forge(*kind, *slot, *from, *to, values[which], roll);
            let (kind, slot, from, to) = all[known];
            s.forge(kind, slot, from, to, values[number + 13], roll);
            let slot = s.some_slot(0);
            s.propose(slot, values[which], roll);
            s.read_one();
        }
    }
    for _ in 0..30 {
        s.hand_one();
    }
    s
}

/// Few claims in many slots.
fn tallies(mut s: Script) -> Script {
    let (n, f, q) = sound_threshold(&mut s.prng, 1, s.measure.most_nodes.min(4));
    s.rule(threshold((n, f, q)));
    s.roll = 30;
    let mut values = Vec::new();
    for account in [3, 4] {
        for number in 0..3u64 {
            values.push(match s.kind {
                Kind::Issue => {
                    let (device, request) = s.prng.pick(&[(1, 1), (1, 2), (2, 1)]);
                    Value::Issue { account, device, request, key: number, start: 10, end: 20 }
                }
                _ => Value::Withdrawal { serial: account as u64 * (1 << 48) + number },
            });
        }
    }
    s.values = values;
    let faulty = if f > 0 && s.prng.chance(1, 2) { 1 << s.prng.below(n as usize) } else { 0 };
    let slots = s.some_slots(4, 16);
    s.open(slots, faulty);
    s.start_all_slots();
    s.play_until_quiet(5);
    for node in 0..=n + 1 {
        for account in [3, 4, 5] {
            let roll = s.some_roll();
            s.say(format!("tally {node} {account} {roll}"));
            s.say(format!("tally {node} {account} {}", s.roll));
        }
    }
    s
}

/// Any calls, few numbers out of range.
fn anything(mut s: Script) -> Script {
    s.sound_rule();
    s.open_some(1, 3);
    any_calls(&mut s, 150, 4, 2, 10);
    s
}

/// Proposals again: the same, another, unfit; on full and short rolls.
fn proposals(mut s: Script) -> Script {
    s.sound_rule();
    s.roll = 2;
    s.open_some(1, 6);
    for _ in 0..s.turns(50) {
        let (slot, value, roll) = (s.some_slot(5), s.some_value(8), s.some_roll());
        s.propose(slot, value, roll);
    }
    s
}

/// The panel is opened again; the row keeps what it has.
fn opened_again(mut s: Script) -> Script {
    s.sound_rule();
    for _ in 0..3 {
        s.open_some(1, 3);
        s.start_all_slots();
        for _ in 0..s.turns(25) {
            s.hand_one();
            s.forge_one(s.roll);
        }
    }
    s
}

/// Sizes up to 16, one slot, the bound of accepted hands reached.
fn large(mut s: Script) -> Script {
    match s.prng.below(3) {
        0 => {
            let n = s.prng.between(9, 16);
            let with_quorums = s.prng.chance(1, 2);
            let draft = sound_draft(&mut s.prng, n, with_quorums);
            s.rule((format!("rule text {}", draft.notation()), n));
        }
        1 if s.prng.chance(1, 3) => s.rule((format!("rule text {}", largest_draft().notation()), 16)),
        _ => {
            let (n, f, q) = sound_threshold(&mut s.prng, 10, 16);
            s.rule(threshold((n, f, q)));
        }
    }
    let faulty = if s.prng.chance(1, 2) { 0 } else { s.some_faulty() };
    s.open(1, faulty);
    s.start_all_slots();
    s.play_until_quiet(10);
    s
}

/// READYs before ECHOs: nodes ready by kernel, and some deliver in the same
/// step.
fn kernels(mut s: Script) -> Script {
    let (n, f, q) = s.prng.pick(&[(3, 0, 2), (5, 0, 3), (7, 0, 4), (4, 1, 3), (5, 1, 4), (2, 0, 2)]);
    s.rule(threshold((n, f, q)));
    s.late = Some(s.prng.between(1, n));
    let faulty = if s.prng.chance(1, 2) { 0 } else { s.some_faulty() };
    let slots = s.some_slots(1, 3);
    s.open(slots, faulty);
    for to in s.correct() {
        for from in s.faulty() {
            let (slot, value) = (s.some_slot(0), s.values[s.prng.below(2)]);
            s.forge(READY, slot, from, to, value, s.roll);
        }
    }
    s.start_all_slots();
    s.play_until_quiet(5);
    s
}

type Style = (&'static str, fn(Script) -> Script);

const STYLES: [Style; 12] = [
    ("run to the end", run_to_the_end),
    ("many forged", many_forged),
    ("tight roll", tight_roll),
    ("odd numbers", odd_numbers),
    ("openings", openings),
    ("fill the roll", fill_the_roll),
    ("tallies", tallies),
    ("anything", anything),
    ("proposals", proposals),
    ("opened again", opened_again),
    ("large", large),
    ("kernels", kernels),
];

/// One script; the styles come in turn, the dear ones not every time.
fn script(seed: u64, number: usize, mut measure: Measure) -> Script {
    let mut seeds = Prng::new(seed ^ (number as u64).wrapping_mul(0x2545_f491_4f6c_dd1d));
    let (mut name, mut style) = STYLES[number % STYLES.len()];
    if name == "fill the roll" || name == "large" {
        if number / STYLES.len() % measure.dear_rounds == 0 {
            measure = FULL;
        } else {
            (name, style) = STYLES[seeds.below(2)];
        }
    }
    style(Script::begin(seeds.next(), &format!("{} {name}", number + 1), measure))
}

pub fn make(seed: u64, number: usize) -> String {
    script(seed, number, FULL).end()
}

/// The lines of a case of bounded length, without its end.
pub fn make_short(seed: u64, number: usize) -> Vec<String> {
    let measure = if number / STYLES.len() % 8 == 3 { MIDDLE } else { SHORT };
    script(seed, number, measure).lines
}

pub fn make_all(seed: u64, count: usize) -> String {
    (0..count).map(|number| make(seed, number)).collect()
}
