//! Times program `rounds` against the same panel in Rust, each as a process of its own:
//!
//!     panel PROGRAM        PROGRAM is the built program rounds
//!     panel child ROUNDS   what PROGRAM ROUNDS does, in Rust
//!
//! Both make the same calls in the same order and print the same totals; a differing line ends the run with
//! status 1.
use std::hint::black_box;
use std::process::{Command, ExitCode};
use std::time::Instant;

const REPETITIONS: usize = 11;
const ROUNDS: u64 = 3_000;

/// The number of a refusal.
type Refusal = u8;

#[derive(Clone, Copy)]
struct Threshold {
    n: u32,
    f: u32,
    q: u32,
}

impl Threshold {
    fn new(n: u32, f: u32, q: u32) -> Result<Threshold, Refusal> {
        if n == 0 || n > 16 || f > 16 || q > 16 {
            return Err(2);
        }
        Ok(Threshold { n, f, q })
    }

    fn in_range(self, set: u16) -> bool {
        u32::from(set) < 1 << self.n
    }

    fn is_node(self, node: u32) -> bool {
        node >= 1 && node <= self.n
    }

    fn sound(self) -> bool {
        2 * self.q > self.n + self.f && self.q + self.f <= self.n
    }

    fn holds_quorum(self, node: u32, set: u16) -> bool {
        self.is_node(node) && self.in_range(set) && set.count_ones() >= self.q
    }

    fn holds_kernel(self, node: u32, set: u16) -> bool {
        self.is_node(node) && self.in_range(set) && self.n - set.count_ones() < self.q
    }
}

#[derive(Clone, Copy)]
struct Withdrawal(u64);

impl Withdrawal {
    fn same(self, other: Withdrawal) -> bool {
        self.0 == other.0
    }

    fn fit(self) -> bool {
        self.0 != 0
    }

    fn same_claim(self, other: Withdrawal) -> bool {
        self.0 == other.0
    }

    fn account(self) -> u16 {
        (self.0 >> 48) as u16
    }
}

/// No place; rolls have at most 255 places.
const ABSENT: u8 = 255;

#[derive(Clone, Copy)]
struct Record {
    echoed: u8,
    readied: u8,
    delivered: u8,
    /// By node, from node 1.
    echo_of: [u8; 16],
    ready_of: [u8; 16],
}

impl Record {
    const FRESH: Record =
        Record { echoed: ABSENT, readied: ABSENT, delivered: ABSENT, echo_of: [ABSENT; 16], ready_of: [ABSENT; 16] };
}

/// The nodes whose entry is this place.
fn nodes_with(entries: &[u8; 16], place: u8) -> u16 {
    entries.iter().enumerate().fold(0, |set, (at, entry)| set | u16::from(*entry == place) << at)
}

#[derive(Clone, Copy, PartialEq)]
enum Step {
    Ignored,
    Recorded,
    Echoed,
    Readied,
    Delivered,
    ReadiedDelivered,
}

struct Counts {
    heard: u64,
    waiting: u64,
}

struct Panel {
    rule: Threshold,
    slots: u32,
    faulty: u16,
    used: u8,
    proposals: [u8; 16],
    records: [[Record; 16]; 16],
}

const SEND: u32 = 1;
const ECHO: u32 = 2;
const READY: u32 = 3;

impl Panel {
    fn open(rule: Threshold, slots: u32, faulty: u16, roll: &[Withdrawal]) -> Result<Panel, Refusal> {
        if slots < 1 || slots > 16 {
            return Err(6);
        }
        if roll.is_empty() || roll.len() > 255 {
            return Err(7);
        }
        if !rule.in_range(faulty) {
            return Err(8);
        }
        if !rule.sound() {
            return Err(9);
        }
        Ok(Panel { rule, slots, faulty, used: 0, proposals: [ABSENT; 16], records: [[Record::FRESH; 16]; 16] })
    }

    fn propose(&mut self, slot: u32, value: Withdrawal, roll: &mut [Withdrawal]) -> Result<bool, Refusal> {
        self.try_roll(roll)?;
        if slot >= self.slots {
            return Err(10);
        }
        if self.is_faulty(self.sender(slot)) {
            return Err(11);
        }
        if !value.fit() {
            return Err(12);
        }
        let place = self.place_of(value, roll);
        let proposal = self.proposals[slot as usize];
        if proposal != ABSENT {
            return if place == proposal { Ok(false) } else { Err(13) };
        }
        self.proposals[slot as usize] = self.store(place, value, roll)?;
        Ok(true)
    }

    fn forge(
        &mut self,
        kind: u32,
        slot: u32,
        from: u32,
        to: u32,
        value: Withdrawal,
        roll: &mut [Withdrawal],
    ) -> Result<Step, Refusal> {
        self.try_roll(roll)?;
        self.try_numbers(kind, slot, from, to)?;
        if !self.is_faulty(from) || self.is_faulty(to) {
            return Err(11);
        }
        if !value.fit() {
            return Err(12);
        }
        if (kind == SEND && from != self.sender(slot)) || self.has_come(kind, slot, from, to) {
            return Ok(Step::Ignored);
        }
        let place = self.place_of(value, roll);
        let place = self.store(place, value, roll)?;
        Ok(self.hear(kind, slot, from, to, place))
    }

    fn hand(&mut self, kind: u32, slot: u32, from: u32, to: u32) -> Result<Step, Refusal> {
        self.try_numbers(kind, slot, from, to)?;
        if self.is_faulty(from) || self.is_faulty(to) {
            return Err(11);
        }
        let place = self.sent(kind, slot, from);
        if place == ABSENT || self.has_come(kind, slot, from, to) {
            return Err(14);
        }
        Ok(self.hear(kind, slot, from, to, place))
    }

    fn receipt(&self, slot: u32, node: u32) -> Result<u8, Refusal> {
        if slot >= self.slots || !self.rule.is_node(node) {
            return Err(10);
        }
        if self.is_faulty(node) {
            return Err(11);
        }
        Ok(self.record(slot, node).delivered)
    }

    fn counts(&self, slot: u32) -> Result<Counts, Refusal> {
        if slot >= self.slots {
            return Err(10);
        }
        let (mut heard, mut waiting) = (0, 0);
        for kind in SEND..=READY {
            for from in self.correct() {
                if kind == SEND && from != self.sender(slot) {
                    continue;
                }
                let sent = self.sent(kind, slot, from) != ABSENT;
                for to in self.correct() {
                    let came = self.has_come(kind, slot, from, to);
                    heard += u64::from(came);
                    waiting += u64::from(sent && !came);
                }
            }
        }
        Ok(Counts { heard, waiting })
    }

    fn tally(&self, node: u32, account: u16, roll: &[Withdrawal]) -> Result<(u64, u64), Refusal> {
        self.try_roll(roll)?;
        if !self.rule.is_node(node) {
            return Err(10);
        }
        if self.is_faulty(node) {
            return Err(11);
        }
        let (mut counted, mut left_out) = (0, 0);
        for slot in 0..self.slots {
            let place = self.record(slot, node).delivered;
            if place == ABSENT || roll[place as usize].account() != account {
                continue;
            }
            let claimed = (0..slot).any(|lower| {
                let before = self.record(lower, node).delivered;
                before != ABSENT && roll[before as usize].same_claim(roll[place as usize])
            });
            if claimed { left_out += 1 } else { counted += 1 }
        }
        Ok((counted, left_out))
    }

    fn try_roll(&self, roll: &[Withdrawal]) -> Result<(), Refusal> {
        if roll.is_empty() || roll.len() > 255 || roll.len() < self.used as usize { Err(7) } else { Ok(()) }
    }

    fn try_numbers(&self, kind: u32, slot: u32, from: u32, to: u32) -> Result<(), Refusal> {
        let known = kind >= SEND && kind <= READY && slot < self.slots;
        if known && self.rule.is_node(from) && self.rule.is_node(to) { Ok(()) } else { Err(10) }
    }

    fn sender(&self, slot: u32) -> u32 {
        slot % self.rule.n + 1
    }

    fn is_faulty(&self, node: u32) -> bool {
        self.faulty >> (node - 1) & 1 == 1
    }

    fn correct(&self) -> impl Iterator<Item = u32> + '_ {
        (1..=self.rule.n).filter(|node| !self.is_faulty(*node))
    }

    fn record(&self, slot: u32, node: u32) -> &Record {
        &self.records[slot as usize][node as usize - 1]
    }

    fn place_of(&self, value: Withdrawal, roll: &[Withdrawal]) -> u8 {
        let used = &roll[..self.used as usize];
        used.iter().position(|known| known.same(value)).map_or(ABSENT, |place| place as u8)
    }

    /// The place of the value, which is written if it has none yet.
    fn store(&mut self, place: u8, value: Withdrawal, roll: &mut [Withdrawal]) -> Result<u8, Refusal> {
        if place != ABSENT {
            return Ok(place);
        }
        if roll.len() == self.used as usize {
            return Err(15);
        }
        roll[self.used as usize] = value;
        self.used += 1;
        Ok(self.used - 1)
    }

    fn sent(&self, kind: u32, slot: u32, from: u32) -> u8 {
        match kind {
            SEND if from == self.sender(slot) => self.proposals[slot as usize],
            SEND => ABSENT,
            ECHO => self.record(slot, from).echoed,
            _ => self.record(slot, from).readied,
        }
    }

    fn has_come(&self, kind: u32, slot: u32, from: u32, to: u32) -> bool {
        let record = self.record(slot, to);
        ABSENT
            != match kind {
                SEND => record.echoed,
                ECHO => record.echo_of[from as usize - 1],
                _ => record.ready_of[from as usize - 1],
            }
    }

    fn hear(&mut self, kind: u32, slot: u32, from: u32, to: u32, place: u8) -> Step {
        let rule = self.rule;
        let record = &mut self.records[slot as usize][to as usize - 1];
        match kind {
            SEND => {
                record.echoed = place;
                Step::Echoed
            }
            ECHO => {
                record.echo_of[from as usize - 1] = place;
                if record.readied == ABSENT && rule.holds_quorum(to, nodes_with(&record.echo_of, place)) {
                    record.readied = place;
                    return Step::Readied;
                }
                Step::Recorded
            }
            _ => {
                record.ready_of[from as usize - 1] = place;
                let set = nodes_with(&record.ready_of, place);
                let readies = record.readied == ABSENT && rule.holds_kernel(to, set);
                if readies {
                    record.readied = place;
                }
                let delivers = record.delivered == ABSENT && rule.holds_quorum(to, set);
                if delivers {
                    record.delivered = place;
                }
                match (readies, delivers) {
                    (true, true) => Step::ReadiedDelivered,
                    (true, false) => Step::Readied,
                    (false, true) => Step::Delivered,
                    (false, false) => Step::Recorded,
                }
            }
        }
    }
}

// The work of a round

#[derive(Default)]
struct Totals {
    accepted: u64,
    refused: u64,
    heard: u64,
    waiting: u64,
    delivered: u64,
    counted: u64,
    left_out: u64,
}

impl Totals {
    fn called<T>(&mut self, answer: Result<T, Refusal>) {
        let sum = if black_box(answer).is_ok() { &mut self.accepted } else { &mut self.refused };
        *sum = sum.wrapping_add(1);
    }

    fn lines(&self) -> String {
        format!(
            "accepted {}\nrefused {}\nheard {}\nwaiting {}\ndelivered {}\ncounted {}\nleft out {}\n",
            self.accepted, self.refused, self.heard, self.waiting, self.delivered, self.counted, self.left_out
        )
    }
}

fn round(number: u64, totals: &mut Totals) {
    let account = number % 1000 + 1;
    let first = account << 48;
    let mut roll = [Withdrawal(0); 16];
    let rule = Threshold::new(black_box(16), black_box(5), black_box(11)).expect("a rule");
    let mut panel = Panel::open(rule, black_box(16), black_box(0x8000), &roll).expect("a panel");
    for slot in 0..15 {
        totals.called(panel.propose(slot, Withdrawal(first + u64::from(slot) + 1), &mut roll));
    }
    for slot in 0..16 {
        for kind in [ECHO, READY] {
            for to in 1..=15 {
                totals.called(panel.forge(kind, slot, 16, to, Withdrawal(first + 1), &mut roll));
            }
        }
    }
    for slot in 0..16 {
        for kind in SEND..=READY {
            for from in 1..=16 {
                for to in 1..=16 {
                    totals.called(panel.hand(kind, slot, from, to));
                }
            }
        }
    }
    read(&panel, account as u16, &roll, totals);
}

fn read(panel: &Panel, account: u16, roll: &[Withdrawal], totals: &mut Totals) {
    for slot in 0..16 {
        if let Ok(counts) = panel.counts(slot) {
            totals.heard = totals.heard.wrapping_add(counts.heard);
            totals.waiting = totals.waiting.wrapping_add(counts.waiting);
        }
    }
    for slot in 0..16 {
        for node in 1..=16 {
            let place = panel.receipt(slot, node).unwrap_or(ABSENT);
            totals.delivered = totals.delivered.wrapping_add(u64::from(place != ABSENT));
        }
    }
    for node in 1..=16 {
        if let Ok((counted, left_out)) = panel.tally(node, account, roll) {
            totals.counted = totals.counted.wrapping_add(counted);
            totals.left_out = totals.left_out.wrapping_add(left_out);
        }
    }
}

fn totals(rounds: u64) -> String {
    let mut totals = Totals::default();
    for number in 0..rounds {
        round(number, &mut totals);
    }
    totals.lines()
}

// Timing

/// The milliseconds that a program ran, and what it printed.
fn timed(command: &mut Command) -> Result<(f64, String), String> {
    let start = Instant::now();
    let output = command.output().map_err(|problem| format!("{command:?}: {problem}"))?;
    let milliseconds = start.elapsed().as_nanos() as f64 / 1e6;
    if !output.status.success() {
        return Err(format!("{command:?}: {}", output.status));
    }
    Ok((milliseconds, String::from_utf8_lossy(&output.stdout).into_owned()))
}

fn show(name: &str, mut row: Vec<f64>, digits: usize) {
    row.sort_by(f64::total_cmp);
    let (lowest, middle, highest) = (row[0], row[row.len() / 2], row[row.len() - 1]);
    println!("    {name} {lowest:.digits$} {middle:.digits$} {highest:.digits$}");
}

fn compare(program: &str) -> Result<(), String> {
    let this = std::env::current_exe().map_err(|problem| problem.to_string())?;
    let (mut ours, mut theirs, mut ratios) = (vec![], vec![], vec![]);
    for _ in 0..REPETITIONS {
        let (a, printed) = timed(Command::new(program).arg(ROUNDS.to_string()))?;
        let (b, wanted) = timed(Command::new(&this).args(["child", &ROUNDS.to_string()]))?;
        if printed != wanted {
            return Err(format!("{program} prints\n{printed}and Rust\n{wanted}"));
        }
        ours.push(a);
        theirs.push(b);
        ratios.push(a / b);
    }
    println!(
        "{REPETITIONS} runs of {ROUNDS} rounds each; times per run in milliseconds, lowest, middle and highest run"
    );
    println!("panel:");
    show("rounds ", ours, 1);
    show("Rust   ", theirs, 1);
    show("ratio  ", ratios, 2);
    Ok(())
}

fn main() -> ExitCode {
    let words: Vec<String> = std::env::args().skip(1).collect();
    let words: Vec<&str> = words.iter().map(|word| word.as_str()).collect();
    let result = match words.as_slice() {
        ["child", rest @ ..] => {
            print!("{}", totals(rest.first().and_then(|word| word.parse().ok()).unwrap_or(1)));
            Ok(())
        }
        [program] => compare(program),
        _ => Err("usage: panel PROGRAM".to_string()),
    };
    if let Err(problem) = result {
        eprintln!("panel: {problem}");
        return ExitCode::FAILURE;
    }
    ExitCode::SUCCESS
}
