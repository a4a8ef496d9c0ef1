//! Generated trial files. docs/TRIALS.md describes the format.
//!
//! Each case is played while it is made; its answers are the oracle's.

use crate::casefile::accounts;
use crate::cases::{self, ROW};
use crate::prng::Prng;
use crate::sets::{show_mask, Set};
use crate::statement::{read, Statement};
use crate::texts::{self, all_nodes, random_draft, random_set, random_size, sound_draft};
use crate::trialfile::{show_text, Trial, UNLIKE};

struct Script {
    prng: Prng,
    /// Chooses the steps that get a wrong answer on purpose.
    marks: Prng,
    trial: Trial,
    lines: Vec<String>,
}

/// Another answer, of the same form where that is easy.
fn wrong(answer: &str) -> String {
    let other = match answer {
        "yes" => "no",
        "no" => "yes",
        "ok" => "refused 2",
        "opened" => "refused 9",
        "proposed" => "already",
        "echoed" | "readied" | "delivered" | "readied delivered" => "recorded",
        "recorded" => "readied",
        "absent" => "place 0",
        "missing" => "ok",
        _ => return other_digit(answer),
    };
    other.to_string()
}

/// The last character changed, which is a digit in most answers.
fn other_digit(answer: &str) -> String {
    let (front, last) = answer.split_at(answer.len() - 1);
    format!("{front}{}", if last == "0" { "1" } else { "0" })
}

impl Script {
    fn begin(seed: u64, number: usize, name: &str) -> Script {
        let word: String = name.chars().map(|c| if c.is_ascii_alphanumeric() { c } else { '-' }).collect();
        let prng = Prng::new(seed ^ (number as u64 + 1).wrapping_mul(0x2545_f491_4f6c_dd1d));
        let marks = Prng::new(!seed ^ number as u64);
        Script { prng, marks, trial: Trial::default(), lines: vec![format!("case {}-{word}", number + 1)] }
    }

    /// Adds a step with its answer.
    fn say(&mut self, step: String) -> String {
        let answer = self.trial.answer(&step);
        assert!(answer != "unreadable", "{step}");
        self.lines.push(if self.marks.chance(1, 60) {
            format!("{UNLIKE}{step} => {}", wrong(&answer))
        } else {
            format!("{step} => {answer}")
        });
        answer
    }

    fn roll(&mut self, kind: &str, length: usize) {
        assert!(self.trial.roll(&[kind, &length.to_string()]));
        self.lines.push(format!("roll {kind} {length}"));
    }

    fn end(self) -> String {
        self.lines.join("\n") + "\n"
    }

    // Questions

    /// Mostly the node, else one that the rule does not have.
    fn or_odd(&mut self, node: u32, n: u32) -> u32 {
        let odd = [0, n + 1, 17, 255, 256, 257, 65536, 65537, 1 << 31, u32::MAX];
        if self.prng.chance(4, 5) { node } else { self.prng.pick(&odd) }
    }

    fn one_node(&mut self, n: u32) -> u16 {
        Set::of(&[self.prng.between(1, n)]).mask()
    }

    /// The mask, sometimes with a node more or less, sometimes with one above n.
    fn about(&mut self, mask: u16, n: u32) -> u16 {
        let near = self.one_node(n);
        let above = if n < 16 { 1 << self.prng.between(n, 15) } else { 0 };
        match self.prng.below(8) {
            0 | 1 => mask & !near,
            2 | 3 => mask | near,
            4 => mask | above,
            _ => mask,
        }
    }

    fn question(&mut self, n: u32, node: u32, mask: u16) {
        let word = self.prng.pick(&["quorum", "kernel", "tolerated"]);
        let node = self.or_odd(node, n);
        self.say(format!("{word} {node} {}", show_mask(mask)));
    }

    fn sort(&mut self, mask: u16) {
        self.say(format!("sort {}", show_mask(mask)));
    }

    fn size_and_soundness(&mut self) {
        self.say("size".to_string());
        self.say("sound".to_string());
    }

    // Statements

    /// A mask that lies near one of the sets of a node.
    fn telling_mask(&mut self, statement: &Statement, node: u32) -> u16 {
        let n = statement.n;
        let mask = match self.prng.below(6) {
            0 | 1 => some_set(&mut self.prng, statement.quorums(node)),
            2 => all_nodes(n) & !some_set(&mut self.prng, statement.quorums(node)),
            3 | 4 => some_set(&mut self.prng, statement.fail_prone(node)),
            _ => random_set(&mut self.prng, n, n),
        };
        self.about(mask, n)
    }

    fn questions_of_statement(&mut self, statement: &Statement, masks: &[u16]) {
        let n = statement.n;
        self.say("judge".to_string());
        self.size_and_soundness();
        for _ in 0..7 {
            let node = self.prng.between(1, n);
            let mask = self.telling_mask(statement, node);
            self.question(n, node, mask);
        }
        self.question(n, 1, 0x8000);
        for mask in masks {
            if self.prng.chance(1, 2) {
                self.sort(*mask);
            }
        }
        let node = self.prng.between(1, n);
        let mask = self.telling_mask(statement, node);
        self.sort(mask);
    }

    /// Steps that need a rule, where there is none.
    fn without_rule(&mut self) {
        let questions = ["judge", "size", "sound", "quorum 1 0001", "kernel 1 0000", "tolerated 1 0000", "sort 0000"];
        let step = self.prng.pick(&questions);
        self.say(step.to_string());
    }

    // Readings of a panel

    fn all_readings(&mut self) {
        let Some(panel) = self.trial.panel() else {
            let step = self.prng.pick(&["receipt 0 1", "counts 0", "tally 1 0 1", "hand 1 0 1 1"]);
            self.say(step.to_string());
            return;
        };
        let (used, slots, correct) = (panel.used(), panel.slot_count(), panel.correct());
        let faulty = panel.faulty().nodes().to_vec();
        let n = panel.rule().size();
        let accounts = accounts(self.trial.places(used));
        for place in 0..=used {
            self.say(format!("place {place}"));
        }
        for slot in 0..slots {
            self.say(format!("counts {slot}"));
        }
        for slot in 0..slots {
            for node in &correct {
                self.say(format!("receipt {slot} {node}"));
            }
        }
        for node in &correct {
            for account in &accounts {
                let roll = self.prng.pick(&[used, used, 255]);
                self.say(format!("tally {node} {account} {roll}"));
            }
        }
        self.refused_readings(n, slots, used, &faulty);
    }

    fn refused_readings(&mut self, n: u32, slots: u32, used: usize, faulty: &[u32]) {
        let slot = self.prng.pick(&[slots, 16, 256, 65536, u32::MAX]);
        let node = self.prng.pick(&[0, n + 1, 17, 257, 65537, u32::MAX]);
        let liar = if faulty.is_empty() { node } else { self.prng.pick(faulty) };
        let short = self.prng.pick(&[0, used.saturating_sub(1), 256, ROW]);
        let steps = [
            format!("receipt {slot} 1"),
            format!("receipt 0 {node}"),
            format!("receipt 0 {liar}"),
            format!("receipt {slot} {liar}"),
            format!("counts {slot}"),
            format!("tally 1 0 {short}"),
            format!("tally {node} 1 {short}"),
            format!("tally {node} 1 255"),
            format!("tally {liar} 1 255"),
        ];
        for _ in 0..3 {
            let step = self.prng.pick(&steps);
            self.say(step);
        }
    }
}

fn some_set(prng: &mut Prng, family: &[Set]) -> u16 {
    if family.is_empty() { 0 } else { prng.pick(family).mask() }
}

// Texts

fn text_case(seed: u64, number: usize, index: usize) -> String {
    let mut prng = Prng::new(seed ^ (number as u64 + 1).wrapping_mul(0x9e6c_63d0_876a_46ad));
    let made = texts::make(&mut prng, index);
    let masks = texts::masks(&mut prng, &made.text);
    let mut s = Script::begin(seed, number, &made.class);
    s.say(format!("text {}", show_text(&made.text)));
    match read(&made.text) {
        Ok(statement) => s.questions_of_statement(&statement, &masks),
        Err(_) if s.prng.chance(1, 8) => s.without_rule(),
        Err(_) => (),
    }
    s.end()
}

// Thresholds

fn sound_triple(prng: &mut Prng) -> (u32, u32, u32) {
    let n = prng.between(1, 16);
    cases::sound_threshold(prng, n, n)
}

/// A triple of one of the kinds that come in turn.
fn triple(prng: &mut Prng, index: usize) -> (u32, u32, u32) {
    let n = prng.between(1, 16);
    let (f, q) = (prng.between(0, n), prng.between(0, n));
    let odd = prng.pick(&[17, 18, 255, 256, 257, 272, 65536, 65537, 65540, 1 << 31, u32::MAX]);
    match index % 10 {
        0..=2 => sound_triple(prng),
        // At the edge of soundness.
        3 => (n, (n - 1) / 3, (n + (n - 1) / 3) / 2),
        4 => (n, f, (n + 1).saturating_sub(f)),
        5 => (n, f, q),
        6 => (n, prng.between(0, 16), prng.between(0, 16)),
        7 => prng.pick(&[(n, f, 0), (n, f, 16), (n, 16, q), (n, n, n), (n, 0, n), (n, 0, 0), (n, 16, 16)]),
        8 => prng.pick(&[(odd, f, q), (n, odd, q), (n, f, odd), (0, f, q), (0, 0, 0), (odd, odd, odd)]),
        _ => prng.pick(&[(0, 0, 0), (17, 0, 9), (4, 17, 3), (4, 1, 17), (3, 1, 2), (2, 0, 3), (4, 1, 3), (16, 5, 11)]),
    }
}

/// A set of about as many nodes as an answer turns on.
fn threshold_mask(s: &mut Script, (n, f, q): (u32, u32, u32)) -> u16 {
    let size = s.prng.pick(&[q, q.saturating_sub(1), n.saturating_sub(q), (n + 1).saturating_sub(q), f, f + 1]);
    let mut nodes: Vec<u32> = (1..=n).collect();
    s.prng.shuffle(&mut nodes);
    let mask = Set::of(&nodes[..size.min(n) as usize]).mask();
    if s.prng.chance(1, 5) { s.about(mask, n) } else { mask }
}

fn threshold_case(seed: u64, number: usize, index: usize) -> String {
    let mut s = Script::begin(seed, number, "threshold");
    let (n, f, q) = triple(&mut s.prng, index);
    let answer = s.say(format!("threshold {n} {f} {q}"));
    s.size_and_soundness();
    if answer != "ok" {
        s.without_rule();
        return s.end();
    }
    for _ in 0..10 {
        let (node, mask) = (s.prng.between(1, n), threshold_mask(&mut s, (n, f, q)));
        s.question(n, node, mask);
    }
    s.sort(0);
    for _ in 0..3 {
        let mask = threshold_mask(&mut s, (n, f, q));
        s.sort(mask);
    }
    if s.prng.chance(1, 4) {
        s.sort(all_nodes(n));
    }
    if s.prng.chance(1, 4) {
        // A threshold rule is no statement.
        s.say("judge".to_string());
    }
    s.end()
}

// Lists

/// The lists of a statement: the node count and the entries.
struct Lists {
    count: u32,
    entries: Vec<(char, u32, u16)>,
}

impl Lists {
    fn step(&self) -> String {
        let entries: String =
            self.entries.iter().map(|(letter, node, mask)| format!(" {letter}:{node}:{}", show_mask(*mask))).collect();
        format!("lists {}{entries}", self.count)
    }

    fn of(statement: &Statement) -> Lists {
        let mut entries = Vec::new();
        for node in 1..=statement.n {
            entries.extend(statement.fail_prone(node).iter().map(|a| ('F', node, a.mask())));
            entries.extend(statement.quorums(node).iter().map(|q| ('Q', node, q.mask())));
        }
        Lists { count: statement.n, entries }
    }

    fn statement(&self) -> Statement {
        let families = |letter: char| -> Vec<Vec<u16>> {
            (1..=16)
                .map(|node| self.entries.iter().filter(|e| e.0 == letter && e.1 == node).map(|e| e.2).collect())
                .collect()
        };
        Statement::make(self.count, &families('F'), &families('Q')).expect("lists that are not refused")
    }

    fn without(&mut self, letter: char, node: u32) {
        self.entries.retain(|(l, k, _)| *l != letter || *k != node);
    }

    /// Only the quorums of a node may be left out without a refusal.
    fn change(&mut self, prng: &mut Prng, index: usize) {
        let n = self.count;
        let node = prng.between(1, n);
        let above = 1u16.checked_shl(n).unwrap_or(0x8000);
        match index % 12 {
            0 => self.without('Q', node),
            1 => self.entries.push(('F', node, above)),
            2 => self.entries.push(('Q', node, above | 1)),
            3 => self.without('F', node),
            4 => {
                self.without('F', node);
                self.entries.push(('Q', node, above));
            }
            5 => self.count = prng.pick(&[0, 17, 255, 256 + n, 65536 + n, u32::MAX]),
            6 if n < 16 => self.count = n + 1,
            7 if n < 16 => {
                self.without('F', 16);
                self.entries.extend([('F', 16, 0xffff); 16]);
            }
            8 => {
                self.without('Q', node);
                self.entries.extend((0..16).map(|at| ('Q', node, all_nodes(n) & !(at % 2))));
            }
            9 if n > 1 => self.count = n - 1,
            _ => (),
        }
    }
}

fn lists_case(seed: u64, number: usize, index: usize) -> String {
    let mut s = Script::begin(seed, number, "lists");
    let n = random_size(&mut s.prng);
    let with_quorums = s.prng.chance(2, 3);
    let make = if index % 2 == 0 { sound_draft } else { random_draft };
    let draft = make(&mut s.prng, n, with_quorums);
    let mut lists = Lists::of(&draft.statement());
    // A set twice, and sets of a node above n, are of no account.
    if s.prng.chance(1, 2) {
        lists.entries.push(lists.entries[s.prng.below(lists.entries.len())]);
    }
    if n < 16 && s.prng.chance(1, 3) {
        let node = s.prng.between(n + 1, 16);
        lists.entries.push((s.prng.pick(&['F', 'Q']), node, 0xffff));
    }
    lists.change(&mut s.prng, index / 2);
    s.prng.shuffle(&mut lists.entries);
    let answer = s.say(lists.step());
    if answer != "ok" {
        s.without_rule();
        return s.end();
    }
    let statement = lists.statement();
    let masks = [0, s.one_node(statement.n), all_nodes(statement.n), 0x8000];
    s.questions_of_statement(&statement, &masks);
    s.end()
}

// Panels

/// A `rule` line of a panel case as a step.
fn rule_step(rule: &str) -> String {
    let (form, body) = rule.split_once(' ').expect("a form and its content");
    match form {
        "text" => format!("text {}", body.replace(' ', "_")),
        "lists" => format!("lists {}", body.trim_end_matches('/').replace(' ', ":").replace('/', " ")),
        _ => rule.to_string(),
    }
}

fn panel_case(seed: u64, number: usize, index: usize) -> String {
    let lines = cases::make_short(seed, index);
    let mut kind = "";
    let mut s = Script::begin(seed, number, "panel");
    for line in &lines {
        let (head, tail) = line.split_once(' ').expect("a word and more");
        match head {
            "case" => s.lines[0] += &tail.trim_start_matches(|c: char| c.is_ascii_digit()).replace(' ', "-"),
            "kind" => kind = tail,
            // A rule takes the row away: it comes after each rule.
            "row" => (),
            "rule" => {
                s.say(rule_step(tail));
                s.roll(kind, ROW);
            }
            _ => {
                s.say(line.clone());
            }
        }
    }
    s.all_readings();
    s.end()
}

#[derive(Clone, Copy, PartialEq)]
enum Class {
    Text,
    Threshold,
    Lists,
    Panel,
}

use Class::{Panel, Text, Threshold};

/// Sixteen cases a round. With 3,000 cases every damage of a text occurs at
/// every spot.
const ROUND: [Class; 16] = [
    Text, Panel, Text, Threshold, Text, Text, Panel, Text, Class::Lists, Text, Panel, Text, Threshold, Text, Panel, Text,
];

fn make(seed: u64, number: usize) -> String {
    let (round, at) = (number / ROUND.len(), number % ROUND.len());
    let class = ROUND[at];
    let of_class = |row: &[Class]| row.iter().filter(|c| **c == class).count();
    // Counts the cases of this class.
    let index = round * of_class(&ROUND) + of_class(&ROUND[..at]);
    match class {
        Text => text_case(seed, number, index),
        Threshold => threshold_case(seed, number, index),
        Class::Lists => lists_case(seed, number, index),
        Panel => panel_case(seed, number, index),
    }
}

pub fn make_all(seed: u64, count: usize) -> String {
    let cases: String = (0..count).map(|number| make(seed, number)).collect();
    format!("# oracle trials {seed} {count}\n{cases}")
}
