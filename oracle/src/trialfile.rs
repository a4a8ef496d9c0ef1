//! The format of a trial file, and playing it. docs/TRIALS.md describes it.

use crate::casefile::{show_counts, show_receipt, yes_no};
use crate::judging::judge;
use crate::kinds::{Kind, Value};
use crate::panel::{Panel, Step};
use crate::rules::Rule;
use crate::sets::{show, Set};
use crate::sorting::sort;
use crate::statement::{self, read, Fault, Statement};
use std::rc::Rc;

/// Why a step has no answer of its own.
enum Trouble {
    Unreadable,
    Missing,
}

use Trouble::{Missing, Unreadable};

type Answer = Result<String, Trouble>;

/// The row of the host, and the kind of its values.
struct Row {
    kind: Kind,
    values: Vec<Value>,
}

/// What is set in a case.
#[derive(Default)]
pub struct Trial {
    rule: Option<Rc<Rule>>,
    /// Only where the rule is a statement.
    statement: Option<Statement>,
    row: Option<Row>,
    panel: Option<Panel>,
}

/// What stands before a step whose answer must not be the one written.
pub const UNLIKE: &str = "unlike ";

const MOST_SETS: usize = 16;
const LONGEST_ROW: u32 = 65_535;

// Fields

fn decimal<T: std::str::FromStr>(word: &str) -> Result<T, Trouble> {
    if !word.bytes().all(|b| b.is_ascii_digit()) {
        return Err(Unreadable);
    }
    word.parse().map_err(|_| Unreadable)
}

fn number(word: &str) -> Result<u32, Trouble> {
    decimal(word)
}

fn mask(word: &str) -> Result<u16, Trouble> {
    statement::mask(word.as_bytes()).ok_or(Unreadable)
}

fn set(word: &str) -> Result<Set, Trouble> {
    mask(word).map(Set::from_mask)
}

fn value(kind: Kind, word: &str) -> Result<Value, Trouble> {
    if !word.bytes().all(|b| b.is_ascii_digit() || b == b',') {
        return Err(Unreadable);
    }
    kind.parse_value(word).ok_or(Unreadable)
}

/// A TEXT field.
pub fn show_text(text: &[u8]) -> String {
    if text.is_empty() {
        return ".".to_string();
    }
    text.iter()
        .map(|byte| match byte {
            9 => "_".to_string(),
            10 => "/".to_string(),
            b if b.is_ascii_alphanumeric() => (*b as char).to_string(),
            other => format!("%{other:02x}"),
        })
        .collect()
}

fn text(word: &str) -> Result<Vec<u8>, Trouble> {
    if word == "." {
        return Ok(Vec::new());
    }
    if word.is_empty() {
        return Err(Unreadable);
    }
    let mut bytes = word.bytes();
    let mut text = Vec::new();
    while let Some(byte) = bytes.next() {
        text.push(match byte {
            b'_' => 9,
            b'/' => 10,
            b'%' => 16 * hexadecimal(bytes.next())? + hexadecimal(bytes.next())?,
            b if b.is_ascii_alphanumeric() => b,
            _ => return Err(Unreadable),
        });
    }
    Ok(text)
}

fn hexadecimal(byte: Option<u8>) -> Result<u8, Trouble> {
    match byte {
        Some(b @ b'0'..=b'9') => Ok(b - b'0'),
        Some(b @ b'a'..=b'f') => Ok(b - b'a' + 10),
        _ => Err(Unreadable),
    }
}

type Families = Vec<Vec<u16>>;

/// The entries of a `lists` step: fail-prone sets and quorums of nodes 1 to 16.
fn entries(words: &[&str]) -> Result<(Families, Families), Trouble> {
    let (mut fail_prone, mut quorums) = (vec![Vec::new(); 16], vec![Vec::new(); 16]);
    for word in words {
        let parts: Vec<&str> = word.split(':').collect();
        let [letter, node, set] = parts.as_slice() else { return Err(Unreadable) };
        let lists = match *letter {
            "F" => &mut fail_prone,
            "Q" => &mut quorums,
            _ => return Err(Unreadable),
        };
        let at = number(node)?.wrapping_sub(1) as usize;
        let family = lists.get_mut(at).ok_or(Unreadable)?;
        family.push(mask(set)?);
        if family.len() > MOST_SETS {
            return Err(Unreadable);
        }
    }
    Ok((fail_prone, quorums))
}

// Answers

fn refused(number: u32) -> String {
    format!("refused {number}")
}

fn answer(result: Result<String, u32>) -> String {
    result.unwrap_or_else(refused)
}

fn step_word(step: Step) -> String {
    match step {
        Step::ReadiedAndDelivered => "readied delivered".to_string(),
        other => other.word().to_string(),
    }
}

fn show_pair(pair: Option<(u32, u32)>) -> String {
    pair.map_or("all".to_string(), |(i, j)| format!("{i},{j}"))
}

fn show_judgement(statement: &Statement) -> String {
    let judgement = judge(statement);
    let availability = judgement.availability.map_or("all".to_string(), |i| i.to_string());
    format!("{} {} {availability}", show_pair(judgement.b3), show_pair(judgement.consistency))
}

impl Row {
    /// The first `word` places.
    fn roll(&mut self, word: &str) -> Result<&mut [Value], Trouble> {
        self.values.get_mut(..number(word)? as usize).ok_or(Unreadable)
    }
}

impl Trial {
    pub fn panel(&self) -> Option<&Panel> {
        self.panel.as_ref()
    }

    /// The first places of the row.
    pub fn places(&self, count: usize) -> &[Value] {
        self.row.as_ref().map_or(&[], |row| &row.values[..count])
    }

    /// The line `roll KIND LENGTH`; no if it cannot be read.
    pub fn roll(&mut self, words: &[&str]) -> bool {
        self.row = None;
        self.panel = None;
        if self.rule.is_none() {
            return true;
        }
        let [kind, length] = words else { return false };
        let kind = match *kind {
            "issue" => Kind::Issue,
            "withdrawal" => Kind::Withdrawal,
            _ => return false,
        };
        let Ok(length) = number(length) else { return false };
        if length > LONGEST_ROW {
            return false;
        }
        self.row = Some(Row { kind, values: vec![kind.zero(); length as usize] });
        true
    }

    pub fn answer(&mut self, step: &str) -> String {
        match self.play(step) {
            Ok(answer) => answer,
            Err(Missing) => "missing".to_string(),
            Err(Unreadable) => "unreadable".to_string(),
        }
    }

    /// What a step needs is there, by its first word.
    fn has_what_it_needs(&self, word: &str) -> bool {
        match word {
            "judge" | "size" | "sound" | "quorum" | "kernel" | "tolerated" | "sort" => self.rule.is_some(),
            "open" | "place" => self.row.is_some(),
            "propose" | "forge" | "hand" | "receipt" | "counts" | "tally" => self.panel.is_some(),
            _ => true,
        }
    }

    fn play(&mut self, step: &str) -> Answer {
        let words: Vec<&str> = step.split(' ').collect();
        if !self.has_what_it_needs(words[0]) {
            return Err(Missing);
        }
        if matches!(words[0], "text" | "lists" | "threshold") {
            *self = Trial::default();
        }
        match words.as_slice() {
            ["text", word] => {
                let text = text(word)?;
                Ok(self.take_statement(read(&text)).map_or_else(show_fault, |_| "ok".to_string()))
            }
            ["lists", count, words @ ..] => {
                let (fail_prone, quorums) = entries(words)?;
                let made = Statement::make(number(count)?, &fail_prone, &quorums);
                Ok(self.take_statement(made).map_or_else(refused, |_| "ok".to_string()))
            }
            ["threshold", n, f, q] => {
                let made = Rule::threshold(number(n)?, number(f)?, number(q)?);
                Ok(self.take_rule(made).map_or_else(refused, |_| "ok".to_string()))
            }
            ["judge"] => self.statement.as_ref().map(show_judgement).ok_or(Missing),
            ["size"] => Ok(self.a_rule()?.size().to_string()),
            ["sound"] => Ok(yes_no(self.a_rule()?.sound())),
            ["quorum", node, mask] => self.ask(Rule::holds_quorum, node, mask),
            ["kernel", node, mask] => self.ask(Rule::holds_kernel, node, mask),
            ["tolerated", node, mask] => self.ask(Rule::tolerated, node, mask),
            ["sort", mask] => {
                let faulty = set(mask)?;
                let sorted = sort(self.a_rule()?, &faulty);
                Ok(answer(sorted.map(|s| format!("{} {} {}", show(&s.wise), show(&s.naive), show(&s.guild)))))
            }
            ["open", slots, mask, roll] => self.open(number(slots)?, set(mask)?, roll),
            ["place", place] => {
                let place = number(place)? as usize;
                let row = self.row.as_ref().ok_or(Missing)?;
                row.values.get(place).map(Value::show).ok_or(Unreadable)
            }
            words => self.call(words),
        }
    }

    // Rules

    fn take_rule<E>(&mut self, made: Result<Rule, E>) -> Result<(), E> {
        *self = Trial::default();
        self.rule = Some(Rc::new(made?));
        Ok(())
    }

    fn take_statement<E>(&mut self, made: Result<Statement, E>) -> Result<(), E> {
        let statement = made.as_ref().ok().cloned();
        let taken = self.take_rule(made.map(Rule::listed));
        self.statement = statement;
        taken
    }

    fn a_rule(&self) -> Result<&Rc<Rule>, Trouble> {
        self.rule.as_ref().ok_or(Missing)
    }

    fn ask(&self, question: fn(&Rule, u32, &Set) -> bool, node: &str, mask: &str) -> Answer {
        let (node, mask) = (number(node)?, set(mask)?);
        Ok(yes_no(question(self.a_rule()?, node, &mask)))
    }

    // Panels

    fn open(&mut self, slots: u32, faulty: Set, roll: &str) -> Answer {
        number(roll)?;
        let rule = Rc::clone(self.a_rule()?);
        let length = self.row.as_mut().ok_or(Missing)?.roll(roll)?.len();
        let opened = Panel::open(&rule, slots, &faulty, length);
        Ok(answer(opened.map(|panel| {
            self.panel = Some(panel);
            "opened".to_string()
        })))
    }

    fn call(&mut self, words: &[&str]) -> Answer {
        let (panel, row) = (self.panel.as_mut(), self.row.as_mut());
        Ok(answer(match words {
            ["propose", slot, word, roll] => {
                let slot = number(slot)?;
                number(roll)?;
                let (panel, row) = panel.zip(row).ok_or(Missing)?;
                let value = value(row.kind, word)?;
                panel.propose(slot, &value, row.roll(roll)?).map(|word| word.to_string())
            }
            ["forge", kind, slot, from, to, word, roll] => {
                let (kind, slot, from, to) = (number(kind)?, number(slot)?, number(from)?, number(to)?);
                number(roll)?;
                let (panel, row) = panel.zip(row).ok_or(Missing)?;
                let value = value(row.kind, word)?;
                panel.forge(kind, slot, from, to, &value, row.roll(roll)?).map(step_word)
            }
            ["hand", kind, slot, from, to] => {
                let (kind, slot, from, to) = (number(kind)?, number(slot)?, number(from)?, number(to)?);
                panel.ok_or(Missing)?.hand(kind, slot, from, to).map(step_word)
            }
            ["receipt", slot, node] => {
                let (slot, node) = (number(slot)?, number(node)?);
                panel.ok_or(Missing)?.receipt(slot, node).map(show_receipt)
            }
            ["counts", slot] => {
                let slot = number(slot)?;
                panel.ok_or(Missing)?.counts(slot).map(show_counts)
            }
            ["tally", node, account, roll] => {
                let (node, account) = (number(node)?, decimal(account)?);
                number(roll)?;
                let (panel, row) = panel.zip(row).ok_or(Missing)?;
                panel.tally(node, account, row.roll(roll)?).map(|(a, b)| format!("{a} {b}"))
            }
            _ => return Err(Unreadable),
        }))
    }
}

fn show_fault(fault: Fault) -> String {
    format!("refused {} {} {} {}", fault.refusal, fault.line, fault.place, fault.part_len)
}

// Whole files

struct Replay {
    trial: Trial,
    cases: usize,
    answers: usize,
    differ: usize,
    output: String,
}

impl Replay {
    fn compare(&mut self, number: usize, mark: &str, line: &str, answer: &str) {
        let (step, expected) = line.split_once(" => ").unwrap_or((line, ""));
        self.answers += 1;
        if (answer != expected) == mark.is_empty() {
            self.differ += 1;
            self.output += &format!("line {number}: {mark}{step} => {answer}, not {expected}\n");
        }
    }

    fn line(&mut self, number: usize, whole: &str) {
        let (mark, line) = whole.strip_prefix(UNLIKE).map_or(("", whole), |line| (UNLIKE, line));
        let step = line.split_once(" => ").map_or(line, |(step, _)| step);
        let words: Vec<&str> = step.split(' ').collect();
        let answer = match words[0] {
            "case" => {
                self.cases += 1;
                self.trial = Trial::default();
                return;
            }
            "roll" if self.trial.roll(&words[1..]) => return,
            "roll" => "unreadable".to_string(),
            _ if step == line => "unreadable".to_string(),
            _ => self.trial.answer(step),
        };
        self.compare(number, mark, line, &answer);
    }
}

/// What program `trials` prints for a file.
pub fn replay(file: &[u8]) -> String {
    let mut replay = Replay { trial: Trial::default(), cases: 0, answers: 0, differ: 0, output: String::new() };
    let file = String::from_utf8_lossy(file);
    let lines = file.strip_suffix('\n').unwrap_or(&file).split('\n');
    for (at, line) in lines.enumerate() {
        if !line.is_empty() && !line.starts_with('#') {
            replay.line(at + 1, line);
        }
    }
    format!("{}{} cases, {} answers, {} differ\n", replay.output, replay.cases, replay.answers, replay.differ)
}
