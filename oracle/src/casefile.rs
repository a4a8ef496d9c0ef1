//! The line format of a panel case, and playing it. README.md describes it.

use crate::kinds::{Kind, Value};
use crate::laws::{self, Event};
use crate::panel::{Counts, Panel};
use crate::rules::Rule;
use crate::sets::{show, Set};
use crate::sorting::{sort, Sorting};
use crate::statement::{read, Statement};
use std::rc::Rc;

/// Plays the lines of one case.
pub struct Player {
    pub kind: Kind,
    pub rule: Option<Rc<Rule>>,
    /// The row of the host; a call is given its first places.
    pub row: Vec<Value>,
    pub panel: Option<Panel>,
    /// The accepted calls of the present panel.
    log: Vec<Event>,
    sorting: Option<Sorting>,
}

/// A text in the notation of the documents: a space for byte 9, `/` for 10.
pub fn text_from_notation(notation: &str) -> Vec<u8> {
    notation
        .bytes()
        .map(|b| match b {
            b' ' => 9,
            b'/' => 10,
            other => other,
        })
        .collect()
}

fn number(word: &str) -> Result<u32, String> {
    word.parse().map_err(|_| format!("not a 32-bit number: {word}"))
}

fn account(word: &str) -> Result<u16, String> {
    word.parse().map_err(|_| format!("not a 16-bit number: {word}"))
}

/// Four hexadecimal digits.
pub fn mask(word: &str) -> Result<Set, String> {
    if word.len() != 4 {
        return Err(format!("not a mask: {word}"));
    }
    u16::from_str_radix(word, 16).map(Set::from_mask).map_err(|_| format!("not a mask: {word}"))
}

fn answer_or_number(answer: Result<String, u32>) -> String {
    answer.unwrap_or_else(|refusal| refusal.to_string())
}

pub fn yes_no(yes: bool) -> String {
    if yes { "yes" } else { "no" }.to_string()
}

pub fn show_receipt(place: Option<usize>) -> String {
    place.map_or("absent".to_string(), |place| format!("place {place}"))
}

pub fn show_counts(c: Counts) -> String {
    format!("{} {} {} {} {}", c.proposed, c.echoed, c.readied, c.heard, c.waiting)
}

const LONGEST_ROW: usize = 65_536;

impl Player {
    pub fn new() -> Player {
        Player { kind: Kind::Issue, rule: None, row: Vec::new(), panel: None, log: Vec::new(), sorting: None }
    }

    /// Plays one line. Gives its answer, nothing for a line without answer,
    /// or what is wrong with the line.
    pub fn line(&mut self, line: &str) -> Result<Option<String>, String> {
        let (head, tail) = line.split_once(' ').unwrap_or((line, ""));
        let words: Vec<&str> = tail.split(' ').filter(|w| !w.is_empty()).collect();
        match (head, words.as_slice()) {
            ("kind", [word]) => {
                self.kind = Kind::parse(word).ok_or(format!("no such kind: {word}"))?;
                Ok(None)
            }
            ("row", [length]) => self.set_row(length, self.kind.zero()),
            ("row", [length, value]) => {
                let value = self.value(value)?;
                self.set_row(length, value)
            }
            ("rule", [_, ..]) => self.set_rule(tail).map(Some),
            ("open", [slots, faulty, roll]) => self.open(number(slots)?, &mask(faulty)?, self.length(roll)?).map(Some),
            ("ask", _) => self.ask(&words).map(Some),
            ("sort", [faulty]) => self.sort(&mask(faulty)?).map(Some),
            ("propose" | "forge" | "hand" | "receipt" | "tally" | "counts", _) => self.call(head, &words).map(Some),
            _ => Err("no such line".to_string()),
        }
    }

    fn set_row(&mut self, length: &str, value: Value) -> Result<Option<String>, String> {
        let length = number(length)? as usize;
        if length > LONGEST_ROW {
            return Err("the row is too long".to_string());
        }
        self.row = vec![value; length];
        Ok(None)
    }

    fn set_rule(&mut self, description: &str) -> Result<String, String> {
        let (form, body) = description.split_once(' ').unwrap_or((description, ""));
        let made = match form {
            "threshold" => {
                let numbers: Vec<u32> = body.split(' ').map(number).collect::<Result<_, _>>()?;
                match numbers.as_slice() {
                    [n, f, q] => Rule::threshold(*n, *f, *q),
                    _ => return Err("threshold needs n f q".to_string()),
                }
            }
            "text" => read(&text_from_notation(body)).map(Rule::listed).map_err(|fault| fault.refusal),
            "lists" => statement_from_lists(body)?.map(Rule::listed),
            _ => return Err(format!("no such rule: {form}")),
        };
        self.panel = None;
        self.rule = None;
        Ok(answer_or_number(made.map(|rule| {
            self.rule = Some(Rc::new(rule));
            "rule".to_string()
        })))
    }

    fn open(&mut self, slots: u32, faulty: &Set, roll: usize) -> Result<String, String> {
        let Some(rule) = &self.rule else { return Ok("no rule".to_string()) };
        Ok(answer_or_number(Panel::open(rule, slots, faulty, roll).map(|panel| {
            self.panel = Some(panel);
            self.log.clear();
            self.sorting = None;
            "opened".to_string()
        })))
    }

    fn ask(&self, words: &[&str]) -> Result<String, String> {
        let Some(rule) = &self.rule else { return Ok("no rule".to_string()) };
        Ok(match words {
            ["size"] => rule.size().to_string(),
            ["sound"] => yes_no(rule.sound()),
            ["quorum", node, set] => yes_no(rule.holds_quorum(number(node)?, &mask(set)?)),
            ["kernel", node, set] => yes_no(rule.holds_kernel(number(node)?, &mask(set)?)),
            ["tolerated", node, set] => yes_no(rule.tolerated(number(node)?, &mask(set)?)),
            _ => return Err("no such question".to_string()),
        })
    }

    fn sort(&self, faulty: &Set) -> Result<String, String> {
        let Some(rule) = &self.rule else { return Ok("no rule".to_string()) };
        Ok(answer_or_number(
            sort(rule, faulty).map(|s| format!("sorted {} {} {}", show(&s.wise), show(&s.naive), show(&s.guild))),
        ))
    }

    fn call(&mut self, head: &str, words: &[&str]) -> Result<String, String> {
        let kind = self.kind;
        let value_of = |word: &str| kind.parse_value(word).ok_or(format!("not a value: {word}"));
        let row_length = self.row.len();
        let length_of = |word: &str| length_within(word, row_length);
        let Some(panel) = &mut self.panel else { return Ok("no panel".to_string()) };
        let answer = match (head, words) {
            ("propose", [slot, value, roll]) => {
                let (slot, value, roll) = (number(slot)?, value_of(value)?, length_of(roll)?);
                let answer = panel.propose(slot, &value, &mut self.row[..roll]);
                if answer == Ok("proposed") {
                    self.log.push(Event::Proposed { slot, value });
                }
                answer.map(|word| word.to_string())
            }
            ("forge", [kind, slot, from, to, value, roll]) => {
                let (kind, slot, from, to) = (number(kind)?, number(slot)?, number(from)?, number(to)?);
                let (value, roll) = (value_of(value)?, length_of(roll)?);
                let answer = panel.forge(kind, slot, from, to, &value, &mut self.row[..roll]);
                if answer.is_ok() {
                    self.log.push(Event::Came { slot, kind, from, to, value, by_hand: false });
                }
                answer.map(|step| step.word().to_string())
            }
            ("hand", [kind, slot, from, to]) => {
                let (kind, slot, from, to) = (number(kind)?, number(slot)?, number(from)?, number(to)?);
                let answer = panel.hand(kind, slot, from, to);
                if answer.is_ok() {
                    let value = self.row[panel.sent(kind, slot, from).expect("it was sent")];
                    self.log.push(Event::Came { slot, kind, from, to, value, by_hand: true });
                }
                answer.map(|step| step.word().to_string())
            }
            ("receipt", [slot, node]) => panel.receipt(number(slot)?, number(node)?).map(show_receipt),
            ("tally", [node, of, roll]) => {
                let roll = length_of(roll)?;
                panel.tally(number(node)?, account(of)?, &self.row[..roll]).map(|(a, b)| format!("tally {a} {b}"))
            }
            ("counts", [slot]) => panel.counts(number(slot)?).map(|c| format!("counts {}", show_counts(c))),
            _ => return Err("wrong number of fields".to_string()),
        };
        Ok(answer_or_number(answer))
    }

    fn value(&self, word: &str) -> Result<Value, String> {
        self.kind.parse_value(word).ok_or(format!("not a value: {word}"))
    }

    fn length(&self, word: &str) -> Result<usize, String> {
        length_within(word, self.row.len())
    }

    /// What is printed at the end of a case.
    pub fn ending(&self) -> Vec<String> {
        let Some(panel) = &self.panel else { return vec!["no panel".to_string()] };
        let mut lines = vec![format!("used {}", panel.used())];
        for place in 0..panel.used() {
            lines.push(format!("place {place} {}", self.row[place].show()));
        }
        for slot in 0..panel.slot_count() {
            let c = panel.counts(slot).expect("the slot is in range");
            lines.push(format!("counts {slot} {}", show_counts(c)));
        }
        for slot in 0..panel.slot_count() {
            for node in panel.correct() {
                let place = panel.receipt(slot, node).expect("slot and node are in range");
                lines.push(format!("receipt {slot} {node} {}", show_receipt(place)));
            }
        }
        let used = &self.row[..panel.used()];
        let accounts = accounts(used);
        for node in panel.correct() {
            for account in &accounts {
                let (a, b) = panel.tally(node, *account, used).expect("node and roll are in range");
                lines.push(format!("tally {node} {account} {a} {b}"));
            }
        }
        lines
    }

    /// The laws and promises of RULES.md section 15 that are broken.
    pub fn broken_laws(&mut self) -> Vec<String> {
        let Some(panel) = &self.panel else { return Vec::new() };
        let sorting =
            self.sorting.get_or_insert_with(|| sort(panel.rule(), panel.faulty()).expect("open tried the mask"));
        laws::broken(panel, &self.row, &self.log, sorting)
    }
}

/// The accounts of the values, rising.
pub fn accounts(values: &[Value]) -> Vec<u16> {
    let mut accounts: Vec<u16> = values.iter().map(|value| value.account()).collect();
    accounts.sort();
    accounts.dedup();
    accounts
}

fn length_within(word: &str, row_length: usize) -> Result<usize, String> {
    let length = number(word)? as usize;
    if length > row_length {
        return Err(format!("the row of the host has only {row_length} places"));
    }
    Ok(length)
}

/// `COUNT/F NODE MASK/Q NODE MASK/...`: two lists of families for nodes 1 to
/// 16, in the order given.
fn statement_from_lists(body: &str) -> Result<Result<Statement, u32>, String> {
    let mut parts = body.split('/').filter(|part| !part.is_empty());
    let count = number(parts.next().unwrap_or(""))?;
    let mut fail_prone = vec![Vec::new(); 16];
    let mut quorums = vec![Vec::new(); 16];
    for part in parts {
        let words: Vec<&str> = part.split(' ').collect();
        let [letter, node, set] = words.as_slice() else { return Err(format!("not an entry: {part}")) };
        let node = number(node)?;
        if node < 1 || node > 16 {
            return Err(format!("a list has families for nodes 1 to 16: {part}"));
        }
        let lists = match *letter {
            "F" => &mut fail_prone,
            "Q" => &mut quorums,
            _ => return Err(format!("not an entry: {part}")),
        };
        lists[node as usize - 1].push(mask(set)?.mask());
    }
    Ok(Statement::make(count, &fail_prone, &quorums))
}

/// Plays a row of cases. Gives the output, and whether every law held.
pub fn play_all(input: &str, with_lines: bool) -> Result<(String, bool), String> {
    let mut output = String::new();
    let mut all_kept = true;
    let mut player: Option<Player> = None;
    for (at, line) in input.lines().enumerate() {
        let line = line.trim_end();
        if line.is_empty() || line.starts_with('#') {
            continue;
        }
        if line == "end" {
            if let Some(player) = &mut player {
                all_kept &= finish(player, &mut output);
            }
            player = None;
            continue;
        }
        if line == "case" || line.starts_with("case ") {
            if let Some(player) = &mut player {
                all_kept &= finish(player, &mut output);
            }
            player = Some(Player::new());
            output += line;
            output += "\n";
            continue;
        }
        let answer = player
            .get_or_insert_with(Player::new)
            .line(line)
            .map_err(|problem| format!("line {}: {problem}: {line}", at + 1))?;
        if let Some(answer) = answer {
            if with_lines {
                output += &format!("{line} => ");
            }
            output += &answer;
            output += "\n";
        }
    }
    if let Some(player) = &mut player {
        all_kept &= finish(player, &mut output);
    }
    Ok((output, all_kept))
}

fn finish(player: &mut Player, output: &mut String) -> bool {
    for line in player.ending() {
        *output += &line;
        *output += "\n";
    }
    *output += "end\n";
    let broken = player.broken_laws();
    for name in &broken {
        eprintln!("oracle: broken: {name}");
    }
    broken.is_empty()
}
