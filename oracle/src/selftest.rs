//! Every worked example of the documents, and the facts that they state.
//!
//! "Rows" are examples with a given answer. "Facts" are general sentences of
//! the documents, tried on many generated inputs; one fact is one check.

use crate::casefile::{text_from_notation, Player};
use crate::cases;
use crate::definitions::{available, holds_kernel, meets_b3_direct, consistent_direct, tolerated_sets};
use crate::judging::{judge, judge_by_direct_tests, judge_by_enumeration};
use crate::kinds::{Kind, Value};
use crate::panel::Panel;
use crate::prng::Prng;
use crate::programs;
use crate::rules::{sound_threshold_by_table, Rule, MOST_NODES_BY_DEFINITION};
use crate::sets::{show_mask, Set};
use crate::sorting::{is_guild, maximal_guild_by_taking_away, sort};
use crate::statement::{read, Statement};
use crate::texts;
use crate::trialfile::replay;
use crate::trials;
use std::fmt::Debug;

#[derive(Default)]
struct Report {
    group: &'static str,
    groups: Vec<(&'static str, usize, usize)>,
    failures: Vec<String>,
}

impl Report {
    fn group(&mut self, name: &'static str) {
        self.group = name;
        self.groups.push((name, 0, 0));
    }

    fn check(&mut self, name: &str, ok: bool) {
        let (_, passed, all) = self.groups.last_mut().expect("a group was begun");
        *all += 1;
        if ok {
            *passed += 1;
        } else {
            self.failures.push(format!("{}: {name}", self.group));
        }
    }

    fn equal<T: PartialEq + Debug>(&mut self, name: &str, got: T, documented: T) {
        let ok = got == documented;
        self.check(&format!("{name}: got {got:?}, the documents say {documented:?}"), ok);
    }

    fn text(&self) -> (String, bool) {
        let mut output = String::new();
        let (mut passed, mut all) = (0, 0);
        for (name, p, a) in &self.groups {
            output += &format!("{name}: {p} of {a}\n");
            passed += p;
            all += a;
        }
        for failure in &self.failures {
            output += &format!("DISAGREES {failure}\n");
        }
        output += &format!("selftest: {passed} of {all} passed\n");
        (output, passed == all)
    }
}

const SAMPLE: &str = "N 5/F 1 0018/F 2 0018/F 3 0018/F 4 0001/F 4 0010/F 5 0002/F 5 0008/";
const UNSOUND: &str = "N 4/F 1 0002/F 1 000c/F 2 0001/F 2 000c/F 3 0003/F 4 0006/";

pub fn run() -> (String, bool) {
    let mut r = Report::default();
    rules_sets_and_rules(&mut r);
    rules_statements_and_values(&mut r);
    rules_worked_examples(&mut r);
    formats(&mut r);
    refusals_smallest_number(&mut r);
    refusals_damaged_texts(&mut r);
    refusals_rules_and_panels(&mut r);
    facts_of_trust(&mut r);
    facts_of_texts(&mut r);
    facts_of_panels(&mut r);
    facts_of_trials(&mut r);
    r.text()
}

fn set(mask: u16) -> Set {
    Set::from_mask(mask)
}

fn statement(notation: &str) -> Statement {
    read(&text_from_notation(notation)).expect("a readable text")
}

fn sorted(rule: &Rule, faulty: u16) -> Result<(u16, u16, u16), u32> {
    sort(rule, &set(faulty)).map(|s| (s.wise.mask(), s.naive.mask(), s.guild.mask()))
}

/// Plays lines and compares the answers; a line without answer has "".
fn play(r: &mut Report, name: &str, rows: &[(&str, &str)]) -> Player {
    let mut player = Player::new();
    for (line, documented) in rows {
        let answer = player.line(line).expect("a line of the format").unwrap_or_default();
        if !documented.is_empty() {
            r.equal(&format!("{name}, {line}"), answer.as_str(), documented);
        }
    }
    let broken = player.broken_laws();
    r.check(&format!("{name}, laws of section 15 {broken:?}"), broken.is_empty());
    player
}

/// The same with withdrawals and a row of 300 places.
fn play_withdrawals(r: &mut Report, name: &str, rows: &[(&str, &str)]) -> Player {
    play(r, name, &[&[("kind withdrawal", ""), ("row 300", "")], rows].concat())
}

/// One node that is its own quorum, by any rule.
fn play_one_node(r: &mut Report, name: &str, rule: &str) {
    play_withdrawals(r, name, &[
        (rule, "rule"),
        ("open 1 0000 8", "opened"),
        ("propose 0 1 8", "proposed"),
        ("hand 2 0 1 1", "14"),
        ("hand 1 0 1 1", "echoed"),
        ("hand 1 0 1 1", "14"),
        ("hand 2 0 1 1", "readied"),
        ("hand 3 0 1 1", "delivered"),
        ("counts 0", "counts 1 1 1 3 0"),
    ]);
}

/// One node delivers values in two slots; the rows are its tallies.
fn play_two_slots(r: &mut Report, name: &str, kind: &str, values: [(u32, &str); 2], rows: &[(&str, &str)]) {
    let mut lines: Vec<String> =
        [&format!("kind {kind}"), "row 8", "rule threshold 1 0 1", "open 6 0000 8"].map(String::from).to_vec();
    for (slot, value) in values {
        lines.push(format!("propose {slot} {value} 8"));
        lines.extend([1, 2, 3].map(|kind| format!("hand {kind} {slot} 1 1")));
    }
    let mut all: Vec<(&str, &str)> = lines.iter().map(|line| (line.as_str(), "")).collect();
    all.extend(rows);
    play(r, name, &all);
}

// RULES.md

fn rules_sets_and_rules(r: &mut Report) {
    r.group("RULES 2 to 7, rows");
    for (mask, nodes) in [(0u16, vec![]), (1, vec![1]), (0x18, vec![4, 5]), (0x1f, vec![1, 2, 3, 4, 5]), (32768, vec![16])] {
        r.equal("mask to set", set(mask), Set::of(&nodes));
        r.equal("set to mask", Set::of(&nodes).mask(), mask);
    }
    r.check("0018 is written 0018", show_mask(0x18) == "0018");
    r.check("the empty set misses itself", Set::empty().misses(&Set::empty()));
    r.check("for n = 16 every mask is in range", set(0xffff).in_range(16));

    let sample = Rule::listed(statement(SAMPLE));
    r.equal("section 5: faulty 0001", sorted(&sample, 1), Ok((8, 0x16, 0)));
    r.equal("section 5: all faulty", sorted(&sample, 0x1f), Ok((0, 0, 0)));
    r.equal("section 5: faulty above n", sorted(&sample, 0x20), Err(8));

    // 3: the limit cases
    let quorumless = Statement::make(2, &[vec![0], vec![0]], &[vec![], vec![3]]).expect("a statement");
    let quorumless_rule = Rule::listed(quorumless.clone());
    r.check("no quorum: no set holds one", !quorumless_rule.holds_quorum(1, &set(3)));
    r.check("no quorum: the empty set holds a kernel", quorumless_rule.holds_kernel(1, &set(0)));
    r.equal("no quorum: not available", judge(&quorumless).availability, Some(1));
    r.check("7.1: a statement with a node without quorums is not sound", !judge(&quorumless).sound());
    let empty_quorum = Statement::make(2, &[vec![0], vec![0]], &[vec![3], vec![0]]).expect("a statement");
    let empty_quorum_rule = Rule::listed(empty_quorum.clone());
    r.check("empty quorum: every set holds a quorum", empty_quorum_rule.holds_quorum(2, &set(0)));
    r.check("empty quorum: no set holds a kernel", !empty_quorum_rule.holds_kernel(2, &set(3)));
    // The pair (1, 2) fails before (2, 2): the common part of 0003 and 0000 is empty.
    r.equal("empty quorum: (1, 2) is the first pair", judge(&empty_quorum).consistency, Some((1, 2)));
    r.check(
        "empty quorum: (2, 2) is not consistent",
        !consistent_direct(&[set(0)], &[set(0)], &[set(0)], &[set(0)]),
    );

    // 7.2: the examples
    for (n, f, q) in [(0, 0, 0), (17, 0, 9), (4, 17, 3), (4, 1, 17)] {
        r.equal("threshold refused", Rule::threshold(n, f, q).err(), Some(2));
    }
    let rule = |n, f, q| Rule::threshold(n, f, q).expect("a rule");
    r.check("(4, 1, 3) is sound", rule(4, 1, 3).sound());
    r.check("(3, 1, 2) is not sound", !rule(3, 1, 2).sound());
    r.check("(4, 1, 3): 0003 holds a kernel", rule(4, 1, 3).holds_kernel(1, &set(3)));
    r.check("(4, 1, 3): 0001 holds no kernel", !rule(4, 1, 3).holds_kernel(1, &set(1)));
    let above = set(0x1f);
    r.check("(4, 1, 3): 001f holds no quorum", !rule(4, 1, 3).holds_quorum(1, &above));
    r.check("(4, 1, 3): 001f holds no kernel", !rule(4, 1, 3).holds_kernel(1, &above));
    r.check("(4, 1, 3): 001f is not tolerated", !rule(4, 1, 3).tolerated(1, &above));
    r.check("(4, 4, 3): 0010 is not tolerated", !rule(4, 4, 3).tolerated(1, &set(0x10)));
    r.check("(2, 0, 3): 0000 holds a kernel", rule(2, 0, 3).holds_kernel(1, &set(0)));
    r.check("(2, 0, 3): node 0 gets no", !rule(2, 0, 3).holds_kernel(0, &set(0)));
    r.check("(2, 0, 3): node 3 gets no", !rule(2, 0, 3).holds_kernel(3, &set(0)));

    // 7.2: both tables, for every triple of at most 6 nodes and every set
    r.group("RULES 7.2, tables for every triple");
    for n in 1..=MOST_NODES_BY_DEFINITION {
        for f in 0..=16 {
            for q in 0..=16 {
                let rule = rule(n, f, q);
                let mut agrees = rule.sound() == sound_threshold_by_table(n, f, q);
                agrees &= !rule.sound() || n > 3 * f;
                agrees &= !(q == 0 || q > n || f >= n) || !rule.sound();
                for s in Set::all(n).parts() {
                    agrees &= rule.holds_quorum(1, &s) == (s.count() >= q);
                    agrees &= rule.holds_kernel(1, &s) == (n - s.count() < q);
                    agrees &= rule.tolerated(1, &s) == (s.count() <= f);
                }
                r.check(&format!("({n}, {f}, {q})"), agrees);
            }
        }
    }
}

fn rules_statements_and_values(r: &mut Report) {
    r.group("RULES 8 to 14, rows");
    r.check("8.1: the fresh statement is sound", judge(&Statement::fresh()).sound());
    r.equal("8.1: count 0", Statement::make(0, &[], &[]).err(), Some(2));
    r.equal("8.1: count 17", Statement::make(17, &[], &[]).err(), Some(2));
    r.equal("8.1: set above n", Statement::make(1, &[vec![2]], &[vec![1]]).err(), Some(2));
    r.equal("8.1: quorum above n, no fail-prone set", Statement::make(1, &[vec![]], &[vec![2]]).err(), Some(2));
    r.equal("8.1: no fail-prone set", Statement::make(1, &[vec![]], &[vec![1]]).err(), Some(5));
    r.equal(
        "8.1: lists above n are of no account",
        Statement::make(1, &[vec![0], vec![0xffff]], &[vec![1], vec![2]]),
        Ok(Statement::fresh()),
    );
    let largest = texts::largest_draft().text();
    r.equal("8.3: most lines", largest.iter().filter(|b| **b == 10).count(), 513);
    r.check("8.3: 513 lines can be read", read(&largest).is_ok());
    let mut longer = largest.clone();
    longer.extend(b"Q\t16\tffff\n");
    r.equal("8.5: highest line number", read(&longer).err().map(|f| f.line), Some(514));

    let issue = |start, end| Value::Issue { account: 1, device: 2, request: 3, key: 4, start, end };
    for (start, end, fit) in
        [(5, 7_776_005, true), (5, 7_776_006, false), (5, 5, false), (5, 4, false), (0, u64::MAX, false)]
    {
        r.equal("9.2: fit", issue(start, end).fit(), fit);
    }
    r.check("9.2: same claim", issue(1, 2).same_claim(&issue(5, 9)) && !issue(1, 2).same(&issue(5, 9)));
    r.equal("9.2: account", issue(1, 2).account(), 1);
    r.check("9.3: serial 0 is not fit", !Value::Withdrawal { serial: 0 }.fit());
    r.check("9.3: serial 1 is fit", Value::Withdrawal { serial: 1 }.fit());
    r.equal("9.3: account", Value::Withdrawal { serial: u64::MAX }.account(), 65535);
    r.equal("9.3: account below 2^48", Value::Withdrawal { serial: (1 << 48) - 1 }.account(), 0);
    r.equal("9.3: account of 2^48", Value::Withdrawal { serial: 1 << 48 }.account(), 1);

    // 11: senders
    let rule = std::rc::Rc::new(Rule::threshold(4, 1, 3).expect("a rule"));
    let panel = Panel::open(&rule, 16, &Set::empty(), 8).expect("a panel");
    r.equal("11: senders", (0..6).map(|s| panel.sender(s)).collect::<Vec<_>>(), vec![1, 2, 3, 4, 1, 2]);

    // 14.3
    let values = [(2, "7,1,1,1,0,9"), (5, "7,1,1,2,0,9")];
    let tallies = [("tally 1 7 8", "tally 1 1"), ("tally 1 8 8", "tally 0 0")];
    play_two_slots(r, "14.3: one claim in slots 2 and 5", "issue", values, &tallies);
    let values = [(0, "10,5"), (1, "11,5")];
    let tallies = [("tally 1 10 8", "tally 1 0"), ("tally 1 11 8", "tally 0 1")];
    play_two_slots(r, "14.3: one claim under two accounts", "free", values, &tallies);

    // 15: for c = 16 the bound is 528
    let mut player = Player::new();
    for line in ["kind withdrawal", "row 8", "rule threshold 16 5 11", "open 1 0000 8", "propose 0 1 8"] {
        player.line(line).expect("a line of the format");
    }
    loop {
        let waiting = player.panel.as_ref().expect("a panel").waiting_messages(0);
        let Some((kind, from, to)) = waiting.first() else { break };
        player.line(&format!("hand {kind} 0 {from} {to}")).expect("a line of the format");
    }
    let answer = player.line("counts 0").expect("a line of the format");
    r.equal("15: bound for c = 16", answer, Some("counts 1 16 16 528 0".to_string()));
}

fn rules_worked_examples(r: &mut Report) {
    r.group("RULES 16, rows");
    let sample = statement(SAMPLE);
    let judgement = judge(&sample);
    r.equal("16.1: judging", (judgement.b3, judgement.consistency, judgement.availability), (None, None, None));
    let rule = Rule::listed(sample);
    for (faulty, wise, naive, guild) in [
        (0x00, 0x1f, 0x00, 0x1f),
        (0x01, 0x08, 0x16, 0x00),
        (0x02, 0x10, 0x0d, 0x00),
        (0x04, 0x00, 0x1b, 0x00),
        (0x08, 0x17, 0x00, 0x17),
        (0x10, 0x0f, 0x00, 0x0f),
        (0x18, 0x07, 0x00, 0x07),
    ] {
        r.equal(&format!("16.1: faulty {faulty:04x}"), sorted(&rule, faulty), Ok((wise, naive, guild)));
    }

    let unsound = statement(UNSOUND);
    let judgement = judge(&unsound);
    r.equal("16.2: B3", judgement.b3, Some((1, 2)));
    r.equal("16.2: consistency", judgement.consistency, Some((1, 2)));
    r.equal("16.2: availability", judgement.availability, None);
    r.equal("16.2: sound", judgement.sound(), false);
    r.check("16.2: (1, 1) meets B3", meets_b3_direct(4, unsound.fail_prone(1), unsound.fail_prone(1)));

    for rule in ["rule threshold 1 0 1", "rule text N 1/F 1 0000/"] {
        play_one_node(r, "16.3", rule);
    }

    let player = play_withdrawals(r, "16.4", &[
        ("rule threshold 4 1 3", "rule"),
        ("sort 0008", "sorted 0007 0000 0007"),
        ("open 1 0008 8", "opened"),
        ("propose 0 1 8", "proposed"),
        ("counts 0", "counts 1 0 0 0 3"),
        ("hand 1 0 1 1", "echoed"),
        ("hand 1 0 1 2", "echoed"),
        ("hand 1 0 1 3", "echoed"),
        ("counts 0", "counts 1 3 0 3 9"),
        ("forge 2 0 4 1 2 8", "recorded"),
        ("counts 0", "counts 1 3 0 3 9"),
        ("forge 2 0 4 1 1 8", "ignored"),
        ("counts 0", "counts 1 3 0 3 9"),
        ("hand 2 0 1 2", "recorded"),
        ("hand 2 0 2 2", "recorded"),
        ("hand 2 0 3 2", "readied"),
        ("counts 0", "counts 1 3 1 6 9"),
        ("hand 2 0 1 3", "recorded"),
        ("hand 2 0 2 3", "recorded"),
        ("hand 2 0 3 3", "readied"),
        ("counts 0", "counts 1 3 2 9 9"),
        ("hand 3 0 2 1", "recorded"),
        ("hand 3 0 3 1", "readied"),
        ("counts 0", "counts 1 3 3 11 10"),
        ("hand 3 0 1 1", "delivered"),
        ("counts 0", "counts 1 3 3 12 9"),
        ("hand 2 0 1 1", "recorded"),
        ("hand 2 0 2 1", "recorded"),
        ("hand 2 0 3 1", "recorded"),
        ("counts 0", "counts 1 3 3 15 6"),
        ("hand 3 0 1 2", "recorded"),
        ("hand 3 0 2 2", "recorded"),
        ("hand 3 0 3 2", "delivered"),
        ("counts 0", "counts 1 3 3 18 3"),
        ("hand 3 0 1 3", "recorded"),
        ("hand 3 0 2 3", "recorded"),
        ("hand 3 0 3 3", "delivered"),
        ("counts 0", "counts 1 3 3 21 0"),
        ("receipt 0 1", "place 0"),
        ("receipt 0 2", "place 0"),
        ("receipt 0 3", "place 0"),
    ]);
    r.equal("16.4: used places", player.panel.as_ref().map(|p| p.used()), Some(2));
    r.equal("16.4: roll", (player.row[0].show(), player.row[1].show()), ("1".to_string(), "2".to_string()));

    play_withdrawals(r, "16.5", &[
        ("rule threshold 3 0 2", "rule"),
        ("open 1 0003 8", "opened"),
        ("forge 3 0 1 3 9 8", "recorded"),
        ("forge 3 0 2 3 9 8", "readied and delivered"),
    ]);

    play_withdrawals(r, "16.6", &[
        (&format!("rule text {SAMPLE}"), "rule"),
        ("sort 0001", "sorted 0008 0016 0000"),
        ("open 2 0001 8", "opened"),
        ("forge 3 1 1 2 5 8", "readied"),
        ("forge 3 1 1 3 5 8", "readied"),
        ("hand 3 1 2 4", "readied"),
        ("hand 3 1 3 4", "recorded"),
        ("hand 3 1 4 4", "recorded"),
        ("forge 3 1 1 4 5 8", "delivered"),
        ("receipt 1 4", "place 0"),
    ]);
}

// FORMATS.md

fn formats(r: &mut Report) {
    r.group("FORMATS, rows");
    let sample = text_from_notation(SAMPLE);
    let refusal = |notation: &str| read(&text_from_notation(notation)).err().map(|f| f.refusal);
    for (text, number) in [("N 17/", 2), ("N 017/", 1), ("N 00/", 1), ("N 100/", 1)] {
        r.equal(&format!("1.3: {text}"), refusal(text), Some(number));
    }
    let shortest = text_from_notation("N 1/F 1 0000/");
    r.equal("1.4: bytes of the shortest text", shortest.len(), 13);
    r.equal("1.4: the shortest text", read(&shortest), Ok(Statement::fresh()));
    r.equal("1.4: bytes of the longest text", texts::largest_draft().text().len(), 4_837);
    r.equal("1.5: bytes", sample.len(), 67);
    r.equal("1.5: lines", sample.iter().filter(|b| **b == 10).count(), 8);
    r.equal(
        "1.5: first bytes",
        sample[..13].to_vec(),
        vec![0x4e, 0x09, 0x35, 0x0a, 0x46, 0x09, 0x31, 0x09, 0x30, 0x30, 0x31, 0x38, 0x0a],
    );
    let read_sample = statement(SAMPLE);
    let masks = |family: &[Set]| family.iter().map(|s| s.mask()).collect::<Vec<_>>();
    for (node, fail_prone, quorums) in [
        (1, vec![0x18], vec![0x07]),
        (2, vec![0x18], vec![0x07]),
        (3, vec![0x18], vec![0x07]),
        (4, vec![0x01, 0x10], vec![0x1e, 0x0f]),
        (5, vec![0x02, 0x08], vec![0x1d, 0x17]),
    ] {
        r.equal("1.5: fail-prone sets", masks(read_sample.fail_prone(node)), fail_prone);
        r.equal("1.5: quorums", masks(read_sample.quorums(node)), quorums);
    }
    let with_lines = statement(&SAMPLE.replace("F 4 0010/", "F 4 0010/Q 4 000f/Q 4 001e/"));
    let mut listed = masks(with_lines.quorums(4));
    let mut default = masks(read_sample.quorums(4));
    listed.sort();
    default.sort();
    r.equal("1.5: the same quorums by Q lines", listed, default);

    let printed = "faulty wise naive guild\n0000 001f 0000 001f\n0001 0008 0016 0000\n0002 0010 000d 0000\n\
                   0004 0000 001b 0000\n0008 0017 0000 0017\n0010 000f 0000 000f\n";
    r.equal("2.5: sample", programs::guilds(&sample).as_str(), printed);
    r.equal("2.5: bytes of the output", programs::guilds(&sample).len(), 144);
    r.equal("2.2: bytes of the output for n = 16", programs::guilds(&texts::largest_draft().text()).len(), 24 + 20 * 17);
    let fresh = "faulty wise naive guild\n0000 0001 0000 0001\n0001 0000 0000 0000\n";
    r.equal("2.5: fresh", programs::guilds(&shortest).as_str(), fresh);
    for (text, output) in [
        ("", "refused 3 1\n"),
        ("N 1/F 1 0000", "refused 1 2\n"),
        ("N 3/F 1 0000/F 3 0000/", "refused 5 4\n"),
        ("N 1/F 1 0001/", "refused 9 0\n"),
    ] {
        r.equal(&format!("2.5: {text}"), programs::guilds(&text_from_notation(text)).as_str(), output);
    }

    for (faulty, answer) in [
        (0x00, 0x00000000001f001f),
        (0x01, 0x0000000000000008),
        (0x02, 0x0000000000000010),
        (0x04, 0x0000000000000000),
        (0x08, 0x0000000000170017),
        (0x10, 0x00000000000f000f),
        (0x18, 0x0000000000070007),
        (0x20, 0x0000000800000000),
    ] {
        r.equal(&format!("4.4: faulty {faulty:04x}"), programs::chost(&sample, faulty), answer);
    }
    for (text, faulty, answer) in [
        ("", 0, 0x0000000300000000),
        ("N 00/", 0, 0x0000000100000000),
        ("N 1/F 1 0001/", 0, 0x0000000900000000),
        ("N 1/F 1 0001/", 2, 0x0000000800000000),
    ] {
        r.equal(&format!("4.4: {text} {faulty:04x}"), programs::chost(&text_from_notation(text), faulty), answer);
    }
}

// REFUSALS.md

fn refusals_smallest_number(r: &mut Report) {
    r.group("REFUSALS 2 and 3, rows");
    play_withdrawals(r, "3: open with everything wrong", &[
        ("rule threshold 3 1 2", "rule"),
        ("open 0 0008 0", "6"),
        ("open 1 0008 0", "7"),
        ("open 1 0008 1", "8"),
        ("open 1 0007 1", "9"),
    ]);
    // Nodes 3 and 4 are faulty; node 1 sends in slot 0, node 3 in slot 2.
    play_withdrawals(r, "3: propose", &[
        ("rule threshold 4 1 3", "rule"),
        ("open 3 000c 1", "opened"),
        ("propose 3 5 0", "7"),
        ("propose 256 5 1", "10"),
        ("propose 2 0 1", "11"),
        ("propose 1 0 1", "12"),
        ("propose 0 5 1", "proposed"),
        ("propose 0 6 1", "13"),
        ("propose 0 5 1", "already"),
        ("propose 1 6 1", "15"),
        ("propose 1 6 2", "proposed"),
        ("propose 0 5 1", "7"),
        ("propose 0 6 2", "13"),
    ]);
    play_withdrawals(r, "3: forge", &[
        ("rule threshold 4 1 3", "rule"),
        ("open 3 000c 1", "opened"),
        ("forge 0 0 1 2 5 1", "10"),
        ("forge 257 0 3 2 5 1", "10"),
        ("forge 2 0 65537 2 5 1", "10"),
        ("forge 2 0 1 2 5 1", "11"),
        ("forge 2 0 3 4 5 1", "11"),
        ("forge 1 0 3 1 0 1", "12"),
        ("forge 2 0 3 1 5 1", "recorded"),
        ("forge 2 0 3 1 6 1", "ignored"),
        ("forge 1 0 3 1 6 1", "ignored"),
        ("forge 2 0 3 2 6 1", "15"),
        ("forge 2 0 3 2 5 1", "recorded"),
        ("forge 3 0 3 2 5 1", "recorded"),
        ("forge 3 0 4 2 5 1", "readied"),
        ("forge 2 0 3 1 6 0", "7"),
        ("forge 2 0 3 1 0 1", "12"),
    ]);
    play_withdrawals(r, "3: hand", &[
        ("rule threshold 4 1 3", "rule"),
        ("open 3 0008 1", "opened"),
        ("hand 4 0 4 1", "10"),
        ("hand 1 0 4 1", "11"),
        ("hand 1 0 2 1", "14"),
        ("propose 0 5 1", "proposed"),
        ("hand 1 0 2 1", "14"),
        ("hand 1 0 1 1", "echoed"),
        ("hand 1 0 1 1", "14"),
    ]);
    play_withdrawals(r, "2: readings", &[
        ("rule threshold 4 1 3", "rule"),
        ("open 3 0008 2", "opened"),
        ("receipt 3 4", "10"),
        ("receipt 0 65537", "10"),
        ("receipt 0 4", "11"),
        ("receipt 0 1", "absent"),
        ("tally 0 0 0", "7"),
        ("tally 0 0 256", "7"),
        ("tally 0 0 1", "10"),
        ("tally 4 0 1", "11"),
        ("tally 1 65535 1", "tally 0 0"),
        ("counts 3", "10"),
        ("counts 256", "10"),
    ]);
}

fn refusals_damaged_texts(r: &mut Report) {
    r.group("REFUSALS 6, rows");
    // In the texts \r and \0 are bytes 13 and 0, and ~ is byte 32.
    let text_of = |notation: &str| {
        let mut text = text_from_notation(notation);
        text.iter_mut().filter(|b| **b == b'~').for_each(|b| *b = 32);
        text
    };
    let sixteen: String = (0..16).map(|m| format!("F 1 {m:04x}/")).collect();
    let seventeen = |last: &str| format!("N 5/{sixteen}{last}/");
    let (rises, equal, above) = (seventeen("F 1 0010"), seventeen("F 1 000f"), seventeen("F 1 0020"));
    let rows: Vec<(&str, u32, usize, &str, usize)> = vec![
        ("", 3, 1, "", 0),
        ("/", 1, 1, "", 0),
        ("N 1/F 1 0000", 1, 2, "F 1 0000", 4),
        ("N 0/", 2, 1, "N 0", 0),
        ("N 00/", 1, 1, "N 00", 0),
        ("N 17/", 2, 1, "N 17", 0),
        ("N 100/", 1, 1, "N 100", 0),
        ("n 1/", 1, 1, "n 1", 0),
        ("NN 1/", 1, 1, "NN 1", 0),
        ("N 1 0001/", 1, 1, "N 1 0001", 0),
        ("N  1/", 1, 1, "N  1", 0),
        ("N 1\r/", 1, 1, "N 1\r", 0),
        ("N 1\0/", 1, 1, "N 1\0", 0),
        ("N~1/", 1, 1, "N~1", 0),
        ("F 9 ffff/", 3, 1, "F 9 ffff", 0),
        ("F 9 FFFF/", 1, 1, "F 9 FFFF", 0),
        ("N 2/N 3/", 3, 2, "N 3", 4),
        ("N 2/N 17/", 2, 2, "N 17", 4),
        ("N 2/F 1/", 1, 2, "F 1", 4),
        ("N 2/F 01 0000/", 1, 2, "F 01 0000", 4),
        ("N 2/F 1 000/", 1, 2, "F 1 000", 4),
        ("N 2/F 1 000A/", 1, 2, "F 1 000A", 4),
        ("N 2/F 0 0000/", 2, 2, "F 0 0000", 4),
        ("N 2/F 3 0000/", 2, 2, "F 3 0000", 4),
        ("N 2/F 1 0004/", 2, 2, "F 1 0004", 4),
        ("N 2/F 2 0000/F 1 0000/", 3, 3, "F 1 0000", 13),
        ("N 2/F 2 0000/F 1 0004/", 2, 3, "F 1 0004", 13),
        ("N 2/F 1 0001/F 1 0001/", 3, 3, "F 1 0001", 13),
        ("N 2/F 1 0001/F 1 0000/", 3, 3, "F 1 0000", 13),
        ("N 1/F 1 0000/Q 1 0001/F 1 0001/", 3, 4, "F 1 0001", 22),
        ("N 1/Q 1 0001/", 5, 3, "", 13),
        ("N 1/Q 1 0001/F 1 0000/", 3, 3, "F 1 0000", 13),
        ("N 1/F 1 0000//", 1, 3, "", 13),
        ("N 3/F 1 0000/F 3 0000/", 5, 4, "", 22),
        ("N 3/F 1 0000/F 3 0000/Z/", 1, 4, "Z", 22),
        (&rises, 4, 18, "F 1 0010", 148),
        (&equal, 3, 18, "F 1 000f", 148),
        (&above, 2, 18, "F 1 0020", 148),
    ];
    for (notation, refusal, line, part, place) in rows {
        let text = text_of(notation);
        let got = match read(&text) {
            Ok(_) => (0, 0, Vec::new(), 0),
            Err(f) => (f.refusal, f.line, text[f.place..f.place + f.part_len].to_vec(), f.place),
        };
        r.equal(notation, got, (refusal, line, text_of(part), place));
        r.equal(notation, programs::guilds(&text), format!("refused {refusal} {line}\n"));
    }
    for text in [
        "N 1/F 1 0001/",
        "N 1/F 1 0000/Q 1 0000/",
        "N 2/F 1 0000/Q 1 0001/Q 1 0002/F 2 0000/Q 2 0003/",
        UNSOUND,
    ] {
        r.equal(text, programs::guilds(&text_of(text)).as_str(), "refused 9 0\n");
    }
    let first_pair = |text: &str| judge(&statement(text)).consistency;
    r.equal("the node itself", first_pair("N 1/F 1 0001/"), Some((1, 1)));
    r.equal("two quorums", first_pair("N 2/F 1 0000/Q 1 0001/Q 1 0002/F 2 0000/Q 2 0003/"), Some((1, 1)));
    r.equal("the pair (1, 2)", first_pair(UNSOUND), Some((1, 2)));
    r.equal("the shortest text", read(&text_of("N 1/F 1 0000/")), Ok(Statement::fresh()));
    let two = statement("N 2/F 1 0000/F 2 0000/");
    for node in [1, 2] {
        r.equal("default quorum 0003", two.quorums(node).clone(), vec![set(3)]);
    }
    r.check("two nodes are sound", judge(&two).sound());
}

fn refusals_rules_and_panels(r: &mut Report) {
    r.group("REFUSALS 7, rows");
    play_withdrawals(r, "7: threshold", &[
        ("rule threshold 0 0 0", "2"),
        ("rule threshold 17 0 9", "2"),
        ("rule threshold 4 17 3", "2"),
        ("rule threshold 4 1 17", "2"),
        ("rule threshold 2 0 3", "rule"),
        ("ask kernel 1 0000", "yes"),
        ("open 1 0000 8", "9"),
        ("rule threshold 4 1 3", "rule"),
        ("ask kernel 1 001f", "no"),
        ("open 1 0010 8", "8"),
    ]);
    play_one_node(r, "7: one node", "rule threshold 1 0 1");
    // Messages of correct nodes this time: nodes 1 and 2 ready by ECHOs.
    play_withdrawals(r, "7: readied and delivered", &[
        ("rule threshold 3 0 2", "rule"),
        ("open 1 0000 8", "opened"),
        ("propose 0 1 8", "proposed"),
        ("hand 1 0 1 1", "echoed"),
        ("hand 1 0 1 2", "echoed"),
        ("hand 2 0 1 1", "recorded"),
        ("hand 2 0 2 1", "readied"),
        ("hand 2 0 1 2", "recorded"),
        ("hand 2 0 2 2", "readied"),
        ("hand 3 0 1 3", "recorded"),
        ("hand 3 0 2 3", "readied and delivered"),
    ]);
    play_withdrawals(r, "7: ignored", &[
        ("rule threshold 4 1 3", "rule"),
        ("open 1 0008 8", "opened"),
        ("forge 1 0 4 1 5 8", "ignored"),
        ("forge 2 0 4 1 5 8", "recorded"),
        ("forge 2 0 4 1 6 8", "ignored"),
    ]);
    play_withdrawals(r, "7: all faulty", &[("rule threshold 4 1 3", "rule"), ("open 1 000f 8", "opened")]);
}

// Facts

fn facts_of_trust(r: &mut Report) {
    r.group("facts of trust");
    let mut prng = Prng::new(1);
    let (mut order, mut direct, mut sound_b3, mut default_b3, mut default_available) = (true, true, true, true, true);
    let (mut two_soundnesses, mut first_pair, mut pair_b3) = (true, true, true);
    let (mut guilds, mut shares, mut chosts) = (true, true, true);
    for number in 0..300 {
        let n = prng.between(1, 5);
        let with_quorums = number % 2 == 0;
        let draft = if number % 3 == 0 {
            texts::sound_draft(&mut prng, n, with_quorums)
        } else {
            texts::random_draft(&mut prng, n, with_quorums)
        };
        let s = draft.statement();
        let judgement = judge_by_enumeration(&s);
        direct &= judgement == judge_by_direct_tests(&s);
        sound_b3 &= !judgement.sound() || judgement.b3.is_none();
        first_pair &= [judgement.b3, judgement.consistency].iter().flatten().all(|(i, j)| i <= j);
        let consistent = |i, j| consistent_direct(s.quorums(i), s.quorums(j), s.fail_prone(i), s.fail_prone(j));
        let meets = |i, j| meets_b3_direct(n, s.fail_prone(i), s.fail_prone(j));
        let is_available = |i| available(s.fail_prone(i), s.quorums(i));
        for i in 1..=n {
            for j in 1..=n {
                order &= consistent(i, j) == consistent(j, i) && meets(i, j) == meets(j, i);
                pair_b3 &= !(is_available(i) && is_available(j) && consistent(i, j)) || meets(i, j);
                default_b3 &= with_quorums || consistent(i, j) == meets(i, j);
            }
            default_available &= with_quorums || is_available(i);
            let every_part = tolerated_sets(s.fail_prone(i));
            default_available &= available(&every_part, s.quorums(i)) == is_available(i);
            // A set that contains one that holds a kernel holds one too.
            for set in Set::all(n).parts() {
                let larger = set.union(&Set::of(&[i]));
                default_available &= !holds_kernel(s.quorums(i), &set) || holds_kernel(s.quorums(i), &larger);
            }
        }
        let rule = Rule::listed(s);
        two_soundnesses &= rule.sound() == rule.sound_by_tolerated_sets();
        for faulty in Set::all(n).parts() {
            let sorting = sort(&rule, &faulty).expect("in range");
            guilds &= sorting.guild == maximal_guild_by_taking_away(&rule, &sorting.wise);
            guilds &= is_guild(&rule, &sorting.wise, &sorting.guild);
            shares &= sorting.wise.misses(&sorting.naive) && sorting.wise.misses(&faulty);
            shares &= sorting.naive.misses(&faulty);
            shares &= sorting.wise.union(&sorting.naive).union(&faulty) == Set::all(n);
            let packed = programs::chost(&draft.text(), faulty.mask());
            let refused = packed >> 32 == 9;
            chosts &= refused == !rule.sound();
            chosts &= refused || packed == sorting.wise.mask() as u64 | (sorting.guild.mask() as u64) << 16;
        }
    }
    for (n, f, q) in (1..=5).flat_map(|n| (0..=n).flat_map(move |f| (0..=n).map(move |q| (n, f, q)))) {
        let rule = Rule::threshold(n, f, q).expect("a rule");
        for faulty in Set::all(n).parts() {
            let sorting = sort(&rule, &faulty).expect("in range");
            guilds &= sorting.guild == maximal_guild_by_taking_away(&rule, &sorting.wise);
        }
    }
    r.check("3: the order of a pair does not matter", order);
    r.check("3: the direct tests", direct);
    r.check("3: B3 holds in a sound statement", sound_b3);
    r.check("3: available and consistent pairs meet B3", pair_b3);
    r.check("3: with default quorums, B3 is consistency", default_b3);
    r.check("3: availability by default quorums, by tolerated sets; kernels grow", default_available);
    r.check("4: the first failing pair has i <= j", first_pair);
    r.check("6: soundness by tolerated sets", two_soundnesses);
    r.check("5: the maximal guild by taking away", guilds);
    r.check("5: faulty, wise and naive share no node", shares);
    r.check("FORMATS 4: the packed answer", chosts);
}

fn facts_of_texts(r: &mut Report) {
    r.group("facts of texts");
    let mut prng = Prng::new(2);
    let (mut as_expected, mut parts, mut bounds) = (Vec::new(), true, true);
    for number in 0..1_680 {
        let made = texts::make(&mut prng, number);
        let result = read(&made.text);
        let refusal = match &result {
            Err(fault) => fault.refusal,
            Ok(statement) if judge(statement).sound() => 0,
            Ok(_) => 9,
        };
        if made.expected.is_some_and(|expected| expected != refusal) {
            as_expected.push(format!("{} gave {refusal}", made.class));
        }
        if let Err(fault) = result {
            let lines = made.text.iter().filter(|b| **b == 10).count();
            bounds &= fault.line >= 1 && fault.line <= 514;
            // The place is the start of the line with that number.
            let before = made.text[..fault.place].iter().filter(|b| **b == 10).count();
            parts &= before + 1 == fault.line;
            parts &= !made.text[fault.place..fault.place + fault.part_len].contains(&10);
            if fault.refusal == 5 {
                parts &= fault.place == made.text.len() && fault.part_len == 0 && fault.line == lines + 1;
            }
        }
    }
    r.check(&format!("generated texts give the refusal they were made for {as_expected:?}"), as_expected.is_empty());
    r.check("8.5: line number, part and place belong together", parts);
    r.check("8.5: the line number is at most 514", bounds);
}

/// Section 15 after every call of generated cases, and REFUSALS section 5.
fn facts_of_panels(r: &mut Report) {
    r.group("facts of panels");
    let (mut broken, mut calls) = (Vec::new(), 0);
    let (mut unchanged, mut one_outcome) = (true, true);
    for number in 0..66 {
        let case = cases::make(3, number);
        let after_each_call = !case.contains("fill the roll") && !case.contains("large") && number % 3 == 0;
        let mut player = Player::new();
        for line in case.lines().filter(|line| !line.starts_with("case") && *line != "end") {
            let before = (player.panel.clone(), player.row.clone());
            let answer = player.line(line).expect("a line of the format").unwrap_or_default();
            calls += 1;
            let leaves = answer.parse::<u32>().is_ok() || ["already", "ignored"].contains(&answer.as_str());
            if leaves && !line.starts_with("rule") {
                unchanged &= player.panel == before.0;
                unchanged &= player.row.iter().zip(&before.1).all(|(one, two)| one.same(two));
            }
            if after_each_call {
                broken.extend(player.broken_laws());
            }
        }
        broken.extend(player.broken_laws());
        one_outcome &= case == cases::make(3, number);
    }
    r.check(&format!("15: laws and promises, {calls} calls {broken:?}"), broken.is_empty());
    r.check("REFUSALS 5: what stays unchanged", unchanged);
    r.check("15.1: one outcome", one_outcome);
    r.check("kinds have names", [Kind::Issue, Kind::Withdrawal, Kind::Free].iter().all(|k| Kind::parse(k.name()) == Some(*k)));
}

/// Generated trial files, and what is printed for files with faults.
fn facts_of_trials(r: &mut Report) {
    r.group("TRIALS");
    let file = trials::make_all(4, 96);
    let cases = file.lines().filter(|line| line.starts_with("case ")).count();
    let answers = file.lines().filter(|line| line.contains(" => ")).count();
    r.equal("a generated file replays", replay(file.as_bytes()), format!("{cases} cases, {answers} answers, 0 differ\n"));
    r.check("the same seed gives the same file", file == trials::make_all(4, 96));
    let at = file.lines().position(|line| line.ends_with(" => recorded")).expect("a message that is recorded");
    let step = file.lines().nth(at).expect("that line").trim_end_matches(" => recorded");
    let flipped = file.replacen(&format!("\n{step} => recorded\n"), &format!("\n{step} => echoed\n"), 1);
    let said = format!("line {}: {step} => recorded, not echoed\n{cases} cases, {answers} answers, 1 differ\n", at + 1);
    r.equal("a flipped answer", replay(flipped.as_bytes()), said);
    for (file, printed) in [
        ("", "0 cases, 0 answers, 0 differ\n"),
        ("# x\n\ncase a\nsize => missing\n", "1 cases, 1 answers, 0 differ\n"),
        ("case a\nsize", "line 2: size => unreadable, not \n1 cases, 1 answers, 1 differ\n"),
        ("case\n", "1 cases, 0 answers, 0 differ\n"),
        (
            "threshold 4 1 3 => ok\nroll issue 65536\n",
            "line 2: roll issue 65536 => unreadable, not \n0 cases, 2 answers, 1 differ\n",
        ),
        ("roll issue 65536\n", "0 cases, 0 answers, 0 differ\n"),
        ("threshold 4 1 => ok\n", "line 1: threshold 4 1 => unreadable, not ok\n0 cases, 1 answers, 1 differ\n"),
        ("sort 00A0 => missing\n", "0 cases, 1 answers, 0 differ\n"),
        ("text N_1%0G => ok\n", "line 1: text N_1%0G => unreadable, not ok\n0 cases, 1 answers, 1 differ\n"),
        ("text . => refused 3 1 0 0\n", "0 cases, 1 answers, 0 differ\n"),
        ("text N_1%00/ => refused 1 1 0 4\n", "0 cases, 1 answers, 0 differ\n"),
        ("lists 1 F:1:0000 Q:1:0001 => ok\njudge => all all all\n", "0 cases, 2 answers, 0 differ\n"),
        ("lists 1 F:17:0000 => ok\n", "line 1: lists 1 F:17:0000 => unreadable, not ok\n0 cases, 1 answers, 1 differ\n"),
        ("threshold 1 0 1 => ok\njudge => missing\nopen 1 0000 8 => missing\n", "0 cases, 3 answers, 0 differ\n"),
    ] {
        r.equal(file, replay(file.as_bytes()).as_str(), printed);
    }
}
