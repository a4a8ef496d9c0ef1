//! What the hosts give for a statement text (FORMATS.md sections 2 to 4).

use crate::judging::judge;
use crate::rules::Rule;
use crate::sets::{show, Set};
use crate::sorting::sort;
use crate::statement::{read, Fault};

fn refused(refusal: u32, line: usize) -> String {
    format!("refused {refusal} {line}\n")
}

/// What the program `guilds` prints.
pub fn guilds(text: &[u8]) -> String {
    let rule = match read(text) {
        Err(Fault { refusal, line, .. }) => return refused(refusal, line),
        Ok(statement) => Rule::listed(statement),
    };
    if !rule.sound() {
        return refused(9, 0);
    }
    let mut faulty_sets = vec![Set::empty()];
    faulty_sets.extend((1..=rule.size()).map(|k| Set::of(&[k])));
    let mut output = String::from("faulty wise naive guild\n");
    for faulty in faulty_sets {
        let s = sort(&rule, &faulty).expect("the faulty set is in range");
        output += &format!("{} {} {} {}\n", show(&faulty), show(&s.wise), show(&s.naive), show(&s.guild));
    }
    output
}

/// The results of judging; an unsound statement is judged, not refused.
pub fn judge_text(text: &[u8]) -> String {
    let statement = match read(text) {
        Err(Fault { refusal, line, .. }) => return refused(refusal, line),
        Ok(statement) => statement,
    };
    let judgement = judge(&statement);
    let pair = |failing: Option<(u32, u32)>| match failing {
        None => "all".to_string(),
        Some((i, j)) => format!("fails first at {i} {j}"),
    };
    let node = match judgement.availability {
        None => "all".to_string(),
        Some(i) => format!("fails first at {i}"),
    };
    let sound = if judgement.sound() { "yes" } else { "no" };
    format!(
        "B3: {}\nconsistency: {}\navailability: {node}\nsound: {sound}\n",
        pair(judgement.b3),
        pair(judgement.consistency)
    )
}

/// The number that the C host gets: text faults first, then 8, then 9.
pub fn chost(text: &[u8], faulty: u16) -> u64 {
    let packed = |wise: u16, guild: u16, refusal: u32| {
        wise as u64 + guild as u64 * 2u64.pow(16) + refusal as u64 * 2u64.pow(32)
    };
    let rule = match read(text) {
        Err(fault) => return packed(0, 0, fault.refusal),
        Ok(statement) => Rule::listed(statement),
    };
    match sort(&rule, &Set::from_mask(faulty)) {
        Err(refusal) => packed(0, 0, refusal),
        Ok(_) if !rule.sound() => packed(0, 0, 9),
        Ok(s) => packed(s.wise.mask(), s.guild.mask(), 0),
    }
}

/// `ok`, or refusal, line, place and length of the part.
pub fn fault(text: &[u8]) -> String {
    match read(text) {
        Ok(_) => "ok\n".to_string(),
        Err(f) => format!("{} {} {} {}\n", f.refusal, f.line, f.place, f.part_len),
    }
}
