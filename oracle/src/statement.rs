//! Statements, and reading a statement text (RULES.md section 8).
//!
//! Each test of a line is decided by looking through all lines before it.

use crate::sets::{Family, Set};

#[derive(Clone, Debug, PartialEq, Eq)]
pub struct Statement {
    pub n: u32,
    fail_prone: Vec<Family>,
    quorums: Vec<Family>,
}

impl Statement {
    /// n = 1, `0000` as the only fail-prone set, `0001` as the only quorum.
    pub fn fresh() -> Statement {
        Statement { n: 1, fail_prone: vec![vec![Set::empty()]], quorums: vec![vec![Set::of(&[1])]] }
    }

    /// A statement from a node count and two lists of families (8.1).
    pub fn make(n: u32, fail_prone: &[Vec<u16>], quorums: &[Vec<u16>]) -> Result<Statement, u32> {
        if n < 1 || n > 16 {
            return Err(2);
        }
        let of_nodes = |lists: &[Vec<u16>]| -> Vec<Family> {
            (0..n as usize)
                .map(|at| lists.get(at).map_or(Vec::new(), |row| row.iter().map(|m| Set::from_mask(*m)).collect()))
                .collect()
        };
        let made = Statement { n, fail_prone: of_nodes(fail_prone), quorums: of_nodes(quorums) };
        let out_of_range =
            made.fail_prone.iter().chain(&made.quorums).any(|family| family.iter().any(|s| !s.in_range(n)));
        if out_of_range {
            return Err(2);
        }
        if made.fail_prone.iter().any(|family| family.is_empty()) {
            return Err(5);
        }
        Ok(made)
    }

    pub fn fail_prone(&self, node: u32) -> &Family {
        &self.fail_prone[node as usize - 1]
    }

    pub fn quorums(&self, node: u32) -> &Family {
        &self.quorums[node as usize - 1]
    }
}

/// What a fault contains (8.5). The part is given by its place and length.
#[derive(Clone, Copy, Debug, PartialEq, Eq)]
pub struct Fault {
    pub refusal: u32,
    pub line: usize,
    pub place: usize,
    pub part_len: usize,
}

struct Line<'t> {
    bytes: &'t [u8],
    place: usize,
    has_end: bool,
}

/// 8.2: a line ends with byte 10; bytes after the last byte 10 are one more
/// line, which has no end.
fn split_lines(text: &[u8]) -> Vec<Line<'_>> {
    let mut lines = Vec::new();
    let mut start = 0;
    for at in 0..text.len() {
        if text[at] == 10 {
            lines.push(Line { bytes: &text[start..at], place: start, has_end: true });
            start = at + 1;
        }
    }
    if start < text.len() {
        lines.push(Line { bytes: &text[start..], place: start, has_end: false });
    }
    lines
}

#[derive(Clone, Copy, PartialEq, Eq, Debug)]
enum Letter {
    F,
    Q,
}

#[derive(Clone, Copy, Debug)]
enum Content {
    Count(u32),
    Entry { letter: Letter, node: u32, mask: u16 },
}

/// The digit `0` alone, one digit `1` to `9`, or two digits of which the
/// first is not `0`.
fn decimal(field: &[u8]) -> Option<u32> {
    let value = |b: u8| (b - b'0') as u32;
    match field {
        [a] if a.is_ascii_digit() => Some(value(*a)),
        [a, b] if a.is_ascii_digit() && *a != b'0' && b.is_ascii_digit() => Some(10 * value(*a) + value(*b)),
        _ => None,
    }
}

/// Exactly four digits out of `0` to `9` and `a` to `f`.
pub fn mask(field: &[u8]) -> Option<u16> {
    if field.len() != 4 {
        return None;
    }
    let mut value = 0u16;
    for byte in field {
        let digit = b"0123456789abcdef".iter().position(|d| d == byte)?;
        value = value * 16 + digit as u16;
    }
    Some(value)
}

/// Test 1 of 8.4: the content of the line, or nothing if its form is wrong.
fn form(line: &Line) -> Option<Content> {
    if !line.has_end {
        return None;
    }
    let fields: Vec<&[u8]> = line.bytes.split(|b| *b == 9).collect();
    let letter = match fields[0] {
        b"N" => None,
        b"F" => Some(Letter::F),
        b"Q" => Some(Letter::Q),
        _ => return None,
    };
    match letter {
        None if fields.len() == 2 => Some(Content::Count(decimal(fields[1])?)),
        Some(letter) if fields.len() == 3 => {
            Some(Content::Entry { letter, node: decimal(fields[1])?, mask: mask(fields[2])? })
        }
        _ => None,
    }
}

/// Tests 1 to 5 of 8.4 for one line, given the contents of all lines before
/// it (none of which is bad).
fn try_line(line: &Line, before: &[Content]) -> Result<Content, u32> {
    // 1. Form
    let content = form(line).ok_or(1u32)?;
    // 2. First line only
    let first = before.is_empty();
    if first && matches!(content, Content::Entry { .. }) {
        return Err(3);
    }
    // 3. Range
    match content {
        Content::Count(count) => {
            if count < 1 || count > 16 {
                return Err(2);
            }
        }
        Content::Entry { node, mask, .. } => {
            let n = node_count(before);
            if node < 1 || node > n || !Set::from_mask(mask).in_range(n) {
                return Err(2);
            }
        }
    }
    // 4. Order
    let (letter, node, mask) = match content {
        Content::Count(_) => return if first { Ok(content) } else { Err(3) },
        Content::Entry { letter, node, mask } => (letter, node, mask),
    };
    let latest_node = entries(before).last().map(|(_, node, _)| *node);
    if latest_node.is_some_and(|latest| node < latest) {
        return Err(3);
    }
    if letter == Letter::F && entries(before).iter().any(|(l, k, _)| *l == Letter::Q && *k == node) {
        return Err(3);
    }
    let same_kind: Vec<u16> =
        entries(before).iter().filter(|(l, k, _)| *l == letter && *k == node).map(|(_, _, m)| *m).collect();
    if same_kind.last().is_some_and(|latest| mask <= *latest) {
        return Err(3);
    }
    // 5. Number of lines
    if same_kind.len() >= 16 {
        return Err(4);
    }
    Ok(content)
}

/// The count of the N line, which is the first line.
fn node_count(contents: &[Content]) -> u32 {
    match contents.first() {
        Some(Content::Count(n)) => *n,
        _ => unreachable!("the first line is an N line"),
    }
}

fn entries(contents: &[Content]) -> Vec<(Letter, u32, u16)> {
    contents
        .iter()
        .filter_map(|c| match c {
            Content::Count(_) => None,
            Content::Entry { letter, node, mask } => Some((*letter, *node, *mask)),
        })
        .collect()
}

/// Reading a statement text: a statement or a fault.
pub fn read(text: &[u8]) -> Result<Statement, Fault> {
    let lines = split_lines(text);
    let mut contents: Vec<Content> = Vec::new();
    for (at, line) in lines.iter().enumerate() {
        match try_line(line, &contents) {
            Ok(content) => contents.push(content),
            Err(refusal) => {
                return Err(Fault { refusal, line: at + 1, place: line.place, part_len: line.bytes.len() })
            }
        }
    }
    let at_end = |refusal| Fault { refusal, line: lines.len() + 1, place: text.len(), part_len: 0 };
    // 6. No line at all
    if contents.is_empty() {
        return Err(at_end(3));
    }
    let n = node_count(&contents);
    let masks_of = |wanted: Letter, node: u32| -> Family {
        entries(&contents)
            .iter()
            .filter(|(letter, k, _)| *letter == wanted && *k == node)
            .map(|(_, _, mask)| Set::from_mask(*mask))
            .collect()
    };
    let fail_prone: Vec<Family> = (1..=n).map(|k| masks_of(Letter::F, k)).collect();
    // 7. No fail-prone set
    if fail_prone.iter().any(|family| family.is_empty()) {
        return Err(at_end(5));
    }
    let quorums = (1..=n)
        .map(|k| {
            let listed = masks_of(Letter::Q, k);
            if listed.is_empty() {
                fail_prone[k as usize - 1].iter().map(|a| a.rest(n)).collect()
            } else {
                listed
            }
        })
        .collect();
    Ok(Statement { n, fail_prone, quorums })
}
