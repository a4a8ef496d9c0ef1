//! Generated statement texts, good and damaged, with faulty masks.

use crate::judging::{judge, Judgement};
use crate::prng::Prng;
use crate::sets::{show, show_mask, Set};
use crate::statement::{read, Statement};

/// A statement text in the making: the masks of the F and Q lines of each
/// node, rising.
#[derive(Clone)]
pub struct Draft {
    pub n: u32,
    fail_prone: Vec<Vec<u16>>,
    /// An empty list: no Q lines, so default quorums.
    quorums: Vec<Vec<u16>>,
}

/// The lines of a text without their byte 10.
type Lines = Vec<Vec<u8>>;

fn entry(letter: char, node: u32, mask: u16) -> Vec<u8> {
    format!("{letter}\t{node}\t{mask:04x}").into_bytes()
}

pub fn all_nodes(n: u32) -> u16 {
    Set::all(n).mask()
}

fn put_in_order(masks: &mut Vec<u16>) {
    masks.sort();
    masks.dedup();
    masks.truncate(16);
}

impl Draft {
    pub fn lines(&self) -> Lines {
        let mut lines = vec![format!("N\t{}", self.n).into_bytes()];
        for k in 1..=self.n {
            let at = k as usize - 1;
            lines.extend(self.fail_prone[at].iter().map(|m| entry('F', k, *m)));
            lines.extend(self.quorums[at].iter().map(|m| entry('Q', k, *m)));
        }
        lines
    }

    pub fn text(&self) -> Vec<u8> {
        join(&self.lines())
    }

    /// The text in the notation of the documents.
    pub fn notation(&self) -> String {
        String::from_utf8(self.text()).expect("a text of letters and digits").replace('\t', " ").replace('\n', "/")
    }

    /// The statement as two lists of families with every quorum written out,
    /// `COUNT/F NODE MASK/.../`: in any order, with a set twice, and with
    /// sets for a node above n, all of which is of no account.
    pub fn lists_notation(&self, prng: &mut Prng) -> String {
        let statement = self.statement();
        let mut entries = Vec::new();
        for k in 1..=self.n {
            entries.extend(statement.fail_prone(k).iter().map(|a| format!("F {k} {}/", show(a))));
            entries.extend(statement.quorums(k).iter().map(|q| format!("Q {k} {}/", show(q))));
        }
        entries.push(prng.pick(&entries));
        if self.n < 16 {
            entries.push(format!("F {} ffff/", self.n + 1));
        }
        prng.shuffle(&mut entries);
        format!("{}/{}", self.n, entries.concat())
    }

    pub fn statement(&self) -> Statement {
        read(&self.text()).expect("a draft can be read")
    }

    fn judged(&self) -> Judgement {
        judge(&self.statement())
    }
}

fn join(lines: &Lines) -> Vec<u8> {
    lines.iter().flat_map(|line| line.iter().copied().chain([10])).collect()
}

/// Mostly small.
pub fn random_size(prng: &mut Prng) -> u32 {
    match prng.below(20) {
        0 => 1,
        1..=13 => prng.between(2, 6),
        14..=16 => prng.between(7, 8),
        _ => prng.between(9, 16),
    }
}

pub fn random_set(prng: &mut Prng, n: u32, most_nodes: u32) -> u16 {
    let mut nodes: Vec<u32> = (1..=n).collect();
    prng.shuffle(&mut nodes);
    let size = prng.between(0, most_nodes.min(n)) as usize;
    Set::of(&nodes[..size]).mask()
}

fn random_family(prng: &mut Prng, n: u32, most_sets: u32, most_nodes: u32) -> Vec<u16> {
    let count = prng.between(1, most_sets);
    let mut masks: Vec<u16> = (0..count).map(|_| random_set(prng, n, most_nodes)).collect();
    put_in_order(&mut masks);
    masks
}

/// A readable draft; for more than 8 nodes with few small sets.
pub fn random_draft(prng: &mut Prng, n: u32, with_quorums: bool) -> Draft {
    let (most_sets, most_nodes) = if n <= 6 { (5, n) } else if n <= 8 { (3, n / 2) } else { (3, 4) };
    let fail_prone = (0..n).map(|_| random_family(prng, n, most_sets, most_nodes)).collect();
    let mut quorums = vec![Vec::new(); n as usize];
    if with_quorums {
        let all = prng.chance(1, 2);
        for family in &mut quorums {
            if all || prng.chance(1, 2) {
                *family = random_family(prng, n, 4, n);
            }
        }
    }
    Draft { n, fail_prone, quorums }
}

/// Takes Q lines and nodes of fail-prone sets away until the draft is sound.
pub fn sound_draft(prng: &mut Prng, n: u32, with_quorums: bool) -> Draft {
    let start_with_quorums = with_quorums && prng.chance(1, 2);
    let mut draft = random_draft(prng, n, start_with_quorums);
    loop {
        let judgement = draft.judged();
        let culprits = match (judgement.availability, judgement.consistency) {
            (Some(i), _) => vec![i],
            (None, Some((i, j))) => vec![i, j],
            (None, None) => break,
        };
        match culprits.iter().find(|k| !draft.quorums[of(**k)].is_empty()) {
            Some(k) => draft.quorums[of(*k)].clear(),
            None => take_a_node_away(prng, &mut draft, &culprits),
        }
    }
    if with_quorums {
        write_out_quorums(prng, &mut draft);
    }
    draft
}

fn take_a_node_away(prng: &mut Prng, draft: &mut Draft, culprits: &[u32]) {
    let mut choices = Vec::new();
    for k in culprits {
        let at = *k as usize - 1;
        for (which, mask) in draft.fail_prone[at].iter().enumerate() {
            choices.extend(Set::from_mask(*mask).nodes().iter().map(|node| (at, which, *node)));
        }
    }
    let (at, which, node) = prng.pick(&choices);
    let family = &mut draft.fail_prone[at];
    family[which] &= !Set::of(&[node]).mask();
    put_in_order(family);
}

/// Gives some nodes Q lines with their default quorums and with sets that
/// contain one of them; this keeps a sound draft sound.
fn write_out_quorums(prng: &mut Prng, draft: &mut Draft) {
    let n = draft.n;
    let must = prng.below(n as usize);
    for at in 0..n as usize {
        if !draft.quorums[at].is_empty() || (at != must && prng.chance(1, 3)) {
            continue;
        }
        let mut masks: Vec<u16> = draft.fail_prone[at].iter().map(|m| all_nodes(n) & !m).collect();
        for _ in 0..prng.below(3) {
            let larger = prng.pick(&masks) | random_set(prng, n, n);
            if masks.len() < 16 {
                masks.push(larger);
            }
        }
        put_in_order(&mut masks);
        draft.quorums[at] = masks;
    }
}

fn unsound_draft(prng: &mut Prng, n: u32, with_quorums: bool) -> Draft {
    for _ in 0..20 {
        let draft = random_draft(prng, n, with_quorums);
        if !draft.judged().sound() {
            return draft;
        }
    }
    // The set of all nodes is fail-prone: never sound.
    let mut draft = random_draft(prng, n, with_quorums);
    draft.fail_prone[0] = vec![all_nodes(n)];
    draft
}

/// All 513 lines: 16 F lines with the parts of {1, 2, 3, 4} and 16 Q lines
/// with the sets that contain {5, ..., 16}, for each of 16 nodes. Sound.
pub fn largest_draft() -> Draft {
    Draft { n: 16, fail_prone: vec![(0..16).collect(); 16], quorums: vec![(0xfff0..=0xffff).collect(); 16] }
}

/// The statement of RULES.md section 16.1.
pub fn sample_draft() -> Draft {
    Draft {
        n: 5,
        fail_prone: vec![vec![0x18], vec![0x18], vec![0x18], vec![0x01, 0x10], vec![0x02, 0x08]],
        quorums: vec![Vec::new(); 5],
    }
}

// Damages

#[derive(Clone, Copy, PartialEq, Debug)]
pub enum Spot {
    First,
    Middle,
    Last,
}

const SPOTS: [Spot; 3] = [Spot::First, Spot::Middle, Spot::Last];

impl Spot {
    fn name(self) -> &'static str {
        match self {
            Spot::First => "first",
            Spot::Middle => "middle",
            Spot::Last => "last",
        }
    }

    /// Which of `count` things is meant.
    fn of(self, count: usize) -> usize {
        match self {
            Spot::First => 0,
            Spot::Middle => count / 2,
            Spot::Last => count - 1,
        }
    }
}

/// A damage of the lines at a place among them. It needs lines of a kind.
#[derive(Clone, Copy, PartialEq)]
enum Needs {
    AnyLine,
    CountLine,
    EntryLine,
}

struct LineDamage {
    name: &'static str,
    refusal: u32,
    needs: Needs,
    apply: fn(&mut Lines, usize, u32),
}

fn fields(line: &[u8]) -> Vec<Vec<u8>> {
    line.split(|b| *b == 9).map(|field| field.to_vec()).collect()
}

fn with_field(lines: &mut Lines, at: usize, field: usize, content: &[u8]) {
    let mut row = fields(&lines[at]);
    row[field] = content.to_vec();
    lines[at] = row.join(&9);
}

fn with_entry(lines: &mut Lines, at: usize, node: u32) {
    with_field(lines, at, 1, node.to_string().as_bytes());
}

const LINE_DAMAGES: &[LineDamage] = &[
    // 1, Form
    LineDamage { name: "small letter", refusal: 1, needs: Needs::AnyLine, apply: |l, at, _| l[at][0] += 32 },
    LineDamage { name: "other letter", refusal: 1, needs: Needs::AnyLine, apply: |l, at, _| l[at][0] = b'Z' },
    LineDamage { name: "letter twice", refusal: 1, needs: Needs::AnyLine, apply: |l, at, _| {
        let letter = l[at][0];
        l[at].insert(0, letter);
    } },
    LineDamage { name: "no letter", refusal: 1, needs: Needs::AnyLine, apply: |l, at, _| { l[at].remove(0); } },
    LineDamage { name: "letter and tab gone", refusal: 1, needs: Needs::AnyLine, apply: |l, at, _| { l[at].drain(..2); } },
    LineDamage { name: "empty line instead", refusal: 1, needs: Needs::AnyLine, apply: |l, at, _| l[at].clear() },
    LineDamage { name: "empty line before", refusal: 1, needs: Needs::AnyLine, apply: |l, at, _| l.insert(at, Vec::new()) },
    LineDamage { name: "letter only", refusal: 1, needs: Needs::AnyLine, apply: |l, at, _| l[at].truncate(1) },
    LineDamage { name: "last field gone", refusal: 1, needs: Needs::AnyLine, apply: |l, at, _| {
        let mut row = fields(&l[at]);
        row.pop();
        l[at] = row.join(&9);
    } },
    LineDamage { name: "one field more", refusal: 1, needs: Needs::AnyLine, apply: |l, at, _| l[at].extend(b"\t0001") },
    LineDamage { name: "tab at the end", refusal: 1, needs: Needs::AnyLine, apply: |l, at, _| l[at].push(9) },
    LineDamage { name: "tab at the start", refusal: 1, needs: Needs::AnyLine, apply: |l, at, _| l[at].insert(0, 9) },
    LineDamage { name: "two tabs", refusal: 1, needs: Needs::AnyLine, apply: |l, at, _| l[at].insert(1, 9) },
    LineDamage { name: "space for tab", refusal: 1, needs: Needs::AnyLine, apply: |l, at, _| l[at][1] = 32 },
    LineDamage { name: "space at the end", refusal: 1, needs: Needs::AnyLine, apply: |l, at, _| l[at].push(32) },
    LineDamage { name: "byte 13 at the end", refusal: 1, needs: Needs::AnyLine, apply: |l, at, _| l[at].push(13) },
    LineDamage { name: "byte 0 at the end", refusal: 1, needs: Needs::AnyLine, apply: |l, at, _| l[at].push(0) },
    LineDamage { name: "byte 255", refusal: 1, needs: Needs::AnyLine, apply: |l, at, _| l[at][2] = 255 },
    LineDamage { name: "byte order mark", refusal: 1, needs: Needs::AnyLine, apply: |l, at, _| {
        l[at].splice(0..0, [0xef, 0xbb, 0xbf]);
    } },
    LineDamage { name: "no decimal", refusal: 1, needs: Needs::AnyLine, apply: |l, at, _| with_field(l, at, 1, b"") },
    LineDamage { name: "decimal 00", refusal: 1, needs: Needs::AnyLine, apply: |l, at, _| with_field(l, at, 1, b"00") },
    LineDamage { name: "decimal 01", refusal: 1, needs: Needs::AnyLine, apply: |l, at, _| with_field(l, at, 1, b"01") },
    LineDamage { name: "decimal 100", refusal: 1, needs: Needs::AnyLine, apply: |l, at, _| with_field(l, at, 1, b"100") },
    LineDamage { name: "decimal with sign", refusal: 1, needs: Needs::AnyLine, apply: |l, at, _| with_field(l, at, 1, b"+1") },
    LineDamage { name: "decimal of letters", refusal: 1, needs: Needs::AnyLine, apply: |l, at, _| with_field(l, at, 1, b"a") },
    LineDamage { name: "byte before the digits", refusal: 1, needs: Needs::AnyLine, apply: |l, at, _| with_field(l, at, 1, b"/") },
    LineDamage { name: "byte after the digits", refusal: 1, needs: Needs::AnyLine, apply: |l, at, _| with_field(l, at, 1, b"1:") },
    LineDamage { name: "mask of three", refusal: 1, needs: Needs::EntryLine, apply: |l, at, _| with_field(l, at, 2, b"000") },
    LineDamage { name: "mask of five", refusal: 1, needs: Needs::EntryLine, apply: |l, at, _| with_field(l, at, 2, b"00001") },
    LineDamage { name: "no mask", refusal: 1, needs: Needs::EntryLine, apply: |l, at, _| with_field(l, at, 2, b"") },
    LineDamage { name: "upper-case mask", refusal: 1, needs: Needs::EntryLine, apply: |l, at, _| with_field(l, at, 2, b"000A") },
    LineDamage { name: "mask digit g", refusal: 1, needs: Needs::EntryLine, apply: |l, at, _| with_field(l, at, 2, b"000g") },
    LineDamage { name: "mask digit `", refusal: 1, needs: Needs::EntryLine, apply: |l, at, _| with_field(l, at, 2, b"000`") },
    LineDamage { name: "mask with 0x", refusal: 1, needs: Needs::EntryLine, apply: |l, at, _| with_field(l, at, 2, b"0x01") },
    // 2, Range
    LineDamage { name: "count 0", refusal: 2, needs: Needs::CountLine, apply: |l, at, _| with_entry(l, at, 0) },
    LineDamage { name: "count 17", refusal: 2, needs: Needs::CountLine, apply: |l, at, _| with_entry(l, at, 17) },
    LineDamage { name: "count 99", refusal: 2, needs: Needs::CountLine, apply: |l, at, _| with_entry(l, at, 99) },
    LineDamage { name: "second count 0", refusal: 2, needs: Needs::EntryLine, apply: |l, at, _| l[at] = b"N\t0".to_vec() },
    LineDamage { name: "second count 17", refusal: 2, needs: Needs::EntryLine, apply: |l, at, _| l[at] = b"N\t17".to_vec() },
    LineDamage { name: "node 0", refusal: 2, needs: Needs::EntryLine, apply: |l, at, _| with_entry(l, at, 0) },
    LineDamage { name: "node n + 1", refusal: 2, needs: Needs::EntryLine, apply: |l, at, n| with_entry(l, at, n + 1) },
    LineDamage { name: "node 99", refusal: 2, needs: Needs::EntryLine, apply: |l, at, _| with_entry(l, at, 99) },
    LineDamage { name: "mask with node n + 1", refusal: 2, needs: Needs::EntryLine, apply: |l, at, n| {
        with_field(l, at, 2, show_mask(1u16 << n).as_bytes())
    } },
    LineDamage { name: "mask with node 16", refusal: 2, needs: Needs::EntryLine, apply: |l, at, _| with_field(l, at, 2, b"8000") },
    // 3, Order
    LineDamage { name: "N line gone", refusal: 3, needs: Needs::CountLine, apply: |l, at, _| { l.remove(at); } },
    LineDamage { name: "N line second", refusal: 3, needs: Needs::CountLine, apply: |l, at, _| l.swap(at, at + 1) },
    LineDamage { name: "first line F out of range", refusal: 3, needs: Needs::CountLine, apply: |l, at, _| l[at] = b"F\t99\tffff".to_vec() },
    LineDamage { name: "first line Q", refusal: 3, needs: Needs::CountLine, apply: |l, at, _| l[at] = b"Q\t0\tffff".to_vec() },
    LineDamage { name: "N line again", refusal: 3, needs: Needs::EntryLine, apply: |l, at, n| {
        l.insert(at + 1, format!("N\t{n}").into_bytes())
    } },
    LineDamage { name: "mask again", refusal: 3, needs: Needs::EntryLine, apply: |l, at, _| {
        let line = l[at].clone();
        l.insert(at + 1, line);
    } },
];

/// A damage of the lines of one node: its number is given. The draft has at
/// least 5 and at most 15 nodes.
struct NodeDamage {
    name: &'static str,
    refusal: u32,
    apply: fn(&Draft, u32) -> Lines,
}

fn changed(draft: &Draft, change: impl Fn(&mut Draft)) -> Draft {
    let mut draft = draft.clone();
    change(&mut draft);
    draft
}

/// The draft with other sets of a node.
fn with_sets(draft: &Draft, node: u32, fail_prone: &[u16], quorums: &[u16]) -> Draft {
    changed(draft, |d| {
        d.fail_prone[of(node)] = fail_prone.to_vec();
        d.quorums[of(node)] = quorums.to_vec();
    })
}

const SIXTEEN: [u16; 16] = [0, 1, 2, 3, 4, 5, 6, 7, 8, 9, 10, 11, 12, 13, 14, 15];

/// The lines with one more line after the last line of a node.
fn with_line_after(draft: &Draft, node: u32, line: Vec<u8>) -> Lines {
    let mut lines = draft.lines();
    let of_node = |l: &Vec<u8>| fields(l)[0] != b"N" && fields(l)[1] == node.to_string().into_bytes();
    let at = lines.iter().rposition(of_node).map_or(lines.len(), |at| at + 1);
    lines.insert(at, line);
    lines
}

fn of(node: u32) -> usize {
    node as usize - 1
}

const NODE_DAMAGES: &[NodeDamage] = &[
    NodeDamage { name: "node falls", refusal: 3, apply: |draft, node| {
        let after = node.max(2);
        with_line_after(draft, after, entry('F', after - 1, all_nodes(draft.n)))
    } },
    NodeDamage { name: "node falls, Q line", refusal: 3, apply: |draft, node| {
        let after = node.max(2);
        with_line_after(draft, after, entry('Q', 1, 1))
    } },
    NodeDamage { name: "F after Q", refusal: 3, apply: |draft, node| {
        with_line_after(&with_sets(draft, node, &[1], &[3]), node, entry('F', node, 2))
    } },
    NodeDamage { name: "F after Q without F", refusal: 3, apply: |draft, node| {
        with_line_after(&with_sets(draft, node, &[], &[3]), node, entry('F', node, 2))
    } },
    NodeDamage { name: "F mask falls", refusal: 3, apply: |draft, node| {
        with_line_after(&with_sets(draft, node, &[1, 4], &[]), node, entry('F', node, 2))
    } },
    NodeDamage { name: "Q mask falls", refusal: 3, apply: |draft, node| {
        let draft = changed(draft, |d| d.quorums[of(node)] = vec![5, 9]);
        with_line_after(&draft, node, entry('Q', node, 8))
    } },
    NodeDamage { name: "17 F lines", refusal: 4, apply: |draft, node| {
        with_line_after(&with_sets(draft, node, &SIXTEEN, &[]), node, entry('F', node, 16))
    } },
    NodeDamage { name: "17 Q lines", refusal: 4, apply: |draft, node| {
        let draft = changed(draft, |d| d.quorums[of(node)] = (1..17).collect());
        with_line_after(&draft, node, entry('Q', node, all_nodes(draft.n)))
    } },
    NodeDamage { name: "17th F line, mask again", refusal: 3, apply: |draft, node| {
        with_line_after(&with_sets(draft, node, &SIXTEEN, &[]), node, entry('F', node, 15))
    } },
    NodeDamage { name: "17th Q line, mask out of range", refusal: 2, apply: |draft, node| {
        let draft = changed(draft, |d| d.quorums[of(node)] = (1..17).collect());
        with_line_after(&draft, node, entry('Q', node, 0xffff))
    } },
    NodeDamage { name: "17th F line without form", refusal: 1, apply: |draft, node| {
        with_line_after(&with_sets(draft, node, &SIXTEEN, &[]), node, format!("F\t{node}\t010").into_bytes())
    } },
    NodeDamage { name: "node falls, mask out of range", refusal: 2, apply: |draft, node| {
        let after = node.max(2);
        with_line_after(draft, after, entry('F', after - 1, 0x8000))
    } },
    NodeDamage { name: "no line of a node", refusal: 5, apply: |draft, node| {
        with_sets(draft, node, &[], &[]).lines()
    } },
    NodeDamage { name: "only Q lines of a node", refusal: 5, apply: |draft, node| {
        with_sets(draft, node, &[], &[1, 7]).lines()
    } },
    NodeDamage { name: "no line of two nodes", refusal: 5, apply: |draft, node| {
        changed(draft, |d| {
            for at in [of(node), of(node % d.n + 1)] {
                d.fail_prone[at].clear();
                d.quorums[at].clear();
            }
        })
        .lines()
    } },
    NodeDamage { name: "ends after a node", refusal: 5, apply: |draft, node| {
        // The lines of node n are gone if the node is the last.
        let kept = node.min(draft.n - 1);
        changed(draft, |d| {
            for at in kept as usize..d.n as usize {
                d.fail_prone[at].clear();
                d.quorums[at].clear();
            }
        })
        .lines()
    } },
];

/// What one generated text is.
pub struct Made {
    pub class: String,
    pub text: Vec<u8>,
    /// The refusal that the text must give, where it is known beforehand: 0
    /// for a sound statement, 9 for an unsound one.
    pub expected: Option<u32>,
}

fn base_draft(prng: &mut Prng, least: u32, most: u32) -> Draft {
    let n = prng.between(least, most);
    let with_quorums = prng.chance(1, 2);
    random_draft(prng, n, with_quorums)
}

enum Job {
    OfLine(&'static LineDamage, Spot),
    OfNode(&'static NodeDamage, Spot),
}

/// Every damage with this refusal, at every spot that it can be made at.
fn damage_jobs(refusal: u32) -> Vec<Job> {
    let mut jobs = Vec::new();
    for damage in LINE_DAMAGES.iter().filter(|d| d.refusal == refusal) {
        for spot in SPOTS {
            let fits = match damage.needs {
                Needs::AnyLine => true,
                Needs::CountLine => spot == Spot::First,
                Needs::EntryLine => spot != Spot::First,
            };
            if fits {
                jobs.push(Job::OfLine(damage, spot));
            }
        }
    }
    for damage in NODE_DAMAGES.iter().filter(|d| d.refusal == refusal) {
        jobs.extend(SPOTS.iter().map(|spot| Job::OfNode(damage, *spot)));
    }
    jobs
}

/// The damages with this refusal come in turn.
fn damaged(prng: &mut Prng, refusal: u32, turn: usize) -> Made {
    let jobs = damage_jobs(refusal);
    let (name, spot, text) = match &jobs[turn % jobs.len()] {
        Job::OfLine(damage, spot) => {
            let draft = base_draft(prng, 2, 15);
            let mut lines = draft.lines();
            let at = spot.of(lines.len());
            (damage.apply)(&mut lines, at, draft.n);
            (damage.name, spot, join(&lines))
        }
        Job::OfNode(damage, spot) => {
            let draft = base_draft(prng, 5, 15);
            let node = spot.of(draft.n as usize) as u32 + 1;
            (damage.name, spot, join(&(damage.apply)(&draft, node)))
        }
    };
    Made { class: format!("{refusal} {name} {}", spot.name()), text, expected: Some(refusal) }
}

/// The text stops in or after some line and that line has no end.
fn without_end(prng: &mut Prng) -> Made {
    let spot = prng.pick(&SPOTS);
    let mut lines = base_draft(prng, 2, 8).lines();
    let at = spot.of(lines.len());
    lines.truncate(at + 1);
    let mut text = join(&lines);
    text.pop();
    Made { class: format!("1 line without end {}", spot.name()), text, expected: Some(1) }
}

/// Two damages of lines: the first bad line is the one that is reported.
fn damaged_twice(prng: &mut Prng) -> Made {
    let draft = base_draft(prng, 3, 15);
    let mut lines = draft.lines();
    let (one, two) = (prng.below(lines.len()), prng.below(lines.len()));
    let mut name = String::from("two damages");
    for at in [one.max(two), one.min(two)] {
        let needed = if at == 0 { Needs::CountLine } else { Needs::EntryLine };
        let fitting: Vec<&LineDamage> =
            LINE_DAMAGES.iter().filter(|d| d.needs == Needs::AnyLine || d.needs == needed).collect();
        let damage = fitting[prng.below(fitting.len())];
        // A second damage of the same line may find no field to work on.
        if one == two && at == one && name.contains(';') {
            continue;
        }
        (damage.apply)(&mut lines, at, draft.n);
        name += &format!("; {} at line {}", damage.name, at + 1);
    }
    Made { class: name, text: join(&lines), expected: None }
}

/// A later bad line is reported instead of a missing F line.
fn damaged_and_missing(prng: &mut Prng) -> Made {
    let mut draft = base_draft(prng, 3, 15);
    let lost = prng.below(draft.n as usize - 1);
    draft.fail_prone[lost].clear();
    draft.quorums[lost].clear();
    let mut lines = draft.lines();
    lines.push(b"Z".to_vec());
    Made { class: "1 bad last line and a missing F line".to_string(), text: join(&lines), expected: Some(1) }
}

/// One byte changed, lost or added, or the text cut off.
fn random_edit(prng: &mut Prng) -> Made {
    let mut text = base_draft(prng, 1, 8).text();
    for _ in 0..=prng.below(3) {
        let at = prng.below(text.len());
        let byte = if prng.chance(3, 4) { random_text_byte(prng) } else { prng.next() as u8 };
        match prng.below(5) {
            0 => text[at] = byte,
            1 => text.insert(at, byte),
            2 if text.len() > 1 => drop(text.remove(at)),
            3 => text[at] ^= 1 << prng.below(8),
            _ => text.truncate(at.max(1)),
        }
    }
    Made { class: "edited".to_string(), text, expected: None }
}

fn random_text_byte(prng: &mut Prng) -> u8 {
    prng.pick(b"\t\t\t\n\nNFQ0123456789abcdef")
}

fn random_bytes(prng: &mut Prng) -> Made {
    let length = prng.below(120);
    let text = (0..length).map(|_| prng.next() as u8).collect();
    Made { class: "random bytes".to_string(), text, expected: None }
}

/// Lines of the right form whose numbers are random.
fn random_lines(prng: &mut Prng) -> Made {
    let mut lines = vec![format!("N\t{}", prng.between(0, 18)).into_bytes()];
    for _ in 0..prng.below(8) {
        let letter = prng.pick(&['F', 'F', 'F', 'Q', 'N']);
        let node = prng.between(0, 6);
        if letter == 'N' {
            lines.push(format!("N\t{node}").into_bytes());
        } else {
            let mask = random_set(prng, 16, 2) & prng.pick(&[0x1, 0x3, 0x7, 0xf, 0xffff]);
            lines.push(entry(letter, node, mask));
        }
    }
    Made { class: "random lines".to_string(), text: join(&lines), expected: None }
}

fn random_text_bytes(prng: &mut Prng) -> Made {
    let length = prng.below(60);
    let text = (0..length).map(|_| random_text_byte(prng)).collect();
    Made { class: "random bytes of a text".to_string(), text, expected: None }
}

/// Sets at the limits: `0000` and the set of all nodes, in F and Q lines.
fn limits(prng: &mut Prng) -> Made {
    let n = prng.between(1, 16);
    let all = all_nodes(n);
    let mut draft = Draft { n, fail_prone: vec![vec![0]; n as usize], quorums: vec![Vec::new(); n as usize] };
    for at in 0..n as usize {
        if n <= 8 && prng.chance(1, 4) {
            draft.fail_prone[at] = prng.pick(&[vec![0, all], vec![all], vec![all & 1], vec![0, 1, all]]);
            put_in_order(&mut draft.fail_prone[at]);
        }
        if prng.chance(1, 4) {
            draft.quorums[at] = prng.pick(&[vec![0], vec![all], vec![0, all], vec![all & 0x5, all]]);
            put_in_order(&mut draft.quorums[at]);
        }
    }
    Made { class: "limits".to_string(), text: draft.text(), expected: None }
}

fn fixed(prng: &mut Prng) -> Made {
    let largest = largest_draft();
    match prng.below(8) {
        0 => Made { class: "empty".to_string(), text: Vec::new(), expected: Some(3) },
        1 => Made { class: "sample".to_string(), text: sample_draft().text(), expected: Some(0) },
        2 => Made { class: "shortest".to_string(), text: b"N\t1\nF\t1\t0000\n".to_vec(), expected: Some(0) },
        3 => Made { class: "largest".to_string(), text: largest.text(), expected: Some(0) },
        4 => {
            let mut lines = largest.lines();
            lines.push(entry('Q', 16, 0xffff));
            Made { class: "514 lines, 3".to_string(), text: join(&lines), expected: Some(3) }
        }
        5 => {
            let lines = changed(&largest, |d| d.quorums[15] = (0xffe0..0xfff0).collect());
            let lines = with_line_after(&lines, 16, entry('Q', 16, 0xffff));
            Made { class: "514 lines, 4".to_string(), text: join(&lines), expected: Some(4) }
        }
        6 => {
            let n = prng.between(1, 16);
            let text = format!("N\t{n}\n").into_bytes();
            Made { class: "N line only".to_string(), text, expected: Some(5) }
        }
        _ => {
            let text = b"N\t4\nF\t1\t0002\nF\t1\t000c\nF\t2\t0001\nF\t2\t000c\nF\t3\t0003\nF\t4\t0006\n".to_vec();
            Made { class: "unsound sample".to_string(), text, expected: Some(9) }
        }
    }
}

/// The text with the number `index` (from 0). The classes come in turn.
pub fn make(prng: &mut Prng, index: usize) -> Made {
    let n = random_size(prng);
    let good = |class: &str, draft: Draft, expected| Made { class: class.to_string(), text: draft.text(), expected };
    match index % 16 {
        0 => good("sound, default quorums", sound_draft(prng, n, false), Some(0)),
        1 => good("sound, Q lines", sound_draft(prng, n, true), Some(0)),
        2 => good("unsound, default quorums", unsound_draft(prng, n, false), Some(9)),
        3 => good("unsound, Q lines", unsound_draft(prng, n, true), Some(9)),
        4 => good("any, Q lines", random_draft(prng, n, true), None),
        which @ 5..=9 => damaged(prng, which as u32 - 4, index / 16),
        10 => without_end(prng),
        11 if prng.chance(1, 2) => damaged_twice(prng),
        11 => damaged_and_missing(prng),
        12 => random_edit(prng),
        13 => match prng.below(3) {
            0 => random_bytes(prng),
            1 => random_text_bytes(prng),
            _ => random_lines(prng),
        },
        14 => limits(prng),
        _ => fixed(prng),
    }
}

/// A few faulty masks for a text.
pub fn masks(prng: &mut Prng, text: &[u8]) -> Vec<u16> {
    let mut row = vec![0];
    match read(text) {
        Ok(statement) => {
            let n = statement.n;
            row.push(Set::of(&[prng.between(1, n)]).mask());
            row.push(random_set(prng, n, n));
            let family = statement.fail_prone(prng.between(1, n));
            row.push(family[prng.below(family.len())].mask());
            row.push(all_nodes(n));
            if n < 16 {
                row.push(1 << n);
            }
            row.push(0x8000);
        }
        Err(_) => row.extend([prng.next() as u16, 0xffff]),
    }
    row
}

/// Writes `count` texts with their masks, and an index of their classes.
pub fn write_all(seed: u64, count: usize, directory: &str) -> std::io::Result<()> {
    let mut prng = Prng::new(seed);
    let mut index = String::new();
    std::fs::create_dir_all(directory)?;
    for at in 0..count {
        let made = make(&mut prng, at);
        let masks = masks(&mut prng, &made.text);
        let name = format!("{:06}", at + 1);
        std::fs::write(format!("{directory}/{name}.txt"), &made.text)?;
        let lines: String = masks.iter().map(|m| show_mask(*m) + "\n").collect();
        std::fs::write(format!("{directory}/{name}.masks"), lines)?;
        index += &format!("{name}\t{}\n", made.class);
    }
    std::fs::write(format!("{directory}/index.tsv"), index)
}
