//! Times judging through the static library against the same search in Rust, in one run.
//!
//! Both sides get the same texts and the same faulty mask, read the text, sort the nodes and judge the
//! statement by the same tests in the same order; a differing answer ends the run with status 1.
use std::collections::BTreeSet;
use std::hint::black_box;
use std::time::Instant;

extern "C" {
    fn zurbeshik_guild(text: *const u8, len: usize, faulty: u16) -> u64;
}

const NODES: usize = 16;
const ROUNDS: usize = 31;

#[derive(Clone, Copy)]
struct Family {
    masks: [u16; 16],
    count: usize,
}

impl Family {
    const EMPTY: Family = Family { masks: [0; 16], count: 0 };

    fn push(&mut self, mask: u16) {
        self.masks[self.count] = mask;
        self.count += 1;
    }

    fn sets(&self) -> &[u16] {
        &self.masks[..self.count]
    }
}

struct Statement {
    nodes: usize,
    fails: [Family; 16],
    quorums: [Family; 16],
}

fn is_part(masks: &[u16], s: u16) -> bool {
    masks.iter().any(|f| s & !f == 0)
}

impl Statement {
    /// Reads a well-formed text; the generator makes no others.
    fn read(text: &[u8]) -> Statement {
        let mut statement = Statement { nodes: 0, fails: [Family::EMPTY; 16], quorums: [Family::EMPTY; 16] };
        for line in text.split(|b| *b == b'\n').filter(|line| !line.is_empty()) {
            let mut fields = line.split(|b| *b == b'\t').map(|f| std::str::from_utf8(f).unwrap());
            let word = fields.next().unwrap();
            let number: usize = fields.next().unwrap().parse().unwrap();
            if word == "N" {
                statement.nodes = number;
                continue;
            }
            let mask = u16::from_str_radix(fields.next().unwrap(), 16).unwrap();
            let families = if word == "F" { &mut statement.fails } else { &mut statement.quorums };
            families[number - 1].push(mask);
        }
        statement
    }

    fn consistent(&self, i: usize, j: usize) -> bool {
        let (ours, theirs) = (self.fails[i].sets(), self.fails[j].sets());
        self.quorums[i].sets().iter().all(|q| {
            self.quorums[j].sets().iter().all(|r| !(is_part(ours, q & r) && is_part(theirs, q & r)))
        })
    }

    fn available(&self, i: usize) -> bool {
        self.fails[i].sets().iter().all(|f| self.quorums[i].sets().iter().any(|q| q & f == 0))
    }

    fn sound(&self) -> bool {
        (0..self.nodes).all(|i| self.available(i))
            && (0..self.nodes).all(|i| (0..self.nodes).all(|j| self.consistent(i, j)))
    }

    fn kept(&self, set: u16) -> u16 {
        (0..self.nodes)
            .filter(|i| set >> i & 1 == 1 && self.quorums[*i].sets().iter().any(|q| q & !set == 0))
            .fold(0, |kept, i| kept | 1 << i)
    }

    /// The packed answer for a faulty mask in range.
    fn answer(&self, faulty: u16) -> u64 {
        let wise = (0..self.nodes)
            .filter(|i| faulty >> i & 1 == 0 && is_part(self.fails[*i].sets(), faulty))
            .fold(0u16, |wise, i| wise | 1 << i);
        let mut guild = wise;
        while self.kept(guild) != guild {
            guild = self.kept(guild);
        }
        if !self.sound() {
            return 9 << 32;
        }
        u64::from(wise) | u64::from(guild) << 16
    }
}

struct Random(u64);

impl Random {
    fn next(&mut self) -> u64 {
        self.0 ^= self.0 << 13;
        self.0 ^= self.0 >> 7;
        self.0 ^= self.0 << 17;
        self.0
    }

    /// A set of at most `size` nodes.
    fn set(&mut self, size: usize) -> u16 {
        (0..size).fold(0, |set, _| set | 1 << (self.next() % NODES as u64))
    }
}

/// A full statement: 16 fail-prone sets for each node, and their complements as quorums, both rising.
fn text(sets: impl Fn(usize, &mut Random) -> BTreeSet<u16>, random: &mut Random) -> Vec<u8> {
    let mut text = format!("N\t{NODES}\n");
    for i in 0..NODES {
        let fails = sets(i, random);
        assert_eq!(fails.len(), 16);
        fails.iter().for_each(|f| text += &format!("F\t{}\t{f:04x}\n", i + 1));
        fails.iter().rev().for_each(|f| text += &format!("Q\t{}\t{:04x}\n", i + 1, !f));
    }
    text.into_bytes()
}

/// The sets given and more of at most 5 nodes, 16 in all. Three of the latter never cover 16 nodes.
fn filled(given: &[u16], random: &mut Random) -> BTreeSet<u16> {
    let mut sets: BTreeSet<u16> = given.iter().copied().collect();
    while sets.len() < 16 {
        sets.insert(random.set(5));
    }
    sets
}

/// Three sets that cover all nodes.
const COVER: [u16; 3] = [0x003f, 0x07e0, 0xfc00];

fn sound(_: usize, random: &mut Random) -> BTreeSet<u16> {
    filled(&[], random)
}

/// Single nodes, but three sets of node 16 cover all nodes: only the pair (16, 16) fails.
fn fails_last(i: usize, _: &mut Random) -> BTreeSet<u16> {
    let singles = (0..NODES).map(|k| 1 << k);
    if i == NODES - 1 { singles.take(13).chain(COVER).collect() } else { singles.collect() }
}

/// Three sets of node 1 cover all nodes: the pair (1, 1) fails.
fn fails_first(i: usize, random: &mut Random) -> BTreeSet<u16> {
    filled(if i == 0 { &COVER } else { &[] }, random)
}

fn nanoseconds(texts: &[Vec<u8>], answer: impl Fn(&[u8]) -> u64) -> f64 {
    let start = Instant::now();
    for text in texts {
        black_box(answer(black_box(text)));
    }
    start.elapsed().as_nanos() as f64 / texts.len() as f64
}

fn middle(mut row: Vec<f64>) -> (f64, f64, f64) {
    row.sort_by(f64::total_cmp);
    (row[0], row[row.len() / 2], row[row.len() - 1])
}

fn main() {
    let mut random = Random(20261118);
    let library = |text: &[u8]| unsafe { zurbeshik_guild(text.as_ptr(), text.len(), 1) };
    let rust = |text: &[u8]| Statement::read(text).answer(1);
    type Sets = fn(usize, &mut Random) -> BTreeSet<u16>;
    let kinds: [(&str, Sets, bool); 3] =
        [("sound", sound, true), ("unsound at the last pair", fails_last, false), ("unsound at the first pair", fails_first, false)];
    println!("{ROUNDS} rounds of 8 texts each; times per text in microseconds, lowest, middle and highest round");
    for (name, sets, is_sound) in kinds {
        let texts: Vec<Vec<u8>> = (0..8).map(|_| text(sets, &mut random)).collect();
        for text in &texts {
            let (ours, theirs) = (library(text), rust(text));
            if ours != theirs || (ours >> 32 == 0) != is_sound {
                eprintln!("{name}: the library answers {ours}, Rust {theirs}");
                std::process::exit(1);
            }
        }
        let (mut ours, mut theirs, mut ratios) = (vec![], vec![], vec![]);
        for _ in 0..ROUNDS {
            let (a, b) = (nanoseconds(&texts, library), nanoseconds(&texts, rust));
            ours.push(a / 1000.0);
            theirs.push(b / 1000.0);
            ratios.push(a / b);
        }
        let (a, b, r) = (middle(ours), middle(theirs), middle(ratios));
        println!("{name}:");
        println!("    library {:.1} {:.1} {:.1}", a.0, a.1, a.2);
        println!("    Rust    {:.1} {:.1} {:.1}", b.0, b.1, b.2);
        println!("    ratio   {:.2} {:.2} {:.2}", r.0, r.1, r.2);
    }
}
