//! Judging a statement (RULES.md section 4).

use crate::definitions::*;
use crate::sets::Family;
use crate::statement::Statement;

/// `None` stands for "all".
#[derive(Clone, Copy, Debug, PartialEq, Eq)]
pub struct Judgement {
    pub b3: Option<(u32, u32)>,
    pub consistency: Option<(u32, u32)>,
    pub availability: Option<u32>,
}

impl Judgement {
    /// Every pair is consistent and every node is available.
    pub fn sound(&self) -> bool {
        self.consistency.is_none() && self.availability.is_none()
    }
}

/// Above this many single tests, trying every set C takes too long.
const MOST_TESTS: u64 = 1_000_000_000;

/// Judges by trying every set C. Where that would take more than MOST_TESTS
/// tests it uses the direct tests of section 3 and says so on standard error.
pub fn judge(statement: &Statement) -> Judgement {
    if tests_needed(statement) <= MOST_TESTS {
        judge_by_enumeration(statement)
    } else {
        eprintln!("oracle: too many sets to try; judged by the direct tests of RULES.md section 3");
        judge_by_direct_tests(statement)
    }
}

/// Exactly the definitions: all sets C that both nodes tolerate are tried.
pub fn judge_by_enumeration(statement: &Statement) -> Judgement {
    let n = statement.n;
    let tolerated: Vec<Family> = (1..=n).map(|i| tolerated_sets(statement.fail_prone(i))).collect();
    judge_pairs(statement, |i, j| {
        let (fi, fj) = (statement.fail_prone(i), statement.fail_prone(j));
        let both = tolerated_by_both(&tolerated[i as usize - 1], fj);
        (meets_b3(n, fi, fj, &both), consistent(statement.quorums(i), statement.quorums(j), &both))
    })
}

pub fn judge_by_direct_tests(statement: &Statement) -> Judgement {
    judge_pairs(statement, |i, j| {
        let (fi, fj) = (statement.fail_prone(i), statement.fail_prone(j));
        (
            meets_b3_direct(statement.n, fi, fj),
            consistent_direct(statement.quorums(i), statement.quorums(j), fi, fj),
        )
    })
}

/// Pairs are tried for i from 1 to n, and for each i for j from 1 to n.
/// `test` gives whether the pair meets B3 and whether it is consistent.
fn judge_pairs(statement: &Statement, test: impl Fn(u32, u32) -> (bool, bool)) -> Judgement {
    let mut judgement = Judgement { b3: None, consistency: None, availability: None };
    for i in 1..=statement.n {
        for j in 1..=statement.n {
            if judgement.b3.is_some() && judgement.consistency.is_some() {
                break;
            }
            let (meets, consistent) = test(i, j);
            if !meets && judgement.b3.is_none() {
                judgement.b3 = Some((i, j));
            }
            if !consistent && judgement.consistency.is_none() {
                judgement.consistency = Some((i, j));
            }
        }
    }
    judgement.availability =
        (1..=statement.n).find(|i| !available(statement.fail_prone(*i), statement.quorums(*i)));
    judgement
}

fn tests_needed(statement: &Statement) -> u64 {
    let n = statement.n;
    let tolerated = |i: u32| -> u64 {
        let parts: u64 = statement.fail_prone(i).iter().map(|a| 1u64 << a.count()).sum();
        parts.min(1 << n)
    };
    let mut sum = 0;
    for i in 1..=n {
        for j in 1..=n {
            let both = tolerated(i).min(tolerated(j));
            let (fi, fj) = (statement.fail_prone(i).len() as u64, statement.fail_prone(j).len() as u64);
            let (qi, qj) = (statement.quorums(i).len() as u64, statement.quorums(j).len() as u64);
            sum += tolerated(i) * fj + (fi * fj + qi * qj) * both;
        }
    }
    sum
}
