//! The trust rule and its five questions (RULES.md sections 6 and 7).

use crate::definitions;
use crate::judging;
use crate::sets::{Family, Set};
use crate::statement::Statement;
use std::cell::OnceCell;

pub struct Rule {
    body: Body,
    sound: OnceCell<bool>,
}

enum Body {
    Listed(Statement),
    /// The quorums are written out: all sets of exactly q of the n nodes.
    Threshold { n: u32, f: u32, q: u32, quorums: Family },
}

/// Up to this size the soundness of a threshold rule is found by the
/// definitions, with every quorum and every tolerated set tried in every
/// pair; above it by the table of section 7.2. `selftest` checks that the
/// two agree.
pub const MOST_NODES_BY_DEFINITION: u32 = 6;

impl Rule {
    pub fn listed(statement: Statement) -> Rule {
        Rule { body: Body::Listed(statement), sound: OnceCell::new() }
    }

    /// Refused with 2 when n is 0 or above 16, or f or q is above 16.
    pub fn threshold(n: u32, f: u32, q: u32) -> Result<Rule, u32> {
        if n == 0 || n > 16 || f > 16 || q > 16 {
            return Err(2);
        }
        let quorums = Set::all(n).parts().into_iter().filter(|s| s.count() == q).collect();
        Ok(Rule { body: Body::Threshold { n, f, q, quorums }, sound: OnceCell::new() })
    }

    // The meaning.

    fn quorums(&self, node: u32) -> &Family {
        match &self.body {
            Body::Listed(statement) => statement.quorums(node),
            Body::Threshold { quorums, .. } => quorums,
        }
    }

    /// The largest number of quorums of a node.
    pub fn most_quorums(&self) -> usize {
        (1..=self.size()).map(|node| self.quorums(node).len()).max().unwrap_or(0)
    }

    /// Whether a node in range tolerates a set in range.
    pub fn node_tolerates(&self, node: u32, s: &Set) -> bool {
        match &self.body {
            Body::Listed(statement) => definitions::tolerates(statement.fail_prone(node), s),
            Body::Threshold { f, .. } => s.count() <= *f,
        }
    }

    /// Whether a set in range holds a quorum of a node in range.
    pub fn set_holds_quorum(&self, node: u32, s: &Set) -> bool {
        definitions::holds_quorum(self.quorums(node), s)
    }

    /// Whether a set in range holds a kernel of a node in range.
    pub fn set_holds_kernel(&self, node: u32, s: &Set) -> bool {
        definitions::holds_kernel(self.quorums(node), s)
    }

    // The five questions.

    pub fn size(&self) -> u32 {
        match &self.body {
            Body::Listed(statement) => statement.n,
            Body::Threshold { n, .. } => *n,
        }
    }

    pub fn holds_quorum(&self, node: u32, s: &Set) -> bool {
        self.may_ask(node, s) && self.set_holds_quorum(node, s)
    }

    pub fn holds_kernel(&self, node: u32, s: &Set) -> bool {
        self.may_ask(node, s) && self.set_holds_kernel(node, s)
    }

    pub fn tolerated(&self, node: u32, s: &Set) -> bool {
        self.may_ask(node, s) && self.node_tolerates(node, s)
    }

    pub fn sound(&self) -> bool {
        *self.sound.get_or_init(|| match &self.body {
            Body::Listed(statement) => judging::judge(statement).sound(),
            Body::Threshold { n, .. } if *n <= MOST_NODES_BY_DEFINITION => self.sound_by_tolerated_sets(),
            Body::Threshold { n, f, q, .. } => sound_threshold_by_table(*n, *f, *q),
        })
    }

    /// The answer is no when the node is 0 or above n, and when S has a node
    /// above n.
    fn may_ask(&self, node: u32, s: &Set) -> bool {
        node >= 1 && node <= self.size() && s.in_range(self.size())
    }

    /// Soundness as section 6 has it: the definitions of section 3 with
    /// "tolerated set" in place of "fail-prone set".
    pub fn sound_by_tolerated_sets(&self) -> bool {
        let n = self.size();
        let all_sets = Set::all(n).parts();
        let tolerated: Vec<Family> = (1..=n)
            .map(|i| all_sets.iter().filter(|s| self.node_tolerates(i, s)).cloned().collect())
            .collect();
        let of = |i: u32| &tolerated[i as usize - 1];
        let every_pair_consistent = (1..=n).all(|i| {
            (1..=n).all(|j| {
                let both: Family = of(i).iter().filter(|c| of(j).contains(c)).cloned().collect();
                definitions::consistent(self.quorums(i), self.quorums(j), &both)
            })
        });
        every_pair_consistent && (1..=n).all(|i| definitions::available(of(i), self.quorums(i)))
    }
}

/// The last row of the table of questions in section 7.2.
pub fn sound_threshold_by_table(n: u32, f: u32, q: u32) -> bool {
    2 * q > n + f && q + f <= n
}
