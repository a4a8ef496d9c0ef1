//! Sorting: wise, naive, maximal guild (RULES.md section 5).

use crate::rules::Rule;
use crate::sets::Set;

#[derive(Clone, Debug, PartialEq, Eq)]
pub struct Sorting {
    pub wise: Set,
    pub naive: Set,
    pub guild: Set,
}

/// Refused with 8 when the faulty mask has a bit above n.
pub fn sort(rule: &Rule, faulty: &Set) -> Result<Sorting, u32> {
    let n = rule.size();
    if !faulty.in_range(n) {
        return Err(8);
    }
    let correct = faulty.rest(n);
    let pick = |wanted: bool| -> Set {
        let row: Vec<u32> =
            correct.nodes().iter().copied().filter(|k| rule.node_tolerates(*k, faulty) == wanted).collect();
        Set::of(&row)
    };
    let (wise, naive) = (pick(true), pick(false));
    let guild = maximal_guild(rule, &wise);
    Ok(Sorting { wise, naive, guild })
}

/// Each node of G is wise, and G holds a quorum of each node of G.
pub fn is_guild(rule: &Rule, wise: &Set, g: &Set) -> bool {
    g.part_of(wise) && g.nodes().iter().all(|k| rule.set_holds_quorum(*k, g))
}

/// Above this many single tests (a set against a quorum), trying every set
/// takes too long. Only threshold rules of more than 13 nodes come above it.
const MOST_TESTS: usize = 1 << 24;

/// The set of all nodes that are in at least one guild: every set of the n
/// nodes is tried.
fn maximal_guild(rule: &Rule, wise: &Set) -> Set {
    if rule.most_quorums() << rule.size() > MOST_TESTS {
        return maximal_guild_by_taking_away(rule, wise);
    }
    let mut members = Vec::new();
    for g in Set::all(rule.size()).parts() {
        if is_guild(rule, wise, &g) {
            members.extend_from_slice(g.nodes());
        }
    }
    Set::of(&members)
}

/// The second way that section 5 gives. `selftest` compares both.
pub fn maximal_guild_by_taking_away(rule: &Rule, wise: &Set) -> Set {
    let mut present = wise.clone();
    loop {
        let kept: Vec<u32> =
            present.nodes().iter().copied().filter(|k| rule.set_holds_quorum(*k, &present)).collect();
        let kept = Set::of(&kept);
        if kept == present {
            return present;
        }
        present = kept;
    }
}
