//! Sets of nodes (RULES.md section 2).
//!
//! A set is a rising row of node numbers. Masks exist only at the edges
//! (texts, arguments, outputs).

#[derive(Clone, Debug, PartialEq, Eq, PartialOrd, Ord)]
pub struct Set(Vec<u32>);

/// A family of sets: the fail-prone sets or the quorums of one node.
pub type Family = Vec<Set>;

impl Set {
    pub fn empty() -> Set {
        Set(Vec::new())
    }

    /// The set of all n nodes.
    pub fn all(n: u32) -> Set {
        Set((1..=n).collect())
    }

    pub fn of(nodes: &[u32]) -> Set {
        let mut row = nodes.to_vec();
        row.sort();
        row.dedup();
        Set(row)
    }

    /// Node k is in the set when the bit with the value 2^(k-1) is 1.
    pub fn from_mask(mask: u16) -> Set {
        Set((1..=16).filter(|k| mask as u32 / 2u32.pow(k - 1) % 2 == 1).collect())
    }

    pub fn mask(&self) -> u16 {
        self.0.iter().map(|k| 2u32.pow(k - 1)).sum::<u32>() as u16
    }

    pub fn nodes(&self) -> &[u32] {
        &self.0
    }

    pub fn count(&self) -> u32 {
        self.0.len() as u32
    }

    pub fn is_empty(&self) -> bool {
        self.0.is_empty()
    }

    pub fn has(&self, node: u32) -> bool {
        self.0.contains(&node)
    }

    /// Every node of this set is also in the other.
    pub fn part_of(&self, other: &Set) -> bool {
        self.0.iter().all(|k| other.has(*k))
    }

    /// At least one node is in both.
    pub fn meets(&self, other: &Set) -> bool {
        self.0.iter().any(|k| other.has(*k))
    }

    /// No node is in both.
    pub fn misses(&self, other: &Set) -> bool {
        !self.meets(other)
    }

    /// The nodes of 1 to n that are not in this set.
    pub fn rest(&self, n: u32) -> Set {
        Set((1..=n).filter(|k| !self.has(*k)).collect())
    }

    pub fn common(&self, other: &Set) -> Set {
        Set(self.0.iter().copied().filter(|k| other.has(*k)).collect())
    }

    pub fn union(&self, other: &Set) -> Set {
        let mut row = self.0.clone();
        row.extend(&other.0);
        Set::of(&row)
    }

    /// No node above n.
    pub fn in_range(&self, n: u32) -> bool {
        self.0.iter().all(|k| *k <= n)
    }

    /// All parts of this set, the empty set and the set itself included.
    pub fn parts(&self) -> Vec<Set> {
        let size = self.0.len();
        (0..1u32 << size)
            .map(|choice| Set((0..size).filter(|at| choice >> at & 1 == 1).map(|at| self.0[at]).collect()))
            .collect()
    }
}

/// Each of the n nodes is in at least one of the sets.
pub fn cover(n: u32, sets: &[&Set]) -> bool {
    (1..=n).all(|k| sets.iter().any(|s| s.has(k)))
}

/// A mask as it is written: four hexadecimal digits.
pub fn show_mask(mask: u16) -> String {
    format!("{mask:04x}")
}

pub fn show(set: &Set) -> String {
    show_mask(set.mask())
}
