//! The definitions of RULES.md section 3, word for word, on families of sets.

use crate::sets::{cover, Family, Set};
use std::collections::BTreeSet;

/// S is part of at least one fail-prone set.
pub fn tolerates(fail_prone: &[Set], s: &Set) -> bool {
    fail_prone.iter().any(|a| s.part_of(a))
}

/// At least one quorum is part of S.
pub fn holds_quorum(quorums: &[Set], s: &Set) -> bool {
    quorums.iter().any(|q| q.part_of(s))
}

/// S meets every quorum.
pub fn holds_kernel(quorums: &[Set], s: &Set) -> bool {
    quorums.iter().all(|q| s.meets(q))
}

/// For each fail-prone set at least one quorum misses it.
pub fn available(fail_prone: &[Set], quorums: &[Set]) -> bool {
    fail_prone.iter().all(|a| quorums.iter().any(|q| q.misses(a)))
}

/// Every set that a node tolerates: all parts of all its fail-prone sets.
pub fn tolerated_sets(fail_prone: &[Set]) -> Family {
    let mut found = BTreeSet::new();
    for a in fail_prone {
        found.extend(a.parts());
    }
    found.into_iter().collect()
}

/// Every set C that is tolerated by both: the tolerated sets of the one
/// that the other tolerates.
pub fn tolerated_by_both(tolerated_by_i: &[Set], fail_prone_of_j: &[Set]) -> Family {
    tolerated_by_i.iter().filter(|c| tolerates(fail_prone_of_j, c)).cloned().collect()
}

/// No A, B, C cover all n nodes, where A is a fail-prone set of i, B one of
/// j, and C any set that both tolerate.
pub fn meets_b3(n: u32, fail_prone_i: &[Set], fail_prone_j: &[Set], both: &[Set]) -> bool {
    for a in fail_prone_i {
        for b in fail_prone_j {
            for c in both {
                if cover(n, &[a, b, c]) {
                    return false;
                }
            }
        }
    }
    true
}

/// No Q, R, C with the common part of Q and R inside C, where Q is a quorum
/// of i, R one of j, and C any set that both tolerate.
pub fn consistent(quorums_i: &[Set], quorums_j: &[Set], both: &[Set]) -> bool {
    for q in quorums_i {
        for r in quorums_j {
            let common = q.common(r);
            for c in both {
                if common.part_of(c) {
                    return false;
                }
            }
        }
    }
    true
}

/// The first "direct test" of section 3: B3 fails exactly when for some A
/// and B the rest of their union is tolerated by both nodes.
pub fn meets_b3_direct(n: u32, fail_prone_i: &[Set], fail_prone_j: &[Set]) -> bool {
    !fail_prone_i.iter().any(|a| {
        fail_prone_j.iter().any(|b| {
            let rest = a.union(b).rest(n);
            tolerates(fail_prone_i, &rest) && tolerates(fail_prone_j, &rest)
        })
    })
}

/// The second "direct test": consistency fails exactly when for some Q and R
/// their common part is tolerated by both nodes.
pub fn consistent_direct(quorums_i: &[Set], quorums_j: &[Set], fail_prone_i: &[Set], fail_prone_j: &[Set]) -> bool {
    !quorums_i.iter().any(|q| {
        quorums_j.iter().any(|r| {
            let common = q.common(r);
            tolerates(fail_prone_i, &common) && tolerates(fail_prone_j, &common)
        })
    })
}
