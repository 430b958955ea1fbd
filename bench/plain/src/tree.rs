//! A set of items in plain Rust as the program keeps one: branches of leaves of items, at most 64 in each, with counts
//! and fingerprints beside them. Versions share their nodes, of which none is ever changed.

use plain::short::Short;
use plain::sums::{self, Sum, join};
use std::sync::Arc;

/// The most items of a leaf, and leaves of a branch. What is more is cut in two.
const MOST: usize = 64;

type Entry = (Short, Sum);

struct Leaf {
    entries: Vec<Entry>,
    total: Sum,
}

struct Branch {
    leaves: Vec<Arc<Leaf>>,
    count: usize,
    total: Sum,
}

#[derive(Clone, Default)]
pub struct Tree {
    branches: Vec<Arc<Branch>>,
    count: usize,
    total: Sum,
}

/// Where an item would go: in which branch, in which leaf of it, and before which item there.
pub struct Gap {
    branch: usize,
    leaf: usize,
    place: usize,
}

/// One node, or two where it was cut.
type Grown<N> = (N, Option<N>);

impl Leaf {
    fn of(entries: Vec<Entry>) -> Leaf {
        let total = entries.iter().fold(sums::ZERO, |total, (_, sum)| join(total, *sum));
        Leaf { entries, total }
    }

    fn first(&self) -> &Short {
        &self.entries[0].0
    }

    fn with(&self, place: usize, entry: Entry) -> Grown<Leaf> {
        let mut entries = Vec::with_capacity(self.entries.len() + 1);
        entries.extend_from_slice(&self.entries[..place]);
        entries.push(entry);
        entries.extend_from_slice(&self.entries[place..]);
        if entries.len() <= MOST {
            return (Leaf::of(entries), None);
        }
        let back = entries.split_off(MOST / 2);
        (Leaf::of(entries), Some(Leaf::of(back)))
    }
}

impl Branch {
    fn of(leaves: Vec<Arc<Leaf>>) -> Branch {
        let count = leaves.iter().map(|leaf| leaf.entries.len()).sum();
        let total = leaves.iter().fold(sums::ZERO, |total, leaf| join(total, leaf.total));
        Branch { leaves, count, total }
    }

    fn with(&self, gap: &Gap, entry: Entry) -> Grown<Branch> {
        let grown = self.leaves[gap.leaf].with(gap.place, entry);
        let mut leaves = replaced(&self.leaves, gap.leaf, grown);
        if leaves.len() <= MOST {
            return (Branch::of(leaves), None);
        }
        let back = leaves.split_off(MOST / 2);
        (Branch::of(leaves), Some(Branch::of(back)))
    }
}

/// The nodes, of which one has grown.
fn replaced<N>(nodes: &[Arc<N>], index: usize, (one, two): Grown<N>) -> Vec<Arc<N>> {
    let mut held = Vec::with_capacity(nodes.len() + 1);
    held.extend_from_slice(&nodes[..index]);
    held.push(Arc::new(one));
    held.extend(two.map(Arc::new));
    held.extend_from_slice(&nodes[index + 1..]);
    held
}

impl Tree {
    /// The tree of these items, which rise.
    pub fn of(entries: &[Entry]) -> Tree {
        let leaf_of = |entries: &[Entry]| Arc::new(Leaf::of(entries.to_vec()));
        let leaves: Vec<Arc<Leaf>> = entries.chunks(MOST / 2).map(leaf_of).collect();
        let branch_of = |leaves: &[Arc<Leaf>]| Arc::new(Branch::of(leaves.to_vec()));
        let branches: Vec<Arc<Branch>> = leaves.chunks(MOST / 2).map(branch_of).collect();
        let total = branches.iter().fold(sums::ZERO, |total, branch| join(total, branch.total));
        Tree { branches, count: entries.len(), total }
    }

    pub fn len(&self) -> usize {
        self.count
    }

    /// Where the item would go, unless it is there.
    pub fn gap_for(&self, item: &Short) -> Option<Gap> {
        let above = self.branches.partition_point(|branch| branch.leaves[0].first() <= item);
        let branch = above.saturating_sub(1);
        let Some(leaves) = self.branches.get(branch).map(|branch| &branch.leaves) else {
            return Some(Gap { branch: 0, leaf: 0, place: 0 });
        };
        let leaf = leaves.partition_point(|leaf| leaf.first() <= item).saturating_sub(1);
        let place = leaves[leaf].entries.binary_search_by(|(other, _)| other.cmp(item)).err()?;
        Some(Gap { branch, leaf, place })
    }

    /// The tree with an item where it goes.
    pub fn with(&self, gap: &Gap, entry: Entry) -> Tree {
        let branches = match self.branches.get(gap.branch) {
            None => vec![Arc::new(Branch::of(vec![Arc::new(Leaf::of(vec![entry]))]))],
            Some(branch) => replaced(&self.branches, gap.branch, branch.with(gap, entry)),
        };
        Tree { branches, count: self.count + 1, total: join(self.total, entry.1) }
    }

    /// The fingerprint of all items, from the nodes.
    pub fn total(&self) -> Sum {
        let held: usize = self.branches.iter().map(|branch| branch.count).sum();
        assert_eq!(held, self.count, "the branches have all items");
        self.total
    }
}
