//! EqEngine.antt, with Types.antt: the merges in force that joined two classes, here oldest first. Classes and forest
//! are functions of this list; they grow with it, and `pop_merges` builds them anew.

use crate::answer::Leaf;
use std::collections::HashSet;
use std::rc::Rc;

#[derive(Clone)]
pub enum EqJust {
    Leaf(Leaf),
    Congruence(Rc<[(usize, usize)]>),
}

#[derive(Clone)]
struct Merge {
    a: usize,
    b: usize,
    just: EqJust,
    level: usize,
}

/// An edge of the forest, walked from node to up; the merge that made it is named by its place.
#[derive(Clone, Copy)]
struct Step {
    node: usize,
    up: usize,
    merge: usize,
}

#[derive(Clone, Default)]
pub struct EqEngine {
    merges: Vec<Merge>,
    /// The root of each term's class, and how many terms the class of each root has. A term past the end is alone.
    roots: Vec<usize>,
    sizes: Vec<usize>,
    /// The edge from each term up in the forest.
    ups: Vec<Option<Step>>,
}

impl EqEngine {
    pub fn find(&self, x: usize) -> usize {
        self.roots.get(x).copied().unwrap_or(x)
    }

    pub fn are_equal(&self, x: usize, y: usize) -> bool {
        self.find(x) == self.find(y)
    }

    /// Merging within one class does nothing and takes no pairs.
    pub fn merge(&mut self, level: usize, a: usize, b: usize, just: EqJust) {
        if self.are_equal(a, b) {
            return;
        }
        self.reach(a.max(b));
        self.hang(a, b);
        self.union(a, b);
        self.merges.push(Merge { a, b, just, level });
    }

    /// Terms up to x, those that are new each alone.
    fn reach(&mut self, x: usize) {
        for new in self.roots.len()..=x {
            self.roots.push(new);
            self.sizes.push(1);
            self.ups.push(None);
        }
    }

    /// The smaller class goes under the larger; on a tie the first side's root stays.
    fn union(&mut self, a: usize, b: usize) {
        let (ra, rb) = (self.find(a), self.find(b));
        let (child, root) = if self.sizes[rb] <= self.sizes[ra] { (rb, ra) } else { (ra, rb) };
        self.sizes[root] += self.sizes[child];
        for r in self.roots.iter_mut().filter(|r| **r == child) {
            *r = root;
        }
    }

    /// A merge turns the tree of its first side and hangs it under the second.
    fn hang(&mut self, a: usize, b: usize) {
        for step in self.way(a) {
            self.ups[step.up] = Some(Step { node: step.up, up: step.node, merge: step.merge });
        }
        self.ups[a] = Some(Step { node: a, up: b, merge: self.merges.len() });
    }

    /// The merges of level k or lower.
    pub fn pop_merges(&mut self, k: usize) {
        let kept = self.merges.iter().take_while(|m| m.level <= k).count();
        if kept < self.merges.len() {
            let merges = std::mem::take(self).merges;
            for m in merges.into_iter().take(kept) {
                self.merge(m.level, m.a, m.b, m.just);
            }
        }
    }

    pub fn pairs_in_force(&self) -> usize {
        let pairs_of = |m: &Merge| match &m.just {
            EqJust::Congruence(pairs) => pairs.len(),
            EqJust::Leaf(_) => 0,
        };
        self.merges.iter().map(pairs_of).sum()
    }

    /// The edges from a term up to the root of its tree.
    fn way(&self, x: usize) -> Vec<Step> {
        let up = |node: usize| self.ups.get(node).copied().flatten();
        std::iter::successors(up(x), |step| up(step.up)).collect()
    }

    /// First term up to the nearest common ancestor, then the second.
    fn path(&self, x: usize, y: usize) -> Vec<Step> {
        let (wx, wy) = (self.way(x), self.way(y));
        let n = common(x, &wx, y, &wy);
        before(n, wx).chain(before(n, wy)).collect()
    }

    /// Identical nodes add no leaf; an expanded pair, in either order, is skipped. The pairs of a congruence were joined
    /// by older merges, so this ends.
    fn explain_rec(&self, x: usize, y: usize, visited: &mut Vec<(usize, usize)>, leaves: &mut Vec<Leaf>) {
        if x == y || visited.contains(&(x, y)) || visited.contains(&(y, x)) {
            return;
        }
        visited.push((x, y));
        for step in self.path(x, y) {
            match &self.merges[step.merge].just {
                EqJust::Leaf(leaf) => leaves.push(*leaf),
                EqJust::Congruence(pairs) => {
                    for &(s, t) in pairs.iter() {
                        self.explain_rec(s, t, visited, leaves);
                    }
                }
            }
        }
    }

    pub fn explain(&self, x: usize, y: usize) -> Vec<Leaf> {
        let mut leaves = Vec::new();
        self.explain_rec(x, y, &mut Vec::new(), &mut leaves);
        leaves
    }
}

/// The edges before a node is reached.
fn before(n: usize, way: Vec<Step>) -> impl Iterator<Item = Step> {
    way.into_iter().take_while(move |step| step.node != n)
}

/// The nodes of a way from x.
fn nodes(x: usize, way: &[Step]) -> impl Iterator<Item = usize> + '_ {
    std::iter::once(x).chain(way.iter().map(|step| step.up))
}

/// The nearest common ancestor: the first node of y's way that x's way has.
fn common(x: usize, wx: &[Step], y: usize, wy: &[Step]) -> usize {
    let of_x: HashSet<usize> = nodes(x, wx).collect();
    nodes(y, wy).find(|n| of_x.contains(n)).unwrap_or(y)
}

/// A leaf list with first occurrences only.
pub fn firsts(leaves: Vec<Leaf>) -> Vec<Leaf> {
    let mut seen = HashSet::new();
    leaves.into_iter().filter(|leaf| seen.insert(*leaf)).collect()
}
