//! Ring.antt: the ring rule. Each class stands by its lowest marked constructor application; an edge leads to the class
//! of each datatype field.

use super::context::CtorApp;
use super::eq_engine::firsts;
use super::state::State;
use crate::answer::Answer;

/// An application on the walk's path, and the field of the one before it that led to it.
struct Frame {
    app: usize,
    via: usize,
}

/// One edge of a ring: a field, and the application of the class that it leads to.
struct Edge {
    field: usize,
    app: usize,
}

impl State {
    /// Fields are tried last to first.
    fn kids(&self, c: &CtorApp) -> Vec<usize> {
        let datatype = |&f: &usize| self.terms.is_datatype_sort(self.terms.sort_of(f));
        c.fields.iter().copied().filter(datatype).rev().collect()
    }

    /// What becomes of a field: the class it leads to is on the path, finished, or to be walked.
    fn enter(&self, path: &mut Vec<Frame>, done: &mut Vec<usize>, field: usize) -> Option<Vec<Edge>> {
        let c = self.ctor_of_class(field)?;
        if path.iter().any(|frame| frame.app == c.app) {
            return Some(ring_edges(field, c.app, path));
        }
        if done.contains(&c.app) {
            return None;
        }
        path.push(Frame { app: c.app, via: field });
        let ring = self.walk_from(path, &c, done);
        path.pop();
        ring
    }

    /// All fields of the newest application, then it is finished.
    fn walk_from(&self, path: &mut Vec<Frame>, c: &CtorApp, done: &mut Vec<usize>) -> Option<Vec<Edge>> {
        let ring = self.kids(c).into_iter().find_map(|field| self.enter(path, done, field));
        if ring.is_none() {
            done.push(c.app);
        }
        ring
    }

    /// Depth first from the watched terms ascending.
    fn constructor_graph_find_cycle(&self) -> Option<Vec<Edge>> {
        let mut done = Vec::new();
        self.watched_dt_terms().find_map(|t| self.enter(&mut Vec::new(), &mut done, t))
    }

    /// Each edge explained from field to application.
    fn acyclicity_conflict(&self, edges: &[Edge]) -> Answer {
        Answer::Conflict(firsts(edges.iter().flat_map(|e| self.eq.explain(e.field, e.app)).collect()))
    }

    pub fn ring_answer(&self) -> Answer {
        self.constructor_graph_find_cycle().map_or(Answer::Sat, |edges| self.acyclicity_conflict(&edges))
    }
}

/// The closing edge first, then the others from the ring's entry down.
fn ring_edges(field: usize, entry: usize, path: &[Frame]) -> Vec<Edge> {
    let below_entry = path.iter().skip_while(|frame| frame.app != entry).skip(1);
    let others = below_entry.map(|frame| Edge { field: frame.via, app: frame.app });
    std::iter::once(Edge { field, app: entry }).chain(others).collect()
}
