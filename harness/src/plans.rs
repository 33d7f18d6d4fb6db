//! What the middle part of a script builds on purpose, besides what chance brings: rings, towers of congruences,
//! asserted testers, many joined terms.

use crate::search::{Search, Size};
use crate::signature::Constructor;
use crate::topics::TOPICS;

pub type Plan = fn(&mut Search);

impl Search<'_> {
    /// A random plan, or none. Where the signature allows, mostly one of the topics.
    pub fn any_plan(&mut self) -> Option<Plan> {
        if self.rich && self.rng.chance(80) {
            return self.rng.pick(TOPICS).map(|&(topic, _)| topic);
        }
        match self.rng.below(12) {
            0..=4 => None,
            5..=6 => Some(|search| search.plan_ring()),
            7..=8 => Some(|search| search.plan_tower()),
            9 => Some(|search| search.plan_testers()),
            _ => Some(|search| search.plan_web()),
        }
    }

    /// A constructor with a datatype field, and the place of that field.
    fn recursive_step(&mut self, sort: usize) -> Option<(usize, usize)> {
        let mut steps = Vec::new();
        for (place, constructor) in self.signature.constructors.iter().enumerate() {
            for (field, &field_sort) in constructor.fields.iter().enumerate() {
                if constructor.sort == sort && self.signature.datatype[field_sort] {
                    steps.push((place, field));
                }
            }
        }
        self.rng.pick(&steps).copied()
    }

    /// A closed walk through datatypes: constructor and field of each step.
    fn closed_walk(&mut self) -> Option<Vec<(usize, usize)>> {
        for _ in 0..30 {
            let sorts = self.signature.datatypes();
            let start = *self.rng.pick(&sorts)?;
            let length = *self.rng.pick(&[1, 1, 2, 2, 3, 4, 5, 6, 8, 12])?;
            let mut sort = start;
            let mut walk = Vec::new();
            while let Some((place, field)) = self.recursive_step(sort) {
                walk.push((place, field));
                sort = self.signature.constructors[place].fields[field];
                if walk.len() >= length && sort == start {
                    return Some(walk);
                }
                if walk.len() > length + 3 {
                    break;
                }
            }
        }
        None
    }

    /// Joins terms into a ring of constructor applications and checks.
    fn plan_ring(&mut self) {
        let Some(walk) = self.closed_walk() else {
            return;
        };
        let Some(members) = self.ring_members(&walk) else {
            return;
        };
        let mut sides = Vec::new();
        for (place, &(constructor, field)) in walk.iter().enumerate() {
            let next = members[(place + 1) % members.len()];
            let application = self.constructor_over(constructor, field, next);
            sides.push((members[place], application));
        }
        self.rng.shuffle(&mut sides);
        for (t, u) in sides {
            if self.rng.chance(15) {
                self.push();
            }
            self.join(t, u);
        }
        for _ in 0..self.rng.between(1, 4) {
            self.check();
        }
    }

    /// Different terms without a constructor, one for each step of the walk: constants, or functions of them.
    fn ring_members(&mut self, walk: &[(usize, usize)]) -> Option<Vec<usize>> {
        let mut members = Vec::new();
        for &(place, _) in walk {
            let sort = self.signature.constructors[place].sort;
            let constants = self.signature.constants_of(sort);
            let mut t = self.w.term("term", &[*self.rng.pick(&constants)?])?;
            let function = self.endofunction(sort);
            while members.contains(&t) {
                t = self.w.term("term", &[function, t])?;
            }
            members.push(t);
        }
        Some(members)
    }

    /// A function from a datatype into itself.
    pub fn endofunction(&mut self, sort: usize) -> usize {
        let functions = self.signature.functions_from(&[sort], sort);
        *self.rng.pick(&functions).expect("each datatype has one")
    }

    /// Constructor application with one given field; its other fields have constructors too.
    fn constructor_over(&mut self, place: usize, field: usize, t: usize) -> usize {
        let Constructor { symbol, fields, .. } = &self.signature.constructors[place];
        let (symbol, fields) = (*symbol, fields.clone());
        let mut numbers = vec![symbol];
        for (other, sort) in fields.into_iter().enumerate() {
            numbers.push(if other == field { t } else { self.determined(sort) });
        }
        self.w.term("term", &numbers).expect("well sorted, and room")
    }

    /// A term with a constructor and, below it, no datatype term without one.
    pub fn determined(&mut self, sort: usize) -> usize {
        if !self.signature.datatype[sort] {
            return self.any_term(sort, 0);
        }
        let base = self.signature.base_constructor(sort);
        let (symbol, fields) = (base.symbol, base.fields.clone());
        let mut numbers = vec![symbol];
        for sort in fields {
            numbers.push(self.determined(sort));
        }
        self.w.term("term", &numbers).expect("well sorted, and room")
    }

    /// Joins two terms, with a registered equation; by a literal or, more seldom, by an interface leaf.
    pub fn join(&mut self, t: usize, u: usize) {
        let sides = if self.rng.chance(50) { [t, u] } else { [u, t] };
        let Some(atom) = self.w.term("eq", &sides) else {
            return;
        };
        let variable = self.register(atom);
        if self.rng.chance(25) {
            let (theory, tag) = (self.rng.below(6), self.rng.below(20));
            self.w.numbers("iface", &[sides[1], sides[0], theory, tag]);
        } else {
            self.w.numbers("equate", &[2 * variable]);
        }
    }

    /// Two towers of one function over terms that are joined, closed by congruence from below, with constructors or
    /// testers at their tops.
    fn plan_tower(&mut self) {
        let sorts = self.signature.datatypes();
        let sort = *self.rng.pick(&sorts).expect("a datatype");
        let function = self.endofunction(sort);
        let (a, b) = (self.any_term(sort, 0), self.any_term(sort, 1));
        let height = self.rng.between(1, 6);
        let (left, right) = (self.tower(function, a, height), self.tower(function, b, height));
        if a != b {
            self.join(a, b);
        }
        for floor in 1..=height {
            let pair = if self.rng.chance(50) { [left[floor], right[floor]] } else { [right[floor], left[floor]] };
            self.w.numbers("cong", &pair);
        }
        if self.rng.chance(50) {
            self.push();
        }
        for top in [left[height], right[height]] {
            self.crown(sort, top);
        }
        for _ in 0..self.rng.between(1, 3) {
            self.check();
        }
    }

    fn tower(&mut self, function: usize, base: usize, height: usize) -> Vec<usize> {
        let mut floors = vec![base];
        for floor in 0..height {
            floors.push(self.w.term("term", &[function, floors[floor]]).expect("well sorted, and room"));
        }
        floors
    }

    /// Joins a term with an application of a random constructor, or asserts a random tester of it.
    fn crown(&mut self, sort: usize, t: usize) {
        let constructors: Vec<(usize, usize, Vec<usize>)> =
            self.signature.constructors_of(sort).iter().map(|c| (c.symbol, c.tester(), c.fields.clone())).collect();
        let (symbol, tester, fields) = self.rng.pick(&constructors).expect("a constructor").clone();
        if self.rng.chance(25) {
            let atom = self.w.term("term", &[tester, t]).expect("well sorted, and room");
            let variable = self.register(atom);
            self.w.numbers("assert", &[2 * variable]);
            return;
        }
        let mut numbers = vec![symbol];
        for field in fields {
            numbers.push(self.determined(field));
        }
        let application = self.w.term("term", &numbers).expect("well sorted, and room");
        if application != t {
            self.join(t, application);
        }
    }

    /// Many terms of one sort joined in random order and at several levels, with constructors on some of them: long
    /// explanations over a forest that was turned often.
    fn plan_web(&mut self) {
        let sorts = self.signature.datatypes();
        let sort = *self.rng.pick(&sorts).expect("a datatype");
        let function = self.endofunction(sort);
        let base = self.any_term(sort, 0);
        let most = if matches!(self.size, Size::Small) { 6 } else { 24 };
        let height = self.rng.between(3, most);
        let members = self.tower(function, base, height);
        let crowns = self.rng.between(1, 3);
        let joins = members.len() + self.rng.below(members.len());
        for place in 0..joins {
            if place % (joins / crowns) == 0 {
                self.crown_in_web(sort, &members);
            }
            self.join_in_web(&members);
        }
        for _ in 0..self.rng.between(1, 3) {
            self.check();
        }
    }

    fn join_in_web(&mut self, members: &[usize]) {
        let (t, u) = (members[self.rng.below(members.len())], members[self.rng.below(members.len())]);
        match self.rng.below(20) {
            0..=6 if t != u => self.join(t, u),
            0..=13 => {
                let tag = self.rng.below(1_000);
                self.w.numbers("iface", &[t, u, 7, tag]);
            }
            14..=15 => self.push(),
            16 => self.pop(),
            17 => self.check(),
            _ => self.close_congruences(),
        }
    }

    /// Joins a member with a constructor application, over another member if there is such a constructor.
    fn crown_in_web(&mut self, sort: usize, members: &[usize]) {
        let (t, u) = (members[self.rng.below(members.len())], members[self.rng.below(members.len())]);
        let step = self.recursive_step(sort);
        match step {
            Some((place, field)) if self.signature.constructors[place].fields[field] == sort => {
                let application = self.constructor_over(place, field, u);
                self.join(t, application);
            }
            _ => self.crown(sort, t),
        }
    }

    /// Testers with several variables for one atom, asserted at different levels, and constructors joined later.
    fn plan_testers(&mut self) {
        let sorts = self.signature.datatypes();
        let sort = *self.rng.pick(&sorts).expect("a datatype");
        let t = self.any_term(sort, 0);
        for _ in 0..self.rng.between(1, 3) {
            let testers: Vec<usize> = self.signature.constructors_of(sort).iter().map(|c| c.tester()).collect();
            let tester = *self.rng.pick(&testers).expect("a constructor");
            let atom = self.w.term("term", &[tester, t]).expect("well sorted, and room");
            let variables = [self.register(atom), self.register(atom)];
            for _ in 0..self.rng.between(1, 3) {
                if self.rng.chance(40) {
                    self.push();
                }
                let variable = variables[self.rng.below(2)];
                let literal = 2 * variable + usize::from(self.rng.chance(10));
                let literal = if self.may_assert(literal) { literal } else { 2 * variable };
                self.w.numbers("assert", &[literal]);
                if self.rng.chance(25) {
                    self.pop();
                }
            }
        }
        let u = self.any_term(sort, 1);
        if u != t {
            self.join(t, u);
        }
        self.crown(sort, u);
        for _ in 0..self.rng.between(1, 5) {
            self.check();
        }
    }
}
