//! Steps that the topics are built from. They need a rich signature.

use crate::answer::Answer;
use crate::search::Search;
use crate::signature::Constructor;

impl Search<'_> {
    pub fn any_datatype(&mut self) -> usize {
        let sorts = self.signature.datatypes();
        *self.rng.pick(&sorts).expect("a datatype")
    }

    /// Different constants of a datatype, in random order.
    pub fn constants(&mut self, sort: usize, count: usize) -> Vec<usize> {
        let mut symbols = self.signature.constants_of(sort);
        self.rng.shuffle(&mut symbols);
        symbols.truncate(count);
        symbols.into_iter().map(|symbol| self.make(&[symbol])).collect()
    }

    pub fn among(&mut self, terms: &[usize]) -> usize {
        *self.rng.pick(terms).expect("a term")
    }

    pub fn make(&mut self, numbers: &[usize]) -> usize {
        self.w.term("term", numbers).expect("well sorted, and room")
    }

    /// A term that was not there: a function of the highest term of its sort.
    pub fn fresh(&mut self, sort: usize) -> usize {
        let function = self.endofunction(sort);
        let highest = (0..self.w.session.term_count()).rfind(|&t| self.w.session.sort_of(t) == sort);
        let base = highest.unwrap_or_else(|| self.constants(sort, 1)[0]);
        self.make(&[function, base])
    }

    /// The places of a datatype's constructors that have at least so many fields of its own sort.
    pub fn constructors_with(&self, sort: usize, recursive: usize) -> Vec<usize> {
        let own = |fields: &[usize]| fields.iter().filter(|&&field| field == sort).count();
        let all = self.signature.constructors.iter().enumerate();
        all.filter(|(_, c)| c.sort == sort && own(&c.fields) >= recursive).map(|(place, _)| place).collect()
    }

    pub fn any_constructor(&mut self, sort: usize, recursive: usize) -> usize {
        let places = self.constructors_with(sort, recursive);
        *self.rng.pick(&places).expect("a rich signature")
    }

    /// A constructor without fields.
    pub fn plain_constructor(&mut self, sort: usize) -> usize {
        let plain = |&place: &usize| self.signature.constructors[place].fields.is_empty();
        let places: Vec<usize> = self.constructors_with(sort, 0).into_iter().filter(plain).collect();
        *self.rng.pick(&places).expect("a rich signature")
    }

    /// A constructor application: fields of its own sort are taken from `pool`, the others have constructors.
    pub fn construct(&mut self, place: usize, pool: &[usize]) -> usize {
        let Constructor { symbol, sort, fields } = self.signature.constructors[place].clone();
        let mut numbers = vec![symbol];
        for field in fields {
            let own = if field == sort { self.rng.pick(pool).copied() } else { None };
            numbers.push(own.unwrap_or_else(|| self.determined(field)));
        }
        self.make(&numbers)
    }

    /// Terms with constructors all the way down: a plain one, and others over those before them.
    pub fn determined_terms(&mut self, sort: usize, count: usize) -> Vec<usize> {
        let plain = self.plain_constructor(sort);
        let mut terms = vec![self.construct(plain, &[])];
        for _ in 1..count {
            let place = self.any_constructor(sort, 1);
            let last = terms[terms.len() - 1];
            terms.push(self.construct(place, &[last]));
        }
        terms
    }

    pub fn field_count(&self, place: usize) -> usize {
        self.signature.constructors[place].fields.len()
    }

    /// All selectors of a constructor on a term.
    pub fn select(&mut self, place: usize, t: usize) -> Vec<usize> {
        let (symbol, count) = (self.signature.constructors[place].symbol, self.field_count(place));
        (0..count).map(|field| self.make(&[symbol + 2 + field, t])).collect()
    }

    /// Names a selector of a constructor on each of the terms: its number tells when it was made.
    pub fn probe(&mut self, place: usize, terms: &[usize]) {
        let (symbol, count) = (self.signature.constructors[place].symbol, self.field_count(place));
        let mut terms = terms.to_vec();
        self.rng.shuffle(&mut terms);
        for t in terms {
            let field = self.rng.below(count);
            self.make(&[symbol + 2 + field, t]);
        }
    }

    /// Registers atoms that name datatype terms of one sort and equate nothing.
    pub fn mark(&mut self, terms: &[usize]) {
        for two in terms.chunks(2) {
            let sort = self.w.session.sort_of(two[0]);
            let predicates = self.signature.functions_from(&[sort, sort], 0);
            let predicate = *self.rng.pick(&predicates).expect("a rich signature");
            let atom = self.make(&[predicate, two[0], *two.last().expect("one or two")]);
            self.register(atom);
        }
    }

    /// Registers an atom that names a term of any sort.
    pub fn mark_any(&mut self, t: usize) {
        let sort = self.w.session.sort_of(t);
        if self.signature.datatype[sort] {
            return self.mark(&[t]);
        }
        if sort == 0 {
            self.register(t);
            return;
        }
        let other = self.determined(sort);
        if other != t {
            let atom = self.w.term("eq", &[t, other]).expect("two of one sort, and room");
            self.register(atom);
        }
    }

    pub fn register_tester(&mut self, place: usize, t: usize) -> (usize, usize) {
        let atom = self.make(&[self.signature.constructors[place].tester(), t]);
        (atom, self.register(atom))
    }

    /// Merges two terms under an interface leaf, mostly one that no other merge has; marks nothing.
    pub fn tie(&mut self, t: usize, u: usize) {
        self.tags += 1;
        let tag = if self.rng.chance(85) { self.tags } else { self.rng.below(self.tags) };
        let sides = if self.rng.chance(50) { [t, u] } else { [u, t] };
        self.w.numbers("iface", &[sides[0], sides[1], 0, tag]);
    }

    /// Ties two terms by way of up to `most` new ones, the links in random order.
    pub fn tie_by_way(&mut self, t: usize, u: usize, most: usize) {
        let sort = self.w.session.sort_of(t);
        let mut way = vec![t];
        for _ in 0..self.rng.below(most + 1) {
            way.push(self.fresh(sort));
        }
        way.push(u);
        let mut links: Vec<(usize, usize)> = way.windows(2).map(|link| (link[0], link[1])).collect();
        self.rng.shuffle(&mut links);
        for (a, b) in links {
            self.tie(a, b);
        }
    }

    /// Applications by random members of `constructors` over `pool`, dealt to classes whose numbers are mixed.
    pub fn mixed_classes(&mut self, constructors: &[usize], pool: &[usize], sizes: &[usize]) -> Vec<Vec<usize>> {
        let mut deal: Vec<usize> = sizes.iter().enumerate().flat_map(|(class, &size)| vec![class; size]).collect();
        self.rng.shuffle(&mut deal);
        let mut classes = vec![Vec::new(); sizes.len()];
        for class in deal {
            let constructor = self.among(constructors);
            let application = self.construct_new(constructor, pool, &classes.concat());
            classes[class].push(application);
        }
        classes
    }

    /// A constructor application that is none of the given ones, if a few trials find such.
    fn construct_new(&mut self, place: usize, pool: &[usize], old: &[usize]) -> usize {
        let mut application = self.construct(place, pool);
        for _ in 0..4 {
            if old.contains(&application) {
                application = self.construct(place, pool);
            }
        }
        application
    }

    /// Two constructor applications, different if a few trials find such.
    pub fn construct_two(&mut self, place: usize, pool: &[usize]) -> [usize; 2] {
        let first = self.construct(place, pool);
        [first, self.construct_new(place, pool, &[first])]
    }

    /// The links of a random tree over terms.
    pub fn tree(&mut self, terms: &[usize]) -> Vec<(usize, usize)> {
        (1..terms.len()).map(|place| (terms[place], terms[self.rng.below(place)])).collect()
    }

    /// Checks and leaves the lemmas alone.
    pub fn only_check(&mut self, times: usize) {
        for _ in 0..times {
            self.w.line("check=1");
        }
    }

    /// Checks and leaves the lemmas alone until another answer comes, at most so many times.
    pub fn exhaust(&mut self, most: usize) {
        for _ in 0..most {
            if !matches!(self.w.line("check=1"), Answer::Split { .. }) {
                return;
            }
        }
    }

    /// Checks and follows lemmas until another answer comes, at most so many times.
    pub fn settle(&mut self, most: usize) -> Answer {
        let mut answer = self.w.line("check=1");
        for _ in 0..most {
            let Answer::Split { atoms, .. } = &answer else {
                break;
            };
            self.hold_first(atoms);
            answer = self.w.line("check=1");
        }
        answer
    }

    fn hold_first(&mut self, atoms: &[usize]) {
        for &atom in atoms {
            if !self.first_variable.contains_key(&atom) {
                self.register(atom);
            }
        }
        let variable = self.first_variable[&atoms[0]];
        let equation = self.w.session.symbol_of(atoms[0]).is_none();
        self.w.numbers(if equation { "equate" } else { "assert" }, &[2 * variable]);
    }
}
