//! Random declarations: enumerations, records, lists, trees, mutually recursive datatypes, datatypes that are inhabited
//! only through others, other sorts, functions.

use crate::needs::Needs;
use crate::offence;
use crate::rng::Rng;
use crate::writer::Writer;
use std::collections::BTreeMap;

pub struct Symbol {
    pub arguments: Vec<usize>,
    pub result: usize,
}

#[derive(Clone)]
pub struct Constructor {
    pub symbol: usize,
    pub sort: usize,
    pub fields: Vec<usize>,
}

impl Constructor {
    pub fn tester(&self) -> usize {
        self.symbol + 1
    }
}

#[derive(Default)]
pub struct Signature {
    /// For each sort, whether it is a datatype. Sort 0 is Bool.
    pub datatype: Vec<bool>,
    pub symbols: Vec<Symbol>,
    pub constructors: Vec<Constructor>,
    functions: Vec<usize>,
}

pub struct Shape {
    pub datatypes: usize,
    pub others: usize,
    pub constants: usize,
    pub functions: usize,
    /// How many of a hundred declarations follow a refused line.
    pub refused_percent: usize,
    /// Whether each datatype has what the topics build with: a constructor without fields, one with one field of the
    /// datatype's own sort and one with two, constants, a predicate and functions of several places.
    pub rich: bool,
    pub needs: Needs,
}

/// A constructor that is declared after the functions: its sort and fields.
type Late = (usize, Vec<usize>);

impl Signature {
    /// Declares a random signature of the given shape, and `close=1`.
    pub fn declare(rng: &mut Rng, w: &mut Writer, shape: &Shape) -> Signature {
        let mut signature = Signature { datatype: vec![false], ..Signature::default() };
        signature.declare_sorts(rng, w, shape);
        let late = signature.declare_constructors(rng, w, shape);
        signature.declare_functions(rng, w, shape);
        signature.declare_late(w, late);
        w.line("close=1");
        signature
    }

    pub fn datatypes(&self) -> Vec<usize> {
        (0..self.datatype.len()).filter(|&sort| self.datatype[sort]).collect()
    }

    /// Is each datatype inhabited?
    pub fn may_close(&self) -> bool {
        self.base_constructors().len() == self.datatypes().len()
    }

    /// By round, for each datatype found inhabited, the place of the first constructor that shows it: its datatype
    /// fields were found in earlier rounds.
    fn base_constructors(&self) -> BTreeMap<usize, usize> {
        let mut found: BTreeMap<usize, usize> = BTreeMap::new();
        loop {
            let ready = |field: &usize| !self.datatype[*field] || found.contains_key(field);
            let shows = |c: &Constructor| !found.contains_key(&c.sort) && c.fields.iter().all(ready);
            let places: Vec<usize> = (0..self.constructors.len()).filter(|&c| shows(&self.constructors[c])).collect();
            if places.is_empty() {
                return found;
            }
            for place in places {
                found.entry(self.constructors[place].sort).or_insert(place);
            }
        }
    }

    pub fn constructors_of(&self, sort: usize) -> Vec<&Constructor> {
        self.constructors.iter().filter(|constructor| constructor.sort == sort).collect()
    }

    /// The constructor of `sort` that leads to a finite tree.
    pub fn base_constructor(&self, sort: usize) -> &Constructor {
        &self.constructors[self.base_constructors()[&sort]]
    }

    pub fn constants_of(&self, sort: usize) -> Vec<usize> {
        self.functions_from(&[], sort)
    }

    /// The declared functions, constructors, testers and selectors apart, with these arguments and this result.
    pub fn functions_from(&self, arguments: &[usize], result: usize) -> Vec<usize> {
        let fits = |symbol: &usize| {
            let declared = &self.symbols[*symbol];
            declared.result == result && declared.arguments == arguments
        };
        self.functions.iter().copied().filter(fits).collect()
    }

    fn declare_sorts(&mut self, rng: &mut Rng, w: &mut Writer, shape: &Shape) {
        let mut kinds = vec![true; shape.datatypes];
        kinds.resize(shape.datatypes + shape.others, false);
        rng.shuffle(&mut kinds);
        for datatype in kinds {
            w.line(if datatype { "sort=d" } else { "sort=u" });
            self.datatype.push(datatype);
        }
    }

    /// Declares the constructors of all datatypes but those that are handed back: where lines may be refused, one
    /// datatype may lack some of its own until the functions are declared.
    fn declare_constructors(&mut self, rng: &mut Rng, w: &mut Writer, shape: &Shape) -> Vec<Late> {
        let order = shape.needs.order(rng, self.datatypes());
        let lacking = if shape.refused_percent > 0 { lacking(rng, &order) } else { None };
        let mut late = Vec::new();
        for sort in self.datatypes() {
            let mut field_lists = self.field_lists(rng, shape, &order, sort);
            rng.shuffle(&mut field_lists);
            if lacking == Some(sort) {
                late = self.hold_back(rng, &mut field_lists).into_iter().map(|fields| (sort, fields)).collect();
            }
            for fields in field_lists {
                if rng.chance(shape.refused_percent) {
                    offence::among_declarations(rng, w, self);
                }
                self.declare_constructor(w, sort, fields);
            }
        }
        late
    }

    /// Takes out all constructors of a datatype, or those with no datatype field.
    fn hold_back(&self, rng: &mut Rng, field_lists: &mut Vec<Vec<usize>>) -> Vec<Vec<usize>> {
        let all = rng.chance(40);
        let (held, kept) = field_lists.drain(..).partition(|fields| all || self.is_plain(fields));
        *field_lists = kept;
        held
    }

    /// Declares what was held back. As long as a datatype is not inhabited, `close=1` comes before and is refused.
    fn declare_late(&mut self, w: &mut Writer, late: Vec<Late>) {
        for (sort, fields) in late {
            if !self.may_close() {
                w.line("close=1");
            }
            self.declare_constructor(w, sort, fields);
        }
    }

    /// Is no field a datatype's?
    fn is_plain(&self, fields: &[usize]) -> bool {
        fields.iter().all(|&field| !self.datatype[field])
    }

    /// The fields of each constructor of a datatype.
    fn field_lists(&self, rng: &mut Rng, shape: &Shape, order: &[usize], sort: usize) -> Vec<Vec<usize>> {
        if shape.needs != Needs::Nothing {
            return self.needy_field_lists(rng, shape.needs, order, sort);
        }
        let mut field_lists = match rng.below(5) {
            _ if shape.rich => self.rich_field_lists(rng, sort),
            0 => vec![Vec::new(); rng.between(1, 6)],
            1 => vec![self.fields(rng, 1, 4, 0)],
            2 => vec![Vec::new(), self.recursive_fields(rng, sort, 1)],
            3 => vec![self.fields(rng, 0, 2, 0), self.recursive_fields(rng, sort, 2)],
            _ => (0..rng.between(1, 4)).map(|_| self.fields(rng, 0, 4, 60)).collect(),
        };
        if !field_lists.iter().any(|fields| self.is_plain(fields)) {
            field_lists.push(self.fields(rng, 0, 2, 0));
        }
        field_lists
    }

    /// The same for a datatype that may need others. One more constructor has a field of the datatype's own sort, so it
    /// takes no part in the rounds.
    fn needy_field_lists(&self, rng: &mut Rng, needs: Needs, order: &[usize], sort: usize) -> Vec<Vec<usize>> {
        let place = order.iter().position(|&other| other == sort).expect("a datatype");
        let mut field_lists = needs.datatype_fields(rng, order, place);
        for fields in field_lists.iter_mut() {
            fields.extend(self.fields(rng, 0, 1, 0));
            rng.shuffle(fields);
        }
        if rng.chance(40) {
            field_lists.push(self.recursive_fields(rng, sort, 1));
        }
        field_lists
    }

    fn rich_field_lists(&self, rng: &mut Rng, sort: usize) -> Vec<Vec<usize>> {
        let mut lists = vec![Vec::new()];
        lists.extend([1, 2].map(|recursive| self.recursive_fields(rng, sort, recursive)));
        match rng.below(4) {
            0 => lists.push(Vec::new()),
            1 => lists.push(self.recursive_fields(rng, sort, 2)),
            2 => lists.push(self.fields(rng, 1, 2, 0)),
            _ => {}
        }
        lists
    }

    pub fn declare_constructor(&mut self, w: &mut Writer, sort: usize, fields: Vec<usize>) {
        w.numbers("ctor", &[&[sort], fields.as_slice()].concat());
        let symbol = self.symbols.len();
        self.symbols.push(Symbol { arguments: fields.clone(), result: sort });
        self.symbols.push(Symbol { arguments: vec![sort], result: 0 });
        for &field in &fields {
            self.symbols.push(Symbol { arguments: vec![sort], result: field });
        }
        self.constructors.push(Constructor { symbol, sort, fields });
    }

    /// Field sorts, each a datatype with the given chance.
    fn fields(&self, rng: &mut Rng, least: usize, most: usize, datatype_percent: usize) -> Vec<usize> {
        (0..rng.between(least, most)).map(|_| self.any_sort(rng, datatype_percent)).collect()
    }

    fn recursive_fields(&self, rng: &mut Rng, sort: usize, recursive: usize) -> Vec<usize> {
        let mut fields = vec![sort; recursive];
        fields.extend(self.fields(rng, 0, 2, 30));
        rng.shuffle(&mut fields);
        fields
    }

    fn any_sort(&self, rng: &mut Rng, datatype_percent: usize) -> usize {
        let wanted = rng.chance(datatype_percent);
        let sorts: Vec<usize> = (0..self.datatype.len()).filter(|&sort| self.datatype[sort] == wanted).collect();
        *rng.pick(&sorts).expect("Bool, and a datatype whenever one is wanted")
    }

    fn declare_functions(&mut self, rng: &mut Rng, w: &mut Writer, shape: &Shape) {
        let mut functions = Vec::new();
        for sort in 0..self.datatype.len() {
            let most = shape.constants.max(1);
            let least = if shape.rich && self.datatype[sort] { most } else { 1 };
            functions.extend(vec![vec![sort]; rng.between(least, most)]);
        }
        for sort in self.datatypes() {
            functions.push(vec![sort, sort]);
            if shape.rich {
                functions.extend([vec![0, sort, sort], vec![sort; 3], vec![sort; 4]]);
            }
        }
        for _ in 0..rng.below(shape.functions + 1) {
            let most = if rng.chance(3) { 16 } else { 3 };
            let mut function = vec![self.any_sort(rng, 60)];
            function.extend(self.fields(rng, 1, most, 60));
            functions.push(function);
        }
        rng.shuffle(&mut functions);
        for function in functions {
            if rng.chance(shape.refused_percent) {
                offence::among_declarations(rng, w, self);
            }
            w.numbers("fun", &function);
            self.functions.push(self.symbols.len());
            self.symbols.push(Symbol { arguments: function[1..].to_vec(), result: function[0] });
        }
    }
}

/// The datatype that lacks constructors, if one does: the one that others need, or any.
fn lacking(rng: &mut Rng, order: &[usize]) -> Option<usize> {
    match rng.below(10) {
        0..=1 => rng.pick(order).copied(),
        2..=4 => Some(order[0]),
        _ => None,
    }
}
