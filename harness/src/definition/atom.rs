//! Atom.antt: the registry of variables, oldest first.

#[derive(Clone, Copy)]
pub struct Registered {
    pub var: usize,
    pub atom: usize,
}

pub fn is_registered(atoms: &[Registered], v: usize) -> bool {
    atoms.iter().any(|r| r.var == v)
}

/// The atom of a registered variable.
pub fn atom(atoms: &[Registered], v: usize) -> usize {
    atoms.iter().find(|r| r.var == v).expect("a registered variable").atom
}

/// An atom's first variable.
pub fn var_of_atom(atoms: &[Registered], t: usize) -> Option<usize> {
    atoms.iter().find(|r| r.atom == t).map(|r| r.var)
}
