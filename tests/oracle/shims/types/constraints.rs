//! Shim for types/constraints.rs. `new_*` keeps kind, terms and bound as the reader gives them; `decompose_ref` hands the writer what `given` was told. The real ones turn negative weights, merge
//! repeated literals and simplify: nothing of that is done here.

use super::{IWLitIter, Lit};
use crate::{kind, Row};

/// A clause as a slice
#[derive(Debug, PartialEq, Eq)]
#[repr(transparent)]
pub struct Cl([Lit]);

impl Cl {
    pub fn iter(&self) -> std::slice::Iter<'_, Lit> {
        self.0.iter()
    }
}

#[derive(Clone, Debug, Default, PartialEq, Eq)]
pub struct Clause(Vec<Lit>);

impl Clause {
    pub fn given(literals: Vec<Lit>) -> Clause {
        Clause(literals)
    }
}

impl AsRef<Cl> for Clause {
    fn as_ref(&self) -> &Cl {
        // `Cl` is a transparent `[Lit]`
        unsafe { &*(self.0.as_slice() as *const [Lit] as *const Cl) }
    }
}

#[derive(Clone, Debug, PartialEq, Eq)]
pub struct CardBody(Vec<Lit>, usize);

impl CardBody {
    pub fn decompose_ref(&self) -> (&Vec<Lit>, &usize) {
        (&self.0, &self.1)
    }
}

#[derive(Clone, Debug, PartialEq, Eq)]
pub enum CardConstraint {
    Ub(CardBody),
    Lb(CardBody),
    Eq(CardBody),
}

impl CardConstraint {
    pub fn given(row_kind: u8, literals: Vec<Lit>, bound: usize) -> CardConstraint {
        let body = CardBody(literals, bound);
        match row_kind {
            kind::CARD_AT_MOST => CardConstraint::Ub(body),
            kind::CARD_AT_LEAST => CardConstraint::Lb(body),
            _ => CardConstraint::Eq(body),
        }
    }
}

/// `read` is what `new_*` was given, `terms` what the writer is to be handed
#[derive(Clone, Debug, PartialEq, Eq)]
pub struct PbBody {
    read: Vec<(Lit, isize)>,
    terms: Vec<(Lit, usize)>,
    bound: isize,
}

impl PbBody {
    fn new<LI: IWLitIter>(lits: LI, bound: isize) -> PbBody {
        PbBody { read: lits.into_iter().collect(), terms: Vec::new(), bound }
    }

    pub fn decompose_ref(&self) -> (&Vec<(Lit, usize)>, &isize) {
        (&self.terms, &self.bound)
    }
}

#[derive(Clone, Debug, PartialEq, Eq)]
pub enum PbConstraint {
    Ub(PbBody),
    Lb(PbBody),
    Eq(PbBody),
}

impl PbConstraint {
    pub fn new_ub<LI: IWLitIter>(lits: LI, bound: isize) -> PbConstraint {
        PbConstraint::Ub(PbBody::new(lits, bound))
    }

    pub fn new_lb<LI: IWLitIter>(lits: LI, bound: isize) -> PbConstraint {
        PbConstraint::Lb(PbBody::new(lits, bound))
    }

    pub fn new_eq<LI: IWLitIter>(lits: LI, bound: isize) -> PbConstraint {
        PbConstraint::Eq(PbBody::new(lits, bound))
    }

    pub fn given(row_kind: u8, terms: Vec<(Lit, usize)>, bound: isize) -> PbConstraint {
        let body = PbBody { read: Vec::new(), terms, bound };
        match row_kind {
            kind::AT_MOST => PbConstraint::Ub(body),
            kind::AT_LEAST => PbConstraint::Lb(body),
            _ => PbConstraint::Eq(body),
        }
    }

    pub fn recorded(&self) -> Row {
        let (row_kind, body) = match self {
            PbConstraint::Ub(body) => (kind::AT_MOST, body),
            PbConstraint::Lb(body) => (kind::AT_LEAST, body),
            PbConstraint::Eq(body) => (kind::EQUAL, body),
        };
        Row { kind: row_kind, bound: body.bound as i64, terms: codes(&body.read), text: Vec::new() }
    }
}

/// Terms as weight and literal code
pub fn codes(terms: &[(Lit, isize)]) -> Vec<(i64, u32)> {
    terms.iter().map(|(literal, weight)| (*weight as i64, literal.lidx() as u32)).collect()
}
