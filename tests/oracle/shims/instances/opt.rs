//! Shim for instances/opt.rs: an objective that keeps its terms as they were added, in order and with their sign. The real one turns and merges them.

use super::{ManageVars, SatInstance};
use crate::types::constraints::codes;
use crate::types::Lit;
use crate::{kind, Row};

#[derive(Clone, Debug, Default, PartialEq, Eq)]
pub struct Objective(Vec<(Lit, isize)>);

impl Objective {
    pub fn new() -> Objective {
        Objective::default()
    }

    pub fn increase_soft_lit_int(&mut self, weight: isize, literal: Lit) {
        self.0.push((literal, weight));
    }

    pub fn recorded(&self) -> Row {
        Row { kind: kind::OBJECTIVE, bound: 0, terms: codes(&self.0), text: Vec::new() }
    }
}

#[derive(Debug)]
pub struct Instance<VM: ManageVars>(SatInstance<VM>, Objective);

impl<VM: ManageVars> Instance<VM> {
    pub fn compose(constraints: SatInstance<VM>, objective: Objective) -> Self {
        Instance(constraints, objective)
    }
}
