//! Shim for instances/sat.rs: what opb.rs names of it. No call of ours reaches it.

use super::ManageVars;
use crate::types::constraints::{CardConstraint, Clause, PbConstraint};
use crate::types::Var;

pub type Cnf = Vec<Clause>;

#[derive(Debug, Default)]
pub struct Instance<VM: ManageVars> {
    pub(super) cnf: Cnf,
    pub(super) cards: Vec<CardConstraint>,
    pub(super) pbs: Vec<PbConstraint>,
    pub(super) var_manager: VM,
}

impl<VM: ManageVars> Instance<VM> {
    pub fn new() -> Self
    where
        VM: Default,
    {
        Instance { cnf: Vec::new(), cards: Vec::new(), pbs: Vec::new(), var_manager: VM::default() }
    }

    pub fn add_pb_constr(&mut self, constraint: PbConstraint) {
        self.pbs.push(constraint);
    }

    pub fn n_clauses(&self) -> usize {
        self.cnf.len()
    }

    pub fn n_vars(&self) -> u32 {
        self.var_manager.n_used()
    }

    pub fn max_var(&self) -> Option<Var> {
        self.var_manager.max_var()
    }
}
