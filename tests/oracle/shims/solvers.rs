//! Shim for solvers.rs: two enums that fio.rs names and that no call of ours reaches.

#[derive(Clone, Copy, Debug, PartialEq, Eq)]
pub enum SolverResult {
    Sat,
    Unsat,
    Interrupted,
}

#[derive(Clone, Copy, Debug, PartialEq, Eq)]
pub enum SolverState {
    Sat,
    Unsat,
    Unknown,
}
