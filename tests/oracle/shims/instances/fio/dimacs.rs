//! Shim for instances/fio/dimacs.rs, of which nothing is used.
