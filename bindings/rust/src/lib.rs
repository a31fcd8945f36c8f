//! OPB files (linear pseudo-Boolean constraints) as tables: read, normalise, evaluate, write and list; and a solver's value lines as assignments.
//!
//! Every call is one of libopb.a, whose answers are proved; this crate lends it vectors and gives its answers Rust's types. Refusals are values, and a refused call changes nothing that it was
//! lent. `include/opb.h` says of each call what it promises. The archive is looked for in the folder OPB_LIB_DIR, else in target/archive of the repository, where `tools/archive` puts it.
//!
//! ```
//! let file = b"3 x1 2 x2 <= 4;\nmin: 4 ~x1 1 x3;\n";
//! let table = opb::read(file, 1)?;
//! let lines = table.write(file, 1, opb::Literals::Plain)?;
//! assert_eq!(lines, b"-3 x1 -2 x2 >= -4;\nmin: -4 x1 1 x3;\n* objective offset for previous objective: 4\n");
//! # Ok::<(), opb::Refusal>(())
//! ```

#![deny(missing_docs)]
#![deny(unsafe_code)]

mod assignment;
#[allow(unsafe_code)]
mod ffi;
mod kinds;
mod position;
mod refusal;
mod rows;
mod table;

pub use assignment::Assignment;
#[doc(hidden)]
pub use kinds::Kind;
pub use position::{position, Position};
pub use refusal::{Reason, Refusal};
pub use rows::{Literal, Row, Rows, Term, Terms};
pub use table::{count, read, Literals, Size, Table, Value};

/// The version of this crate, of the command `opb` and of `include/opb.h`.
pub const VERSION: &str = env!("CARGO_PKG_VERSION");

/// The greatest length of a file, in bytes.
pub const FILE_LIMIT: usize = 1_073_741_823;

/// The greatest variable index; the greatest number of a variable in value lines is one more.
pub const INDEX_LIMIT: u32 = 1_073_741_823;
