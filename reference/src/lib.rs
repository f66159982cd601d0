//! The kernel in ordinary Rust: the test oracle, never the product.
//!
//! [`run_script`] runs a script; [`run_record`] runs one call on a lent state; [`check`] tells
//! whether a lent state and its areas are valid, [`clauses`] which clauses of that fail; [`board`]
//! has the status of every object of a lent state, [`wall`] shows it as text after a script;
//! [`Kernel`] is the state in plain structs. The modules [`generator`], [`states`], [`selfcheck`],
//! [`ledger`] and [`tally`] serve the tests, [`filter`] the programs.

#![forbid(unsafe_code)]

mod alter;
mod base_plan;
mod base_tally;
pub mod board;
pub mod boundary;
mod calls;
pub mod clauses;
mod convert;
mod effects;
pub mod filter;
pub mod generator;
pub mod kernel;
pub mod ledger;
pub mod lent_state;
pub mod limits;
pub mod number;
pub mod outcome;
mod plans;
pub mod random;
pub mod record;
mod script;
pub mod selfcheck;
pub mod states;
pub mod tally;
mod valid;
pub mod wall;
pub mod words;

pub use effects::next_message;
pub use kernel::Kernel;
pub use outcome::{Answer, Ended, Got, Outcome};
pub use record::Call;
pub use script::{run_record, run_script};
pub use valid::check;
