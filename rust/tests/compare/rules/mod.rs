//! The rules once more, written from their document and for plainness alone. Only `feed`, which the document does not describe, follows what
//! the library's own pages and code say of its refusals.
pub mod body;
pub mod file;
pub mod instances;
pub mod log;
pub mod set;
pub mod state;
pub mod tally;
pub mod text;
