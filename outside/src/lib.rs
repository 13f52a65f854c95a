//! The kernel of document 01 with document 02's requests K1 to K3, written a second
//! time from the documents alone, so that the verified implementation can be
//! compared with it. Nothing is proved here and nothing is fast; sentences in quotes are
//! the documents' own.

pub mod kernel;
pub mod random;
pub mod record;
pub mod script;
