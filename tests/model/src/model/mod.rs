//! The calls of document 01 as plain functions on words, with what document 02 has changed (T-06, T-02, T-09, T-07).
//!
//! Nothing here is made to be fast. Each rule is written as its sentence reads, so that a reader can
//! hold the one against the other.

pub mod ask;
pub mod build;
pub mod check;
pub mod days;
pub mod edit;
pub mod index;
pub mod layout;
pub mod places;
pub mod relation;
pub mod ruler;
pub mod trip;
pub mod view;
