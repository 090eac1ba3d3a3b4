//! Not carried over.
