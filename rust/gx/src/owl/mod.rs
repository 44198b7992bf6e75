//! The question in OWL 2 functional syntax, and descriptions read from it.
//!
//! | Entry | Class expression |
//! |---|---|
//! | has property 7 | `:property_7` |
//! | lacks property 7 | `ObjectComplementOf(:property_7)` |
//! | at least n by link 1 | `ObjectMinCardinality(n :link_1)` |
//! | at most n by link 1 | `ObjectMaxCardinality(n :link_1)` |
//! | every item by link 1 fits .. | `ObjectAllValuesFrom(:link_1 ..)` |
//! | nothing fits | `owl:Nothing` |
//! | several entries of one place | `ObjectIntersectionOf(..)` |
//! | named 3 | `:description_3`, a class with its definition |
//! | a place without entries | `owl:Thing` |
//!
//! Links from 32,768 up lead to one item only: the axiom `FunctionalObjectProperty(:link_32768)` says so to a reasoner. So does
//! `DisjointClasses(:property_7 :property_8)` of two properties that exclude each other.
//!
//! OWL speaks of all records and the library of finite ones; for this fragment the answers are the same, since the
//! specimen of a no is finite.

mod fact;
mod lexer;
mod other;
mod ranked;
mod read;
mod write;

pub use fact::in_fact;
pub use ranked::ranked;
pub use read::{read, read_pairs, Found};
pub use write::{question, questions, Asked};

/// Where the names of properties and links begin.
pub(crate) const SPACE: &str = "urn:goltximen#";
pub(crate) const OWL: &str = "http://www.w3.org/2002/07/owl#";
pub(crate) const RDFS: &str = "http://www.w3.org/2000/01/rdf-schema#";
