//! Descriptions, what fits them, and when one holds another.
//!
//! A plain rendering of the rules. Every call first reads its inputs in full,
//! then works on trees of places, then writes its answer as blocks. Comments
//! cite the clauses of docs/SPECIFICATION.md, as in (N4), where it has them.
//!
//! [`fit_with`], [`normal_with`], [`compare_with`] and [`catalogue`] take a list
//! of excluding pairs and a dictionary; [`fit`], [`normal_form`] and [`compare`]
//! are the calls with no pairs and no dictionary. [`unfold`] takes a dictionary.
//!
//! [`narrowest`] and [`fit_all`] take both, [`hierarchy`], [`earning`],
//! [`failing`] and [`missing`] a list of pairs; [`to_stored`], [`from_stored`],
//! [`read_sheet`] and the [`Desk`] take neither.
//!
//! No call panics, whatever bytes it is given. [`notation`] is for tests.

#![forbid(unsafe_code)]
#![warn(missing_docs)]

mod background;
mod blocks;
mod catalogue;
mod compare;
mod delivered;
mod dictionary;
mod drafting;
mod earning;
mod failing;
mod hierarchy;
mod list;
mod marks;
mod missing;
mod narrowest;
mod normal;
pub mod notation;
mod order;
mod pairs;
mod program;
mod reading;
pub mod record;
mod refusal;
mod rules;
mod sheet;
mod specimen;
mod stored;
mod tree;
mod unfolding;

pub use blocks::{decode, encode, Entry};
pub use catalogue::catalogue;
pub use compare::{compare, compare_with, Comparison};
pub use delivered::fit_all;
pub use drafting::{desk_answers, Call, Desk, Outcome};
pub use earning::earning;
pub use failing::failing;
pub use hierarchy::hierarchy;
pub use missing::{missing, Missing};
pub use narrowest::narrowest;
pub use normal::{normal_form, normal_with};
pub use program::run_program;
pub use reading::{read_description, read_specimen};
pub use refusal::Refusal;
pub use sheet::read_sheet;
pub use specimen::{fit, fit_with};
pub use stored::{from_stored, to_stored};
pub use tree::{Link, Property};
pub use unfolding::unfold;
