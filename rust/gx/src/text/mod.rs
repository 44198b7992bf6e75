//! Descriptions, specimens, lists of pairs, dictionaries and lists of services as text.
//!
//! ```text
//! every link 1 "sample" [
//!     at least 1 link 2 "core"
//!     at least 1 link 32768 "taken from field"
//!     has property 7 "sealed"
//! ]
//! ```
//!
//! The desk notation, `5,1 [3,2,1; 4,2,1]`, is read as well, and the two may be mixed. Entries are numbered as they are written.
//! Blocks may have them in another order, so a number sign gives an entry its number, `#12 has property 7`, and the entries
//! after it count on from there; it is written only where the order of the text is not that of the numbers.
//!
//! A list of properties that exclude each other has a pair on each line, after the heading `pairs`:
//!
//! ```text
//! pairs
//! property 7 "clay" excludes property 8 "sand"
//! ```
//!
//! A dictionary has its descriptions in brackets, after the heading `dictionary`. They are numbered as they are written, each has
//! entries that count from 1, and `named 1` stands for the first:
//!
//! ```text
//! dictionary
//! description 1 "sealed core" [
//!     has property 7 "sealed"
//! ]
//! description 2 [
//!     named 1 "sealed core"
//!     at least 2 link 3 "layer"
//! ]
//! ```
//!
//! A list of services likewise, after the heading `services`: `service 1 [ .. ]`.
//!
//! A delivered record says how many items it has, and then of each what it has and which items it is linked to; a table with commas,
//! `item,says,name,to`, says the same:
//!
//! ```text
//! record of 2 items
//! item 1 link 1 "sample" item 2
//! item 2 has property 7 "sealed"
//! ```

mod lexer;
mod mistake;
mod parse;
mod write;

pub use lexer::{Lexer, Sign, Token};
pub use mistake::{Mistake, Position};
pub use parse::{is_headed, parse, parse_dictionary, parse_pairs, parse_parts, parse_services};
pub use parse::{is_table, parse_record, ParsedRecord, RECORD, TABLE};
pub use parse::{mistakes, mistakes_of_pairs, mistakes_of_parts, MOST_MISTAKES};
pub use parse::{
    Bracketed, Parsed, ParsedPairs, ParsedParts, DICTIONARY, EXCLUDES, PAIRS, SERVICES,
};
pub use write::{description, desk, desk_dictionary, desk_pairs, desk_services, dictionary};
pub use write::{
    entry, pair, pairs, property, quoted, record, said_of_item, services, text, Numbers,
};
