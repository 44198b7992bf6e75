//! `gx`: descriptions and specimens to see, write, check and explain.
//!
//! Every answer is that of the proved library, called through `rust/bindings`; this crate reads, writes, draws and words it.
//!
//! | Module | Subject |
//! |---|---|
//! | [`entry`], [`blocks`], [`stored`], [`tree`] | entries, entries as blocks and in the stored form, which entry owns which |
//! | [`delivered`], [`draft`] | records of what was delivered; the steps of a drafting desk |
//! | [`pairs`], [`dictionary`], [`services`] | properties that exclude each other, named descriptions, lists of services, and their bytes |
//! | [`background`] | what all answers of a run are about: the list and the dictionary |
//! | [`names`], [`text`] | the words of properties, links and descriptions; descriptions, specimens, lists and dictionaries as text |
//! | [`input`], [`trouble`], [`refused`] | inputs, what keeps one from an answer, a refusal in words |
//! | [`library`] | the calls of the proved library |
//! | [`words`], [`whereabouts`], [`shown`], [`readback`] | sentences, and where an entry stands |
//! | [`explain`], [`specimen`] | a no explained, a specimen as a tree of lines |
//! | [`mod@hierarchy`] | services from general to special |
//! | [`svg`], [`page`] | the drawing and the page |
//! | [`owl`] | the question in OWL, and descriptions from it |
//! | [`settings`], [`given`], [`sha256`] | a laboratory's settings, and under what an answer is given |
//! | [`args`], [`help`], [`completions`], [`suggest`] | the command line |
//! | [`commands`], [`mod@run`] | what each command answers, what is printed |

#![forbid(unsafe_code)]
#![deny(missing_docs)]

pub mod args;
pub mod background;
pub mod blocks;
pub mod commands;
pub mod completions;
pub mod delivered;
pub mod dictionary;
pub mod draft;
pub mod entry;
pub mod explain;
pub mod given;
pub mod help;
pub mod hierarchy;
pub mod input;
pub mod json;
pub mod library;
pub mod names;
pub mod owl;
pub mod page;
pub mod pairs;
pub mod readback;
pub mod refused;
pub mod run;
pub mod services;
pub mod settings;
pub mod sha256;
pub mod shown;
pub mod specimen;
pub mod stored;
pub mod suggest;
pub mod svg;
pub mod text;
pub mod tree;
pub mod trouble;
pub mod whereabouts;
pub mod words;
