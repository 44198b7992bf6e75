//! The tests of `gx`: texts both ways, each command on good, damaged, empty and huge inputs, pages and drawings as they were
//! looked at, that answers are the library's, and the same questions asked of OWL reasoners.

mod all_failing;
mod answers;
mod believed;
mod catalogue;
mod command_line;
mod commands;
mod completions;
mod delivered;
mod desk;
mod dictionaries;
mod doubles;
mod folders;
mod golden;
mod hierarchy;
mod hierarchy_forms;
mod keep;
mod lost;
mod missing;
mod mistakes;
mod narrowest;
mod owl;
mod pairs;
mod readback;
mod readme;
mod reasoners;
mod reception;
mod schema;
mod services;
mod settings;
mod sheets;
mod shown;
mod stored;
mod support;
mod texts;
