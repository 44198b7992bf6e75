//! The comparison, with its answer explained.

mod all;

use std::path::Path;

use super::{entries_json, keep, words_of, Answer, Context, Extra, Status};
use crate::blocks::encode;
use crate::explain::{compared, Explained, Failure};
use crate::input::{not_refused, Input};
use crate::json::Json;
use crate::names::Names;
use crate::pairs::List;
use crate::readback;
use crate::specimen;
use crate::text;
use crate::tree::Tree;
use crate::trouble::Trouble;
use crate::whereabouts;
use crate::words::{self, Words};
use crate::{page, svg};

pub(super) fn compare(context: &Context, c: &Path, d: &Path) -> Result<Answer, Trouble> {
    let supplier = context.supplied(c, 1)?;
    let service = context.description(d, 2)?;
    of_inputs(context, supplier, service, d)
}

/// The same for descriptions that are read, the second of them from this file.
pub(super) fn of_inputs(
    context: &Context,
    supplier: Input,
    service: Input,
    d: &Path,
) -> Result<Answer, Trouble> {
    let names = words_of(&supplier, &service)?;
    let list = &context.background.list;
    let explained = compared(&context.background, &supplier, &service);
    let explained = explained.map_err(|refusal| not_refused(d, refusal))?;
    let all = match context.options.all {
        true => Some(all::failing(context, &explained, (&supplier, &service), d)?),
        false => None,
    };
    let mut answer = match &explained {
        Explained::Contained(marks) => contained(list, &supplier, marks),
        Explained::NotContained(failure) => not_contained(failure, &supplier, &service, &names)?,
    };
    if let Some(all) = &all {
        all::tell(&mut answer, all, &supplier, &service, &names);
    }
    let all = all.as_deref();
    answer.extras = extras(context, &explained, (&supplier, &service), &names, all)?;
    Ok(answer.noted(&names))
}

/// The files beside the answer. They are written for each answer, so that no older one is taken for this one's.
fn extras(
    context: &Context,
    explained: &Explained,
    (supplier, service): (&Input, &Input),
    names: &Names,
    all: Option<&[Failure]>,
) -> Result<Vec<(Extra, Vec<u8>)>, Trouble> {
    let options = &context.options;
    let words = Words::new(names);
    let mut extras = Vec::new();
    if options.svg.is_some() {
        let drawing = match explained {
            Explained::Contained(_) => svg::empty("Contained: there is no specimen to show."),
            Explained::NotContained(failure) => svg::drawing(failure, words, options.whole),
        };
        extras.push((Extra::Svg, drawing.into_bytes()));
    }
    if options.html.is_some() {
        let list = &context.background.list;
        let page = page::page(page::Sheet {
            explained,
            list,
            supplier,
            service,
            names,
            whole: options.whole,
            all,
            given: &context.given,
        })?;
        extras.push((Extra::Html, page.into_bytes()));
    }
    if let (Explained::NotContained(failure), true) = (explained, options.specimen.is_some()) {
        extras.push((Extra::Specimen, encode(&failure.specimen.entries)));
    }
    Ok(extras)
}

fn contained(list: &List, supplier: &Input, earning: &[bool]) -> Answer {
    let line = "contained".to_string();
    let earned = keep::earned(supplier, earning);
    let full = format!(
        "contained\n\nEvery item that fits the supplier's description fits the service's description{}.\n{earned}",
        where_kept(list)
    );
    Answer {
        status: Status::Yes,
        line,
        full: full.into_bytes(),
        ending: "txt",
        json: vec![
            ("answer", Json::text("contained")),
            ("earning", keep::numbers(earning)),
        ],
        extras: Vec::new(),
        notes: Vec::new(),
    }
}

/// Of which records the answer speaks, where there is a list.
fn where_kept(list: &List) -> String {
    match list.pairs.len() {
        0 => String::new(),
        count => format!(
            ", in every record that keeps the {} of {}",
            words::pairs(count),
            list.title
        ),
    }
}

fn not_contained(
    failure: &Failure,
    c: &Input,
    d: &Input,
    names: &Names,
) -> Result<Answer, Trouble> {
    let words = Words::new(names);
    let asks = failure.asks(words);
    let line = format!("not contained, entry {}: {asks}", failure.entry);
    let mut json = vec![
        ("answer", Json::text("not contained")),
        ("entry", Json::number(failure.entry)),
        (
            "line",
            d.line_of(failure.entry).map_or(Json::Null, Json::number),
        ),
    ];
    json.extend(origin_json(d, failure.entry));
    json.extend(said_json(failure, words));
    json.extend([
        (
            "specimen_entries",
            Json::number(failure.specimen.entries.len()),
        ),
        ("specimen", entries_json(&failure.specimen.entries, names)),
    ]);
    Ok(Answer {
        status: Status::No,
        line,
        full: full(failure, c, d, words)?.into_bytes(),
        ending: "txt",
        json,
        extras: Vec::new(),
        notes: Vec::new(),
    })
}

/// Where the entry stands, what it asks, and what is said there, for programs.
fn said_json(failure: &Failure, words: Words<'_>) -> [(&'static str, Json); 6] {
    let numbers = |list: &[usize]| Json::List(list.iter().map(|&n| Json::number(n)).collect());
    let links: Vec<usize> = failure.way.iter().map(|link| link.0.into()).collect();
    [
        ("owners", numbers(&failure.owners)),
        ("links", numbers(&links)),
        ("asks", Json::text(failure.asks(words))),
        ("supplier", Json::text(failure.supplier_says(words))),
        ("supplier_entries", numbers(&failure.supplier)),
        ("shows", Json::text(failure.note(words))),
    ]
}

/// The entry as it was sent, and the descriptions that it was put in from; nothing where no named ones were unfolded.
fn origin_json(input: &Input, entry: usize) -> Vec<(&'static str, Json)> {
    let Some(origin) = input.origins.get(entry - 1) else {
        return Vec::new();
    };
    let within = origin.within.iter().map(|&(named, entry)| {
        Json::Object(vec![
            ("description", Json::number(named.0.into())),
            ("entry", Json::number(entry)),
        ])
    });
    vec![
        ("sent", Json::number(origin.sent)),
        ("named", Json::List(within.collect())),
    ]
}

fn full(failure: &Failure, c: &Input, d: &Input, words: Words<'_>) -> Result<String, Trouble> {
    let mut out = format!(
        "not contained\n\nEntry {} of the service's description{} fails:\n    {}\n",
        failure.entry,
        whereabouts::told(d, failure.entry, words.names()),
        failure.asks(words)
    );
    out.push_str(&format!(
        "The supplier's description says there:\n    {}{}\n",
        failure.supplier_says(words),
        by_entries(c, &failure.supplier, words.names())
    ));
    let unfolded = if d.is_unfolded() { ", unfolded" } else { "" };
    out.push_str(&format!(
        "\nThe entry in the service's description{unfolded}:\n"
    ));
    let around = surroundings(failure, d, words);
    out.push_str(&readback::surroundings(around, d, words.names())?);
    out.push_str("\nA specimen that fits the supplier's description and not the service's:\n");
    let lines = specimen_lines(failure, words);
    out.push_str(&readback::specimen(lines, failure, words)?);
    Ok(out)
}

/// The numbers of the supplier's entries that say it.
fn by_entries(input: &Input, entries: &[usize], names: &Names) -> String {
    let numbers: Vec<String> = entries
        .iter()
        .map(|&entry| format!("{entry}{}", whereabouts::told(input, entry, names)))
        .collect();
    match numbers.as_slice() {
        [] => String::new(),
        [one] => format!(" - its entry {one}"),
        _ => format!(" - its entries {}", words::listed(&numbers)),
    }
}

/// How many entries of the same place are shown on each side.
const AROUND: usize = 2;

/// The owners of the entry, and the entries of its place around it.
fn surroundings(failure: &Failure, input: &Input, words: Words<'_>) -> String {
    let tree = Tree::new(&input.entries);
    let owner = failure.owners.last().copied().unwrap_or(0);
    let place = tree.owned(owner);
    let at = place
        .iter()
        .position(|&number| number == failure.entry)
        .unwrap_or(0);
    let (first, last) = (
        at.saturating_sub(AROUND),
        (at + AROUND + 1).min(place.len()),
    );
    let width = input.entries.len().to_string().len();
    let depth = failure.owners.len();
    let line = |number: usize, depth: usize| {
        let sign = if number == failure.entry { '>' } else { ' ' };
        let entry = text::entry(input.entries[number - 1].says(), words.names());
        format!(
            "  {sign} {number:>width$}  {}{entry}\n",
            "    ".repeat(depth)
        )
    };
    let left_out = |yes: bool| match yes {
        true => format!("    {:>width$}  {}...\n", "", "    ".repeat(depth)),
        false => String::new(),
    };
    let mut out: String = (0..)
        .zip(&failure.owners)
        .map(|(depth, &number)| line(number, depth))
        .collect();
    out.push_str(&left_out(first > 0));
    out.extend(place[first..last].iter().map(|&number| line(number, depth)));
    out.push_str(&left_out(last < place.len()));
    out
}

/// The specimen as a tree of lines; where it is long, without the groups that are off the path.
fn specimen_lines(failure: &Failure, words: Words<'_>) -> String {
    let shown = &failure.specimen;
    let lines = specimen::lines(&shown.entries, words);
    let long = lines.len() > 60;
    let mut out = String::new();
    let mut left_out = 0;
    for line in &lines {
        let on_path = line.group == 0 || shown.path.contains(&line.group);
        if long && !on_path {
            left_out += 1;
            continue;
        }
        let indent = "    ".repeat(line.depth + 1);
        let note = match line.group == shown.at {
            true => format!("    <-- {}", failure.note(words)),
            false => String::new(),
        };
        out.push_str(&format!("{indent}{}{}{note}\n", line.items, line.rest));
    }
    if left_out > 0 {
        out.push_str(&format!(
            "    ({left_out} more groups; --html shows them all)\n"
        ));
    }
    out
}
