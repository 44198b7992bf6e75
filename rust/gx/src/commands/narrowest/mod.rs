//! The narrowest description that contains two: as text, written, and beside the two on a page.

mod leads;

use std::path::Path;

use super::{entries_json, words_of, Answer, Context, Extra, Status, Written};
use crate::args::To;
use crate::entry::{Entry, Sort};
use crate::input::{named, not_refused, Input};
use crate::json::Json;
use crate::library::{self, Reason, Refusal};
use crate::page::{self, Joined};
use crate::shown::file_name;
use crate::trouble::{Refused, Trouble};
use crate::words;
use leads::{given_up, leads};

/// The two descriptions and the narrowest that contains both.
struct Narrowest {
    inputs: [Input; 2],
    /// Their normal forms.
    normal: [Vec<Entry>; 2],
    result: Input,
    /// The inputs that nothing fits, by their numbers.
    impossible: Vec<usize>,
}

pub(super) fn narrowest(context: &Context, a: &Path, b: &Path) -> Result<Answer, Trouble> {
    let of = asked(context, [a, b])?;
    let (data, ending) = context.written(Written::of(&of.result))?;
    let remark = remark(&of);
    let full = match context.options.to.unwrap_or(To::Text) {
        To::Text => [remark.as_bytes(), &data].concat(),
        _ => data,
    };
    let mut extras = Vec::new();
    if context.options.html.is_some() {
        extras.push((Extra::Html, on_page(context, &of, [a, b])?.into_bytes()));
    }
    let impossible = of.impossible.iter().map(|&number| Json::number(number));
    let answer = Answer {
        status: Status::Yes,
        line: line(&of, &remark),
        full,
        ending,
        json: vec![
            ("answer", Json::text("narrowest")),
            ("impossible", Json::List(impossible.collect())),
            (
                "entries",
                entries_json(&of.result.entries, &of.result.names),
            ),
        ],
        extras,
        notes: Vec::new(),
    };
    Ok(answer.noted(&of.result.names))
}

/// The library's answer.
fn asked(context: &Context, files: [&Path; 2]) -> Result<Narrowest, Trouble> {
    let inputs = [
        context.supplied(files[0], 1)?,
        context.supplied(files[1], 2)?,
    ];
    let [one, other] = &inputs;
    let names = words_of(one, other)?;
    let under = context.background.under();
    let blocks = library::narrowest(under, &one.bytes, &other.bytes);
    let blocks = blocks.map_err(|refusal| refused(files, refusal))?;
    let entries = library::entries(&blocks);
    let normal = |of: &Input, file: &Path| {
        let normal = library::normal(under, &of.bytes);
        normal.map_or_else(
            |refusal| Err(not_refused(file, refusal)),
            |normal| Ok(library::entries(&normal)),
        )
    };
    let normal = [normal(one, files[0])?, normal(other, files[1])?];
    let result = Input {
        title: "the narrowest description".into(),
        sort: Sort::Description,
        sent: entries.len(),
        stored: None,
        entries,
        bytes: blocks,
        names,
        positions: Vec::new(),
        origins: Vec::new(),
    };
    Ok(Narrowest {
        impossible: impossible(&normal),
        inputs,
        normal,
        result,
    })
}

/// On one line: how large the result is, and which input was impossible.
fn line(of: &Narrowest, remark: &str) -> String {
    let count = words::entries(of.result.entries.len());
    match remark.trim_start_matches("// ").trim_end() {
        "" => count,
        remark => format!("{count}; {remark}"),
    }
}

fn on_page(context: &Context, of: &Narrowest, files: [&Path; 2]) -> Result<String, Trouble> {
    let under = context.background.under();
    let [one, other] = &of.inputs;
    let gone = |input: &Input, file: &Path| {
        given_up(under, input, &of.result).map_err(|refusal| not_refused(file, refusal))
    };
    let leads = leads(under, &of.inputs, &of.result);
    page::narrowest(Joined {
        inputs: [one, other],
        normal: &of.normal,
        result: &of.result,
        leads: &leads.map_err(|refusal| not_refused(files[0], refusal))?,
        given_up: [&gone(one, files[0])?, &gone(other, files[1])?],
        impossible: &of.impossible,
        list: &context.background.list,
        names: &of.result.names,
        given: &context.given,
    })
}

/// A refusal of the two together: more than 16 blocks, or a result that is too long.
fn refused(files: [&Path; 2], refusal: Refusal) -> Trouble {
    let file = files[usize::from(refusal.input == 2)];
    let why = match refusal.reason {
        Reason::Length => "both descriptions together have more than 16 blocks",
        Reason::Output => "the narrowest description of the two has more than 1,008 entries",
        _ => return not_refused(file, refusal),
    };
    Refused::new(named(file), refusal, why.into()).into()
}

/// The numbers of the normal forms that nothing fits.
fn impossible(normal: &[Vec<Entry>; 2]) -> Vec<usize> {
    let numbered = (1..).zip(normal);
    let none = numbered.filter(|(_, normal)| matches!(normal[..], [Entry { kind: 6, .. }]));
    none.map(|(number, _)| number).collect()
}

/// What is told above the text of the result.
fn remark(of: &Narrowest) -> String {
    let [a, b] = [0, 1].map(|at| file_name(&of.inputs[at].title));
    match of.impossible.as_slice() {
        [] => String::new(),
        [1] => format!("// nothing fits {a}: the result is the normal form of {b}\n"),
        [2] => format!("// nothing fits {b}: the result is the normal form of {a}\n"),
        _ => format!("// nothing fits {a} and {b}, nor the result\n"),
    }
}
