//! The entries that earn a yes: marked among the others, and written by themselves.

use std::path::Path;

use super::{compare, words_of, Answer, Context, Extra, Status, Written};
use crate::entry::{Entry, Sort};
use crate::input::{named, not_refused, Input};
use crate::json::Json;
use crate::library::{self, Compared};
use crate::names::Names;
use crate::page::{self, Kept};
use crate::readback;
use crate::text;
use crate::tree::{cut_down, owners, Tree};
use crate::trouble::Trouble;
use crate::words;

/// Of more entries than this only the marked ones are shown.
const MOST_SHOWN: usize = 60;

pub(super) const ONE_SET: &str =
    "One such set, of which none can be left out; leaving out was tried from the last.";

/// The numbers of the entries that are marked.
pub(super) fn numbers(marks: &[bool]) -> Json {
    Json::List(marked(marks).into_iter().map(Json::number).collect())
}

pub(super) fn marked(marks: &[bool]) -> Vec<usize> {
    let numbered = (1..).zip(marks).filter(|(_, &is)| is);
    numbered.map(|(number, _)| number).collect()
}

/// Which entries earn a yes, in a sentence.
pub(super) fn earned(supplier: &Input, marks: &[bool]) -> String {
    let numbers: Vec<String> = marked(marks).iter().map(usize::to_string).collect();
    let count = words::entries(supplier.entries.len());
    match numbers.len() {
        0 => "\nNone of the supplier's entries is needed for it.\n".into(),
        1 if supplier.entries.len() == 1 => "\nIts one entry is needed for it.\n".into(),
        _ if numbers.len() == supplier.entries.len() => {
            format!("\nAll its {count} are needed for it.\n")
        }
        1 => format!("\nOf its {count} one earns it: {}.\n", numbers[0]),
        some => format!(
            "\nOf its {count} {} earn it: {}. {ONE_SET}\n",
            words::grouped(some as u32),
            words::listed(&numbers)
        ),
    }
}

/// Which entries of the supplier's description to keep.
pub(super) fn keep(context: &Context, c: &Path, d: &Path) -> Result<Answer, Trouble> {
    let [supplier, service] = [context.supplied(c, 1)?, context.description(d, 2)?];
    let names = words_of(&supplier, &service)?;
    let pairs = context.background.under().pairs;
    let marks = library::earning(pairs, &supplier.entries, &service.entries);
    let Some(marks) = marks.map_err(|refusal| not_refused(d, refusal))? else {
        return nothing_earns(context, supplier, service, d);
    };
    let kept = cut_down(&supplier.entries, &marks);
    still_contained(context, (&kept, &service.entries), d)?;
    let shown = readback::surroundings(lines(&supplier, &marks, &names), &supplier, &names)?;
    let mut answer = earning(&marks, &supplier, &shown);
    written(context, &mut answer, (&kept, &supplier), &names)?;
    if context.options.html.is_some() {
        let page = page::kept(Kept {
            inputs: [&supplier, &service],
            earning: &marks,
            list: &context.background.list,
            names: &names,
            given: &context.given,
        })?;
        answer.extras.push((Extra::Html, page.into_bytes()));
    }
    Ok(answer.noted(&names))
}

/// What earns it, with the entries as they are shown.
fn earning(marks: &[bool], supplier: &Input, shown: &str) -> Answer {
    let count = marked(marks).len();
    let of = words::entries(supplier.entries.len());
    let earn = if count == 1 { "earns" } else { "earn" };
    let line = format!(
        "contained; {} of {of} {earn} it",
        words::grouped(count as u32)
    );
    Answer {
        status: Status::Yes,
        full: format!("{line}\n\n{shown}\n{ONE_SET}\n").into_bytes(),
        line,
        ending: "txt",
        json: vec![
            ("answer", Json::text("contained")),
            ("earning", numbers(marks)),
        ],
        extras: Vec::new(),
        notes: Vec::new(),
    }
}

/// A no, of which the page is that of the comparison.
fn nothing_earns(
    context: &Context,
    supplier: Input,
    service: Input,
    d: &Path,
) -> Result<Answer, Trouble> {
    let line = "not contained: no entry earns a yes".to_string();
    let compared = compare::of_inputs(context, supplier, service, d)?;
    Ok(Answer {
        status: Status::No,
        full: format!("{line}\n\ngx compare tells why.\n").into_bytes(),
        line,
        ending: "txt",
        json: vec![
            ("answer", Json::text("not contained")),
            ("earning", Json::List(Vec::new())),
        ],
        ..compared
    })
}

/// An error of this program where the library does not find these entries contained.
fn still_contained(
    context: &Context,
    (entries, service): (&[Entry], &[Entry]),
    file: &Path,
) -> Result<(), Trouble> {
    let encode = crate::blocks::encode;
    let compared = library::compare(
        context.background.under(),
        &encode(entries),
        &encode(service),
    );
    match compared.map_err(|refusal| not_refused(file, refusal))? {
        Compared::Contained => Ok(()),
        Compared::NotContained { .. } => Err(Trouble::Fault {
            file: named(file),
            why: "the entries that are marked do not earn the yes".into(),
        }),
    }
}

/// What is written into a file of its own.
pub(super) fn written(
    context: &Context,
    answer: &mut Answer,
    (entries, of): (&[Entry], &Input),
    names: &Names,
) -> Result<(), Trouble> {
    if context.options.out.is_some() {
        let (bytes, _) = context.written(Written {
            sort: Sort::Description,
            entries,
            names,
            title: &of.title,
        })?;
        answer.extras.push((Extra::Out, bytes));
    }
    Ok(())
}

/// The entries as a tree of lines, the marked ones with a sign; of many the marked ones alone.
pub(super) fn lines(input: &Input, marks: &[bool], names: &Names) -> String {
    let tree = Tree::new(&input.entries);
    let width = input.entries.len().to_string().len();
    let many = input.entries.len() > MOST_SHOWN;
    let mut out = String::new();
    let mut left: Vec<usize> = tree.owned(0).iter().rev().copied().collect();
    while let Some(entry) = left.pop() {
        left.extend(tree.owned(entry).iter().rev());
        let is = marks.get(entry - 1).copied().unwrap_or(false);
        if many && !is {
            continue;
        }
        let sign = if is { '+' } else { ' ' };
        let indent = "    ".repeat(owners(&input.entries, entry).len());
        let says = text::entry(input.entries[entry - 1].says(), names);
        out.push_str(&format!("  {sign} {entry:>width$}  {indent}{says}\n"));
    }
    out
}
