//! What a supplier's description lacks for a yes: marked among the service's entries, and written by itself.

use std::path::Path;

use super::keep::{lines, marked, numbers, written, ONE_SET};
use super::{words_of, Answer, Context, Extra, Status};
use crate::blocks::encode;
use crate::entry::Entry;
use crate::input::{named, not_refused, Input};
use crate::json::Json;
use crate::library::{self, Compared, Lack, Reason};
use crate::names::Names;
use crate::page::{self, Lacking};
use crate::readback;
use crate::tree::{cut_down, joined, placed};
use crate::trouble::{Refused, Trouble};
use crate::words;

const TOO_MUCH: &str = "both descriptions together have more than 16 blocks";

/// The two descriptions, and what the first lacks.
struct Lacks {
    supplier: Input,
    service: Input,
    lack: Lack,
    /// The entries of the service's that are marked.
    marks: Vec<bool>,
    /// Where no item fits both, the entries of the supplier's that contradict these.
    against: Vec<bool>,
    names: Names,
}

/// Which entries of the service to add to the supplier's description.
pub(super) fn missing(context: &Context, c: &Path, d: &Path) -> Result<Answer, Trouble> {
    let of = asked(context, c, d)?;
    let addition = cut_down(&of.service.entries, &of.marks);
    contained_then(
        context,
        (&of.supplier.entries, &addition, &of.service.entries),
        d,
    )?;
    let mut answer = match of.lack {
        Lack::Nothing => said(Status::Yes, "nothing to add", "contained", &of.marks),
        _ => lacking(&of)?,
    };
    if of.lack == Lack::Addable {
        written(context, &mut answer, (&addition, &of.service), &of.names)?;
    }
    if context.options.html.is_some() {
        let page = on_page(context, &of, c)?;
        answer.extras.push((Extra::Html, page.into_bytes()));
    }
    Ok(answer.noted(&of.names))
}

/// The library's answer, and where no item fits both what of the supplier's makes that so.
fn asked(context: &Context, c: &Path, d: &Path) -> Result<Lacks, Trouble> {
    let [supplier, service] = [context.supplied(c, 1)?, context.description(d, 2)?];
    let names = words_of(&supplier, &service)?;
    let pairs = context.background.under().pairs;
    let lacks = library::missing(pairs, &supplier.entries, &service.entries);
    let (lack, marks) = lacks.map_err(|refusal| refused(d, refusal))?;
    let against = match lack {
        Lack::Against => {
            let both = joined(&supplier.entries, &cut_down(&service.entries, &marks));
            let earns = library::earning(pairs, &both, &[NOTHING_FITS]);
            let earns = earns
                .map_err(|refusal| not_refused(c, refusal))?
                .unwrap_or_default();
            earns.into_iter().take(supplier.entries.len()).collect()
        }
        _ => Vec::new(),
    };
    Ok(Lacks {
        supplier,
        service,
        lack,
        marks,
        against,
        names,
    })
}

/// The description that nothing fits.
const NOTHING_FITS: Entry = Entry {
    kind: 6,
    zero: 0,
    owner: 0,
    name: 0,
    number: 0,
};

/// What is lacking, with the entries as they are shown.
fn lacking(of: &Lacks) -> Result<Answer, Trouble> {
    let (service, supplier) = (&of.service, &of.supplier);
    let show = |input: &Input, marks: &[bool]| {
        readback::surroundings(lines(input, marks, &of.names), input, &of.names)
    };
    let entries = words::entries(service.entries.len());
    let count = marked(&of.marks).len();
    let shown = show(service, &of.marks)?;
    let mut answer = match of.lack {
        Lack::Against => {
            let what = format!("the supplier's contradicts {count} of {entries}");
            said(Status::No, "no item fits both", &what, &of.marks)
        }
        _ => said(
            Status::Yes,
            "to be added",
            &format!("{count} of {entries}"),
            &of.marks,
        ),
    };
    let mut full = format!("{}\n\n{shown}\n", answer.line);
    if of.lack == Lack::Against {
        let by = show(supplier, &of.against)?;
        full.push_str(&format!(
            "Of the supplier's description these contradict them:\n\n{by}\n"
        ));
        answer.json.insert(1, ("against", numbers(&of.against)));
    }
    answer.full = format!("{full}{ONE_SET}\n").into_bytes();
    Ok(answer)
}

/// The page, for which the addition is put into its places in the supplier's description.
fn on_page(context: &Context, of: &Lacks, file: &Path) -> Result<String, Trouble> {
    let addable = of.lack == Lack::Addable;
    let none = vec![false; of.marks.len()];
    let marks = if addable { &of.marks } else { &none };
    let (entries, behind) = placed(&of.supplier.entries, &of.service.entries, marks);
    alike(
        context,
        (
            &entries,
            &joined(&of.supplier.entries, &cut_down(&of.service.entries, marks)),
        ),
        file,
    )?;
    let whole = Input {
        bytes: encode(&entries),
        sent: of.supplier.sent + behind.len(),
        stored: None,
        entries,
        ..of.supplier.clone()
    };
    page::missing(Lacking {
        lack: of.lack,
        inputs: [&whole, &of.service],
        against: &of.against,
        missing: &of.marks,
        behind: &behind,
        list: &context.background.list,
        names: &of.names,
        given: &context.given,
    })
}

/// An error of this program where two descriptions do not have the library's one normal form.
fn alike(
    context: &Context,
    (one, other): (&[Entry], &[Entry]),
    file: &Path,
) -> Result<(), Trouble> {
    let normal = |entries: &[Entry]| {
        let normal = library::normal(context.background.under(), &encode(entries));
        normal.map_err(|refusal| not_refused(file, refusal))
    };
    match normal(one)? == normal(other)? {
        true => Ok(()),
        false => Err(Trouble::Fault {
            file: named(file),
            why: "with the addition in its places the description says something else".into(),
        }),
    }
}

/// An answer in these words.
fn said(status: Status, answer: &'static str, what: &str, marks: &[bool]) -> Answer {
    let line = format!("{answer}: {what}");
    Answer {
        status,
        full: format!("{line}\n").into_bytes(),
        line,
        ending: "txt",
        json: vec![("answer", Json::text(answer)), ("missing", numbers(marks))],
        extras: Vec::new(),
        notes: Vec::new(),
    }
}

/// The refusal of two accepted descriptions, which can only be too much together.
fn refused(file: &Path, refusal: library::Refusal) -> Trouble {
    match refusal.reason {
        Reason::Length => Refused::new(named(file), refusal, TOO_MUCH.into()).into(),
        _ => not_refused(file, refusal),
    }
}

/// An error of this program where the library does not find the supplier's entries with the addition contained.
fn contained_then(
    context: &Context,
    (supplier, addition, service): (&[Entry], &[Entry], &[Entry]),
    file: &Path,
) -> Result<(), Trouble> {
    let compared = library::compare(
        context.background.under(),
        &encode(&joined(supplier, addition)),
        &encode(service),
    );
    match compared.map_err(|refusal| not_refused(file, refusal))? {
        Compared::Contained => Ok(()),
        Compared::NotContained { .. } => Err(Trouble::Fault {
            file: named(file),
            why: "with the entries that are marked it is not contained".into(),
        }),
    }
}
