//! The question in OWL, and a description from OWL.

use std::path::Path;

use super::{entries_json, held, list, Answer, Context, Status, Written};
use crate::args::{Content, To};
use crate::blocks::{decode, encode};
use crate::dictionary::Naming;
use crate::entry::{Entry, Sort};
use crate::input::{accepted, accepted_list, all_mistaken, bytes_of, named, text_of, title, Input};
use crate::json::Json;
use crate::owl;
use crate::pairs::{encode as encode_pairs, List};
use crate::trouble::Trouble;
use crate::words;

pub(super) fn owl(context: &Context, c: &Path, services: &[&Path]) -> Result<Answer, Trouble> {
    let supplier = context.description(c, 1)?;
    let numbered = (2..).zip(services);
    let services = numbered.map(|(input, service)| context.description(service, input));
    let services = services.collect::<Result<Vec<Input>, Trouble>>()?;
    let mut names = supplier.names.clone();
    for service in &services {
        names.join(&service.names).map_err(Trouble::Words)?;
    }
    let sent = |input: &Input| decode(&input.bytes);
    let sent_supplier = sent(&supplier);
    let sent: Vec<Vec<Entry>> = services.iter().map(sent).collect();
    let titles = services.iter().map(|service| service.title.as_str());
    let question = owl::questions(&owl::Asked {
        pairs: &context.background.list.pairs,
        dictionary: &context.background.dictionary.parts,
        supplier: &sent_supplier,
        services: titles.zip(sent.iter().map(Vec::as_slice)).collect(),
        names: &names,
    });
    let counts: Vec<String> = [&supplier]
        .into_iter()
        .chain(&services)
        .map(|input| words::entries(input.entries.len()))
        .collect();
    let mut json = vec![
        ("answer", Json::text("written")),
        ("owl", Json::text(&question)),
    ];
    let (full, ending) = match context.options.fact {
        true => (owl::in_fact(&question), "lisp"),
        false => (question, "ofn"),
    };
    if context.options.fact {
        json.push(("fact", Json::text(&full)));
    }
    Ok(Answer {
        status: Status::Yes,
        line: format!("a question of {}", words::listed(&counts)),
        json,
        full: full.into_bytes(),
        ending,
        extras: Vec::new(),
        notes: names.settled().to_vec(),
    })
}

pub(super) fn from_owl(context: &Context, file: &Path) -> Result<Answer, Trouble> {
    let bytes = bytes_of(file)?;
    let text = text_of(file, &bytes)?;
    let class = context.options.class.as_deref();
    let pairs = context.options.sort == Some(Content::Pairs);
    let found = match pairs {
        true => owl::read_pairs(text, &context.reading.names),
        false => owl::read(text, class, &context.reading.names),
    };
    let found = found.map_err(|mut all| {
        let first = all.remove(0);
        all_mistaken(file, first, text, all)
    })?;
    let mut names = context.reading.names.clone();
    let words = found.words.placed(&named(file), text);
    names.join(&words).map_err(Trouble::Words)?;
    let list = List {
        title: title(file),
        bytes: encode_pairs(&found.pairs),
        pairs: found.pairs,
        names: names.clone(),
        positions: Vec::new(),
    };
    if pairs {
        return held::show(context, &accepted_list(file, list)?);
    }
    let draft = Input {
        title: title(file),
        sort: Sort::Description,
        bytes: encode(&found.entries),
        sent: found.entries.len(),
        stored: None,
        entries: found.entries,
        names,
        positions: found.positions,
        origins: Vec::new(),
    };
    let input = accepted(file, draft, 1, Naming::Nothing)?;
    let written = Written::of(&input);
    let (full, ending) = context.written(written)?;
    let full = [remark(context, &list), full].concat();
    Ok(Answer {
        status: Status::Yes,
        line: written.desk()?,
        full,
        ending,
        json: vec![
            ("answer", Json::text("accepted")),
            ("sort", Json::text("description")),
            ("entries", entries_json(&input.entries, &input.names)),
            ("pairs", list::pairs_json(&list.pairs, &list.names)),
        ],
        extras: Vec::new(),
        notes: Vec::new(),
    })
}

/// A description says nothing of properties that exclude each other; so a text says where they are.
fn remark(context: &Context, list: &List) -> Vec<u8> {
    let text = context.options.to.unwrap_or(To::Text) == To::Text;
    match list.pairs.len() {
        count if text && count > 0 => format!(
            "// under {} of properties that exclude each other: --sort pairs writes them\n",
            words::pairs(count)
        )
        .into_bytes(),
        _ => Vec::new(),
    }
}
