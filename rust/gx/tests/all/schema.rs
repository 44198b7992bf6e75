//! Each answer for programs is one of `docs/gx.schema.json`. Only what that file uses of JSON Schema is read here.

use std::collections::BTreeMap;

use crate::support::{repository, Folder};

/// A value of JSON.
#[derive(Clone, Debug, PartialEq)]
enum Value {
    Null,
    Flag(bool),
    Number(i64),
    Text(String),
    List(Vec<Value>),
    Object(BTreeMap<String, Value>),
}

use Value::{Flag, List, Null, Number, Object, Text};

/// Reads a value at the start of a text, and gives the rest.
fn value(text: &str) -> (Value, &str) {
    let text = text.trim_start();
    if let Some(mut rest) = text.strip_prefix('{') {
        let mut fields = BTreeMap::new();
        while !rest.trim_start().starts_with('}') {
            let (name, after) = value(rest.trim_start().trim_start_matches(','));
            let (field, after) = value(after.trim_start().strip_prefix(':').unwrap());
            let Text(name) = name else { panic!("{rest}") };
            assert!(fields.insert(name, field).is_none(), "a field stands once");
            rest = after;
        }
        return (Object(fields), &rest.trim_start()[1..]);
    }
    if let Some(mut rest) = text.strip_prefix('[') {
        let mut items = Vec::new();
        while !rest.trim_start().starts_with(']') {
            let (item, after) = value(rest.trim_start().trim_start_matches(','));
            items.push(item);
            rest = after;
        }
        return (List(items), &rest.trim_start()[1..]);
    }
    if let Some(rest) = text.strip_prefix('"') {
        let mut end = 0;
        while !rest[end..].starts_with('"') {
            end += if rest[end..].starts_with('\\') {
                2
            } else {
                rest[end..].chars().next().unwrap().len_utf8()
            };
        }
        return (Text(rest[..end].into()), &rest[end + 1..]);
    }
    let end = text.find([',', '}', ']', '\n']).unwrap_or(text.len());
    let read = match text[..end].trim() {
        "null" => Null,
        "true" => Flag(true),
        "false" => Flag(false),
        digits => Number(digits.parse().unwrap()),
    };
    (read, &text[end..])
}

fn field<'a>(of: &'a Value, name: &str) -> Option<&'a Value> {
    match of {
        Object(fields) => fields.get(name),
        _ => None,
    }
}

fn is_type(value: &Value, name: &Value) -> bool {
    let Text(name) = name else { return false };
    match value {
        Null => name == "null",
        Flag(_) => name == "boolean",
        Number(_) => name == "integer",
        Text(_) => name == "string",
        List(_) => name == "array",
        Object(_) => name == "object",
    }
}

/// Whether a value is as a schema has it, where `root` has the definitions.
fn fits(value: &Value, schema: &Value, root: &Value) -> bool {
    if let Some(Text(name)) = field(schema, "$ref") {
        let name = name.strip_prefix("#/$defs/").unwrap();
        return fits(
            value,
            field(field(root, "$defs").unwrap(), name).unwrap(),
            root,
        );
    }
    let one = match field(schema, "type") {
        None => true,
        Some(List(types)) => types.iter().any(|name| is_type(value, name)),
        Some(name) => is_type(value, name),
    };
    let listed = !matches!(field(schema, "enum"), Some(List(all)) if !all.contains(value));
    let any = !matches!(field(schema, "anyOf"), Some(List(all)) if !all.iter().any(|one| fits(value, one, root)));
    let items = match (value, field(schema, "items")) {
        (List(items), Some(schema)) => items.iter().all(|item| fits(item, schema, root)),
        _ => true,
    };
    let fields = match (value, field(schema, "properties")) {
        (Object(fields), Some(schema)) => fields.iter().all(|(name, value)| {
            field(schema, name).is_some_and(|schema| fits(value, schema, root))
        }),
        _ => true,
    };
    let due = match field(schema, "required") {
        Some(List(names)) => names
            .iter()
            .all(|name| matches!(name, Text(name) if field(value, name).is_some())),
        _ => true,
    };
    one && listed && any && items && fields && due
}

#[test]
fn each_answer_for_programs_is_one_of_the_schema() {
    let schema = std::fs::read_to_string(repository("docs/gx.schema.json")).unwrap();
    let (schema, _) = value(&schema);
    let folder = Folder::new("schema");
    std::fs::create_dir(folder.path().join("services")).unwrap();
    std::fs::create_dir_all(folder.path().join("empty")).unwrap();
    folder
        .put("n", "property 7 \"sealed\"\nlink 1 \"sample\"")
        .put(
            "c",
            "every sample [has property 7 \"closed\"; named 1]; some sample",
        )
        .put(
            "d",
            "lacks property 9\nevery sample [has sealed; no link 3]",
        )
        .put("e", "has property 8 \"a\"")
        .put("f", "has property 8 \"b\"")
        .put("s", "specimen\ngroup of 2 sample [has sealed]")
        .put("t", "at least 3 sample")
        .put("g", "lacks sealed")
        .put("nothing", "nothing fits")
        .put(
            "record",
            "record of 2 items\nitem 1 sample item 2\nitem 2 has property 9",
        )
        .put("services/a", "1,7")
        .put("wrong", "hass\nat lest 1 core")
        .put("refused", "1,0")
        .put("p.pairs", "sealed excludes property 8")
        .put("l", "services: [1,7]; []")
        .put("x.dictionary", "[1,7]; [9,1; 3,1,1]");
    folder.gx(&[
        "write", "t", "--names", "n", "--to", "stored", "-o", "d.stored",
    ]);
    let with = ["--names", "n", "--dictionary", "x.dictionary", "--json"];
    let mut answers = Vec::new();
    for args in [
        &["show", "c"][..],
        &["show", "p.pairs"],
        &["show", "x.dictionary"],
        &["show", "l"],
        &["write", "d", "-o", "out"],
        &["check", "c", "--pairs", "p.pairs"],
        &["check", "wrong"],
        &["check", "wrong", "refused", "none", "empty", "c"],
        &["check", "refused"],
        &["normal", "c"],
        &["unfold", "c"],
        &["fit", "s", "c"],
        &["fit", "s", "d"],
        &["fit", "s", "t"],
        &["compare", "c", "d", "--all"],
        &["compare", "d", "d", "--all"],
        &["compare", "e", "f"],
        &["compare", "none", "f"],
        &["keep", "d", "d"],
        &["keep", "c", "d"],
        &["missing", "c", "d"],
        &["missing", "d", "d"],
        &["missing", "services/a", "g"],
        &["narrowest", "c", "d"],
        &["narrowest", "g", "nothing"],
        &["check", "--sheet", "d"],
        &["delivered", "record", "d"],
        &["check", "record"],
        &["desk", "desk", "add", "1,7", "--against", "services"],
        &["desk", "desk", "show", "--against", "services"],
        &["desk", "desk", "write"],
        &["desk", "desk", "stand", "x"],
        &["desk", "desk", "stand", "0"],
        &["check", "d.stored"],
        &["doubles", "c", "d", "c"],
        &["catalogue", "c", "d", "e", "refused", "--why"],
        &["hierarchy", "c", "d", "c"],
        &["hierarchy", "c", "refused", "none"],
        &["owl", "c", "d"],
        &["owl", "c", "d", "--fact"],
    ] {
        let ran = folder.gx(&[args, &with].concat());
        for line in ran.whole().lines() {
            let (answer, rest) = value(line);
            assert_eq!(rest, "");
            assert!(fits(&answer, &schema, &schema), "{args:?} {line}");
            answers.push(field(&answer, "answer").cloned());
        }
    }
    for due in [
        "accepted",
        "mistake",
        "refused",
        "unreadable",
        "no input",
        "normal form",
        "unfolded",
        "yes",
        "no",
        "not contained",
        "contained",
        "written",
        "hierarchy",
        "narrowest",
        "nothing to add",
        "to be added",
        "no item fits both",
        "doubles",
        "drafted",
    ] {
        assert!(answers.contains(&Some(Text(due.into()))), "{due}");
    }
    let (wrong, _) = value("{\"answer\":\"maybe\",\"given\":null}");
    assert!(!fits(&wrong, &schema, &schema));
}
