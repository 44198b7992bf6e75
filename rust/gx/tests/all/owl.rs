//! OWL both ways.

use differential::chance::Chance;
use gx::entry::{Entry, Sort};
use gx::names::Names;
use gx::owl::{question, read};
use gx::text::{desk, parse};

use crate::support::{description, ours, Folder};

/// The same description with its entries in the order of the text.
fn as_written(entries: &[Entry]) -> Vec<Entry> {
    let line = desk(Sort::Description, entries);
    let plain: String = line
        .split_inclusive([' ', '['])
        .filter(|word| !word.starts_with('#'))
        .collect();
    parse(&plain, &Names::default()).unwrap().entries
}

#[test]
fn a_question_is_read_back() {
    let mut chance = Chance::from_seed(21);
    let names = Names::read("link 1 \"a \\\"b\\\" \\\\\"\nproperty 1 \"sealed\"").unwrap();
    for _ in 0..200 {
        let (c, d) = (
            ours(&description(&mut chance)),
            ours(&description(&mut chance)),
        );
        let text = question(&[], &c, &d, &names);
        let found = read(&text, Some("Supplier"), &Names::default()).unwrap();
        assert_eq!(found.entries, as_written(&c), "{text}");
        let found = read(&text, Some("Service"), &Names::default()).unwrap();
        assert_eq!(found.entries, as_written(&d), "{text}");
    }
}

#[test]
fn class_expressions_of_the_fragment_are_read() {
    let names = Names::read("link 9 \"taken from\"\nproperty 9 \"Wet soil\"").unwrap();
    for (owl, due) in [
        ("owl:Thing", "description"),
        ("owl:Nothing", "6"),
        ("ObjectComplementOf(owl:Thing)", "6"),
        (":property_7", "1,7"),
        ("ObjectComplementOf( :property_7 )", "2,7"),
        ("ObjectMinCardinality(2 :link_1)", "3,1,2"),
        ("ObjectMaxCardinality(0 :link_1 owl:Thing)", "4,1,0"),
        ("ObjectExactCardinality(3 :link_1)", "3,1,3; 4,1,3"),
        ("ObjectSomeValuesFrom(:link_1 owl:Thing)", "3,1,1"),
        ("ObjectAllValuesFrom(:link_1 owl:Nothing)", "5,1 [6]"),
        ("ObjectAllValuesFrom(<urn:goltximen#link_1> owl:Thing)", "5,1 []"),
        ("ObjectIntersectionOf(:property_1 ObjectIntersectionOf(:property_2 :property_3))", "1,1; 1,2; 1,3"),
        ("# a remark\nObjectAllValuesFrom(<http://ex.test/soil#taken_from> <http://ex.test/soil/Wet_soil>)", "5,9 [1,9]"),
        (
            "Prefix(s:=<http://ex.test/>)\nOntology(<http://ex.test/o> <http://ex.test/o/1>\n\
             Declaration(Class(s:a)) AnnotationAssertion(rdfs:label s:x \"Wet soil\"@en)\n\
             EquivalentClasses(s:a s:x))",
            "1,9",
        ),
    ] {
        let found = read(owl, None, &names).unwrap();
        let due = parse(due, &Names::default()).unwrap().entries;
        assert_eq!(found.entries, due, "{owl}");
    }
}

/// OWL, the line and column of what is not taken, and what is expected and found there.
const OTHERS: &[(&str, usize, usize, &str, &str)] = &[
    (
        "ObjectUnionOf(:property_1 :property_2)",
        1,
        1,
        "ObjectIntersectionOf",
        "'ObjectUnionOf'",
    ),
    (
        "ObjectIntersectionOf(:property_1\n ObjectOneOf(:a))",
        2,
        2,
        "a class",
        "'ObjectOneOf'",
    ),
    (
        "ObjectSomeValuesFrom(:link_1 :property_1)",
        1,
        30,
        "owl:Thing",
        "':property_1'",
    ),
    (
        "ObjectMinCardinality(1 :link_1 :property_2)",
        1,
        32,
        "owl:Thing",
        "':property_2'",
    ),
    (
        "ObjectMinCardinality(65536 :link_1)",
        1,
        22,
        "65,535",
        "'65536'",
    ),
    (
        "ObjectComplementOf(ObjectUnionOf(:a :b))",
        1,
        20,
        "a class by its name",
        "'ObjectUnionOf'",
    ),
    (
        "ObjectAllValuesFrom(ObjectInverseOf(:link_1) :a)",
        1,
        21,
        "an object property",
        "'ObjectInverseOf'",
    ),
    ("ObjectHasSelf(:link_1)", 1, 1, "a class", "'ObjectHasSelf'"),
    (
        "DataMinCardinality(1 :x)",
        1,
        1,
        "a class",
        "'DataMinCardinality'",
    ),
    (
        ":property_0",
        1,
        1,
        "property_1 to property_65535",
        "':property_0'",
    ),
    (
        "ObjectMinCardinality(1 :sample)",
        1,
        24,
        "link_1 to link_65535",
        "':sample'",
    ),
    (
        "Ontology(SubClassOf(:a :b))",
        1,
        10,
        "EquivalentClasses",
        "'SubClassOf'",
    ),
    (
        "Ontology(FunctionalObjectProperty(:link_32767) EquivalentClasses(:A :property_1))",
        1,
        35,
        "link_32768 to link_65535",
        "':link_32767'",
    ),
    (
        "Ontology(InverseFunctionalObjectProperty(:link_32768))",
        1,
        10,
        "EquivalentClasses",
        "'InverseFunctionalObjectProperty'",
    ),
    ("Ontology()", 1, 11, "defines a class", "the end"),
    (
        "Ontology(EquivalentClasses(:A :property_1) EquivalentClasses(:B :A))",
        1,
        69,
        "--class with one of A, B",
        "the end",
    ),
    (
        "Ontology(FunctionalObjectProperty(:link_32768) EquivalentClasses(:A :B) EquivalentClasses(:B :C))",
        1,
        98,
        "--class with one of A, B",
        "the end",
    ),
    (
        ":property_1 :property_2",
        1,
        13,
        "the end of the text",
        "':property_2'",
    ),
    (
        "ObjectIntersectionOf(:property_1",
        1,
        33,
        "a class",
        "the end",
    ),
    (
        "ObjectAllValuesFrom(:link_1 \"x",
        1,
        29,
        "ends with",
        "'\"'",
    ),
    ("", 1, 1, "a class", "the end"),
];

#[test]
fn other_constructs_are_named() {
    for &(owl, line, column, expected, found) in OTHERS {
        let mistake = read(owl, None, &Names::default()).unwrap_err().remove(0);
        let told = format!("{owl}: {mistake}");
        assert_eq!(
            (mistake.at.line, mistake.at.column),
            (line, column),
            "{told}"
        );
        assert!(
            mistake.expected.contains(expected) && mistake.found.contains(found),
            "{told}"
        );
    }
}

/// Each link from 32,768 up is functional, and no other.
#[test]
fn links_that_lead_to_one_item_only_are_functional() {
    let description = |desk| parse(desk, &Names::default()).unwrap().entries;
    let (c, d) = (
        description("5,32767 [3,32768,1]; 4,65535,0; 1,40000"),
        description("5,32768 [3,32768,2; 2,50000]"),
    );
    let names = Names::read("link 32768 \"field\" \"fields\"").unwrap();
    let text = question(&[], &c, &d, &names);
    let functional: Vec<&str> = text
        .lines()
        .filter(|line| line.starts_with("Functional"))
        .collect();
    let due = [
        "FunctionalObjectProperty(:link_32768)",
        "FunctionalObjectProperty(:link_65535)",
    ];
    assert_eq!(functional, due);
    for (class, entries) in [("Supplier", c), ("Service", d)] {
        let found = read(&text, Some(class), &Names::default()).unwrap();
        assert_eq!(found.entries, entries);
    }
}

/// That a link leads to one item only is passed over where it is so, wherever it stands, and of what is no link of ours.
#[test]
fn functional_links_are_read_harmlessly() {
    let names = Names::read("link 40000 \"taken from\"\nlink 9 \"sample\"").unwrap();
    let ontology = |axiom: &str| {
        format!(
            "Prefix(s:=<http://ex.test/>)\nOntology({axiom} EquivalentClasses(s:a ObjectMinCardinality(1 s:x)) \
             AnnotationAssertion(rdfs:label s:x \"taken from\") AnnotationAssertion(rdfs:label s:y \"sample\"))"
        )
    };
    let due = parse("3,40000,1", &Names::default()).unwrap().entries;
    for axiom in [
        "",
        "FunctionalObjectProperty(s:x)",
        "FunctionalObjectProperty( :link_65535 )",
        "FunctionalObjectProperty(s:other)",
        "FunctionalObjectProperty(ObjectInverseOf(s:other))",
    ] {
        let found = read(&ontology(axiom), None, &names).unwrap();
        assert_eq!(found.entries, due, "{axiom}");
    }
    // Of a link that may lead to several it would say something else, by its number or by its word.
    for axiom in [
        "FunctionalObjectProperty(:link_9)",
        "FunctionalObjectProperty(s:y)",
    ] {
        let mistake = read(&ontology(axiom), None, &names).unwrap_err().remove(0);
        assert!(mistake.expected.contains("one item only"), "{mistake}");
    }
}

#[test]
fn named_definitions_are_not_taken() {
    let text =
        "Ontology(EquivalentClasses(:A :property_1) EquivalentClasses(:property_1 owl:Nothing))";
    let mistake = read(text, Some("A"), &Names::default())
        .unwrap_err()
        .remove(0);
    assert!(mistake.expected.contains("named definitions"), "{mistake}");
}

#[test]
fn deep_nesting_is_a_mistake_and_no_crash() {
    let text = "ObjectAllValuesFrom(:link_1 ".repeat(100_000);
    let mistake = read(&text, None, &Names::default()).unwrap_err().remove(0);
    assert!(mistake.expected.contains("deep"), "{mistake}");
    assert!(parse(&"5,1 [".repeat(70_000), &Names::default()).is_err());
}

#[test]
fn other_syntaxes_are_recognised() {
    let folder = Folder::new("owl-syntaxes");
    for (text, found, at) in [
        (
            "<?xml version=\"1.0\"?>\n<rdf:RDF xmlns=\"x\"/>",
            "RDF/XML",
            "1:1",
        ),
        (
            "<?xml version=\"1.0\"?>\n<Ontology xmlns=\"x\"/>",
            "OWL/XML",
            "1:1",
        ),
        ("\n @prefix : <urn:goltximen#> .", "Turtle", "2:2"),
        ("PREFIX : <urn:goltximen#>\n", "Turtle", "1:1"),
        (
            "Prefix: : <urn:goltximen#>\nOntology: <x>",
            "Manchester syntax",
            "1:1",
        ),
    ] {
        folder.put("o", text);
        let ran = folder.gx(&["from-owl", "o"]);
        let due = format!("gx: o:{at}: expected OWL 2 functional syntax, found {found}; save it as functional syntax (in Protégé: ");
        assert!(ran.err.starts_with(&due), "{}", ran.err);
        assert_eq!((ran.status, ran.out.len()), (2, 0));
    }
    let help = folder.gx(&["owl", "--help"]).text();
    for line in [
        "\n    Konclude satisfiability -w 2 -i question.ofn -x",
        "\n    FaCT++ question.conf\n",
    ] {
        assert!(help.contains(line), "{help}");
    }
}

#[test]
fn named_descriptions_stay_classes() {
    let folder = Folder::new("owl-named");
    folder
        .put("d.dictionary", "dictionary\ndescription 1 \"sealed core\" [has property 7; at most 2 link 3]\n[every link 2 [named 1]; has property 9]")
        .put("c", "every link 1 [named 2; named 1]")
        .put("d", "every link 1 [every link 2 [has property 7]]");
    let args = [
        "owl",
        "c",
        "d",
        "--dictionary",
        "d.dictionary",
        "-o",
        "q.ofn",
    ];
    assert_eq!(folder.gx(&args).status, 0);
    let question = String::from_utf8(folder.get("q.ofn")).unwrap();
    for part in [
        "Declaration(Class(:description_1))\nAnnotationAssertion(rdfs:label :description_1 \"sealed core\")\nEquivalentClasses(:description_1\n",
        "EquivalentClasses(:description_2\n",
        "EquivalentClasses(:Supplier\n  ObjectAllValuesFrom(:link_1\n    ObjectIntersectionOf(\n      :description_2\n      :description_1)))",
    ] {
        assert!(question.contains(part), "{part} {question}");
    }
    let read = folder.gx(&["from-owl", "q.ofn", "--class", "Supplier", "--to", "desk"]);
    let due = "5,1 [5,2 [1,7; 4,3,2]; 1,9; 1,7; 4,3,2]\n";
    assert_eq!(
        (read.status, read.text().as_str()),
        (0, due),
        "{}",
        read.err
    );
}

#[test]
fn a_whole_catalogue_is_one_ontology() {
    let folder = Folder::new("owl-catalogue");
    folder
        .put("c", "1,7; 1,8")
        .put("a.txt", "1,7")
        .put("b.txt", "1,9")
        .put("e.txt", "1,8; 2,7");
    let args = ["owl", "c", "a.txt", "b.txt", "e.txt", "-o", "q.ofn"];
    assert_eq!(folder.gx(&args).status, 0);
    let question = String::from_utf8(folder.get("q.ofn")).unwrap();
    for (number, title) in [(1, "a.txt"), (2, "b.txt"), (3, "e.txt")] {
        let label = format!("AnnotationAssertion(rdfs:label :Service_{number} \"{title}\")\n");
        assert!(question.contains(&label), "{question}");
        let only = format!("EquivalentClasses(:SupplierOnly_{number} ObjectIntersectionOf(:Supplier ObjectComplementOf(:Service_{number})))\n");
        assert!(question.contains(&only), "{question}");
        let class = format!("Service_{number}");
        let read = folder.gx(&["from-owl", "q.ofn", "--class", &class, "--to", "blocks"]);
        let due = folder.gx(&["write", title]).out;
        assert_eq!((read.status, read.out), (0, due));
    }
}
