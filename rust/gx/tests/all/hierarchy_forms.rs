//! The hierarchy as a table, as a graph and as an ontology.

use crate::hierarchy::{desk, is};

#[test]
fn as_a_table_and_as_a_graph() {
    let folder = desk("hierarchy-table");
    let files = ["services/left.txt", "services/any.txt", "services/left.txt"];
    let ran = folder.gx(&[&["hierarchy", "--csv"], &files[..]].concat());
    let due = "\
service,class,superiors,left.txt,any.txt,left.txt
left.txt,left.txt,any.txt,1,1,1
any.txt,any.txt,,0,1,0
left.txt,left.txt,any.txt,1,1,1
";
    is(&ran, 0, due);
    let ran = folder.gx(&["hierarchy", "services", "--csv"]);
    let due = "\nboth.txt,both.txt,left.txt;right.txt,1,1,1,0,1,1\n";
    assert!(ran.text().contains(due), "{}", ran.text());
    let ran = folder.gx(&[&["hierarchy", "--dot"], &files[..]].concat());
    let due = "\
digraph hierarchy {
    rankdir=BT;
    node [shape=box];
    c1 [label=\"left.txt\\nleft.txt\"];
    c2 [label=\"any.txt\"];
    c1 -> c2;
}
";
    is(&ran, 0, due);
    // A name with signs of its own.
    folder.put("a,\"b\"", "1,7");
    let ran = folder.gx(&["hierarchy", "a,\"b\"", "--csv"]);
    let name = "\"a,\"\"b\"\"\"";
    is(
        &ran,
        0,
        &format!("service,class,superiors,{name}\n{name},{name},,1\n"),
    );
    for (one, other) in [("--csv", "--dot"), ("--dot", "--owl"), ("--owl", "--csv")] {
        let ran = folder.gx(&["hierarchy", "services", one, other]);
        assert_eq!((ran.status, ran.out.len()), (64, 0));
    }
}

/// As an ontology: definitions, and what was found.
#[test]
fn as_an_ontology() {
    let folder = desk("hierarchy-owl");
    folder.put("lab.pairs", "pairs: 7,8");
    let files = ["services/left.txt", "services/any.txt", "services/left.txt"];
    let ran = folder.gx(&[&["hierarchy", "--owl", "--pairs", "lab.pairs"], &files[..]].concat());
    let text = ran.text();
    assert_eq!((ran.status, ran.err.as_str()), (0, ""));
    for due in [
        "AnnotationAssertion(rdfs:label :Service_1 \"left.txt\")\n",
        "EquivalentClasses(:Service_2\n  ObjectMinCardinality(1 :link_1))\n",
        "DisjointClasses(:property_7 :property_8)\n",
        "EquivalentClasses(:Service_1 :Service_3)\nSubClassOf(:Service_1 :Service_2)\n)\n",
    ] {
        assert!(text.contains(due), "{due}: {text}");
    }
    assert!(!text.contains("Supplier"));
}
