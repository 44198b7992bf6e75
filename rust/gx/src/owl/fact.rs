//! The question in the notation of FaCT++, whose program by itself reads no OWL.

/// The words of the two notations, the longer ones of OWL before those that they begin with.
const WORDS: [(&str, &str); 9] = [
    ("EquivalentClasses(", "(equal_c "),
    ("ObjectIntersectionOf(", "(and "),
    ("ObjectComplementOf(", "(not "),
    ("ObjectMinCardinality(", "(atleast "),
    ("ObjectMaxCardinality(", "(atmost "),
    ("ObjectAllValuesFrom(", "(all "),
    ("owl:Thing", "*TOP*"),
    ("owl:Nothing", "*BOTTOM*"),
    (":", ""),
];

/// What `gx owl` writes, line by line; labels are left out.
pub fn in_fact(owl: &str) -> String {
    owl.lines().filter_map(line).collect()
}

fn line(owl: &str) -> Option<String> {
    for (begin, word) in [
        ("Declaration(ObjectProperty(:link_", "defprimrole link_"),
        ("Declaration(Class(:property_", "defprimconcept property_"),
        ("FunctionalObjectProperty(:link_", "functional link_"),
    ] {
        if let Some(number) = owl.strip_prefix(begin) {
            return Some(format!("({word}{})\n", number.trim_end_matches(')')));
        }
    }
    if let Some(classes) = owl.strip_prefix("DisjointClasses(") {
        return Some(format!("(disjoint {}\n", classes.replace(':', "")));
    }
    let expression = owl.starts_with("EquivalentClasses(") || owl.starts_with(' ');
    let each = |line: String, (owl, fact): &(&str, &str)| line.replace(owl, fact);
    expression.then(|| WORDS.iter().fold(owl.into(), each) + "\n")
}
