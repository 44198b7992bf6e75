//! The page of a hierarchy: the tree, the drawing, and of each service what stands above and below it and what says the same.

use super::{filed, framed, given, where_kept};
use crate::given::Given;
use crate::hierarchy::Hierarchy;
use crate::pairs::List;
use crate::svg;

/// Of more classes than this the tree comes before the drawing.
const MOST_FIRST: usize = 40;

/// The page of a hierarchy under a list of pairs.
pub fn hierarchy(hierarchy: &Hierarchy, list: &List, under: &Given) -> String {
    let counted = hierarchy.counted();
    let kept = where_kept(list)
        .replace("<a href=\"#pairs\">", "")
        .replace("</a>", "");
    let mut body = format!(
        "<header class=\"answer\">\n<h1 id=\"answer\">{counted}</h1>\n<p>A service stands below those that allow all that it allows, and \
         more. Services that say the same are one class.{kept}</p>\n</header>\n"
    );
    let (tree, drawing) = (tree(hierarchy), drawing(hierarchy));
    match hierarchy.classes.len() > MOST_FIRST {
        true => body.push_str(&format!("{tree}{drawing}")),
        false => body.push_str(&format!("{drawing}{tree}")),
    }
    for (class, of) in hierarchy.classes.iter().enumerate() {
        let sections = of.members.iter().map(|&of| section(hierarchy, class, of));
        body.extend(sections);
    }
    body.push_str(&format!("<footer>\n{FOOTER}{}</footer>\n", given(under)));
    framed(&format!("Hierarchy: {counted}"), &body)
}

const FOOTER: &str = "<p>Which service contains which, which classes stand directly above one, and which services say the same is the \
answer of the proved library; this page words and draws it. A class stands directly above another where it allows all that the \
other allows, and more, and no third stands between them in this way.</p>\n";

fn drawing(hierarchy: &Hierarchy) -> String {
    format!(
        "<section class=\"card\">\n<h2>The classes in layers</h2>\n<figure id=\"drawing\">\n<div class=\"draw\" tabindex=\"0\" role=\"group\" \
         aria-label=\"Drawing of the hierarchy\">\n{}</div>\n<figcaption>General above special: a line leads from a class up to each that \
         stands directly above it. Classes without a line stand alone.</figcaption>\n</figure>\n</section>\n",
        svg::hierarchy_inside(hierarchy)
    )
}

/// The names of a class, each of which leads to the section of its service.
fn link(hierarchy: &Hierarchy, class: usize) -> String {
    let members = &hierarchy.classes[class].members;
    let names: Vec<String> = members.iter().map(|&of| service(hierarchy, of)).collect();
    names.join(" = ")
}

/// The name of a service, which leads to its section.
fn service(hierarchy: &Hierarchy, of: usize) -> String {
    let name = filed(&hierarchy.names[of]);
    format!("<a href=\"#service-{}\">{name}</a>", of + 1)
}

fn links(hierarchy: &Hierarchy, classes: &[usize]) -> String {
    let links: Vec<String> = classes
        .iter()
        .map(|&class| link(hierarchy, class))
        .collect();
    match links.is_empty() {
        true => "none".into(),
        false => links.join(", "),
    }
}

/// The tree as lists in lists.
fn tree(hierarchy: &Hierarchy) -> String {
    let mut out =
        String::from("<section class=\"card\" id=\"tree\">\n<h2>General above special</h2>\n");
    out.push_str(&format!("<p class=\"size\">{}</p>\n", hierarchy.counted()));
    let mut open = 0;
    for (class, depth) in hierarchy.tree() {
        while open > depth + 1 {
            out.push_str("</ul></li>\n");
            open -= 1;
        }
        if open <= depth {
            // A list inside the line before, which stays open for it.
            match open > 0 && out.ends_with("</li>\n") {
                true => out.truncate(out.len() - "</li>\n".len()),
                false => (),
            }
            out.push_str("<ul>\n");
            open += 1;
        }
        let also = hierarchy.classes[class].above.get(1..).unwrap_or_default();
        let also = match also.is_empty() {
            true => String::new(),
            false => format!(" <small>also below {}</small>", links(hierarchy, also)),
        };
        out.push_str(&format!("<li>{}{also}</li>\n", link(hierarchy, class)));
    }
    while open > 1 {
        out.push_str("</ul></li>\n");
        open -= 1;
    }
    out.push_str("</ul>\n</section>\n");
    out
}

/// What stands above and below a service of a class, and which others say the same. The first one's section is that of the class.
fn section(hierarchy: &Hierarchy, class: usize, member: usize) -> String {
    let of = &hierarchy.classes[class];
    let others = of.members.iter().filter(|&&other| other != member);
    let same: Vec<String> = others.map(|&other| service(hierarchy, other)).collect();
    let same = match same.is_empty() {
        true => String::new(),
        false => format!("<dt>Says the same</dt><dd>{}</dd>\n", same.join(", ")),
    };
    let id = match of.members[0] == member {
        true => format!(" id=\"class-{}\"", class + 1),
        false => String::new(),
    };
    format!(
        "<section class=\"card\"{id}>\n<h2 id=\"service-{}\">{}</h2>\n<dl class=\"why\">\n{same}<dt>Directly above</dt><dd>{}</dd>\n\
         <dt>Directly below</dt><dd>{}</dd>\n</dl>\n</section>\n",
        member + 1,
        filed(&hierarchy.names[member]),
        links(hierarchy, &of.above),
        links(hierarchy, &of.below)
    )
}
