//! The specimen as a list of groups that fold.

use super::folds::{parts, Part};
use super::marked;
use crate::explain::Failure;
use crate::specimen::{lines, Line};
use crate::words::{self, Words};

/// Up to so many lines all groups are open.
const ALL_OPEN: usize = 60;

/// The section of the specimen in words.
pub(super) fn listing(failure: &Failure, words: Words<'_>) -> String {
    let lines = lines(&failure.specimen.entries, words);
    let list = Listing {
        failure,
        words,
        lines: &lines,
    };
    let mut body = String::new();
    body.push_str("<ul>\n");
    list.line(0, &mut body);
    body.push_str("</ul>\n");
    let deepest = lines.iter().map(|line| line.depth).max().unwrap_or(0);
    let tight = match deepest {
        0..=6 => "",
        7..=14 => " tight",
        _ => " tighter",
    };
    format!(
        "<section class=\"card{tight}\" aria-labelledby=\"specimen\">\n<h2 id=\"specimen\">The specimen in words</h2>\n\
         <p class=\"size\">{}. Items of one group are alike, and each item above is linked to all of them.</p>\n{body}</section>\n",
        words::entries(failure.specimen.entries.len())
    )
}

struct Listing<'a> {
    failure: &'a Failure,
    words: Words<'a>,
    lines: &'a [Line],
}

impl Listing<'_> {
    /// The lines directly below one.
    fn below(&self, at: usize) -> impl Iterator<Item = usize> + '_ {
        let depth = self.lines[at].depth;
        let inside = self.lines[at + 1..]
            .iter()
            .take_while(move |line| line.depth > depth);
        let inside = (at + 1..).zip(inside);
        inside
            .filter(move |(_, line)| line.depth == depth + 1)
            .map(|(at, _)| at)
    }

    fn line(&self, at: usize, out: &mut String) {
        let row = self.row(at);
        let more = more(&self.lines[at].more);
        let below: Vec<usize> = self.below(at).collect();
        if below.is_empty() {
            out.push_str(&format!("<li>{row}{more}</li>\n"));
            return;
        }
        let open = match self.on_way(at) || self.lines.len() <= ALL_OPEN {
            true => " open",
            false => "",
        };
        out.push_str(&format!(
            "<li><details{open}><summary>{row}</summary>\n{more}<ul>\n"
        ));
        for part in parts(&below, |at| self.on_way(at)) {
            match part {
                Part::Shown(shown) => shown.iter().for_each(|&at| self.line(at, out)),
                Part::Folded(run) => self.run(run, out),
            }
        }
        out.push_str("</ul>\n</details></li>\n");
    }

    /// Several groups of one place behind one line.
    fn run(&self, run: &[usize], out: &mut String) {
        let (first, last) = (&self.lines[run[0]], &self.lines[run[run.len() - 1]]);
        out.push_str(&format!(
            "<li><details class=\"run\"><summary>{} groups, {} to {}</summary><ul>\n",
            run.len(),
            marked(&first.items),
            marked(&last.items)
        ));
        run.iter().for_each(|&at| self.line(at, out));
        out.push_str("</ul></details></li>\n");
    }

    fn on_way(&self, at: usize) -> bool {
        let group = self.lines[at].group;
        group == 0 || self.failure.specimen.path.contains(&group)
    }

    fn row(&self, at: usize) -> String {
        let line = &self.lines[at];
        let (class, flag) = match line.group == self.failure.specimen.at {
            true => (
                " fails",
                format!(
                    " <strong class=\"flag\">✕ {}</strong>",
                    marked(&self.failure.note(self.words))
                ),
            ),
            false if self.on_way(at) => (" way", String::new()),
            false => ("", String::new()),
        };
        format!(
            "<span class=\"e{class}\"><span class=\"w\"><b>{}</b>{}{flag}</span></span>",
            marked(&line.items),
            marked(&line.rest)
        )
    }
}

/// The properties that a row leaves out, behind one line.
fn more(properties: &[String]) -> String {
    if properties.is_empty() {
        return String::new();
    }
    format!(
        "<details class=\"run\"><summary>the {} more properties</summary><p>{}</p></details>\n",
        words::grouped(properties.len() as u32),
        marked(&words::listed(properties))
    )
}
