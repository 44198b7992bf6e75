//! The drawing of a hierarchy: a box for each class, general above special, with a line up to each class directly above it. Classes
//! that stand alone are drawn below, in rows.

use super::boxes::{width_of, words, Written, LINE, PADDING};
use super::layers::Layers;
use super::{escaped, STYLE};
use crate::hierarchy::Hierarchy;

/// How far layers stand apart, and what stands around the drawing.
const GAP: f64 = 56.0;
const MARGIN: f64 = 12.0;
/// How far the boxes of classes that stand alone are apart, and the width in which they stand where no layer is wider.
const APART: f64 = 16.0;
const WIDE: f64 = 900.0;
/// The most names of a class that are drawn.
const MOST_NAMES: usize = 6;
/// The most letters of a name.
const LONGEST: usize = 36;

/// A box with its words.
struct Drawn {
    class: usize,
    lines: Vec<Written>,
    width: f64,
    height: f64,
}

/// The drawing of a hierarchy.
pub fn hierarchy(hierarchy: &Hierarchy) -> String {
    drawn(hierarchy, STYLE, false)
}

/// The same drawing for a page that has the style, where each box leads to the section of its class.
pub fn hierarchy_inside(hierarchy: &Hierarchy) -> String {
    drawn(hierarchy, "", true)
}

fn drawn(hierarchy: &Hierarchy, style: &str, linked: bool) -> String {
    let classes = &hierarchy.classes;
    let alone =
        |class: &usize| classes[*class].above.is_empty() && classes[*class].below.is_empty();
    let (alone, joined): (Vec<usize>, Vec<usize>) = (0..classes.len()).partition(alone);
    let mut picture = Picture {
        linked,
        lines: String::new(),
        boxes: String::new(),
        right: 0.0,
        y: MARGIN,
    };
    picture.layers(hierarchy, &joined);
    picture.rows(hierarchy, &alone);
    picture.written(&hierarchy.counted(), style)
}

/// What is drawn so far, and how far it goes.
struct Picture {
    linked: bool,
    lines: String,
    boxes: String,
    right: f64,
    y: f64,
}

impl Picture {
    /// The classes that stand above or below others.
    fn layers(&mut self, hierarchy: &Hierarchy, joined: &[usize]) {
        let boxes: Vec<Drawn> = joined
            .iter()
            .map(|&class| boxed(hierarchy, class))
            .collect();
        let widths: Vec<f64> = boxes.iter().map(|drawn| drawn.width).collect();
        let place = |class: &usize| joined.iter().position(|other| other == class);
        let above = joined.iter().map(|&class| {
            let above = hierarchy.classes[class].above.iter();
            above.filter_map(place).collect()
        });
        let layers = Layers::new(&widths, &above.collect::<Vec<Vec<usize>>>());
        let bands = self.bands(&layers, &boxes);
        for (layer, band) in layers.layers.iter().zip(&bands) {
            for &place in layer {
                let at = &layers.places[place];
                if let Some(drawn) = at.of.map(|of| &boxes[of]) {
                    self.boxed(drawn, MARGIN + at.x - drawn.width / 2.0, band.0);
                }
            }
        }
        for (depth, layer) in layers.layers.iter().enumerate() {
            for &place in layer {
                if layers.places[place].of.is_some() {
                    self.ways_up(&layers, &bands, depth, place);
                }
            }
        }
    }

    /// Where each layer begins and ends.
    fn bands(&mut self, layers: &Layers, boxes: &[Drawn]) -> Vec<(f64, f64)> {
        let mut bands = Vec::new();
        for layer in &layers.layers {
            let heights = layer.iter().filter_map(|&place| layers.places[place].of);
            let highest = heights.map(|of| boxes[of].height).fold(0.0, f64::max);
            bands.push((self.y, self.y + highest));
            self.y += highest + GAP;
        }
        if !bands.is_empty() {
            self.y -= GAP;
        }
        bands
    }

    /// The lines from a box up to those directly above it. Between two layers a line is straight; where it passes one, it goes straight
    /// up at its own place.
    fn ways_up(&mut self, layers: &Layers, bands: &[(f64, f64)], depth: usize, place: usize) {
        for &first in &layers.places[place].above {
            let x = |place: usize| MARGIN + layers.places[place].x;
            let mut way = format!("M{} {}", x(place), bands[depth].0);
            let (mut at, mut layer) = (first, depth - 1);
            way.push_str(&format!("L{} {}", x(at), bands[layer].1));
            while layers.places[at].of.is_none() {
                way.push_str(&format!("V{}", bands[layer].0));
                let Some(&next) = layers.places[at].above.first() else {
                    break;
                };
                (at, layer) = (next, layer - 1);
                way.push_str(&format!("L{} {}", x(at), bands[layer].1));
            }
            // The box may end above its layer.
            way.push_str(&format!("V{}", bands[layer].0));
            self.lines
                .push_str(&format!("<path class=\"gx-line\" d=\"{way}\"/>\n"));
        }
    }

    /// The classes that stand alone.
    fn rows(&mut self, hierarchy: &Hierarchy, alone: &[usize]) {
        let wide = self.right.max(WIDE);
        let (mut x, mut highest) = (MARGIN, 0.0);
        if self.right > 0.0 && !alone.is_empty() {
            self.y += GAP;
        }
        for &class in alone {
            let drawn = boxed(hierarchy, class);
            if x > MARGIN && x + drawn.width > wide {
                self.y += highest + APART;
                (x, highest) = (MARGIN, 0.0);
            }
            self.boxed(&drawn, x, self.y);
            x += drawn.width + APART;
            highest = drawn.height.max(highest);
        }
        self.y += highest;
    }

    fn boxed(&mut self, drawn: &Drawn, x: f64, y: f64) {
        let rect = format!(
            "<rect class=\"gx-box\" x=\"{x}\" y=\"{y}\" width=\"{}\" height=\"{}\" rx=\"5\"/>\n{}",
            drawn.width,
            drawn.height,
            words(&drawn.lines, x, y)
        );
        self.right = self.right.max(x + drawn.width);
        self.boxes.push_str(&match self.linked {
            true => format!("<a href=\"#class-{}\">\n{rect}</a>\n", drawn.class + 1),
            false => format!("<g>\n{rect}</g>\n"),
        });
    }

    fn written(self, title: &str, style: &str) -> String {
        let (width, height) = (self.right + MARGIN, self.y + MARGIN);
        let style = match style.is_empty() {
            true => String::new(),
            false => format!("<style>{style}</style>\n"),
        };
        let about = "Each box is a class of services that say the same. A line leads up to each class directly above.";
        format!(
            "<svg xmlns=\"http://www.w3.org/2000/svg\" class=\"gx-drawing\" role=\"img\" width=\"{width}\" height=\"{height}\" viewBox=\"0 0 {width} {height}\">\n\
             <title>{}</title>\n<desc>{about}</desc>\n{style}{}{}</svg>\n",
            escaped(title),
            self.lines,
            self.boxes
        )
    }
}

/// The box of a class with its names.
fn boxed(hierarchy: &Hierarchy, class: usize) -> Drawn {
    let names = hierarchy.named(class);
    let mut lines: Vec<Written> = names
        .iter()
        .take(MOST_NAMES)
        .map(|name| line(name))
        .collect();
    if names.len() > MOST_NAMES {
        lines.push(Written::small(&format!(
            "and {} more",
            names.len() - MOST_NAMES
        )));
    }
    let widest = lines.iter().map(width_of).fold(48.0, f64::max);
    Drawn {
        class,
        width: (widest + 2.0 * PADDING).ceil(),
        height: LINE * lines.len() as f64 + 1.25 * PADDING,
        lines,
    }
}

/// A name, or its beginning.
fn line(name: &str) -> Written {
    if name.chars().count() <= LONGEST {
        return Written::title(name);
    }
    let begin: String = name.chars().take(LONGEST - 1).collect();
    Written::title(&format!("{begin}…"))
}
