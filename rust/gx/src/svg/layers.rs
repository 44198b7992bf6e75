//! Boxes in layers, general above special: on which layer each stands, in which order, and where. A line that passes a layer has a place
//! of its own in it, so that it runs behind no box.

/// A box, or the place of a line that passes a layer.
#[derive(Clone, Debug, PartialEq)]
pub(super) struct Place {
    /// Which box stands here; none where a line passes.
    pub(super) of: Option<usize>,
    /// The middle, and the width.
    pub(super) x: f64,
    width: f64,
    /// The places on the layer above that it leads to, and those below that lead here.
    pub(super) above: Vec<usize>,
    below: Vec<usize>,
}

/// The layers from the top, each with its places from left to right.
#[derive(Clone, Debug, Default, PartialEq)]
pub(super) struct Layers {
    pub(super) places: Vec<Place>,
    pub(super) layers: Vec<Vec<usize>>,
}

/// How far places of one layer stand apart.
const APART: f64 = 28.0;
/// The width of a line that passes.
const LINE: f64 = 8.0;
/// How often the places of all layers are put in order, and moved below and above their neighbours.
const SWEEPS: usize = 12;

impl Layers {
    /// The boxes of these widths, each with those directly above it, which form no circle.
    pub(super) fn new(widths: &[f64], above: &[Vec<usize>]) -> Layers {
        let depths = depths(above);
        let mut layers = Layers::default();
        for (of, &width) in widths.iter().enumerate() {
            layers.put(Some(of), width, depths[of]);
        }
        for (of, all) in above.iter().enumerate() {
            for &other in all {
                layers.lead(of, other, depths[of] - depths[other]);
            }
        }
        layers.order();
        layers.stand();
        layers
    }

    /// Adds a place at the end of its layer.
    fn put(&mut self, of: Option<usize>, width: f64, depth: usize) -> usize {
        let place = self.places.len();
        self.places.push(Place {
            of,
            x: 0.0,
            width,
            above: Vec::new(),
            below: Vec::new(),
        });
        while self.layers.len() <= depth {
            self.layers.push(Vec::new());
        }
        self.layers[depth].push(place);
        place
    }

    /// A line from a box up to another that stands so many layers above it.
    fn lead(&mut self, from: usize, to: usize, steps: usize) {
        let depth = self.depth_of(from);
        let mut last = from;
        for step in 1..steps {
            let passing = self.put(None, LINE, depth - step);
            self.join(last, passing);
            last = passing;
        }
        self.join(last, to);
    }

    fn join(&mut self, lower: usize, upper: usize) {
        self.places[lower].above.push(upper);
        self.places[upper].below.push(lower);
    }

    fn depth_of(&self, place: usize) -> usize {
        let on = |layer: &Vec<usize>| layer.contains(&place);
        self.layers.iter().position(on).unwrap_or(0)
    }

    /// Puts each layer into the order of what its places lead to, downwards and upwards in turn, and keeps the order in which the
    /// fewest lines cross.
    fn order(&mut self) {
        let mut best = (self.crossings(), self.layers.clone());
        for sweep in 0..SWEEPS {
            let upwards = sweep % 2 == 1;
            let at = self.positions();
            let mut at = at;
            let count = self.layers.len();
            for step in 0..count {
                let layer = if upwards { count - 1 - step } else { step };
                let mut places = std::mem::take(&mut self.layers[layer]);
                let key = |place: &usize| {
                    let beside = self.beside(*place, upwards);
                    mean(beside.iter().map(|&other| at[other] as f64)).unwrap_or(at[*place] as f64)
                };
                places.sort_by(|one, other| key(one).total_cmp(&key(other)));
                for (position, &place) in places.iter().enumerate() {
                    at[place] = position;
                }
                self.layers[layer] = places;
            }
            let crossings = self.crossings();
            if crossings < best.0 {
                best = (crossings, self.layers.clone());
            }
        }
        self.layers = best.1;
    }

    /// The places on the layer below that lead here, or those above.
    fn beside(&self, place: usize, below: bool) -> &[usize] {
        match below {
            true => &self.places[place].below,
            false => &self.places[place].above,
        }
    }

    /// Where each place stands on its layer.
    fn positions(&self) -> Vec<usize> {
        let mut at = vec![0; self.places.len()];
        for layer in &self.layers {
            for (position, &place) in layer.iter().enumerate() {
                at[place] = position;
            }
        }
        at
    }

    /// How often two lines cross between two layers.
    fn crossings(&self) -> usize {
        let at = self.positions();
        let between = |layer: &Vec<usize>| {
            let lines: Vec<(usize, usize)> = layer
                .iter()
                .flat_map(|&place| {
                    let above = self.places[place].above.iter();
                    above.map(move |&other| (place, other))
                })
                .map(|(lower, upper)| (at[lower], at[upper]))
                .collect();
            let cross = |one: &(usize, usize)| {
                let others = lines.iter();
                others
                    .filter(|other| one.0 < other.0 && one.1 > other.1)
                    .count()
            };
            lines.iter().map(cross).sum::<usize>()
        };
        self.layers.iter().map(between).sum()
    }

    /// Moves the places of each layer as near as may be to what they lead to.
    fn stand(&mut self) {
        for layer in 0..self.layers.len() {
            self.settle(layer, |_| None);
        }
        for sweep in 0..SWEEPS {
            let upwards = sweep % 2 == 1;
            let count = self.layers.len();
            for step in 0..count {
                let layer = if upwards { count - 1 - step } else { step };
                let places = self.places.clone();
                self.settle(layer, |place| {
                    let beside: &[usize] = match upwards {
                        true => &places[place].below,
                        false => &places[place].above,
                    };
                    mean(beside.iter().map(|&other| places[other].x))
                });
            }
        }
        let left = self.places.iter().map(|place| place.x - place.width / 2.0);
        let left = left.fold(f64::MAX, f64::min);
        for place in &mut self.places {
            place.x = (place.x - left).round();
        }
    }

    /// Gives the places of a layer the middles that are nearest to those wanted while they keep apart: places that want the same room
    /// share it evenly.
    fn settle(&mut self, layer: usize, wanted: impl Fn(usize) -> Option<f64>) {
        let mut offset = 0.0;
        let mut before: Option<f64> = None;
        // Runs of places that stand side by side: how many, and the sum of where their first would be.
        let mut runs: Vec<(usize, f64)> = Vec::new();
        let mut offsets = Vec::new();
        for &place in &self.layers[layer] {
            let half = self.places[place].width / 2.0;
            offset += before.map_or(0.0, |before| before + APART + half);
            before = Some(half);
            offsets.push(offset);
            let at = wanted(place).unwrap_or(self.places[place].x);
            runs.push((1, at - offset));
            while let [.., one, two] = runs[..] {
                if one.1 / one.0 as f64 <= two.1 / two.0 as f64 {
                    break;
                }
                runs.pop();
                runs.pop();
                runs.push((one.0 + two.0, one.1 + two.1));
            }
        }
        let firsts = runs.iter();
        let firsts =
            firsts.flat_map(|&(count, sum)| std::iter::repeat_n(sum / count as f64, count));
        let middles: Vec<f64> = firsts
            .zip(offsets)
            .map(|(first, offset)| first + offset)
            .collect();
        for (&place, x) in self.layers[layer].iter().zip(middles) {
            self.places[place].x = x;
        }
    }
}

fn mean(of: impl Iterator<Item = f64>) -> Option<f64> {
    let (count, sum) = of.fold((0, 0.0), |(count, sum), x| (count + 1, sum + x));
    (count > 0).then(|| sum / f64::from(count))
}

/// On which layer from the top each stands: one below the lowest of those directly above it.
fn depths(above: &[Vec<usize>]) -> Vec<usize> {
    let mut depths = vec![0; above.len()];
    for _ in 0..above.len() {
        for (of, all) in above.iter().enumerate() {
            let lowest = all.iter().map(|&other| depths[other] + 1).max();
            depths[of] = lowest.unwrap_or(0);
        }
    }
    depths
}
