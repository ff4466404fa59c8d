//! Random and adversarial link tables, with hold times.

use crate::hold_times;
use seeded::Random;

#[derive(Clone, Copy, Debug, PartialEq, Eq)]
pub enum Style {
    /// Document 01's nets A and B.
    Document,
    Tiny,
    /// Weights of 0 to 2, so that many paths are equally good.
    Ties,
    /// Many links without delay or without cost, and loops of them.
    Zeros,
    /// Free lines beside paid ones that are shorter, as on the net of docs/free-lines.md.
    FreeLines,
    /// Several links between the same nodes.
    Parallel,
    /// Weights as in the paper's section 2.4.
    Paper,
    /// Weights and capacities at the ends of their ranges.
    Extremes,
    /// Room for more than 64 circuits.
    Roomy,
    /// Up to 32 nodes and some hundred links.
    Middle,
    /// Long distances, so x is great.
    Line,
    /// The longest line with the greatest weights and hold times: delays reach 61,000,000, costs 31,000,000.
    HeavyLine,
    /// 32 nodes and 256 links.
    Full,
    /// The same with weights of 0 to 2.
    FullTies,
}

impl Style {
    fn is_line(self) -> bool {
        matches!(self, Style::Line | Style::HeavyLine)
    }

    /// Whether weights go to the ends of their ranges.
    fn is_heavy(self) -> bool {
        matches!(self, Style::Extremes | Style::HeavyLine)
    }

    /// Whether a call takes much longer than on the small networks.
    pub fn is_large(self) -> bool {
        self.is_line() || matches!(self, Style::Middle | Style::Full | Style::FullTies)
    }
}

pub struct Net {
    pub n: u32,
    pub words: Vec<u32>,
    pub hold_times: Vec<u32>,
    /// How great bounds on a path of some links should be about.
    pub delay_scale: u32,
    pub cost_scale: u32,
    pub units_scale: u32,
}

pub fn style(rng: &mut Random) -> Style {
    match rng.range(0, 99) {
        0..=7 => Style::Document,
        8..=17 => Style::Tiny,
        18..=35 => Style::Ties,
        36..=46 => Style::Zeros,
        47..=53 => Style::FreeLines,
        54..=61 => Style::Parallel,
        62..=72 => Style::Paper,
        73..=80 => Style::Extremes,
        81..=84 => Style::Roomy,
        85..=89 => Style::Middle,
        90..=93 => Style::Line,
        94 | 95 => Style::HeavyLine,
        96 | 97 => Style::Full,
        _ => Style::FullTies,
    }
}

const NET_A: [u32; 20] = [0, 1, 2, 5, 10, 1, 2, 2, 5, 10, 2, 3, 2, 5, 10, 0, 3, 9, 1, 10];
const NET_B: [u32; 20] = [1, 2, 0, 1, 5, 2, 1, 0, 1, 5, 1, 3, 1, 1, 5, 0, 1, 1, 1, 5];

/// How a style draws nodes, links and their numbers.
struct Draw {
    nodes: (u32, u32),
    links: (u32, u32),
    delay: (u32, u32),
    cost: (u32, u32),
    capacity: (u32, u32),
}

fn draw(style: Style) -> Draw {
    let (nodes, links, delay, cost, capacity) = match style {
        Style::Document | Style::Tiny => ((2, 4), (0, 10), (0, 4), (0, 4), (0, 4)),
        Style::Ties => ((4, 7), (8, 22), (0, 2), (0, 2), (1, 6)),
        Style::Zeros => ((3, 7), (5, 20), (0, 3), (0, 3), (1, 6)),
        Style::FreeLines => ((4, 8), (8, 24), (0, 9), (0, 9), (1, 6)),
        Style::Parallel => ((2, 4), (4, 24), (0, 9), (0, 9), (1, 5)),
        Style::Paper => ((5, 12), (8, 40), (0, 50), (0, 200), (2, 20)),
        Style::Extremes => ((3, 7), (3, 16), (0, 1_000_000), (0, 1_000_000), (0, 65_535)),
        Style::Roomy => ((2, 3), (2, 6), (0, 3), (0, 3), (60, 400)),
        Style::Middle => ((12, 32), (40, 256), (0, 20), (0, 20), (1, 8)),
        Style::Line => ((12, 32), (12, 60), (0, 30), (0, 30), (1, 6)),
        Style::HeavyLine => ((31, 32), (31, 256), (999_990, 1_000_000), (999_990, 1_000_000), (65_530, 65_535)),
        Style::Full => ((32, 32), (256, 256), (0, 50), (0, 200), (1, 8)),
        Style::FullTies => ((32, 32), (256, 256), (0, 2), (0, 2), (1, 8)),
    };
    Draw { nodes, links, delay, cost, capacity }
}

fn ends(rng: &mut Random, style: Style, n: u32, i: u32) -> (u32, u32) {
    if style.is_line() && i + 1 < n {
        return (i, i + 1);
    }
    if style.is_line() {
        let from = rng.range(1, n - 1);
        return (from, from - rng.range(1, from.min(3)));
    }
    if matches!(style, Style::Full | Style::FullTies) && i < n {
        return (i, (i + 1) % n);
    }
    let from = rng.range(0, n - 1);
    (from, (from + rng.range(1, n - 1)) % n)
}

fn number(rng: &mut Random, style: Style, (low, high): (u32, u32)) -> u32 {
    match style {
        Style::Zeros if rng.one_in(2) => 0,
        Style::FreeLines if !rng.one_in(3) => 0,
        Style::Extremes => rng.pick(&[low, low + 1, high - 1, high, high / 2]),
        Style::HeavyLine if rng.one_in(2) => high,
        _ => rng.range(low, high),
    }
}

pub fn net(rng: &mut Random, style: Style) -> Net {
    let draw = draw(style);
    let (delay_scale, cost_scale) = (draw.delay.1.max(4), draw.cost.1.max(4));
    let units_scale = draw.capacity.1;
    if style == Style::Document {
        let words = rng.pick(&[NET_A, NET_B]).to_vec();
        let hold_times = hold_times::drawn(rng, 4, 4, false);
        return Net { n: 4, words, hold_times, delay_scale: 9, cost_scale: 15, units_scale: 10 };
    }
    let n = rng.range(draw.nodes.0, draw.nodes.1);
    let hold_times = hold_times::drawn(rng, n, draw.delay.1, style.is_heavy());
    let m = rng.range(draw.links.0, draw.links.1).max(if style.is_line() { n - 1 } else { 0 });
    let mut words = Vec::new();
    for i in 0..m {
        let (from, to) = ends(rng, style, n, i);
        let (delay, cost) = (number(rng, style, draw.delay), number(rng, style, draw.cost));
        words.extend([from, to, delay, cost, number(rng, style, draw.capacity)]);
    }
    let units_scale = if style == Style::Roomy { 3 } else { units_scale };
    Net { n, words, hold_times, delay_scale, cost_scale, units_scale }
}
