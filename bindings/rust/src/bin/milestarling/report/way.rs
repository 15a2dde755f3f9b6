//! The way of a secret, from where it was tainted at the start to the address that it was refused for: as a drawing with a
//! lane for memory, vector registers and registers, and as a list of sentences.

use super::account::Account;
use super::html::{capital, code, escaped};
use crate::places::{shown_span, shown_word};
use crate::why::grouped;
use milestarling::{Link, Place};

/// The most stops that are drawn of a way: of a longer one the first and the last.
const STOPS_MAX: usize = 12;

/// A way of bytes beside each other.
pub struct Way {
    stops: Vec<Stop>,
    /// The refused step and its text.
    refused: (String, String),
}

/// Where the bytes were on their way.
struct Stop {
    first: Place,
    last: Place,
    /// The step that copied them here; none at the start.
    by: Option<Copy>,
}

struct Copy {
    /// By its place among the steps of its plugin.
    step: usize,
    called: String,
    text: String,
    /// How many stops before this one are left out.
    left_out: usize,
}

impl Way {
    /// The ways of an answer 5, each once.
    pub fn all(account: &Account, track: usize, trails: &[Vec<Link>], refused: &(String, String)) -> Vec<Way> {
        let stop = |first: &Link, last: &Link| Stop {
            first: first.place,
            last: last.place,
            by: first.copied.map(|copied| Copy {
                step: copied.step,
                called: account.called(track, copied.step),
                text: shown_word(copied.word),
                left_out: 0,
            }),
        };
        let way = |group: &Vec<&Vec<Link>>| -> Option<Way> {
            let (first, last) = (group.first()?, group.last()?);
            let mut stops: Vec<Stop> = first.iter().zip(last.iter()).map(|(first, last)| stop(first, last)).collect();
            stops.reverse();
            shorten(&mut stops);
            Some(Way { stops, refused: refused.clone() })
        };
        grouped(trails).iter().filter_map(way).collect()
    }

    /// The steps that it is told by.
    pub fn steps(&self) -> impl Iterator<Item = usize> + '_ {
        self.stops.iter().filter_map(|stop| Some(stop.by.as_ref()?.step))
    }

    /// Where it begins and where it ends.
    pub fn ends(&self) -> Option<(String, String)> {
        Some((self.stops.first()?.shown(), self.stops.last()?.shown()))
    }

    /// The drawing and the list. Drawings are numbered for their labels.
    pub fn html(&self, number: usize) -> String {
        format!("<figure class=\"way\">\n{}{}</figure>\n", self.drawing(number), self.list())
    }

    fn list(&self) -> String {
        let mut html = String::from("<ol class=\"links\">\n");
        for stop in &self.stops {
            let place = code(&stop.shown());
            let said = match &stop.by {
                None => format!("{place} was tainted at the start."),
                Some(copy) => {
                    let skipped = match copy.left_out {
                        0 => String::new(),
                        1 => "After 1 more copy that is left out here: ".into(),
                        left => format!("After {left} more copies that are left out here: "),
                    };
                    let called = if skipped.is_empty() { capital(&copy.called) } else { copy.called.clone() };
                    format!("{skipped}{called}, {}, copied it to {place}.", code(&copy.text))
                }
            };
            html += &format!("<li>{said}</li>\n");
        }
        let (called, text) = &self.refused;
        html += &format!(
            "<li class=\"stop\">{}, {}, would have taken its address from it, and was refused.</li>\n</ol>\n",
            capital(called),
            code(text)
        );
        html
    }
}

/// Leaves out stops in the middle of a long way.
fn shorten(stops: &mut Vec<Stop>) {
    if stops.len() > STOPS_MAX {
        let (from, to) = (STOPS_MAX / 2, stops.len() - STOPS_MAX / 2);
        if let Some(copy) = &mut stops[to].by {
            copy.left_out = to - from;
        }
        stops.drain(from..to);
    }
}

impl Stop {
    fn shown(&self) -> String {
        shown_span(self.first, self.last)
    }

    fn lane(&self) -> usize {
        match self.first {
            Place::Memory(_) => 0,
            Place::Vector(..) => 1,
            Place::Register(..) => 2,
        }
    }

    /// Its name in one line, or in two where it is long.
    fn lines(&self) -> Vec<String> {
        let shown = self.shown();
        match shown.split_once(" to ") {
            Some((first, last)) if shown.len() > LINE_MAX => vec![first.into(), format!("to {last}")],
            _ => vec![shown],
        }
    }
}

const LANES: [&str; 3] = ["memory", "vector registers", "registers"];
/// The most letters of a name in one line.
const LINE_MAX: usize = 18;
/// Lengths of the drawing, in pixels where it isn't scaled down.
const LETTER: usize = 7;
const PADDING: usize = 11;
const MARGIN: usize = 8;
const WIDTH_MIN: usize = 336;
const LANE_GAP: usize = 14;
const HEADING: usize = 30;
const GAP: usize = 66;
/// From the last stop to the refused address.
const LAST_GAP: usize = 50;
const LINE: usize = 16;

/// The lanes that a way goes by: the middle of each, where it has one, and the width of all.
struct Lanes {
    middles: [Option<usize>; 3],
    width: usize,
}

impl Lanes {
    fn of(stops: &[Stop]) -> Lanes {
        let letters = |stop: &Stop| stop.lines().iter().map(String::len).max().unwrap_or(0);
        let widths: Vec<(usize, usize)> = (0..LANES.len())
            .filter_map(|lane| {
                let named = stops.iter().filter(|stop| stop.lane() == lane).map(letters).max()?;
                Some((lane, named.max(LANES[lane].len()) * LETTER + 2 * PADDING))
            })
            .collect();
        let natural = widths.iter().map(|(_, width)| width + LANE_GAP).sum::<usize>() - LANE_GAP + 2 * MARGIN;
        let width = natural.max(WIDTH_MIN);
        // What is left over goes between the lanes and to both sides of them.
        let spare = (width - natural) / (widths.len() + 1);
        let (mut middles, mut left) = ([None; 3], MARGIN + spare);
        for (lane, lane_width) in widths {
            middles[lane] = Some(left + lane_width / 2);
            left += lane_width + LANE_GAP + spare;
        }
        Lanes { middles, width }
    }

    fn middle(&self, stop: &Stop) -> usize {
        self.middles[stop.lane()].unwrap_or(self.width / 2)
    }
}

impl Way {
    fn drawing(&self, number: usize) -> String {
        let lanes = Lanes::of(&self.stops);
        let (mut body, mut y) = (String::new(), HEADING);
        let mut before: Option<(usize, usize)> = None;
        for stop in &self.stops {
            let x = lanes.middle(stop);
            if let (Some(from), Some(copy)) = (before, &stop.by) {
                y += GAP;
                let left =
                    if copy.left_out > 0 { format!("… {} left out …", copy.left_out) } else { copy.called.clone() };
                body += &arrow(from, (x, y), lanes.width, &[&left, &copy.text], copy.left_out > 0);
            }
            let lines = stop.lines();
            body += &pill(x, y, &lines, "place");
            y += pill_height(&lines);
            before = Some((x, y));
        }
        let middle = lanes.width / 2;
        if let Some(from) = before {
            body += &arrow(from, (middle, y + LAST_GAP), lanes.width, &["would have chosen"], true);
        }
        let (called, text) = &self.refused;
        let lines = [format!("the address of {called}"), text.clone(), "refused, answer 5".into()];
        body += &pill(middle, y + LAST_GAP, &lines, "refused");
        self.framed(number, &lanes, y + LAST_GAP + pill_height(&lines) + MARGIN, &body)
    }

    /// The drawing with its size, its names for those who hear it, and the lanes behind it.
    fn framed(&self, number: usize, lanes: &Lanes, height: usize, body: &str) -> String {
        let width = lanes.width;
        let (start, end) = self.ends().unwrap_or_default();
        let mut svg = format!(
            "<svg viewBox=\"0 0 {width} {height}\" width=\"{width}\" height=\"{height}\" role=\"img\" \
             aria-labelledby=\"way{number}\"><title id=\"way{number}\">The way of the secret from {} to {}, and to the \
             refused address of {}. The list has the same in words.</title>\n",
            escaped(&start),
            escaped(&end),
            escaped(&self.refused.0)
        );
        for (name, middle) in LANES.iter().zip(lanes.middles) {
            let Some(x) = middle else { continue };
            svg += &format!("<text class=\"lane\" x=\"{x}\" y=\"13\">{name}</text>\n");
            svg += &format!("<path class=\"lane\" d=\"M{x} 20V{}\"/>\n", height - 78);
        }
        svg + body + "</svg>\n"
    }
}

fn pill_height(lines: &[String]) -> usize {
    LINE * lines.len() + 10
}

/// A name in a frame, with the middle of its upper edge at a point.
fn pill(x: usize, y: usize, lines: &[String], class: &str) -> String {
    let letters = lines.iter().map(|line| line.chars().count()).max().unwrap_or(0);
    let (width, height) = (letters * LETTER + 2 * PADDING, pill_height(lines));
    let mut svg = format!(
        "<g class=\"{class}\"><rect x=\"{}\" y=\"{y}\" width=\"{width}\" height=\"{height}\" rx=\"6\"/>",
        x as isize - width as isize / 2
    );
    for (at, line) in lines.iter().enumerate() {
        svg += &format!("<text x=\"{x}\" y=\"{}\">{}</text>", y + 17 + LINE * at, escaped(line));
    }
    svg + "</g>\n"
}

/// An arrow between two points, with lines of text on it.
fn arrow((x, y): (usize, usize), (to, down): (usize, usize), width: usize, lines: &[&str], dashed: bool) -> String {
    let half = (down - y) / 2;
    let tip = down - 7;
    let class = if dashed { "copy dashed" } else { "copy" };
    let mut svg = format!(
        "<path class=\"{class}\" d=\"M{x} {y}C{x} {} {to} {} {to} {tip}\"/><path class=\"tip\" d=\"M{to} {}l-5-9h10z\"/>",
        y + half,
        tip.saturating_sub(half),
        down - 1
    );
    let first = y + half - LINE * (lines.len() - 1) / 2 + 2;
    for (at, line) in lines.iter().enumerate() {
        let (wide, y) = (line.chars().count() * LETTER + 4, first + LINE * at);
        let reach = wide / 2 + 2;
        let middle = ((x + to) / 2).max(reach).min(width.saturating_sub(reach).max(reach));
        let class = if at == 0 { "called" } else { "text" };
        svg += &format!(
            "<rect class=\"behind\" x=\"{}\" y=\"{}\" width=\"{wide}\" height=\"{LINE}\"/>\
             <text class=\"{class}\" x=\"{middle}\" y=\"{y}\">{}</text>",
            middle - wide / 2,
            y - 12,
            escaped(line)
        );
    }
    svg + "\n"
}
