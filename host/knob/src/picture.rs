//! The path as a picture: hypotheses left, from many on the left to one on the right, against the worst change of a margin, stage by
//! stage; the allowance and the cap drawn in, the stage taken ringed, and the one after it hollow. It has a ground of its own, so that it
//! reads on a white page and on a dark one.

use std::fmt::Write;

use knobthistle::Rule;

use crate::arguments::Request;
use crate::decimals::{exact, from_above};
use crate::ensemble::Ensemble;
use crate::outcome::Outcome;
use crate::table::named;

const WIDE: f64 = 680.0;
const HIGH: f64 = 430.0;
const LEFT: f64 = 78.0;
const RIGHT: f64 = 650.0;
const TOP: f64 = 84.0;
const BOTTOM: f64 = 372.0;

const STYLE: &str = "
  .ground { fill: #ffffff; stroke: #c8ccd2 }
  .grid { stroke: #e3e6ea }
  .axis { stroke: #6b7280 }
  .shade { fill: #b45309; fill-opacity: 0.08 }
  .limit { stroke: #b45309; stroke-dasharray: 6 4; stroke-width: 1.5 }
  .path { fill: none; stroke: #1d4ed8; stroke-width: 2 }
  .further { fill: none; stroke: #1d4ed8; stroke-width: 1.5; stroke-dasharray: 2 4 }
  .stage { fill: #1d4ed8 }
  .hollow { fill: #ffffff; stroke: #1d4ed8; stroke-width: 1.5 }
  .taken { fill: none; stroke: #047857; stroke-width: 3 }
  text { fill: #1f2937; font: 13px sans-serif }
  .title { font-weight: bold; font-size: 15px }
  .quiet { fill: #4b5563; font-size: 12px }
  .limited { fill: #92400e }
  .answer { fill: #047857; font-weight: bold }
";

/// Where things stand in the picture.
struct Scale {
    most: f64,
    tallest: f64,
}

impl Scale {
    /// Counts are drawn by their logarithms: a pass leaves about half, so that stages are about as far from each other.
    fn x(&self, count: usize) -> f64 {
        let share = (count.max(1) as f64).log2() / self.most.log2();
        RIGHT - share.clamp(0.0, 1.0) * (RIGHT - LEFT - 24.0) - 12.0
    }

    fn y(&self, change: f64) -> f64 {
        BOTTOM - (change / self.tallest).clamp(0.0, 1.0) * (BOTTOM - TOP)
    }
}

/// A step of 1, 2 or 5 times a power of ten that parts so much into at most six.
fn step(tallest: f64) -> f64 {
    let power = 10f64.powf((tallest / 6.0).log10().floor());
    [1.0, 2.0, 5.0, 10.0].into_iter().map(|times| times * power).find(|step| tallest / step <= 6.0).unwrap_or(power * 10.0)
}

fn escaped(text: &str) -> String {
    text.chars()
        .map(|letter| match letter {
            '&' => "&amp;".to_owned(),
            '<' => "&lt;".to_owned(),
            '>' => "&gt;".to_owned(),
            '"' => "&quot;".to_owned(),
            _ if letter.is_control() => " ".to_owned(),
            _ => letter.to_string(),
        })
        .collect()
}

fn line(picture: &mut String, class: &str, from: (f64, f64), to: (f64, f64)) {
    let _ = writeln!(picture, r#"<line class="{class}" x1="{:.1}" y1="{:.1}" x2="{:.1}" y2="{:.1}"/>"#, from.0, from.1, to.0, to.1);
}

fn text(picture: &mut String, class: &str, at: (f64, f64), anchor: &str, words: &str) {
    let _ = writeln!(picture, r#"<text class="{class}" x="{:.1}" y="{:.1}" text-anchor="{anchor}">{}</text>"#, at.0, at.1, escaped(words));
}

fn shade(picture: &mut String, from: (f64, f64), to: (f64, f64)) {
    let (wide, high) = (to.0 - from.0, to.1 - from.1);
    if wide > 0.0 && high > 0.0 {
        let _ = writeln!(picture, r#"<rect class="shade" x="{:.1}" y="{:.1}" width="{wide:.1}" height="{high:.1}"/>"#, from.0, from.1);
    }
}

fn grid(picture: &mut String, scale: &Scale, counts: &[usize]) {
    let step = step(scale.tallest);
    let mut k = 0.0;
    while k * step <= scale.tallest * 1.0001 {
        let y = scale.y(k * step);
        line(picture, if k == 0.0 { "axis" } else { "grid" }, (LEFT, y), (RIGHT, y));
        // A tick is a multiple of the step; its shortest decimal may have the rounding of the product.
        let decimals = (-step.log10().floor()).max(0.0) as usize;
        text(picture, "quiet", (LEFT - 8.0, y + 4.0), "end", &format!("{:.decimals$}", k * step));
        k += 1.0;
    }
    // Counts that would stand on each other are left out.
    let mut last = f64::NEG_INFINITY;
    for count in counts {
        let x = scale.x(*count);
        if x - last >= 24.0 {
            text(picture, "quiet", (x, BOTTOM + 18.0), "middle", &count.to_string());
            last = x;
        }
    }
    text(picture, "quiet", ((LEFT + RIGHT) / 2.0, BOTTOM + 40.0), "middle", "hypotheses left");
    let (x, y) = (22.0, (TOP + BOTTOM) / 2.0);
    let _ = writeln!(
        picture,
        r#"<text class="quiet" x="{x}" y="{y}" text-anchor="middle" transform="rotate(-90 {x} {y})">worst change of a margin</text>"#
    );
}

/// The allowance and the cap, and what lies beyond them.
fn limits(picture: &mut String, scale: &Scale, asked: Rule) {
    let (allowance, cap, word) = match asked {
        Rule::Target(target) => (None, Some(target), "target"),
        Rule::Within { allowance, cap } => (Some(allowance), cap, "cap"),
    };
    if let Some(cap) = cap.filter(|cap| *cap as f64 <= scale.most) {
        // Between the cap and one more.
        let x = (scale.x(cap) + scale.x(cap + 1)) / 2.0;
        let x = if cap as f64 >= scale.most { LEFT } else { x };
        shade(picture, (LEFT, TOP), (x, BOTTOM));
        line(picture, "limit", (x, TOP - 6.0), (x, BOTTOM));
        text(picture, "limited", (x + 4.0, TOP - 2.0), "start", &format!("{word} {cap}"));
    }
    match allowance {
        Some(allowance) if allowance <= scale.tallest => {
            let y = scale.y(allowance);
            shade(picture, (LEFT, TOP), (RIGHT, y));
            line(picture, "limit", (LEFT, y), (RIGHT, y));
            text(picture, "limited", (RIGHT, y - 5.0), "end", &format!("allowance {}", exact(allowance)));
        }
        Some(allowance) => text(picture, "limited", (RIGHT, TOP - 2.0), "end", &format!("allowance {}, higher up", exact(allowance))),
        None => {}
    }
}

fn stages(picture: &mut String, scale: &Scale, outcome: &Outcome) {
    let places: Vec<(f64, f64)> = outcome.stages.iter().map(|stage| (scale.x(stage.nonzeros), scale.y(stage.change))).collect();
    let taken = places[places.len() - 1];
    if let Some((left, change)) = outcome.next {
        let place = (scale.x(left), scale.y(change));
        line(picture, "further", taken, place);
        let _ = writeln!(picture, r#"<circle class="hollow" cx="{:.1}" cy="{:.1}" r="4.5"/>"#, place.0, place.1);
        text(picture, "quiet", (place.0 - 10.0, place.1 - 6.0), "end", "next, not taken");
    }
    let points: Vec<String> = places.iter().map(|(x, y)| format!("{x:.1},{y:.1}")).collect();
    let _ = writeln!(picture, r#"<polyline class="path" points="{}"/>"#, points.join(" "));
    for (x, y) in &places {
        let _ = writeln!(picture, r#"<circle class="stage" cx="{x:.1}" cy="{y:.1}" r="4.5"/>"#);
    }
    let _ = writeln!(picture, r#"<circle class="taken" cx="{:.1}" cy="{:.1}" r="10"/>"#, taken.0, taken.1);
}

pub fn drawn(ensemble: &Ensemble, outcome: &Outcome, request: &Request) -> String {
    let thinned = &outcome.thinned;
    let next = outcome.next.map_or(0.0, |(_, change)| change);
    let most_change = outcome.stages.iter().fold(next, |most, stage| most.max(stage.change));
    let allowance = match request.job.rule {
        // No margin can move by more than 2, so that a larger allowance is not in the picture.
        Rule::Within { allowance, .. } if allowance <= 2.0 => allowance,
        _ => 0.0,
    };
    let tallest = most_change.max(allowance) * 1.12;
    let scale = Scale { most: outcome.stages[0].nonzeros.max(2) as f64, tallest: if tallest > 1e-300 { tallest } else { 1.0 } };
    let mut counts: Vec<usize> = outcome.stages.iter().map(|stage| stage.nonzeros).collect();
    counts.extend(outcome.next.map(|(left, _)| left));

    let mut picture = format!(
        "<svg xmlns=\"http://www.w3.org/2000/svg\" viewBox=\"0 0 {WIDE} {HIGH}\" width=\"{WIDE}\" height=\"{HIGH}\" role=\"img\">\n\
         <style>{STYLE}</style>\n<rect class=\"ground\" x=\"0.5\" y=\"0.5\" width=\"{}\" height=\"{}\" rx=\"8\"/>\n",
        WIDE - 1.0,
        HIGH - 1.0
    );
    let title = format!("{}: {} hypotheses, {} words", named(&ensemble.file), ensemble.m, ensemble.n);
    let short: String = title.chars().take(72).collect();
    text(&mut picture, "title", (LEFT, 28.0), "start", &short);
    let stage = &outcome.stages[thinned.stage];
    let answer = format!(
        "taken: stage {}, {} left, worst change {}, {} {} turned",
        thinned.stage,
        thinned.nonzeros,
        from_above(thinned.change),
        stage.turned,
        if stage.turned == 1 { "word" } else { "words" }
    );
    text(&mut picture, "answer", (LEFT, 50.0), "start", &answer);
    grid(&mut picture, &scale, &counts);
    limits(&mut picture, &scale, request.job.rule);
    stages(&mut picture, &scale, outcome);
    picture + "</svg>\n"
}
