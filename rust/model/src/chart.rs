//! Line charts as SVG, drawn for reading without a script.

use crate::html::escaped;
use std::fmt::Write;

const WIDTH: f64 = 760.0;
const LEFT: f64 = 86.0;
const RIGHT: f64 = 14.0;
const TOP: f64 = 12.0;
const BOTTOM: f64 = 26.0;

pub struct Chart<'a> {
    pub class: &'a str,
    pub title: &'a str,
    pub height: f64,
    pub values: &'a [f64],
    /// One for each value; the first, the middle and the last are shown.
    pub labels: &'a [String],
    /// How a value stands on the axis.
    pub tick: fn(f64) -> String,
    /// Whether the area down to the axis' zero is filled.
    pub filled: bool,
}

/// Round steps that cover the values: the lowest line, the highest, and the step between.
fn lines(low: f64, high: f64) -> (f64, f64, f64) {
    let span = if high > low { high - low } else { high.abs().max(1.0) * 0.1 };
    let raw = span / 4.0;
    let power = 10f64.powf(raw.log10().floor());
    let step = [1.0, 2.0, 2.5, 5.0, 10.0].iter().map(|m| m * power).find(|s| *s >= raw).unwrap_or(raw);
    ((low / step).floor() * step, (high / step).ceil() * step, step)
}

impl Chart<'_> {
    pub fn svg(&self) -> String {
        let finite = || self.values.iter().copied().filter(|v| v.is_finite());
        let (low, high) = finite().fold((f64::INFINITY, f64::NEG_INFINITY), |(l, h), v| (l.min(v), h.max(v)));
        if low > high {
            return format!("<p class=\"none\">{}: nothing to draw.</p>", self.title);
        }
        let low = if self.filled { low.min(0.0) } else { low };
        let (bottom, top, step) = lines(low, high);
        let height = self.height;
        let inner = height - TOP - BOTTOM;
        let y = |v: f64| TOP + inner * (top - v) / (top - bottom).max(f64::MIN_POSITIVE);
        let x = |k: usize| LEFT + (WIDTH - LEFT - RIGHT) * k as f64 / (self.values.len().max(2) - 1) as f64;
        let mut out = format!(
            "<svg class=\"{}\" viewBox=\"0 0 {WIDTH} {height}\" role=\"img\" aria-label=\"{}\">",
            self.class, self.title
        );
        let mut v = bottom;
        while v <= top + step / 2.0 {
            let at = y(v);
            let _ = write!(
                out,
                "<line class=\"grid\" x1=\"{LEFT}\" x2=\"{}\" y1=\"{at:.1}\" y2=\"{at:.1}\"/>",
                WIDTH - RIGHT
            );
            let _ = write!(
                out,
                "<text class=\"tick\" x=\"{}\" y=\"{:.1}\">{}</text>",
                LEFT - 8.0,
                at + 4.0,
                (self.tick)(v)
            );
            v += step;
        }
        self.path(&mut out, x, y);
        self.dates(&mut out, x);
        out.push_str("</svg>");
        out
    }

    fn path(&self, out: &mut String, x: impl Fn(usize) -> f64, y: impl Fn(f64) -> f64) {
        let points: String =
            self.values.iter().enumerate().filter(|(_, v)| v.is_finite()).fold(String::new(), |mut p, (k, v)| {
                let _ = write!(p, "{}{:.1} {:.1}", if p.is_empty() { "M" } else { " L" }, x(k), y(*v));
                p
            });
        if self.filled {
            let (base, last) = (y(0.0), x(self.values.len() - 1));
            let _ = write!(out, "<path class=\"area\" d=\"{points} L{last:.1} {base:.1} L{:.1} {base:.1} Z\"/>", x(0));
        }
        let _ = write!(out, "<path class=\"line\" d=\"{points}\"/>");
    }

    fn dates(&self, out: &mut String, x: impl Fn(usize) -> f64) {
        let last = self.labels.len().saturating_sub(1);
        let mut places = vec![(0, "start"), (last / 2, "middle"), (last, "end")];
        places.dedup_by_key(|(k, _)| *k);
        for (k, anchor) in places {
            let label = self.labels.get(k).map_or("", String::as_str);
            let _ = write!(
                out,
                "<text class=\"date\" x=\"{:.1}\" y=\"{}\" text-anchor=\"{anchor}\">{}</text>",
                x(k),
                self.height - 6.0,
                escaped(label)
            );
        }
    }
}

#[cfg(test)]
mod tests {
    use super::*;

    #[test]
    fn lines_cover_the_values() {
        for (low, high) in [(0.0, 0.0), (1.0, 1.0), (-3.0, 17.0), (99_871.0, 100_312.0), (-1e18, 9e18)] {
            let (bottom, top, step) = lines(low, high);
            assert!(bottom <= low && high <= top && step > 0.0, "{low} {high}: {bottom} {top} {step}");
            assert!((top - bottom) / step < 12.0);
        }
    }

    #[test]
    fn one_value_and_none_are_drawn_too() {
        let labels = ["now".to_string()];
        let chart = |values| Chart {
            class: "c",
            title: "t",
            height: 200.0,
            values,
            labels: &labels,
            tick: |v| v.to_string(),
            filled: true,
        };
        assert!(chart(&[5.0]).svg().contains("class=\"line\""));
        assert!(chart(&[]).svg().contains("nothing to draw"));
        assert!(!chart(&[f64::NAN, 1.0]).svg().contains("NaN"));
    }
}
