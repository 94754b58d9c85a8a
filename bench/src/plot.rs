//! The picture: panels one below the other, of bars on a logarithmic scale and of curves.

use crate::measure::Line;

const WIDTH: f64 = 1080.0;
const PANEL: f64 = 260.0;
const LEFT: f64 = 100.0;
const RIGHT: f64 = 30.0;
const GAP: f64 = 120.0;
const TOP: f64 = 100.0;
const LINE: f64 = 15.0;
const COLOURS: [&str; 9] = [
    "#1b6ca8", "#c8553d", "#7a9e3f", "#8a8a8a", "#d9a441", "#6b4c9a", "#3aa6a0", "#4a4a4a", "#b9b9b9",
];

/// A panel of the picture.
pub enum Panel<'a> {
    /// For each line of a table a group of bars, one for each name.
    Bars {
        title: &'a str,
        names: &'a [&'a str],
        lines: &'a [Line],
    },
    /// For each name a curve through what it costs at each place.
    Curves {
        title: &'a str,
        names: &'a [&'a str],
        along: &'a str,
        /// Whether each place is as far from the next as ten times it is.
        by_tens: bool,
        costs: &'a [(usize, Vec<f64>)],
    },
}

/// All panels, with the machine and the day of the run above them.
pub fn picture(machine_and_day: &str, panels: &[Panel]) -> String {
    let height = TOP + panels.len() as f64 * (PANEL + GAP);
    let mut svg = format!(
        "<svg xmlns=\"http://www.w3.org/2000/svg\" viewBox=\"0 0 {WIDTH} {height}\" \
         font-family=\"sans-serif\" font-size=\"12\">\n\
         <rect width=\"{WIDTH}\" height=\"{height}\" fill=\"white\"/>\n"
    );
    svg += &words(LEFT, 30.0, "start", machine_and_day);
    for (number, panel) in panels.iter().enumerate() {
        let top = TOP + number as f64 * (PANEL + GAP);
        svg += &match panel {
            Panel::Bars { title, names, lines } => bars(title, names, lines, top),
            Panel::Curves {
                title,
                names,
                along,
                by_tens,
                costs,
            } => heading(title, top) + &legend(names, top) + &curves(along, *by_tens, costs, top),
        };
    }
    svg + "</svg>\n"
}

/// A scale from a value to a place above the panel's foot.
struct Scale {
    foot: f64,
    decades: (f64, f64),
}

impl Scale {
    /// Whole decades around all timings.
    fn around(lines: &[Line], foot: f64) -> Scale {
        let logs = || {
            lines
                .iter()
                .flat_map(|line| line.timings.iter().flatten())
                .map(|timing| timing.nanos.log10())
        };
        let low = logs().fold(f64::INFINITY, f64::min).floor();
        let high = logs().fold(low + 1.0, f64::max).ceil();
        Scale {
            foot,
            decades: (low, high),
        }
    }

    fn place(&self, nanos: f64) -> f64 {
        let (low, high) = self.decades;
        self.foot - PANEL * (nanos.log10() - low) / (high - low)
    }
}

fn bars(title: &str, names: &[&str], lines: &[Line], top: f64) -> String {
    let scale = Scale::around(lines, top + PANEL);
    let group = (WIDTH - LEFT - RIGHT) / lines.len() as f64;
    let mut svg = heading(title, top) + &legend(names, top);
    svg += &axes("ns a call, each line ten times the one below", "pattern", top);
    for decade in scale.decades.0 as i32..=scale.decades.1 as i32 {
        let value = 10f64.powi(decade);
        svg += &level(scale.place(value), value);
    }
    for (number, line) in lines.iter().enumerate() {
        let left = LEFT + group * number as f64;
        svg += &group_of_bars(line, left, group, &scale);
        for (row, words_of_it) in (1..).zip(wrapped(&line.label)) {
            svg += &words(
                left + group / 2.0,
                scale.foot + 3.0 + LINE * f64::from(row),
                "middle",
                &words_of_it,
            );
        }
    }
    svg
}

fn group_of_bars(line: &Line, left: f64, group: f64, scale: &Scale) -> String {
    let wide = group * 0.8 / line.timings.len() as f64;
    let mut svg = String::new();
    for (number, timing) in line.timings.iter().enumerate() {
        let Some(timing) = timing else { continue };
        let (x, y) = (left + group * 0.1 + wide * number as f64, scale.place(timing.nanos));
        svg += &format!(
            "<rect x=\"{x:.1}\" y=\"{y:.1}\" width=\"{:.1}\" height=\"{:.1}\" fill=\"{}\"/>\n",
            wide - 2.0,
            scale.foot - y,
            COLOURS[number]
        );
        svg += &over_bar(x + wide / 2.0 - 1.0, y - 4.0, wide, &grouped(timing.nanos));
    }
    svg
}

/// A value over its bar, read upwards where the bar is narrow.
fn over_bar(x: f64, y: f64, wide: f64, value: &str) -> String {
    const LEAST: f64 = 30.0;
    if LEAST <= wide {
        return words(x, y, "middle", value);
    }
    let (x, upright) = (x + 4.0, words(x + 4.0, y, "start", value));
    format!("<g transform=\"rotate(-90 {x:.1} {y:.1})\">{upright}</g>\n")
}

fn curves(along: &str, by_tens: bool, costs: &[(usize, Vec<f64>)], top: f64) -> String {
    let foot = top + PANEL;
    let far = |place: usize| if by_tens { (place as f64).log10() } else { place as f64 };
    let farthest = costs.iter().map(|(place, _)| far(*place)).fold(1.0, f64::max);
    let most = costs
        .iter()
        .flat_map(|(_, costs)| costs)
        .fold(1.0, |most, cost| cost.max(most))
        * 1.1;
    let x = |place: usize| LEFT + (WIDTH - LEFT - RIGHT) * far(place) / farthest;
    let y = |cost: f64| foot - PANEL * cost / most;
    let mut svg = axes("ns a call", along, top);
    for number in 0..=(most / step(most)) as i32 {
        let cost = step(most) * f64::from(number);
        svg += &level(y(cost), cost);
    }
    for (place, _) in costs {
        svg += &words(x(*place), foot + 3.0 + LINE, "middle", &place.to_string());
    }
    let curves = costs.first().map_or(0, |(_, costs)| costs.len());
    for (number, colour) in COLOURS.iter().enumerate().take(curves) {
        let places = costs
            .iter()
            .map(|(place, costs)| format!("{:.1},{:.1}", x(*place), y(costs[number])));
        let places = places.collect::<Vec<_>>().join(" ");
        svg += &format!("<polyline points=\"{places}\" fill=\"none\" stroke=\"{colour}\" stroke-width=\"2\"/>\n");
    }
    svg
}

fn heading(title: &str, top: f64) -> String {
    format!(
        "<text x=\"{LEFT}\" y=\"{}\" font-size=\"16\">{title}</text>\n",
        top - 38.0
    )
}

fn legend(names: &[&str], top: f64) -> String {
    let mut svg = String::new();
    for (number, name) in names.iter().enumerate() {
        let x = WIDTH - RIGHT - 92.0 * (names.len() - number) as f64;
        svg += &format!(
            "<rect x=\"{x}\" y=\"{}\" width=\"12\" height=\"12\" fill=\"{}\"/>\n",
            top - 49.0,
            COLOURS[number]
        );
        svg += &words(x + 18.0, top - 38.0, "start", name);
    }
    svg
}

/// What stands beside the panel, read upwards, and below it.
fn axes(up: &str, along: &str, top: f64) -> String {
    let (x, y) = (30.0, top + PANEL / 2.0);
    let beside = words(x, y, "middle", up);
    format!("<g transform=\"rotate(-90 {x} {y})\">{beside}</g>\n")
        + &words(
            (LEFT + WIDTH - RIGHT) / 2.0,
            top + PANEL + 3.0 + 3.5 * LINE,
            "middle",
            along,
        )
}

/// A line across the panel with its value beside it.
fn level(y: f64, value: f64) -> String {
    let right = WIDTH - RIGHT;
    format!("<line x1=\"{LEFT}\" y1=\"{y:.1}\" x2=\"{right}\" y2=\"{y:.1}\" stroke=\"#dddddd\"/>\n")
        + &words(LEFT - 8.0, y + 4.0, "end", &grouped(value))
}

/// A round distance of levels, of which there are three to eight.
fn step(most: f64) -> f64 {
    let decade = 10f64.powf((most / 3.0).log10().floor());
    let fits = |times: &&f64| decade * **times <= most / 3.0;
    decade * [5.0, 2.0, 1.0].iter().find(fits).unwrap_or(&1.0)
}

fn words(x: f64, y: f64, anchor: &str, text: &str) -> String {
    let text = text.replace('&', "&amp;").replace('<', "&lt;");
    format!("<text x=\"{x:.1}\" y=\"{y:.1}\" text-anchor=\"{anchor}\">{text}</text>\n")
}

/// A whole number, its digits in groups of three.
fn grouped(value: f64) -> String {
    let digits = format!("{value:.0}");
    let mut grouped = String::new();
    for (place, digit) in digits.chars().enumerate() {
        if place > 0 && (digits.len() - place) % 3 == 0 {
            grouped.push(',');
        }
        grouped.push(digit);
    }
    grouped
}

/// A label in lines that stand under a group of bars, broken at spaces.
fn wrapped(label: &str) -> Vec<String> {
    const MOST: usize = 21;
    let mut lines: Vec<String> = Vec::new();
    for word in label.split(' ') {
        match lines.last_mut() {
            Some(line) if line.len() + word.len() < MOST => *line += &format!(" {word}"),
            _ => lines.push(word.to_string()),
        }
    }
    lines
}

#[cfg(test)]
mod tests {
    use super::{grouped, step, wrapped};

    #[test]
    fn digits_in_groups() {
        assert_eq!(
            [0.0, 999.6, 100_000.0, 1_234_567.0].map(grouped),
            ["0", "1,000", "100,000", "1,234,567"]
        );
    }

    #[test]
    fn levels_at_round_distances() {
        assert_eq!(
            [3.0, 10.0, 1478.0, 1500.0, 2999.0].map(step),
            [1.0, 2.0, 200.0, 500.0, 500.0]
        );
    }

    #[test]
    fn labels_lose_nothing() {
        for row in crate::rows::rows() {
            assert_eq!(wrapped(&row.label).join(" "), row.label);
            assert!(wrapped(&row.label).iter().all(|line| line.len() <= 21));
        }
    }
}
