//! The plot, as SVG: four panels.

use std::fmt::Write;

use crate::cases::{Case, Kind};
use crate::contestants::{CONTESTANTS, COUNT, ENGINE, IN_PLACE, PLAIN, TUNED};
use crate::measure::Figures;

/// A line of the plot. The contestants between these are left to the table.
struct Line {
    who: usize,
    colour: &'static str,
    dash: &'static str,
}

const LINES: [Line; 4] = [
    Line::new(ENGINE, "#c0392b", "none"),
    Line::new(PLAIN, "#7f8c8d", "7 3"),
    Line::new(TUNED, "#2471a3", "2 3"),
    Line::new(IN_PLACE, "#1e8449", "9 3 2 3"),
];

impl Line {
    const fn new(who: usize, colour: &'static str, dash: &'static str) -> Line {
        Line { who, colour, dash }
    }
}

/// A panel's frame, and the room that it takes with its labels.
const WIDTH: f64 = 330.0;
const HEIGHT: f64 = 220.0;
const LEFT: f64 = 70.0;
const TOP: f64 = 70.0;
const ACROSS: f64 = 440.0;
const DOWN: f64 = 310.0;

/// Best nanoseconds by contestant, against one number.
pub struct Panel {
    title: &'static str,
    label: &'static str,
    points: Vec<(u32, [f64; COUNT])>,
}

impl Panel {
    /// The panel of these figures; `along` is the number along its axis.
    pub fn new(
        kind: Kind,
        label: &'static str,
        along: fn(&Case) -> u32,
        list: Vec<Figures>,
    ) -> Panel {
        let point = |figures: &Figures| (along(&figures.case), figures.times.map(|t| t.best));
        Panel {
            title: kind.name(),
            label,
            points: list.iter().map(point).collect(),
        }
    }

    fn most_along(&self) -> f64 {
        f64::from(self.points.iter().map(|point| point.0).max().unwrap_or(1))
    }

    /// The end of the upright axis: the next whole step above all times.
    fn most_time(&self) -> f64 {
        let times = self
            .points
            .iter()
            .flat_map(|point| LINES.map(|line| point.1[line.who]));
        let most = times.fold(0.0, f64::max);
        (most / step(most)).ceil() * step(most)
    }

    fn x(&self, along: f64) -> f64 {
        along / self.most_along() * WIDTH
    }

    fn y(&self, time: f64) -> f64 {
        HEIGHT - time / self.most_time() * HEIGHT
    }

    fn draw(&self, svg: &mut String) {
        let _ = writeln!(
            svg,
            "<rect width='{WIDTH}' height='{HEIGHT}' fill='none' stroke='#333'/>\n\
             <text x='{}' y='-10' text-anchor='middle' font-weight='bold'>{}</text>\n\
             <text x='{}' y='{}' text-anchor='middle'>{}</text>\n\
             <text transform='translate(-50 {}) rotate(-90)' text-anchor='middle'>nanoseconds a call (best)</text>",
            WIDTH / 2.0, self.title, WIDTH / 2.0, HEIGHT + 38.0, self.label, HEIGHT / 2.0
        );
        self.draw_ticks(svg);
        for line in &LINES {
            self.draw_line(svg, line);
        }
    }

    fn draw_ticks(&self, svg: &mut String) {
        let mut time = 0.0;
        while time <= self.most_time() {
            let y = self.y(time);
            let _ = writeln!(
                svg,
                "<line x2='{WIDTH}' y1='{y:.1}' y2='{y:.1}' stroke='#ddd'/><text x='-8' y='{:.1}' text-anchor='end'>{time}</text>",
                y + 4.0
            );
            time += step(self.most_time());
        }
        let mut last = f64::NEG_INFINITY;
        for &(along, _) in &self.points {
            let x = self.x(f64::from(along));
            let _ = writeln!(
                svg,
                "<line x1='{x:.1}' x2='{x:.1}' y1='{HEIGHT}' y2='{}' stroke='#333'/>",
                HEIGHT + 5.0
            );
            // Labels that would run into the one before are left out.
            if x - last > 18.0 {
                let _ = writeln!(
                    svg,
                    "<text x='{x:.1}' y='{}' text-anchor='middle'>{along}</text>",
                    HEIGHT + 19.0
                );
                last = x;
            }
        }
    }

    fn draw_line(&self, svg: &mut String, line: &Line) {
        let &Line { who, colour, dash } = line;
        let place =
            |point: &(u32, [f64; COUNT])| (self.x(f64::from(point.0)), self.y(point.1[who]));
        let places: Vec<(f64, f64)> = self.points.iter().map(place).collect();
        let path: Vec<String> = places
            .iter()
            .map(|(x, y)| format!("{x:.1},{y:.1}"))
            .collect();
        let _ = writeln!(
            svg,
            "<polyline points='{}' fill='none' stroke='{colour}' stroke-width='2' stroke-dasharray='{dash}'/>",
            path.join(" ")
        );
        for (x, y) in places {
            let _ = writeln!(
                svg,
                "<circle cx='{x:.1}' cy='{y:.1}' r='2.6' fill='{colour}'/>"
            );
        }
    }
}

/// A round step that cuts an axis into about five.
fn step(most: f64) -> f64 {
    let power = 10_f64.powf((most / 5.0).log10().floor());
    let part = most / 5.0 / power;
    power
        * if part > 5.0 {
            10.0
        } else if part > 2.0 {
            5.0
        } else {
            2.0
        }
}

/// The whole picture.
pub fn svg(panels: &[Panel; 4]) -> String {
    let (width, height) = (2.0 * ACROSS, 2.0 * DOWN + 30.0);
    let mut svg = format!(
        "<svg xmlns='http://www.w3.org/2000/svg' width='{width}' height='{height}' viewBox='0 0 {width} {height}' font-family='sans-serif' font-size='12'>\n\
         <rect width='{width}' height='{height}' fill='white'/>\n"
    );
    draw_legend(&mut svg);
    for (place, panel) in panels.iter().enumerate() {
        let x = LEFT + (place % 2) as f64 * ACROSS;
        let y = TOP + (place / 2) as f64 * DOWN;
        let _ = writeln!(svg, "<g transform='translate({x} {y})'>");
        panel.draw(&mut svg);
        svg += "</g>\n";
    }
    svg + "</svg>\n"
}

fn draw_legend(svg: &mut String) {
    for (place, &Line { who, colour, dash }) in LINES.iter().enumerate() {
        let x = LEFT + 160.0 * place as f64;
        let name = CONTESTANTS[who].name;
        let _ = writeln!(
            svg,
            "<line x1='{x}' x2='{}' y1='22' y2='22' stroke='{colour}' stroke-width='2' stroke-dasharray='{dash}'/><text x='{}' y='26'>{name}</text>",
            x + 34.0,
            x + 42.0
        );
    }
}
