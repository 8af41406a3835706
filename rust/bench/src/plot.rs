//! The picture: cycles per byte over length, both scales logarithmic, two panels for each mode: its
//! round counts, and the engines and archives with the fewest rounds.

use crate::calls::SEAL;
use crate::cases::{mode_name, setting_name, Implementation, Key, Setting, Size, LENGTHS};
use crate::measure::Samples;
use crate::paper;
use crate::table::grouped;
use reference::{MRO, OPP};
use std::fmt::Write;

const MODES: [u32; 2] = [OPP, MRO];
/// The round count by which engines and archives are shown.
const ROUNDS: u32 = 4;
/// A panel's size, and the places within it.
const WIDTH: f64 = 860.0;
const HEIGHT: f64 = 500.0;
const LEFT: f64 = 64.0;
const RIGHT: f64 = 600.0;
const TOP: f64 = 48.0;
const BOTTOM: f64 = 460.0;
/// The lengths at both ends.
const SHORTEST: f64 = 8.0;
const LONGEST: f64 = 131_072.0;
const TICKS: [f64; 10] = [0.2, 0.5, 1.0, 2.0, 5.0, 10.0, 20.0, 50.0, 100.0, 200.0];
/// Of a mode's settings, or of the engines and the AVX2 C.
const COLOURS: [&str; 8] = [
    "#0072b2", "#d55e00", "#cc79a7", "#e69f00", "#56b4e9", "#8c510a", "#6a3d9a", "#a6cee3",
];
/// Of libsodium's ciphers, or of the scalar C and the paper.
const OTHERS: [&str; 2] = ["#009e73", "#555555"];

struct Line {
    name: String,
    colour: &'static str,
    dashed: bool,
    points: Vec<(f64, f64)>,
}

/// The picture of sealing, as SVG.
pub fn svg(samples: &Samples) -> String {
    let panels = MODES.map(|mode| {
        let name = mode_name(mode);
        [
            (name.to_string(), by_rounds(samples, mode)),
            (
                format!("{name}, {ROUNDS} rounds, by engines and archives"),
                by_engines(samples, mode),
            ),
        ]
    });
    let panels = panels.as_flattened();
    let height = HEIGHT * panels.len() as f64;
    let mut svg = format!(
        "<svg xmlns=\"http://www.w3.org/2000/svg\" viewBox=\"0 0 {WIDTH} {height}\" \
         font-family=\"sans-serif\" font-size=\"13\">\n\
         <rect width=\"100%\" height=\"100%\" fill=\"white\"/>\n"
    );
    for (i, (name, lines)) in panels.iter().enumerate() {
        let down = HEIGHT * i as f64;
        push(
            &mut svg,
            format_args!("<g transform=\"translate(0 {down})\">"),
        );
        panel(&mut svg, name, lines);
        push(&mut svg, format_args!("</g>"));
    }
    svg.push_str("</svg>\n");
    svg
}

fn panel(svg: &mut String, name: &str, lines: &[Line]) {
    let title = format!("Sealing with {name}: cycles per byte over message length in bytes");
    text(svg, LEFT, 24.0, "start", &title);
    axes(svg);
    let drawn = lines.iter().filter(|line| !line.points.is_empty());
    for (i, line) in drawn.enumerate() {
        draw(svg, line, 70.0 + 24.0 * i as f64);
    }
}

/// A mode with each round count, and libsodium's ciphers.
fn by_rounds(samples: &Samples, mode: u32) -> Vec<Line> {
    let mut lines = Vec::new();
    let mut add = |implementation: Implementation, setting, colour, dashed| {
        let name = match setting {
            Some(setting) => format!("{}, {implementation}", setting_name(setting)),
            None => implementation.to_string(),
        };
        lines.push(Line {
            name,
            colour,
            dashed,
            points: points(samples, implementation, setting),
        });
    };
    let of_mode = reference::settings().filter(|&(m, _)| m == mode);
    for (i, setting) in of_mode.map(Some).enumerate() {
        let colour = COLOURS[i % COLOURS.len()];
        add(Implementation::Library, setting, colour, false);
        add(Implementation::ScalarC, setting, colour, true);
    }
    add(Implementation::XChaCha, None, OTHERS[0], false);
    add(Implementation::AesGcm, None, OTHERS[1], false);
    lines
}

/// A mode with one round count: the engines on both archives, what is written by hand, the paper's.
fn by_engines(samples: &Samples, mode: u32) -> Vec<Line> {
    let setting = (mode, ROUNDS);
    let shown = [
        (Implementation::Library, COLOURS[0], false),
        (Implementation::LibraryRun, COLOURS[1], false),
        (Implementation::Wide, COLOURS[2], false),
        (Implementation::WideRun, COLOURS[3], false),
        (Implementation::ScalarC, OTHERS[0], true),
        (Implementation::Avx2C, COLOURS[5], true),
        (Implementation::Avx2Clang, COLOURS[6], true),
    ];
    let lines = shown.map(|(implementation, colour, dashed)| Line {
        name: implementation.to_string(),
        colour,
        dashed,
        points: points(samples, implementation, Some(setting)),
    });
    let mut lines = Vec::from(lines);
    lines.extend(paper::avx2(setting).map(|figure| Line {
        name: "the paper's AVX2".into(),
        colour: OTHERS[1],
        dashed: true,
        points: vec![(SHORTEST, figure), (LONGEST, figure)],
    }));
    lines
}

fn points(samples: &Samples, implementation: Implementation, setting: Setting) -> Vec<(f64, f64)> {
    let key = |len| Key::new(implementation, setting, SEAL, Size::Bytes(len));
    let cycles = |len| samples.cycles(key(len));
    let lengths = LENGTHS.into_iter();
    lengths
        .filter_map(|len| cycles(len).map(|cycles| (len as f64, cycles / len as f64)))
        .collect()
}

/// The places of a length and of a figure in the picture.
fn place(len: f64, figure: f64) -> (f64, f64) {
    let across = (len / SHORTEST).ln() / (LONGEST / SHORTEST).ln();
    let up = (figure / TICKS[0]).ln() / (TICKS[TICKS.len() - 1] / TICKS[0]).ln();
    (LEFT + across * (RIGHT - LEFT), BOTTOM - up * (BOTTOM - TOP))
}

fn axes(svg: &mut String) {
    for tick in TICKS {
        let (_, y) = place(SHORTEST, tick);
        rule(svg, (LEFT, y), (RIGHT, y));
        text(svg, LEFT - 8.0, y + 4.0, "end", &tick.to_string());
    }
    for len in LENGTHS {
        let (x, _) = place(len as f64, 1.0);
        rule(svg, (x, TOP), (x, BOTTOM));
        text(svg, x, BOTTOM + 20.0, "middle", &grouped(len));
    }
}

fn rule(svg: &mut String, (x1, y1): (f64, f64), (x2, y2): (f64, f64)) {
    push(
        svg,
        format_args!(
            "<line x1=\"{x1:.1}\" y1=\"{y1:.1}\" x2=\"{x2:.1}\" y2=\"{y2:.1}\" stroke=\"#ddd\"/>"
        ),
    );
}

fn text(svg: &mut String, x: f64, y: f64, anchor: &str, content: &str) {
    push(
        svg,
        format_args!("<text x=\"{x:.1}\" y=\"{y:.1}\" text-anchor=\"{anchor}\">{content}</text>"),
    );
}

/// The line itself, and its entry in the legend at height `y`.
fn draw(svg: &mut String, line: &Line, y: f64) {
    let dash = if line.dashed {
        " stroke-dasharray=\"5 4\""
    } else {
        ""
    };
    let path = |points: &[(f64, f64)]| {
        let places = points.iter().map(|(x, y)| format!("{x:.1},{y:.1}"));
        places.collect::<Vec<_>>().join(" ")
    };
    let curve: Vec<_> = line
        .points
        .iter()
        .map(|&(len, figure)| place(len, figure))
        .collect();
    for points in [curve, vec![(RIGHT + 14.0, y), (RIGHT + 42.0, y)]] {
        push(
            svg,
            format_args!(
                "<polyline points=\"{}\" fill=\"none\" stroke=\"{}\" stroke-width=\"2\"{dash}/>",
                path(&points),
                line.colour,
            ),
        );
    }
    text(svg, RIGHT + 50.0, y + 4.0, "start", &line.name);
}

fn push(svg: &mut String, element: std::fmt::Arguments) {
    writeln!(svg, "{element}").expect("a string takes all");
}
