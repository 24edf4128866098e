//! How a call's time grows with the count of CPUs and of levels, and what that foresees.

use crate::calls::{ROWS, Row};
use crate::measure::{Figure, Measured};

const CPUS: [usize; 5] = [1, 2, 4, 8, 16];
const LEVELS: [usize; 3] = [1, 2, 3];
/// The level at which CPUs are counted, the CPUs at which levels are, and the CPUs that are foreseen.
const AT_LEVEL: usize = 2;
const AT_CPUS: usize = 16;
const FORESEEN: f64 = 64.0;

/// The line nearest to the points, by least squares: its slope, and its height at a place; each with its standard error.
fn line(points: &[(f64, f64)], place: f64) -> [(f64, f64); 2] {
    let count = points.len() as f64;
    let sum = |of: &dyn Fn(f64, f64) -> f64| points.iter().map(|&(x, y)| of(x, y)).sum::<f64>();
    let (mean_x, mean_y) = (sum(&|x, _| x) / count, sum(&|_, y| y) / count);
    let across = sum(&|x, _| (x - mean_x).powi(2));
    let slope = sum(&|x, y| (x - mean_x) * (y - mean_y)) / across;
    let height = |x: f64| mean_y + slope * (x - mean_x);
    let error = (sum(&|x, y| (y - height(x)).powi(2)) / (count - 2.0)).sqrt();
    let of_height = error * (1.0 / count + (place - mean_x).powi(2) / across).sqrt();
    [(slope, error / across.sqrt()), (height(place), of_height)]
}

fn cell(figure: Option<&Figure>) -> String {
    figure.map_or("-".into(), |figure| {
        format!("{:.0} / {:.0}", figure.ours.median, figure.rust.median)
    })
}

pub fn print(measured: &Measured) {
    println!(
        "Nanoseconds a call, ours / Rust, by the count of CPUs at MAX {AT_LEVEL}, and by MAX at {AT_CPUS} CPUs:"
    );
    println!();
    let heads = CPUS
        .map(|cpus| format!("{cpus} CPU{}", if cpus == 1 { "" } else { "s" }))
        .into_iter();
    let heads: Vec<_> = heads
        .chain(LEVELS.map(|max| format!("MAX {max}")))
        .collect();
    println!("| call | {} |", heads.join(" | "));
    println!("|---{}|", "|---".repeat(heads.len()));
    for row in ROWS {
        let by_cpus = CPUS.map(|cpus| cell(measured.find(cpus, AT_LEVEL, row)));
        let by_levels = LEVELS.map(|max| cell(measured.find(AT_CPUS, max, row)));
        let cells: Vec<_> = by_cpus.into_iter().chain(by_levels).collect();
        println!("| {} | {} |", row.name(), cells.join(" | "));
    }
    println!();
    println!(
        "The slope of the nearest line (least squares), and what it foresees at {FORESEEN} CPUs and MAX {AT_LEVEL}."
    );
    println!("± is the standard error, from how far the figures stand from that line:");
    println!();
    for row in ROWS {
        foresee(measured, row);
    }
    println!();
}

fn foresee(measured: &Measured, row: Row) {
    let side = |of: fn(&Figure) -> f64| {
        let point = |cpus: usize| Some((cpus as f64, of(measured.find(cpus, AT_LEVEL, row)?)));
        let points: Vec<_> = CPUS.into_iter().filter_map(point).collect();
        let [(slope, its_error), (height, error)] = line(&points, FORESEEN);
        format!("{slope:.2} ± {its_error:.2} ns a CPU, {height:.0} ± {error:.0} ns")
    };
    println!(
        "- {}: ours {}; the Rust {}",
        row.name(),
        side(|f| f.ours.median),
        side(|f| f.rust.median)
    );
}
