//! The tables that are printed.

use crate::cases::Files;
use crate::counts::counts;
use crate::exported::Desk;
use crate::measured::{exported_run, reckoned, Measured, SOME_CHOICES};
use crate::series::{case, series, Shape};
use second::plan::Plan;

/// The times of the three runs, and the second program's as multiples of the exported run's.
pub fn print_ratios(measured: &[(Files, Plan, Measured)]) {
    println!("| case | exported run | second program, joint run | enumeration | joint / exported | enumeration / exported |");
    println!("|---|---|---|---|---|---|");
    for (files, _, of) in measured {
        let reckoned = if reckoned(of.choices) { "~ " } else { "" };
        println!(
            "| {} | {} | {} | {reckoned}{} | {} | {reckoned}{} |",
            files.name,
            time(of.exported),
            time(of.joint),
            time(of.enumeration),
            figure(of.joint / of.exported),
            figure(of.enumeration / of.exported),
        );
    }
    println!("\n`~`: reckoned from {SOME_CHOICES} single runs.\n");
}

/// What the cost of the exported run goes with: trains, minutes, choices, rows.
pub fn print_costs(measured: &[(Files, Plan, Measured)]) {
    println!("| case | trains | minutes | choices | most rows | exported run, a minute | a row and minute |");
    println!("|---|---|---|---|---|---|---|");
    for (files, plan, of) in measured {
        let (trains, minutes) = (plan.trains(), plan.head.last_minute + 1);
        println!(
            "| {} | {trains} | {minutes} | {} | {} | {} | {} ns |",
            files.name,
            of.choices,
            of.counts.most_rows,
            time(of.exported / f64::from(minutes)),
            figure(of.exported * 1e3 / of.counts.rows as f64),
        );
    }
    println!();
}

/// The exported run on series of cases in which one thing grows.
pub fn print_series() {
    println!("| what grows | trains | delays | minutes | most rows | exported run | a minute | a row and minute |");
    println!("|---|---|---|---|---|---|---|---|");
    for (grows, shapes) in series() {
        shapes
            .into_iter()
            .for_each(|shape| print_shape(grows, shape));
    }
}

/// One line of a series.
fn print_shape(grows: &str, shape: Shape) {
    let files = Files {
        name: String::new(),
        case: case(shape),
        book: Vec::new(),
    };
    let plan = files.plan();
    let counts = counts(&plan);
    let spent = exported_run(&mut Desk::new(), &files, plan.head.last_minute);
    println!(
        "| {grows} | {} | {} | {} | {} | {} | {} | {} ns |",
        shape.trains,
        shape.delays,
        shape.minutes + 1,
        counts.most_rows,
        time(spent),
        time(spent / f64::from(shape.minutes + 1)),
        figure(spent * 1e3 / counts.rows as f64),
    );
}

/// A time in the unit that suits it.
pub fn time(micros: f64) -> String {
    match micros {
        m if m < 1e3 => format!("{} µs", figure(m)),
        m if m < 1e6 => format!("{} ms", figure(m / 1e3)),
        m => format!("{} s", figure(m / 1e6)),
    }
}

/// A number with about three digits.
pub fn figure(x: f64) -> String {
    match x {
        x if x < 1.0 => format!("{x:.3}"),
        x if x < 10.0 => format!("{x:.2}"),
        x if x < 100.0 => format!("{x:.1}"),
        x => format!("{x:.0}"),
    }
}
