//! The first table: reading, product and crate.
use crate::clock::{medians, RUNS};
use crate::sides::Sides;
use crate::texts::{KINDS, SHORT};

const SIZE: usize = 65_536;

pub fn table() {
    println!("## Reading: product and crate\n");
    println!("Medians of {RUNS} runs in turn, microseconds a call. `lean`: the crate's readers with less of the oracle's driver around them.\n");
    println!("| text | bytes | entries | ours us | MB/s | crate us | MB/s | ratio | lean us | ratio |");
    println!("|---|--:|--:|--:|--:|--:|--:|--:|--:|--:|");
    let ratios: Vec<_> =
        KINDS.iter().chain([&SHORT]).map(|k| (k.name, row(k.name, &Sides::of(k.text(SIZE))))).collect();
    verdict(&ratios);
}

/// Prints the row, and hands the ratio back.
fn row(name: &str, sides: &Sides) -> f64 {
    let [ours, theirs, lean] = medians([sides.ours(), sides.theirs(), sides.lean()]);
    let bytes = sides.text.len();
    let speed = |ns: f64| bytes as f64 / ns * 1000.0;
    println!(
        "| {name} | {bytes} | {} | {:.1} | {:.0} | {:.1} | {:.0} | **{:.2}** | {:.1} | {:.2} |",
        sides.count,
        ours / 1000.0,
        speed(ours),
        theirs / 1000.0,
        speed(theirs),
        theirs / ours,
        lean / 1000.0,
        lean / ours
    );
    theirs / ours
}

/// The goals: four times as fast as the crate on the canal network, and faster on every kind.
fn verdict(ratios: &[(&str, f64)]) {
    println!("\nThe canal network is read {:.2} times as fast as by the crate (goal: 4).", ratios[0].1);
    let slower: Vec<_> = ratios.iter().filter(|(_, ratio)| *ratio <= 1.0).map(|(name, _)| *name).collect();
    match slower[..] {
        [] => println!("Every kind is read faster than by the crate.\n"),
        _ => println!("Not faster than the crate: {}.\n", slower.join(", ")),
    }
}
