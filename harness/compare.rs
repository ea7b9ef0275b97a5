//! Compares the Rattle crates with the Rust that they were ported from, on the same inputs and
//! bit for bit. Whole calls are compared where it is built with `--cfg closer`.
//!
//!     compare [--seed N] [--times N] [--only LAYER]

mod boxes;
mod branches;
mod calls;
#[cfg(closer)]
mod closer;
mod compared;
#[cfg(closer)]
mod demands;
#[cfg(closer)]
mod edges;
mod faces;
mod generator;
mod items;
mod judge;
mod loops;
mod numbers;
mod patterns;
mod random;
mod records;
mod reference;
mod regions;
mod report;
mod results;
mod shapes;
#[cfg(closer)]
mod steps;
mod surfaces;
mod triangle;
mod values;
mod whole;
#[cfg(closer)]
mod whole_calls;

/// The Rust, cut out of its source by `cut.rs`.
#[allow(dead_code, unused)]
mod original {
    include!(env!("ORIGINAL"));
}

use report::Run;

const LAYERS: &[(&str, fn(&Run))] = &[
    ("numbers", numbers::compare),
    ("surfaces", surfaces::compare),
    ("loops", loops::compare),
    ("boxes", boxes::compare),
    ("regions", regions::compare),
    ("whole", whole::compare),
    ("records", records::compare),
    ("results", results::compare),
    ("generator", generator::meet_everything),
    #[cfg(closer)]
    ("calls", whole_calls::compare),
];

fn main() {
    let mut run = Run { seed: 1, times: 1 };
    let mut layers = LAYERS;
    let mut arguments = std::env::args().skip(1);
    while let Some(option) = arguments.next() {
        let value = arguments.next().unwrap_or_default();
        let layer = LAYERS.iter().position(|(name, _)| *name == value);
        match (option.as_str(), value.parse(), layer) {
            ("--seed", Ok(seed), _) => run.seed = seed,
            ("--times", Ok(times), _) => run.times = times,
            ("--only", _, Some(layer)) => layers = &LAYERS[layer..=layer],
            _ => {
                eprintln!("usage: compare [--seed N] [--times N] [--only LAYER]");
                std::process::exit(2);
            }
        }
    }
    println!("comparison: seed {}, times {}", run.seed, run.times);
    values::hold();
    for (name, compare) in layers {
        println!("comparison: layer {name}");
        compare(&run);
    }
    println!("comparison: done, no difference");
}
