//! The judge: puts the same calls to the proved library and to the plain implementation, and compares every answer and
//! every output byte.
//!
//!     judge [--self] [--sums | --multiples | --censuses] SEED COUNT
//!
//! runs at least COUNT calls that SEED decides. `--self` puts plain against plain, to try the judge itself. `--sums` has
//! sums and doubles at small primes alone, half of them special to an explicit formula. `--multiples` has multiples alone, by
//! both multiply calls: by every scalar to 300 of every divisor on small curves, and COUNT by scalars of 32 bytes at the
//! largest prime of each version of the curve record. `--censuses` has whole censuses alone, of COUNT curves of either genus at
//! each p up to 13. Exit 1 on any difference, 2 on wrong arguments.

mod census;
mod engine;
mod inputs;
mod judge;
mod laws;
mod multiples;
mod orders;
mod plan;
mod poles;
mod splits;

use engine::{Engine, Plain};
use inputs::Class;
use judge::{Judge, Tally};
use std::process::exit;
use std::thread;
use std::time::Instant;

/// The stack that the header says is enough for every call.
const STACK: usize = 1 << 20;

/// The library of the first engine, where it is linked.
#[cfg(feature = "proved")]
const PROVED: Option<&(dyn Engine + Sync)> = Some(&engine::Proved);
#[cfg(not(feature = "proved"))]
const PROVED: Option<&(dyn Engine + Sync)> = None;

fn usage() -> ! {
    eprintln!("usage: judge [--self] [--sums | --multiples | --censuses] SEED COUNT");
    exit(2)
}

fn main() {
    let mut arguments: Vec<String> = std::env::args().skip(1).collect();
    let mut flag = |name: &str| {
        let given = arguments.first().map_or(false, |word| word == name);
        if given {
            arguments.remove(0);
        }
        given
    };
    let to_itself = flag("--self");
    let sums = flag("--sums");
    let only_multiples = flag("--multiples");
    let censuses = flag("--censuses");
    let (seed, count) = match &arguments[..] {
        [seed, count] => match (seed.parse(), count.parse()) {
            (Ok(seed), Ok(count)) => (seed, count),
            _ => usage(),
        },
        _ => usage(),
    };
    let first: &(dyn Engine + Sync) = match (to_itself, PROVED) {
        (true, _) => &Plain,
        (false, Some(proved)) => proved,
        (false, None) => {
            eprintln!("this judge was built without the proved library: only --self works");
            exit(2)
        }
    };

    if only_multiples {
        println!("{} against plain, multiples, seed {}, {} by scalars of 32 bytes", first.name(), seed, count);
    } else if censuses {
        println!("{} against plain, whole censuses, seed {}, {} curves of each kind", first.name(), seed, count);
    } else {
        println!("{} against plain, seed {}, at least {} calls", first.name(), seed, count);
    }
    let start = Instant::now();
    let run = move || {
        let mut judge = Judge::new(first, &Plain, seed, false);
        if sums {
            plan::sums_by_class(&mut judge, count);
        } else if only_multiples {
            multiples::run(&mut judge, count);
        } else if censuses {
            census::run(&mut judge, count);
        } else {
            plan::run(&mut judge, count);
        }
        judge.tally
    };
    let tally =
        thread::Builder::new().stack_size(STACK).spawn(run).expect("a thread").join().expect("the thread's end");
    report(&tally, start.elapsed().as_secs_f64());
    if tally.differences != 0 {
        exit(1);
    }
}

fn report(tally: &Tally, seconds: f64) {
    if tally.classes.is_empty() {
        report_pairs(tally);
    } else {
        report_classes(tally);
    }
    println!(
        "{:.1} s; {} calls, {} of them done with a result that isn't neutral, {} differences",
        seconds, tally.calls, tally.not_neutral, tally.differences
    );
}

fn report_classes(tally: &Tally) {
    for ((genus, set, double, class), count) in &tally.classes {
        let call = if *double { "double" } else { "add" };
        let class = match class {
            Class::Main => "main".to_string(),
            Class::Light => "a weight below g".to_string(),
            Class::Shared(n) if *double => format!("{} with y = 0", n),
            Class::Shared(n) => format!("gcd of degree {}", n),
            Class::Low => "s of low degree".to_string(),
        };
        println!("  g {} f_2g {} 0, {}, {}: {}", genus, if *set { "≠" } else { "=" }, call, class, count);
    }
    let special: u64 = tally.classes.iter().filter(|(key, _)| key.3 != Class::Main).map(|(_, n)| n).sum();
    println!("{} sums and doubles, {} of them special", tally.calls, special);
}

fn report_pairs(tally: &Tally) {
    println!("pairs added, by genus and prime:");
    for ((genus, p), c) in &tally.census {
        println!(
            "  g {} p {}: {} (shared root {}, opposite {}, y = 0 {}, weight below g {}, f_2g not 0 {})",
            genus, p, c.sums, c.shared_root, c.opposite, c.zero_y, c.below_genus, c.f_2g
        );
    }
    println!("calls by the number answered:");
    for (number, calls) in &tally.numbers {
        println!("  {:2}: {}", number, calls);
    }
    println!("{} multiples by both multiply calls on the same bytes", tally.twins);
    println!("{} orders accepted", tally.orders);
    println!("splits of good divisors, by u:");
    for (shape, (all, with_zero)) in &tally.splits {
        println!("  {}: {} (root 0 {})", shape, all, with_zero);
    }
    println!("{} splits done, and their parts added by both engines", tally.added_back);
    println!("whole censuses, by genus and prime:");
    for ((genus, p), c) in &tally.walks {
        println!(
            "  g {} p {}: {} curves ({} of version 2), {} divisors",
            genus, p, c.curves, c.of_version_2, c.divisors
        );
    }
    println!("{} steps of a census", tally.steps);
    println!(
        "{} pole files written and read back, {} read and written again, by both engines",
        tally.files_written, tally.files_read
    );
}
