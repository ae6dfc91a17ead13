//! Two ways to do the same work, timed in turn in one run, lot by lot. The machine may be shared, so the two lots of a pair stand next
//! to each other in time, and the ratio is the median over the pairs; a ratio of two bests would compare two moments.

use std::hint::black_box;
use std::time::Instant;

const LOTS: usize = 51;

fn seconds(work: &mut impl FnMut() -> u64) -> (f64, u64) {
    let start = Instant::now();
    let sum = black_box(work());
    (start.elapsed().as_secs_f64(), sum)
}

fn sorted(mut times: Vec<f64>) -> Vec<f64> {
    times.sort_by(f64::total_cmp);
    times
}

pub fn print_head() {
    println!(
        "{:54} {:>9} {:>9} {:>7} {:>13}",
        "ns for each element, best of lots", "ours", "Rust", "ratio", "middle half"
    );
}

/// Prints the best time of each for one of so many elements, the median of the paired ratios, and the quarters between
/// which half of them lie. The sums of answers must agree.
pub fn compare(label: &str, elements: usize, mut ours: impl FnMut() -> u64, mut plain: impl FnMut() -> u64) {
    let pair = |_| {
        let (our_time, our_sum) = seconds(&mut ours);
        let (plain_time, plain_sum) = seconds(&mut plain);
        assert_eq!(our_sum, plain_sum, "{label}: the answers differ");
        (our_time, plain_time)
    };
    let pairs: Vec<(f64, f64)> = (0..LOTS).map(pair).collect();
    let best = |times: Vec<f64>| sorted(times)[0] * 1e9 / elements as f64;
    let our_best = best(pairs.iter().map(|pair| pair.0).collect());
    let plain_best = best(pairs.iter().map(|pair| pair.1).collect());
    let ratios = sorted(pairs.iter().map(|pair| pair.0 / pair.1).collect());
    let (low, middle, high) = (ratios[LOTS / 4], ratios[LOTS / 2], ratios[LOTS - 1 - LOTS / 4]);
    println!("{label:54} {our_best:9.2} {plain_best:9.2} {middle:7.2} {low:6.2}-{high:6.2}");
}

pub fn print_missing(label: &str) {
    println!("{label:54} the archive does not export this call yet");
}
