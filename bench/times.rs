//! Times of several ways to do the same, of which the last is the plain one.

use std::time::Duration;

/// The least and the median time.
pub type Times = (Duration, Duration);

/// For each way the least and the median of a part's rounds, summed over the parts. In a round each way goes over all parts before the next
/// has its turn, so that no branch predictor learns a part by heart, and each round begins with another way.
pub fn times<const WAYS: usize>(rounds: usize, parts: usize, mut spent: impl FnMut(usize, usize) -> Duration) -> [Times; WAYS] {
    let mut all = vec![vec![Vec::with_capacity(rounds); parts]; WAYS];
    for round in 0..rounds {
        for turn in 0..WAYS {
            let way = (round + turn) % WAYS;
            for (part, rounds) in all[way].iter_mut().enumerate() {
                rounds.push(spent(way, part));
            }
        }
    }
    all.iter_mut().flatten().for_each(|rounds| rounds.sort());
    let sum = |way: usize, rank: usize| all[way].iter().map(|rounds| rounds[rank]).sum();
    std::array::from_fn(|way| (sum(way, 0), sum(way, rounds / 2)))
}

/// Prints what stands above the times.
pub fn print_heading(inputs: &str, ways: &[&str]) {
    let (plain, others) = ways.split_last().expect("there is a plain way");
    print!("{inputs:24}");
    ways.iter().for_each(|way| print!("{way:>16}"));
    others.iter().for_each(|way| print!("{:>18}", format!("{way}/{plain}")));
    println!();
}

/// Prints the nanoseconds for each of so many things, and how many times those of the plain way they are.
pub fn print_times(input: &str, count: usize, times: &[Times]) {
    let (plain, others) = times.split_last().expect("there is a plain way");
    let of_one = |spent: Duration| spent.as_nanos() as f64 / count as f64;
    print!("{input:24}");
    times.iter().for_each(|&(least, median)| print!("{:9.1} {:6.1}", of_one(least), of_one(median)));
    others.iter().for_each(|other| print!("{:11.2} {:6.2}", other.0.div_duration_f64(plain.0), other.1.div_duration_f64(plain.1)));
    println!();
}
