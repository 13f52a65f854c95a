//! Nanoseconds for each step: the proved library in place, the second implementation and the lean kernel.

use crate::linked::lower;
use crate::loads;
use crate::passes::{List, Pass};
use std::time::Duration;

/// For how long each list is run again and again, and in how many turns: a disturbance may last longer than one.
const TIME: Duration = Duration::from_millis(80);
const TURNS: usize = 5;

const PAGE: usize = 4096;

/// The quickest times of each, in turns. Each turn stands lower in the stack's page: at some places a step takes longer.
pub fn of<const N: usize>(list: &List, whats: [&str; N]) -> [f64; N] {
    let mut passes: [Pass; N] = whats.map(|what| list.pass(what));
    let mut best = [f64::MAX; N];
    for turn in 0..TURNS {
        for (best, pass) in best.iter_mut().zip(&mut passes) {
            *best = best.min(lower(turn * PAGE / TURNS, || list.quickest(pass, TIME)));
        }
    }
    best
}

pub fn table() {
    print!("| load | tasks | in place / lean | in place / plain | in place, ns | of that the test, ns ");
    println!("| lean, ns | plain, ns | of that copying, ns |");
    println!("|---|---|---|---|---|---|---|---|---|");
    for load in loads::NAMES {
        for tasks in [1, 4, 16] {
            let list = List::new(load, tasks);
            let whats = ["in-place", "test", "lean", "plain", "copy"];
            let [in_place, test, lean, plain, copy] = of(&list, whats);
            print!("| {load} | {tasks} | {:.1} | {:.1} ", in_place / lean, in_place / plain);
            print!("| {in_place:.0} | {test:.0} | {lean:.1} ");
            println!("| {plain:.0} | {copy:.0} |");
        }
    }
}

/// The step in place at 64 places of the stack, a cache line apart; the record stays where it is. Each place has its turn six
/// times, and its quickest time counts, so that what disturbs one turn isn't taken for the place's doing.
pub fn places() {
    print!("| load | tasks | slowest / quickest | quickest, ns | median, ns | slowest, ns ");
    println!("| places over 1.1 of the median |");
    println!("|---|---|---|---|---|---|---|");
    for load in ["idle", "mixed"] {
        let list = List::new(load, 16);
        let mut pass = list.pass("in-place");
        let mut times = [f64::MAX; 64];
        for turn in 0..6 * times.len() {
            let place = turn % times.len();
            let time = lower(place * 64, || list.quickest(&mut pass, TIME / 8));
            times[place] = times[place].min(time);
        }
        times.sort_by(f64::total_cmp);
        let [quickest, median, slowest] = [0, 32, 63].map(|at| times[at]);
        let slow = times.into_iter().filter(|&time| time > 1.1 * median).count();
        print!("| {load} | 16 | {:.2} | {quickest:.0} | {median:.0} ", slowest / quickest);
        println!("| {slowest:.0} | {slow} of 64 |");
    }
}
