//! The table: every line timed by the four programs, and how many lines miss their goal.

use crate::lines::{self, Beside, Goal, Line};
use crate::rounds::Times;
use std::process::Command;

/// How many bytes behind a multiple of 64 the four programs have the code of the archives.
const PLACES: [usize; 4] = [0, 16, 32, 48];
const ROUNDS: usize = 61;
/// How often a line that misses its goal is timed again.
const AGAIN: usize = 4;
/// A goal of 1.0 is met from here on: medians of two runs differ as much.
const EQUAL: f64 = 0.97;
/// A line is timed again where it comes to this part of its goal.
const CLOSE: f64 = 0.5;

/// Times and prints the lines whose call starts with the name, and says which miss their goal.
pub fn print(name: &str) {
    let lines = lines::all();
    let mut missing = Vec::new();
    println!(
        "{:<18} {:>10} {:<11} {:>10} {:>10} {:>6} {:>6} {:>5}",
        "call", "size", "picture", "Rust ns", "ours ns", "lowest", "high", "goal"
    );
    let mut asked: Vec<(usize, &Line)> = lines.iter().enumerate().collect();
    asked.retain(|(_, line)| line.call.starts_with(name.trim_end_matches('s')));
    for &(index, line) in &asked {
        let timed = Timed::new(index, line);
        timed.print();
        missing.extend((!timed.meets(1.0)).then_some(timed));
    }
    println!("again:");
    let close = |timed: &Timed| timed.meets(CLOSE);
    let (mut again, far): (Vec<Timed>, Vec<Timed>) = missing.into_iter().partition(close);
    for _ in 0..AGAIN {
        again.iter_mut().for_each(Timed::again);
    }
    again.iter().for_each(Timed::print);
    again.retain(|timed| !timed.meets(1.0));
    let missing = [far, again].concat();
    let (all, missed) = (asked.len(), missing.len());
    let names = missing.iter().map(|timed| format!("; {}", timed.name()));
    println!(
        "{all} lines, {missed} miss their goal{}",
        names.collect::<String>()
    );
}

/// A line of the list and its times at the four places.
#[derive(Clone)]
struct Timed<'a> {
    index: usize,
    line: &'a Line,
    times: [Times; 4],
}

impl Timed<'_> {
    fn new(index: usize, line: &Line) -> Timed<'_> {
        let times = PLACES.map(|place| times_at(place, index));
        Timed { index, line, times }
    }

    /// Times the line once more; at each place the quieter run stays, in which both sides together
    /// took less.
    fn again(&mut self) {
        let both = |times: &Times| times.rust + times.ours;
        for (times, place) in self.times.iter_mut().zip(PLACES) {
            let other = times_at(place, self.index);
            if both(&other) < both(times) {
                *times = other;
            }
        }
    }

    /// The times with the lowest ratio, and the highest ratio.
    fn range(&self) -> (Times, f64) {
        let mut ordered = self.times;
        ordered.sort_by(|a, b| a.ratio().total_cmp(&b.ratio()));
        (ordered[0], ordered[3].ratio())
    }

    /// Whether the times come to this part of the goal at every place.
    fn meets(&self, part: f64) -> bool {
        let Goal { least, most } = self.line.goal;
        let least = least.map(|least| part * if least == 1.0 { EQUAL } else { least });
        least.is_none_or(|least| self.lowest() >= least)
            && most.is_none_or(|most| self.of_whole() * part <= most)
    }

    fn lowest(&self) -> f64 {
        self.range().0.ratio()
    }

    /// The most that a session takes of our whole call's time.
    fn of_whole(&self) -> f64 {
        let parts = self.times.iter().map(|times| times.ours / times.beside);
        parts.fold(0.0, f64::max)
    }

    fn print(&self) {
        let Line {
            call,
            card,
            of,
            goal,
            ..
        } = self.line;
        let (Times { rust, ours, beside }, high) = self.range();
        let (low, high) = (digits(rust / ours), digits(high));
        let least = goal
            .least
            .map_or(String::new(), |least| format!("{least:.1}"));
        print!(
            "{call:<18} {card:>10} {of:<11} {rust:>10.0} {ours:>10.0} {low:>6} {high:>6} {least:>5}"
        );
        match self.line.beside {
            Beside::Nothing => println!(),
            Beside::Copy => println!("  memcpy {beside:.0}"),
            Beside::Whole(calls) => {
                let (part, each) = (self.of_whole(), ours / calls as f64);
                println!("  whole {beside:.0}, {part:.2} of it, {each:.1} a call");
            }
        }
    }

    /// The line with its ratio, and with its part of our whole call's time where that misses.
    fn name(&self) -> String {
        let Line { call, card, of, .. } = self.line;
        let name = format!("{call} {card} {of} {}", digits(self.lowest()));
        match self.line.goal.most {
            Some(most) if self.of_whole() > most => {
                format!("{name}, {:.2} of whole", self.of_whole())
            }
            _ => name,
        }
    }
}

/// A ratio in at most six characters.
fn digits(ratio: f64) -> String {
    let places = if ratio < 1000.0 { 2 } else { 0 };
    format!("{ratio:.places$}")
}

/// Asks the program of this place, which stands beside this one.
fn times_at(place: usize, index: usize) -> Times {
    let program = std::env::current_exe()
        .expect("a path")
        .with_file_name(format!("bench-{place}"));
    let words = ["time".to_string(), index.to_string(), ROUNDS.to_string()];
    let ended = Command::new(&program)
        .args(words)
        .output()
        .expect("a program");
    let text = String::from_utf8_lossy(&ended.stdout);
    Times::parse(&text).unwrap_or_else(|| panic!("{}", String::from_utf8_lossy(&ended.stderr)))
}
