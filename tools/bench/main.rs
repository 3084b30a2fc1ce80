//! Times the Rust and this codec on the same buffers, and ends where their outputs differ.
//!
//! A small loop may take twice as long by its place, so run.sh links this program four times, the
//! code of the archives 0, 16, 32 and 48 bytes behind a multiple of 64. Each of the four times a
//! line in a process of its own, by medians of interleaved rounds. The table has the line's lowest
//! and highest ratio of the four, and the times of the lowest; beside reading memcpy of the file, and
//! beside a session our whole call, with the session's part of it at the worst place.
//!
//! The machine has slow times, in which the two sides are not slowed alike: lines that miss their
//! goal, but not by half, are timed four times more, one after another, and of the five runs of a
//! place the quietest counts, in which both sides together took least.
//!
//! `bench-0 [NAME]` prints the table, or its lines whose call starts with NAME; `sessions` stands
//! for `session`. `bench-K time INDEX ROUNDS` times one line of the list.

#[path = "../capi.rs"]
mod capi;
mod fields;
mod kernels;
mod lent;
mod lines;
mod making;
mod pictures;
mod reading;
mod rounds;
mod sessions;
mod sizes;
mod sniffing;
mod table;

fn main() {
    let words: Vec<String> = std::env::args().skip(1).collect();
    let words: Vec<&str> = words.iter().map(String::as_str).collect();
    match words[..] {
        [] => table::print(""),
        [name] => table::print(name),
        ["time", index, rounds] => {
            rounds::keep_memory();
            let line = &lines::all()[index.parse::<usize>().expect("an index")];
            println!("{}", (line.time)(rounds.parse().expect("rounds")));
        }
        _ => panic!("bench-0 [NAME], or bench-K time INDEX ROUNDS"),
    }
}
