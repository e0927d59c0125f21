//! The port against the Rust that it ports, timed in one program: `bench/run` builds and starts it.
//!
//!   driver NOTE            the table, and a line `ratio NAME X` for each figure
//!   driver NOTE --once     runs each side of each figure once, in the function `counted`, for a tool that counts what is
//!                          done there, and prints `SIDE NAME UNITS` for each
//!   driver NOTE --counts   the table of such counts: lines `SIDE NAME UNITS INSTRUCTIONS` on standard input
//!
//! Built with `--cfg engine`, the Rust is there; without it ours stands alone.

#[cfg(engine)]
#[allow(dead_code)]
mod bamboo {
    include!(concat!(env!("ENGINE"), "/bamboo.rs"));
}

#[cfg(engine)]
#[allow(dead_code)]
mod input_method {
    include!(concat!(env!("ENGINE"), "/input_method.rs"));
}

#[cfg(engine)]
#[allow(dead_code)]
mod spelling {
    include!(concat!(env!("ENGINE"), "/spelling.rs"));
}

mod calls;
#[cfg(engine)]
mod engine;
mod figures;
mod note;
mod table;

use figures::{Side, FIGURES};
use note::Note;
use std::hint::black_box;
use table::Times;

/// A figure's sides alternate TURNS times without a pause, and the figures take turns in ROUNDS: what else the machine does
/// for a while hits every side of a figure, and no figure in all rounds.
const TURNS: usize = 100;
const ROUNDS: usize = 20;

fn main() {
    let words: Vec<String> = std::env::args().skip(1).collect();
    let words: Vec<&str> = words.iter().map(String::as_str).collect();
    let (path, option) = match words[..] {
        [path] => (path, ""),
        [path, option] => (path, option),
        _ => panic!("driver NOTE [--once | --counts]"),
    };
    let mut note = Note::new(&std::fs::read_to_string(path).expect("the note can be read"));
    match option {
        "" => {
            note.check();
            let times = measure(&mut note);
            table::print(&note, &times, TURNS * ROUNDS);
        }
        "--once" => once(&mut note),
        "--counts" => {
            let counts = std::io::read_to_string(std::io::stdin()).expect("the counts can be read");
            table::print_counts(&table::read_counts(&counts));
        }
        _ => panic!("no option {option}"),
    }
}

fn once(note: &mut Note) {
    for figure in FIGURES {
        for (side, run) in figure.sides() {
            println!("{side} {} {}", figure.name, counted(run, note));
        }
    }
}

#[no_mangle]
#[inline(never)]
fn counted(run: Side, note: &mut Note) -> usize {
    black_box(run(note))
}

fn measure(note: &mut Note) -> Vec<Times> {
    let mut times: Vec<Times> = FIGURES.iter().map(|_| Times::new()).collect();
    for _ in 0..ROUNDS {
        for (figure, times) in FIGURES.iter().zip(&mut times) {
            let sides = figure.sides();
            for _ in 0..TURNS {
                for &(side, run) in &sides {
                    let begun = cpu_time();
                    let units = black_box(run(note));
                    let taken = cpu_time() - begun;
                    times.entry(side).or_default().push(taken / units as f64);
                }
            }
        }
    }
    times
}

/// The CPU time of this thread, in nanoseconds.
fn cpu_time() -> f64 {
    #[repr(C)]
    struct Time {
        seconds: i64,
        nanoseconds: i64,
    }
    extern "C" {
        fn clock_gettime(clock: i32, time: *mut Time) -> i32;
    }
    const CLOCK_THREAD_CPUTIME_ID: i32 = 3;
    let mut time = Time { seconds: 0, nanoseconds: 0 };
    assert_eq!(unsafe { clock_gettime(CLOCK_THREAD_CPUTIME_ID, &mut time) }, 0);
    time.seconds as f64 * 1e9 + time.nanoseconds as f64
}
