//! What each call costs, proved and peer side by side, in one run. README.md says how to read it.
//!
//!     bench                      the table, then the stack of each call
//!     bench rows                 the numbers of the rows
//!     bench repeat DESK ROW N    runs the cases of one row N times, for callgrind

use std::hint::black_box;
use std::process::exit;
use std::time::Instant;

use bench::desk::Desk;
use bench::peer::PEER;
use bench::reference::REFERENCE;
use bench::rows::{Buffers, CASES, Row, rows};
use bench::stack::Stack;

/// A batch takes about this long, in ns; rounds of one batch for each side.
const BATCH: f64 = 30_000.0;
const ROUNDS: usize = 1_000;

/// The internet checksum of RFC 1071, four bytes at a time as its section 2 allows: one pass over the image, as the floor.
#[inline(never)]
fn checksum(image: &[u8]) -> u16 {
    let (words, rest) = image.as_chunks::<4>();
    let mut last = [0; 4];
    last[..rest.len()].copy_from_slice(rest);
    let mut sum = words.iter().map(|&word| u64::from(u32::from_ne_bytes(word))).sum::<u64>();
    sum += u64::from(u32::from_ne_bytes(last));
    while sum > 0xffff {
        sum = (sum >> 16) + (sum & 0xffff);
    }
    !(sum as u16).to_be()
}

/// What is done in a batch, beside restoring the image.
#[derive(Clone, Copy)]
enum Work<'a> {
    Nothing,
    Checksum,
    Call(&'a Desk),
}

/// All cases of a row, `times` over; ns per case.
#[inline(never)]
fn batch(row: &Row, buffers: &mut Buffers, work: Work, times: usize) -> f64 {
    buffers.begin(row);
    let mut run = |times: usize| {
        for _ in 0..times {
            for case in &row.cases {
                buffers.restore(row, case);
                black_box(&mut *buffers);
                match work {
                    Work::Nothing => {}
                    Work::Checksum => {
                        black_box(checksum(black_box(&case.image[..case.bytes])));
                    }
                    Work::Call(desk) => {
                        let answer = black_box((row.run)(desk, case, buffers));
                        assert_eq!(answer.number, row.number, "{}: it is another call that is measured", row.call);
                    }
                }
            }
        }
    };
    // Code and data are warm, as they are for a server that is asked again and again.
    run(1);
    let start = Instant::now();
    run(times);
    start.elapsed().as_nanos() as f64 / (times as f64 * CASES as f64)
}

/// The times of one kind of work on one row: one for each round.
struct Times {
    times: usize,
    rounds: Vec<f64>,
}

impl Times {
    fn new(row: &Row, buffers: &mut Buffers, work: Work) -> Times {
        let once = (0..5).map(|_| batch(row, buffers, work, 4)).fold(f64::MAX, f64::min);
        let times = (BATCH / (once.max(1.0) * CASES as f64)) as usize;
        Times { times: times.clamp(1, 10_000), rounds: Vec::with_capacity(ROUNDS) }
    }

    fn round(&mut self, row: &Row, buffers: &mut Buffers, work: Work) {
        self.rounds.push(batch(row, buffers, work, self.times));
    }

    fn least(&self) -> f64 {
        self.rounds.iter().copied().fold(f64::MAX, f64::min)
    }
}

fn median(mut values: Vec<f64>) -> f64 {
    values.sort_by(f64::total_cmp);
    values[values.len() / 2]
}

/// What was measured of a row, in ns: the least time of a call, the restoring taken off.
struct Measured {
    desks: Vec<f64>,
    /// The quotient of the first two desks, in the median of the rounds.
    steady: f64,
    checksum: f64,
}

fn measure(rows: &[Row], desks: &[&Desk], rounds: usize) -> Vec<Measured> {
    let mut buffers = Buffers::new();
    let mut works: Vec<Work> = vec![Work::Nothing, Work::Checksum];
    works.extend(desks.iter().map(|desk| Work::Call(desk)));
    let mut times: Vec<Vec<Times>> =
        rows.iter().map(|row| works.iter().map(|&work| Times::new(row, &mut buffers, work)).collect()).collect();
    for _ in 0..rounds {
        for (row, times) in rows.iter().zip(&mut times) {
            for (times, &work) in times.iter_mut().zip(&works) {
                times.round(row, &mut buffers, work);
            }
        }
    }
    times
        .iter()
        .map(|times| {
            let restoring = times[0].least();
            let calls: Vec<f64> = times[2..].iter().map(|times| times.least() - restoring).collect();
            let steady = match &times[2..] {
                [one, other] => {
                    let both = one.rounds.iter().zip(&other.rounds);
                    median(both.map(|(one, other)| (one - restoring) / (other - restoring)).collect())
                }
                _ => 1.0,
            };
            Measured { desks: calls, steady, checksum: times[1].least() - restoring }
        })
        .collect()
}

fn print_table(rows: &[Row], measured: &[Measured], desks: &[&Desk]) {
    print!("{:<20} {:>6} {:<11} {:>6}", "call", "leases", "shape", "answer");
    for desk in desks {
        print!(" {:>10}", format!("{} ns", desk.name));
    }
    print!(" {:>6} {:>6} {:>9}", "ratio", "median", "floor ns");
    for desk in desks {
        print!(" {:>13}", format!("{} x1/4", desk.name));
    }
    println!();
    for (row, found) in rows.iter().zip(measured) {
        print!("{:<20} {:>6} {:<11} {:>6}", row.call, row.leases, row.shape.name(), row.number);
        for ns in &found.desks {
            print!(" {ns:>10.0}");
        }
        match found.desks[..] {
            [one, other] => print!(" {:>6.2} {:>6.2}", one / other, found.steady),
            _ => print!(" {:>6} {:>6}", "-", "-"),
        }
        print!(" {:>9.0}", found.checksum);
        if row.scale > 64 {
            let quarter = row.scale / 4;
            let smaller = rows.iter().position(|other| {
                (other.call, other.shape, other.number, other.scale) == (row.call, row.shape, row.number, quarter)
            });
            if let Some(smaller) = smaller {
                for (ns, before) in found.desks.iter().zip(&measured[smaller].desks) {
                    print!(" {:>13.2}", ns / before);
                }
            }
        }
        println!();
    }
}

/// The verdict in one line.
fn print_goal(measured: &[Measured]) {
    let ratios: Vec<f64> = measured
        .iter()
        .filter_map(|found| match found.desks[..] {
            [one, other] => Some(one / other),
            _ => None,
        })
        .collect();
    let slower = ratios.iter().filter(|ratio| **ratio > 1.0).count();
    let worst = ratios.iter().copied().fold(0.0, f64::max);
    println!("\nrows slower than the peer: {slower} of {}, at most {worst:.2} times", ratios.len());
}

fn print_stack(rows: &[Row], desks: &[&Desk]) {
    println!("\nstack: the most bytes that a call wrote below its caller, over all rows");
    print!("{:<20}", "call");
    for desk in desks {
        print!(" {:>10}", desk.name);
    }
    println!();
    let mut stack = Stack::new();
    for command in ["open", "ask", "take", "list", "return", "mark", "load", "save", "whole", "sheet"] {
        print!("{command:<20}");
        for desk in desks {
            let mut most = 0;
            for row in rows.iter().filter(|row| row.command == command) {
                for case in &row.cases {
                    let mut buffers = Buffers::of(case);
                    let used = stack.used(&mut || {
                        black_box((row.run)(desk, case, &mut buffers));
                    });
                    most = most.max(used);
                }
            }
            print!(" {most:>10}");
        }
        println!();
    }
}

/// For callgrind, which can count from here on.
#[inline(never)]
fn repeat(row: &Row, desk: &Desk, times: usize) {
    let mut buffers = Buffers::new();
    for _ in 0..times {
        for case in &row.cases {
            buffers.restore(row, case);
            black_box((row.run)(desk, case, &mut buffers));
        }
    }
}

fn usage() -> ! {
    eprintln!("bench [rows | repeat DESK ROW N]");
    exit(2)
}

fn main() {
    let proved = bench::proved_desk();
    let mut desks: Vec<&Desk> = proved.iter().collect();
    desks.push(&PEER);
    let arguments: Vec<String> = std::env::args().skip(1).collect();
    match arguments.iter().map(String::as_str).collect::<Vec<&str>>()[..] {
        [] => {
            let rows = rows(&desks);
            let measured = measure(&rows, &desks, ROUNDS);
            print_table(&rows, &measured, &desks);
            print_goal(&measured);
            print_stack(&rows, &desks);
        }
        ["rows"] => {
            for (index, row) in rows(&desks).iter().enumerate() {
                println!("{index} {} {} {} {}", row.call, row.leases, row.shape.name(), row.number);
            }
        }
        ["repeat", desk, row, times] => {
            let (Ok(row), Ok(times)) = (row.parse::<usize>(), times.parse::<usize>()) else { usage() };
            let Some(desk) = desks.iter().find(|other| other.name == desk) else { usage() };
            // Checked by the reference alone, so that a count of the other two has only the calls that are asked for.
            let rows = rows(&[&REFERENCE]);
            let Some(row) = rows.get(row) else { usage() };
            repeat(row, desk, times);
        }
        _ => usage(),
    }
}
