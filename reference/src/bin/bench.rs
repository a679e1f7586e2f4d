//! Times reading, reducing, comparing, testing and evaluating on vectors from standard input, with this implementation and, if it is linked, the proved engine.
//! Both start from the bytes of a file; reducing also writes the file of the record after it.

use spernevan_reference::{comparison, database, file, reduction};
use std::hint::black_box;
use std::time::{Duration, Instant};

/// The inputs of a vector: the file, two numbers, words and the length of a buffer.
struct Input {
    file: Vec<u8>,
    p: usize,
    q: usize,
    words: Vec<u32>,
    room: usize,
}

const CALLS: [(u64, &str); 5] = [(0, "read"), (6, "reduce"), (7, "compare"), (10, "test"), (11, "evaluate")];

/// The call and its inputs, if the call is timed and accepted; what is refused would only flatter.
fn input(line: &str) -> Option<(u64, Input)> {
    let mut numbers = line.split(' ').map(|n| n.parse::<u64>().expect("a number"));
    let call = numbers.next()?;
    let list = |numbers: &mut dyn Iterator<Item = u64>| {
        let n = numbers.next().unwrap() as usize;
        numbers.take(n).collect::<Vec<u64>>()
    };
    let mut made = Input { file: vec![], p: 0, q: 0, words: vec![], room: 0 };
    made.file = list(&mut numbers).iter().map(|&b| b as u8).collect();
    match call {
        0 => {}
        6 | 7 => {
            made.p = numbers.next()? as usize;
            made.q = numbers.next()? as usize;
        }
        10 => made.words = list(&mut numbers).iter().map(|&w| w as u32).collect(),
        11 => {
            made.p = numbers.next()? as usize;
            made.words = list(&mut numbers).iter().map(|&w| w as u32).collect();
            made.room = numbers.next()? as usize;
        }
        _ => return None,
    }
    (numbers.next()? == 0).then_some((call, made))
}

fn reference(call: u64, x: &Input) {
    let record = file::read(&x.file).expect("a sound file");
    match call {
        0 => drop(black_box(record)),
        6 => {
            let (after, reduced) = reduction::reduce(&record, x.p as u8, x.q as u8).unwrap();
            black_box((file::bytes(&after), reduced.count));
        }
        7 => drop(black_box(comparison::compare(&record, x.p as u8, x.q as u8))),
        10 => drop(black_box(database::test(&record, &x.words))),
        _ => drop(black_box(database::evaluate(&record, x.p as u8, &x.words, &mut vec![0; x.room]))),
    }
}

#[cfg(engine)]
mod engine {
    use super::{black_box, Input};

    extern "C" {
        fn spernevan_read(file: *const u8, n: usize) -> u8;
        fn spernevan_reduce(
            file: *const u8, n: usize, source: usize, target: usize,
            out: *mut u8, room: usize, size: *mut usize, count: *mut u8, mapping: *mut u32, words: usize,
        ) -> u8;
        fn spernevan_compare(
            file: *const u8, n: usize, p: usize, q: usize,
            verdict: *mut u8, mapping: *mut u32, words: usize, query: *mut u8, room: usize, size: *mut usize,
        ) -> u8;
        fn spernevan_test(
            file: *const u8, n: usize, words: *const u32, length: usize,
            verdict: *mut u8, dependency: *mut usize, first: *mut usize, second: *mut usize, third: *mut usize, fourth: *mut usize,
        ) -> u8;
        fn spernevan_evaluate(
            file: *const u8, n: usize, place: usize, words: *const u32, length: usize,
            answers: *mut u32, room: usize, count: *mut usize,
        ) -> u8;
    }

    pub fn call(call: u64, x: &Input) {
        let (mut out, mut mapping, mut answers) = ([0u8; 4574], [0u32; 192], vec![0u32; x.room]);
        let (mut byte, mut a, mut rows) = (0u8, 0usize, [0usize; 4]);
        let (f, n) = (x.file.as_ptr(), x.file.len());
        let (w, m) = (x.words.as_ptr(), x.words.len());
        // Each pointer is that of a live buffer with its length beside it, and none overlaps another.
        let refusal = unsafe {
            match call {
                0 => spernevan_read(f, n),
                6 => spernevan_reduce(f, n, x.p, x.q, out.as_mut_ptr(), out.len(), &mut a, &mut byte, mapping.as_mut_ptr(), mapping.len()),
                7 => spernevan_compare(f, n, x.p, x.q, &mut byte, mapping.as_mut_ptr(), mapping.len(), out.as_mut_ptr(), out.len(), &mut a),
                10 => {
                    let [first, second, third, fourth] = &mut rows;
                    spernevan_test(f, n, w, m, &mut byte, &mut a, first, second, third, fourth)
                }
                _ => spernevan_evaluate(f, n, x.p, w, m, answers.as_mut_ptr(), answers.len(), &mut a),
            }
        };
        assert_eq!(refusal, 0);
        black_box((out, mapping, answers, byte, a, rows));
    }
}

/// Calls a second, over all inputs as often as half a second allows; the best of five.
fn rate(inputs: &[Input], f: impl Fn(&Input)) -> f64 {
    let mut best: f64 = 0.0;
    for _ in 0..5 {
        let start = Instant::now();
        let mut rounds = 0;
        while start.elapsed() < Duration::from_millis(500) {
            inputs.iter().for_each(&f);
            rounds += 1;
        }
        best = best.max((rounds * inputs.len()) as f64 / start.elapsed().as_secs_f64());
    }
    best
}

fn main() {
    let all: Vec<(u64, Input)> = std::io::stdin().lines().filter_map(|l| input(&l.expect("text"))).collect();
    let mut groups: Vec<Vec<Input>> = CALLS.iter().map(|_| vec![]).collect();
    for (call, x) in all {
        groups[CALLS.iter().position(|c| c.0 == call).unwrap()].push(x);
    }
    for ((call, name), inputs) in CALLS.iter().zip(&groups) {
        print!("{name}: {} inputs, reference {:.0} a second", inputs.len(), rate(inputs, |x| reference(*call, x)));
        #[cfg(engine)]
        print!(", engine {:.0} a second", rate(inputs, |x| engine::call(*call, x)));
        println!();
    }
}
