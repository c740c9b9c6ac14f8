//! Random histories of calls through the static library, compared with the oracle (README.md here).
//!
//! usage: compare guarded|bare COUNT SEED FROM JOBS
mod block;
mod expected;
mod history;
mod library;
mod limits;
mod lines;
mod make;
mod outcome;
mod play;
mod random;
mod shrink;
mod table;
mod vectors;

use history::Step;
use library::Lending;
use play::{play, Difference};
use random::Random;
use std::io::IsTerminal;
use std::sync::atomic::{AtomicBool, AtomicU64, Ordering};
use std::sync::Mutex;
use std::thread;
use std::time::{Duration, Instant};
use table::Table;

/// What is asked for, and how far it is.
struct Work {
    lending: Lending,
    count: u64,
    seed: u64,
    from: u64,
    jobs: usize,
    started: AtomicU64,
    done: AtomicU64,
    stop: AtomicBool,
    /// The first history that differs, by its number.
    differs: Mutex<Option<(u64, Difference)>>,
}

impl Work {
    fn asked() -> Self {
        let words: Vec<String> = std::env::args().collect();
        let number = |place: usize| -> u64 {
            let word = words.get(place).and_then(|word| word.parse().ok());
            word.expect("usage: compare guarded|bare COUNT SEED FROM JOBS")
        };
        Work {
            lending: match words[1].as_str() {
                "bare" => Lending::Bare,
                _ => Lending::Guarded,
            },
            count: number(2),
            seed: number(3),
            from: number(4),
            jobs: number(5) as usize,
            started: AtomicU64::new(0),
            done: AtomicU64::new(0),
            stop: AtomicBool::new(false),
            differs: Mutex::new(None),
        }
    }

    fn history(&self, number: u64) -> Vec<Step> {
        let random = Random::of_history(self.seed, number);
        make::history(random, self.lending == Lending::Bare)
    }

    /// Plays histories, one after the other, until all are taken or one differs.
    fn run(&self) -> Table {
        let mut table = Table::default();
        while !self.stop.load(Ordering::Relaxed) {
            let next = self.started.fetch_add(1, Ordering::Relaxed);
            if next >= self.count {
                break;
            }
            let number = self.from + next;
            table.histories += 1;
            if let Err(difference) = play(&self.history(number), self.lending, &mut table) {
                self.stop.store(true, Ordering::Relaxed);
                let mut first = self.differs.lock().expect("no thread panics");
                if first.as_ref().is_none_or(|(known, _)| number < *known) {
                    *first = Some((number, difference));
                }
            }
            self.done.fetch_add(1, Ordering::Relaxed);
        }
        table
    }

    /// A line on how far it is: every second on a terminal, else every ten.
    fn tell(&self, began: Instant) {
        let done = self.done.load(Ordering::Relaxed);
        let rate = done as f64 / began.elapsed().as_secs_f64();
        let left = (self.count - done) as f64 / rate.max(1e-9);
        let line = format!(
            "{done} of {} histories, {rate:.0} a second, {left:.0} s left",
            self.count
        );
        match std::io::stderr().is_terminal() {
            true => eprint!("\r{line}    "),
            false => eprintln!("{line}"),
        }
    }

    fn run_all(&self) -> Table {
        let began = Instant::now();
        let period = if std::io::stderr().is_terminal() {
            1
        } else {
            10
        };
        let mut table = Table::default();
        thread::scope(|scope| {
            let threads: Vec<_> = (0..self.jobs).map(|_| scope.spawn(|| self.run())).collect();
            let mut told = Instant::now();
            while !threads.iter().all(|thread| thread.is_finished()) {
                thread::sleep(Duration::from_millis(20));
                if told.elapsed().as_secs() >= period {
                    self.tell(began);
                    told = Instant::now();
                }
            }
            self.tell(began);
            for thread in threads {
                table.join(&thread.join().expect("a thread that ends"));
            }
        });
        eprintln!();
        table
    }
}

fn print_difference(work: &Work, number: u64, difference: Difference) {
    let steps = work.history(number);
    println!(
        "history {number} of seed {} differs at step {}",
        work.seed, difference.step
    );
    println!("  {}", difference.what);
    let smallest = shrink::shrink(steps, difference, work.lending);
    let (lines, remarks) = lines::lines(&smallest.steps);
    println!(
        "the smallest input found, in the lines of recorded/README.md; its last call differs:"
    );
    lines.iter().for_each(|line| println!("{line}"));
    remarks.iter().for_each(|remark| println!("({remark})"));
    println!("what differs: {}", smallest.difference.what);
    println!("library: {}", smallest.difference.library);
    println!("oracle:  {}", smallest.difference.oracle);
}

fn main() {
    // a panic of the oracle is told as a difference
    std::panic::set_hook(Box::new(|_| {}));
    let work = Work::asked();
    let table = work.run_all();
    println!(
        "seed {}, histories {} to {}",
        work.seed,
        work.from,
        work.from + table.histories - 1
    );
    table.print();
    let differs = work.differs.lock().expect("no thread panics").take();
    let differ = u64::from(differs.is_some());
    if let Some((number, difference)) = differs {
        print_difference(&work, number, difference);
    }
    println!("{} histories, {differ} differ", table.histories);
    std::process::exit(differ as i32);
}
