//! Runs the product against an independent program written from 01.
//!
//!     kestrelore-tests PROGRAM [SEED]
//!     kestrelore-tests --layout    prints what tests/layout.c prints

mod abi;
mod cases;
mod compare;
mod lent;
mod model;
mod optimality;
mod product;
mod random;
mod rules;
mod shapes;
mod wrong;

use cases::Tried;
use product::Product;
use random::Random;
use std::process::ExitCode;
use std::sync::atomic::{AtomicUsize, Ordering};
use std::sync::Mutex;
use std::thread;
use std::time::Instant;

/// A test under its name. It answers what was tried, in words.
struct Test<'a> {
    name: String,
    run: Box<dyn Fn(&mut Random) -> Result<String, String> + Sync + 'a>,
}

/// Cases that are counted.
fn cases<'a>(name: impl Into<String>, run: impl Fn(&mut Random) -> Tried + Sync + 'a) -> Test<'a> {
    Test { name: name.into(), run: Box::new(move |random| run(random).map(|tried| format!("{tried} cases"))) }
}

/// Whether it passed, and what is printed of it.
fn verdict(test: &Test, seed: u64) -> (bool, String) {
    let start = Instant::now();
    match (test.run)(&mut Random::new(seed)) {
        Ok(tried) => (true, format!("passed: {}: {tried}, {:.1} s", test.name, start.elapsed().as_secs_f64())),
        Err(fault) => (false, format!("FAILED: {}, seed {seed}\n  {fault}", test.name)),
    }
}

/// What has come of the tests so far, by their places, and how many of them are printed.
struct Verdicts {
    given: Vec<Option<(bool, String)>>,
    printed: usize,
}

impl Verdicts {
    /// Takes a verdict, and prints those that have none missing before them.
    fn take(&mut self, place: usize, verdict: (bool, String)) {
        self.given[place] = Some(verdict);
        while let Some(Some((_, words))) = self.given.get(self.printed) {
            println!("{words}");
            self.printed += 1;
        }
    }
}

/// Runs the tests, one on each processor at a time, prints them in their order and answers how many passed.
fn run_all(tests: &[Test], seed: u64) -> usize {
    let next = AtomicUsize::new(0);
    let verdicts = Mutex::new(Verdicts { given: vec![None; tests.len()], printed: 0 });
    thread::scope(|scope| {
        for _ in 0..thread::available_parallelism().map_or(1, usize::from) {
            scope.spawn(|| loop {
                let place = next.fetch_add(1, Ordering::Relaxed);
                let Some(test) = tests.get(place) else { return };
                let verdict = verdict(test, seed);
                verdicts.lock().expect("no thread stops while it prints").take(place, verdict);
            });
        }
    });
    let given = verdicts.into_inner().expect("no thread stops while it prints").given;
    given.iter().flatten().filter(|(passed, _)| *passed).count()
}

fn main() -> ExitCode {
    let words: Vec<String> = std::env::args().collect();
    if words.get(1).map(String::as_str) == Some("--layout") {
        print!("{}", abi::layout().expect("a string takes every text"));
        return ExitCode::SUCCESS;
    }
    let (program, seed) = match (words.get(1), words.get(2).map_or(Ok(1), |word| word.parse())) {
        (Some(program), Ok(seed)) => (program, seed),
        _ => {
            eprintln!("usage: kestrelore-tests PROGRAM [SEED] | --layout");
            return ExitCode::from(2);
        }
    };
    let product = Product { program: program.into() };
    println!("seed {seed}");
    let groups = cases::groups();
    let mut tests: Vec<Test> =
        groups.iter().map(|group| cases(group.name, |random| (group.run)(&product, random))).collect();
    tests.push(cases("program: pipes, endless and unreadable input, unwritable output", |_| cases::program::pipes(&product)));
    tests.push(cases("the cases notice a program that a signal ends", |_| wrong::signals_noticed()));
    for fault in model::ALL_WRONG {
        let name = format!("the cases notice a planner with the fault {fault:?}");
        let run = move |_: &mut Random| wrong::noticed(fault, seed).map(|group| format!("by '{group}'"));
        tests.push(Test { name, run: Box::new(run) });
    }
    for fault in wrong::AGAINST_PROMISES {
        let name = format!("the optimality check alone notices {fault:?}");
        tests.push(cases(name, move |random| wrong::noticed_by_optimality(fault, random)));
    }
    for fault in wrong::AGAINST_LIMITS {
        let name = format!("the distances alone notice {fault:?}");
        tests.push(cases(name, move |random| wrong::noticed_by_distances(fault, random)));
    }
    for fault in wrong::AGAINST_COLLECTOR {
        let name = format!("the optimality check of plans to a collector alone notices {fault:?}");
        tests.push(cases(name, move |random| wrong::noticed_to_collector(fault, random)));
    }
    for fault in wrong::AGAINST_KEEPING {
        let name = format!("beside finished plans the least distances alone notice {fault:?}");
        tests.push(cases(name, move |random| wrong::noticed_beside_plans(fault, random)));
    }
    let passed = run_all(&tests, seed);
    let failed = tests.len() - passed;
    println!("{passed} passed, {failed} failed");
    if failed == 0 { ExitCode::SUCCESS } else { ExitCode::FAILURE }
}
