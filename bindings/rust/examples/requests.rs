//! Checks requests in a pool of threads: each line of standard input is one. It prints a line for each, in their order:
//! `valid`, or what is wrong. `cargo run --example requests -- SCHEMA < LINES`
use jskw::Validator;
use std::error::Error;
use std::io::{stdin, BufRead};
use std::sync::mpsc::{channel, Receiver, Sender};
use std::sync::{Arc, Mutex};
use std::thread::spawn;

/// A request with its number, and where its answer goes.
type Job = (usize, String, Sender<(usize, String)>);

/// Answers jobs until there are no more.
fn work(validator: &Validator, jobs: &Mutex<Receiver<Job>>) {
    loop {
        let job = jobs.lock().expect("no worker panics").recv();
        let (number, request, answers) = match job {
            Ok(job) => job,
            Err(_) => return,
        };
        let answer = match validator.validate(&request) {
            Ok(()) => "valid".to_string(),
            Err(error) => error.to_string(),
        };
        // the main thread may have gone
        let _ = answers.send((number, answer));
    }
}

fn main() -> Result<(), Box<dyn Error>> {
    let path = std::env::args().nth(1).ok_or("usage: requests SCHEMA < LINES")?;
    let validator = Validator::new(std::fs::read(path)?)?;
    let (send_job, jobs) = channel();
    let jobs = Arc::new(Mutex::new(jobs));
    for _ in 0..4 {
        let (validator, jobs) = (validator.clone(), Arc::clone(&jobs));
        spawn(move || work(&validator, &jobs));
    }
    let (send_answer, answers) = channel();
    for (number, line) in stdin().lock().lines().enumerate() {
        send_job.send((number, line?, send_answer.clone()))?;
    }
    drop(send_answer);
    let mut lines: Vec<(usize, String)> = answers.into_iter().collect();
    lines.sort();
    for (_, answer) in lines {
        println!("{answer}");
    }
    Ok(())
}
