//! A large input: the source and the schedule for a number of workers.

use std::collections::BTreeSet;

const STEPS: u32 = 106;

pub fn source(n: u32) -> String {
    let mut text = String::from(
        "class Cell { int v guarded_by this; atomic void inc() { synchronized (this) { this.v = this.v + 1; } } }\n",
    );
    text.push_str("class W implements Runnable { final Cell c; W(Cell c) { this.c = c; } public void run() {");
    text.push_str(&" this.c.inc();".repeat(8));
    text.push_str(" } }\nclass Main { void main() { final Cell c = new Cell();");
    text.push_str(&" new Thread(new W(c)).start();".repeat(n as usize));
    text.push_str(" } }\n");
    text
}

/// Whether a worker's step with this number takes the lock, or gives it back.
fn takes(step: u32) -> bool {
    step % 13 == 6 && step < STEPS
}

fn gives(step: u32) -> bool {
    step % 13 == 0
}

/// The main thread to its end; then rounds, in which each worker takes a step that isn't done and doesn't wait for the lock.
pub fn schedule(n: u32) -> Vec<u32> {
    let mut order = vec![0; 4 + 3 * n as usize];
    order.reserve((STEPS * n) as usize);
    let mut taken = vec![0; n as usize + 1];
    let mut going: BTreeSet<u32> = (1..=n).collect();
    let mut waiting = BTreeSet::new();
    let mut is_held = false;
    while !going.is_empty() || !waiting.is_empty() {
        let mut last = 0;
        loop {
            let goes = going.range(last + 1..).next().copied();
            let waits = if is_held { None } else { waiting.range(last + 1..).next().copied() };
            let Some(worker) = goes.into_iter().chain(waits).min() else { break };
            last = worker;
            if waiting.remove(&worker) {
                going.insert(worker);
                is_held = true;
            }
            order.push(worker);
            let step = &mut taken[worker as usize];
            *step += 1;
            if gives(*step) {
                is_held = false;
            }
            if *step == STEPS {
                going.remove(&worker);
            } else if takes(*step + 1) {
                going.remove(&worker);
                waiting.insert(worker);
            }
        }
    }
    order
}

/// How many groups of equal neighbours a schedule has.
pub fn groups(schedule: &[u32]) -> usize {
    schedule.chunk_by(|a, b| a == b).count()
}
