//! Works through many journals in a few threads.

use crate::run::Desk;
use std::env;
use std::fs;
use std::path::PathBuf;
use std::process;
use std::sync::atomic::{AtomicBool, AtomicU64, AtomicUsize, Ordering};
use std::sync::{Mutex, PoisonError};
use std::thread;
use std::time::{Duration, Instant};

/// The processors that there are, but at most four.
pub fn usual_jobs() -> usize {
    thread::available_parallelism().map_or(1, |count| count.get().min(4))
}

/// A folder of our own for what lies on the desks. It goes when we do.
struct Spool(PathBuf);

impl Spool {
    fn new() -> Result<Spool, String> {
        static NEXT: AtomicUsize = AtomicUsize::new(0);
        let next = NEXT.fetch_add(1, Ordering::Relaxed);
        let folder = env::temp_dir().join(format!("trials-{}-{next}", process::id()));
        fs::create_dir_all(&folder).map_err(|error| format!("{}: {error}", folder.display()))?;
        Ok(Spool(folder))
    }
}

impl Drop for Spool {
    fn drop(&mut self) {
        // What is left of it harms nobody.
        let _ = fs::remove_dir_all(&self.0);
    }
}

/// Does the work for each number, and answers what came of it in the order of
/// the numbers. The first trouble ends it all. `report` is told every few
/// seconds how many are done, and in how many seconds.
pub fn work_through<T: Send>(
    jobs: usize,
    from: u64,
    count: u64,
    work: impl Fn(&Desk, u64) -> Result<T, String> + Sync,
    report: impl Fn(u64, f64),
) -> Result<Vec<T>, String> {
    let spool = Spool::new()?;
    let desks: Vec<Desk> = (0..jobs.max(1))
        .map(|job| Desk::new(&spool.0, job))
        .collect::<Result<_, _>>()
        .map_err(|error| format!("{}: {error}", spool.0.display()))?;
    let next = AtomicU64::new(0);
    let done = AtomicU64::new(0);
    let stop = AtomicBool::new(false);
    let results = Mutex::new(Vec::new());
    let trouble: Mutex<Option<String>> = Mutex::new(None);
    thread::scope(|scope| {
        let hands: Vec<_> = desks
            .iter()
            .map(|desk| {
                scope.spawn(|| {
                    let mut own = Vec::new();
                    while !stop.load(Ordering::Relaxed) {
                        let turn = next.fetch_add(1, Ordering::Relaxed);
                        if turn >= count {
                            break;
                        }
                        match work(desk, from + turn) {
                            Ok(result) => own.push((turn, result)),
                            Err(reason) => {
                                stop.store(true, Ordering::Relaxed);
                                let mut trouble =
                                    trouble.lock().unwrap_or_else(PoisonError::into_inner);
                                trouble.get_or_insert(reason);
                            }
                        }
                        done.fetch_add(1, Ordering::Relaxed);
                    }
                    results
                        .lock()
                        .unwrap_or_else(PoisonError::into_inner)
                        .extend(own);
                })
            })
            .collect();
        let start = Instant::now();
        let mut reported = start;
        while !hands.iter().all(|hand| hand.is_finished()) {
            thread::sleep(Duration::from_millis(20));
            desks.iter().for_each(Desk::watch);
            if reported.elapsed() > Duration::from_secs(3) {
                reported = Instant::now();
                report(done.load(Ordering::Relaxed), start.elapsed().as_secs_f64());
            }
        }
    });
    if let Some(reason) = trouble.into_inner().unwrap_or_else(PoisonError::into_inner) {
        return Err(reason);
    }
    let mut results = results.into_inner().unwrap_or_else(PoisonError::into_inner);
    results.sort_by_key(|&(turn, _)| turn);
    Ok(results.into_iter().map(|(_, result)| result).collect())
}
