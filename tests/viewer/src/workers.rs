//! Work on many files at once.

use std::sync::atomic::{AtomicUsize, Ordering};
use std::sync::Mutex;
use std::thread;

const WORKERS: usize = 2;

/// The result of the work for each number below `count`, in order; each worker is told which it is.
pub fn each<R: Send>(count: usize, work: impl Fn(usize, usize) -> R + Sync) -> Vec<R> {
    let next = AtomicUsize::new(0);
    let done: Mutex<Vec<(usize, R)>> = Mutex::new(Vec::new());
    thread::scope(|scope| {
        for worker in 0..WORKERS {
            let (next, done, work) = (&next, &done, &work);
            scope.spawn(move || loop {
                let index = next.fetch_add(1, Ordering::Relaxed);
                if index >= count {
                    break;
                }
                let result = work(worker, index);
                done.lock().expect("no worker fails").push((index, result));
            });
        }
    });
    let mut done = done.into_inner().expect("no worker fails");
    done.sort_by_key(|(index, _)| *index);
    done.into_iter().map(|(_, result)| result).collect()
}
