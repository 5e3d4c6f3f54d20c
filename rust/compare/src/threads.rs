//! Work in chunks on some threads, with a line of progress.

use std::sync::Mutex;
use std::sync::atomic::{AtomicBool, AtomicU64, Ordering};
use std::thread;
use std::time::Duration;

use crate::progress::Progress;

/// A thread at work. It is counted off however it ends: after a panic the
/// others are stopped, and `thread::scope` tells of it.
struct AtWork<'a> {
    working: &'a AtomicU64,
    stop: &'a AtomicBool,
}

impl Drop for AtWork<'_> {
    fn drop(&mut self) {
        if thread::panicking() {
            self.stop.store(true, Ordering::Relaxed);
        }
        self.working.fetch_sub(1, Ordering::Relaxed);
    }
}

/// Does every chunk on one of the threads, until one fails: then those that
/// were begun are ended, and the first of the chunks that failed is told. As
/// chunks are begun in their order, that is the same on any number of threads.
/// Progress is told as a part of `total`.
pub fn spread_over<E: Send>(
    threads: usize,
    title: &str,
    chunks: u64,
    total: u64,
    work: impl Fn(u64) -> Result<(), E> + Sync,
) -> Result<(), E> {
    let next = AtomicU64::new(0);
    let done = AtomicU64::new(0);
    let working = AtomicU64::new(threads as u64);
    let stop = AtomicBool::new(false);
    let failed: Mutex<Option<(u64, E)>> = Mutex::new(None);
    let worker = || {
        let (working, stop) = (&working, &stop);
        let _at_work = AtWork { working, stop };
        while !stop.load(Ordering::Relaxed) {
            let chunk = next.fetch_add(1, Ordering::Relaxed);
            if chunk >= chunks {
                break;
            }
            if let Err(error) = work(chunk) {
                stop.store(true, Ordering::Relaxed);
                let mut failed = failed.lock().unwrap();
                if failed.as_ref().is_none_or(|(other, _)| chunk < *other) {
                    *failed = Some((chunk, error));
                }
            }
            done.fetch_add(1, Ordering::Relaxed);
        }
    };
    thread::scope(|scope| {
        for _ in 0..threads {
            scope.spawn(worker);
        }
        let mut progress = Progress::new(title, total);
        let part = total as f64 / chunks.max(1) as f64;
        while working.load(Ordering::Relaxed) > 0 {
            thread::sleep(Duration::from_millis(5));
            progress.at((done.load(Ordering::Relaxed) as f64 * part) as u64);
        }
    });
    match failed.into_inner().unwrap() {
        None => Ok(()),
        Some((_, error)) => Err(error),
    }
}

#[cfg(test)]
mod tests {
    use super::*;

    #[test]
    fn every_chunk_is_done_once() {
        for threads in [1, 3] {
            let sum = AtomicU64::new(0);
            let work = |chunk| {
                sum.fetch_add(1u64 << chunk, Ordering::Relaxed);
                Ok::<(), ()>(())
            };
            assert_eq!(spread_over(threads, "chunks", 50, 50, work), Ok(()));
            assert_eq!(sum.into_inner(), (1 << 50) - 1);
        }
    }

    #[test]
    #[should_panic]
    fn a_panic_ends_it() {
        let work = |chunk| -> Result<(), ()> {
            assert!(chunk != 7, "as if a table were too short");
            Ok(())
        };
        let _ = spread_over(2, "chunks", 100, 100, work);
    }

    #[test]
    fn the_first_that_fails_is_told() {
        for threads in [1, 2, 5] {
            let work = |chunk| if chunk % 10 == 7 { Err(chunk) } else { Ok(()) };
            assert_eq!(spread_over(threads, "chunks", 100, 100, work), Err(7));
        }
    }
}
