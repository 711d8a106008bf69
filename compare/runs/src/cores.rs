use std::thread;
use std::time::{Duration, Instant};

/// The same work on every core, which share it out among themselves. Tells its progress, with the seconds
/// since it began, every ten seconds.
pub fn on_all_cores(work: impl Fn() + Sync, progress: impl Fn(u64)) {
    let cores = thread::available_parallelism().map_or(1, |n| n.get());
    thread::scope(|scope| {
        let workers: Vec<_> = (0..cores).map(|_| scope.spawn(&work)).collect();
        let began = Instant::now();
        let mut told = 0;
        while !workers.iter().all(|worker| worker.is_finished()) {
            thread::sleep(Duration::from_millis(50));
            let seconds = began.elapsed().as_secs();
            if seconds >= told + 10 {
                told = seconds;
                progress(seconds);
            }
        }
    });
}
