//! A run in parts, on all cores.
use crate::cores::on_all_cores;
use crate::tally::Tally;
use std::sync::Mutex;
use std::sync::atomic::{AtomicU64, Ordering::Relaxed};

/// What was tried, and what was found, if anything. The parts behind that are left out; shows how far it is.
pub fn in_parts<E: Send>(
    parts: u64,
    part: impl Fn(u64, &mut Tally) -> Result<(), E> + Sync,
) -> (Tally, Option<E>) {
    let next = AtomicU64::new(0);
    let whole = Mutex::new((Tally::default(), None));
    let progress = |seconds| {
        let inputs = whole.lock().unwrap().0.inputs;
        eprintln!("{seconds} s: part {} of {parts}, {inputs} inputs", next.load(Relaxed).min(parts));
    };
    on_all_cores(|| work(parts, &next, &whole, &part), progress);
    whole.into_inner().unwrap()
}

type Whole<E> = Mutex<(Tally, Option<E>)>;

fn work<E>(parts: u64, next: &AtomicU64, whole: &Whole<E>, part: &impl Fn(u64, &mut Tally) -> Result<(), E>) {
    loop {
        let place = next.fetch_add(1, Relaxed);
        if place >= parts {
            return;
        }
        let mut tally = Tally::default();
        let tried = part(place, &mut tally);
        let mut whole = whole.lock().unwrap();
        whole.0.add(tally);
        if let Err(found) = tried {
            whole.1.get_or_insert(found);
            next.store(parts, Relaxed);
        }
    }
}
