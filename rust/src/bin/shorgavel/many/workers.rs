//! Work on all processors, whose results come in the order of what was worked on.

use std::collections::BTreeMap;
use std::num::NonZeroUsize;
use std::sync::atomic::{AtomicUsize, Ordering};
use std::sync::mpsc::{self, Receiver, Sender};
use std::thread;

/// Where a result is not taken, the rest is not worked on.
pub fn in_order<I: Sync, T: Send, E>(
    items: &[I],
    work: impl Fn(&I) -> T + Sync,
    take: impl FnMut(T) -> Result<(), E>,
) -> Result<(), E> {
    let (next, work) = (AtomicUsize::new(0), &work);
    let workers = thread::available_parallelism().map_or(1, NonZeroUsize::get).min(items.len());
    let (sender, receiver) = mpsc::channel();
    thread::scope(|scope| {
        for _ in 0..workers {
            let (sender, next) = (sender.clone(), &next);
            scope.spawn(move || each(items, next, work, &sender));
        }
        // The last worker that ends closes the channel.
        drop(sender);
        sorted(receiver, take)
    })
}

fn each<I, T>(items: &[I], next: &AtomicUsize, work: impl Fn(&I) -> T, sender: &Sender<(usize, T)>) {
    loop {
        let at = next.fetch_add(1, Ordering::Relaxed);
        let Some(item) = items.get(at) else {
            return;
        };
        // Nobody takes results any more.
        if sender.send((at, work(item))).is_err() {
            return;
        }
    }
}

/// A result waits for those before it.
fn sorted<T, E>(receiver: Receiver<(usize, T)>, mut take: impl FnMut(T) -> Result<(), E>) -> Result<(), E> {
    let (mut waiting, mut due) = (BTreeMap::new(), 0);
    for (at, result) in receiver {
        waiting.insert(at, result);
        while let Some(result) = waiting.remove(&due) {
            take(result)?;
            due += 1;
        }
    }
    Ok(())
}

#[cfg(test)]
mod tests {
    use super::*;
    use std::time::Duration;

    #[test]
    fn results_come_in_order() {
        let items: Vec<u64> = (0..200).collect();
        let mut taken = Vec::new();
        let slow = |item: &u64| {
            thread::sleep(Duration::from_micros(item * 37 % 11 * 50));
            *item
        };
        let done: Result<(), ()> = in_order(&items, slow, |item| {
            taken.push(item);
            Ok(())
        });
        assert_eq!((done, taken), (Ok(()), items));
        assert_eq!(in_order(&[], |_: &u64| 0, |_| Err(())), Ok(()));
    }

    #[test]
    fn who_takes_no_more_ends_the_work() {
        let (items, worked) = (vec![0; 100_000], AtomicUsize::new(0));
        let mut taken = 0;
        let done = in_order(
            &items,
            |_| worked.fetch_add(1, Ordering::Relaxed),
            |_| {
                taken += 1;
                if taken == 3 {
                    Err("enough")
                } else {
                    Ok(())
                }
            },
        );
        assert_eq!((done, taken), (Err("enough"), 3));
    }
}
