//! Room for the files that are in memory at once: as many bytes as the longest file may have, however many processors there are.

use shorgavel::Gauge;
use std::ffi::OsStr;
use std::fs;
use std::sync::{Condvar, Mutex, PoisonError};

#[derive(Default)]
pub struct Room {
    taken: Mutex<u64>,
    freed: Condvar,
}

impl Room {
    /// Waits until a file has room beside the others; one alone always has.
    pub fn with<T>(&self, file: &OsStr, work: impl FnOnce() -> T) -> T {
        let length = length(file);
        let taken = self.taken.lock().unwrap_or_else(PoisonError::into_inner);
        let full = |taken: &mut u64| *taken > 0 && *taken + length > Gauge::LIMIT;
        *self.freed.wait_while(taken, full).unwrap_or_else(PoisonError::into_inner) += length;
        // It is freed also where the work panics, since no other file would get room.
        let _held = Held { room: self, length };
        work()
    }
}

struct Held<'r> {
    room: &'r Room,
    length: u64,
}

impl Drop for Held<'_> {
    fn drop(&mut self) {
        *self.room.taken.lock().unwrap_or_else(PoisonError::into_inner) -= self.length;
        self.room.freed.notify_all();
    }
}

/// What has no length to ask for may be as long as any.
fn length(file: &OsStr) -> u64 {
    let known = fs::metadata(file).ok().filter(|data| data.is_file() && file != "-");
    known.map_or(Gauge::LIMIT, |data| data.len().min(Gauge::LIMIT))
}

#[cfg(test)]
mod tests {
    use super::*;
    use std::sync::atomic::{AtomicUsize, Ordering};
    use std::thread;

    /// Standard input has no length, so no two have room at once.
    #[test]
    fn what_has_no_room_waits() {
        let (room, inside, most) = (Room::default(), AtomicUsize::new(0), AtomicUsize::new(0));
        thread::scope(|scope| {
            for _ in 0..8 {
                scope.spawn(|| {
                    room.with(OsStr::new("-"), || {
                        most.fetch_max(inside.fetch_add(1, Ordering::SeqCst) + 1, Ordering::SeqCst);
                        thread::yield_now();
                        inside.fetch_sub(1, Ordering::SeqCst);
                    });
                });
            }
        });
        assert_eq!((most.into_inner(), *room.taken.lock().unwrap()), (1, 0));
    }

    #[test]
    fn short_files_have_room_beside_each_other() {
        let (room, file) = (Room::default(), OsStr::new(concat!(env!("CARGO_MANIFEST_DIR"), "/Cargo.toml")));
        assert!(room.with(file, || room.with(file, || true)));
    }
}
