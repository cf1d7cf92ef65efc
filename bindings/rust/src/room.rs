//! Memory for lists: what cannot fit is told, and not tried.

use crate::error::Error;
use std::fs;
use std::sync::OnceLock;

/// How many bytes the lists of a call take together.
pub struct Room(u128);

impl Room {
    pub fn none() -> Room {
        Room(0)
    }

    /// And a list with so many entries in so many rows.
    pub fn and<T>(self, rows: usize, entries: usize) -> Room {
        // Two 64-bit numbers have a product in 128 bits. Times the size of an entry it may pass them; then it is too much by far.
        let entries = rows as u128 * entries as u128;
        Room(self.0.saturating_add(entries.saturating_mul(size_of::<T>() as u128)))
    }

    /// Whether they fit into the machine's memory and, each and all, into what a list may take.
    pub fn judged(self) -> Result<(), Error> {
        // A system that promises more memory than it has would stop the program at the first use.
        if self.0 > isize::MAX as u128 || memory().is_some_and(|memory| self.0 > memory) {
            return Err(Error::TooLarge { bytes: self.0 });
        }
        Ok(())
    }
}

/// A list of so many zeros.
pub fn zeros<T: Clone + Default>(entries: usize) -> Result<Vec<T>, Error> {
    let mut list = Vec::new();
    list.try_reserve_exact(entries).map_err(|_| Error::TooLarge { bytes: Room::none().and::<T>(1, entries).0 })?;
    list.resize(entries, T::default());
    Ok(list)
}

/// The machine's memory in bytes, where the system tells it.
fn memory() -> Option<u128> {
    static MEMORY: OnceLock<Option<u128>> = OnceLock::new();
    *MEMORY.get_or_init(|| total(&fs::read_to_string("/proc/meminfo").ok()?))
}

/// The line `MemTotal: NUMBER kB`, in bytes.
fn total(meminfo: &str) -> Option<u128> {
    let rest = meminfo.lines().find_map(|line| line.strip_prefix("MemTotal:"))?;
    let kilobytes: u64 = rest.trim().strip_suffix("kB")?.trim_end().parse().ok()?;
    Some(u128::from(kilobytes) * 1024)
}

#[cfg(test)]
mod tests {
    use super::*;

    #[test]
    fn what_no_list_may_take_is_too_large() {
        let most = isize::MAX as usize;
        assert_eq!(Room::none().and::<u8>(1, most + 1).judged(), Err(Error::TooLarge { bytes: most as u128 + 1 }));
        assert_eq!(Room::none().and::<f64>(usize::MAX, usize::MAX).judged(), Err(Error::TooLarge { bytes: u128::MAX }));
        assert_eq!(Room::none().and::<f64>(1 << 32, 1 << 32).judged(), Err(Error::TooLarge { bytes: 1 << 67 }));
        assert_eq!(Room::none().and::<f64>(3, 3).and::<i32>(3, 3).0, 108);
        assert_eq!(Room::none().and::<f64>(3, 3).judged(), Ok(()));
    }

    #[test]
    fn what_the_allocator_refuses_is_too_large() {
        assert_eq!(zeros::<f64>(usize::MAX / 8), Err(Error::TooLarge { bytes: (usize::MAX / 8 * 8) as u128 }));
        assert_eq!(zeros::<i32>(3), Ok(vec![0, 0, 0]));
    }

    #[test]
    fn the_machines_memory_is_read() {
        assert_eq!(total("MemFree:        5 kB\nMemTotal:       24683672 kB\n"), Some(24683672 * 1024));
        assert_eq!(total("MemTotal:       24683672\n"), None);
        assert_eq!(total("MemTotal:       -1 kB\n"), None);
        assert_eq!(total(""), None);
    }

    #[test]
    fn more_than_the_machines_memory_is_too_large() {
        let Some(memory) = memory() else { return };
        let bytes = usize::try_from(memory).unwrap();
        assert_eq!(Room::none().and::<u8>(1, bytes).judged(), Ok(()));
        assert_eq!(Room::none().and::<u8>(1, bytes + 1).judged(), Err(Error::TooLarge { bytes: memory + 1 }));
    }
}
