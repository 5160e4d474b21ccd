//! Stores of 64 values and their images.

pub const PLACES: usize = 64;

pub trait Store {
    /// The length of the image.
    const IMAGE: usize;

    fn new() -> Self;
    /// Stores a value and tells whether there is such a place.
    fn put(&mut self, place: usize, value: i32) -> bool;
    /// The value at a place, or 0 where there is none.
    fn get(&self, place: usize) -> i32;
    /// Writes the image to the front of the buffer, which is long enough.
    fn image(&self, buffer: &mut [u8]);
}

pub struct DenseStore {
    values: [i32; PLACES],
}

impl Store for DenseStore {
    const IMAGE: usize = 4 * PLACES;

    fn new() -> Self {
        DenseStore { values: [0; PLACES] }
    }

    fn put(&mut self, place: usize, value: i32) -> bool {
        if place >= PLACES {
            return false;
        }
        self.values[place] = value;
        true
    }

    fn get(&self, place: usize) -> i32 {
        if place < PLACES {
            self.values[place]
        } else {
            0
        }
    }

    fn image(&self, buffer: &mut [u8]) {
        for (bytes, value) in buffer.chunks_exact_mut(4).zip(self.values) {
            bytes.copy_from_slice(&value.to_be_bytes());
        }
    }
}

/// Keeps only the values that are not zero, in ascending order of place.
pub struct SparseStore {
    entries: [(u8, i32); PLACES],
    used: usize,
}

const UNUSED: (u8, i32) = (0xFF, 0);

impl Store for SparseStore {
    const IMAGE: usize = 5 * PLACES;

    fn new() -> Self {
        SparseStore { entries: [UNUSED; PLACES], used: 0 }
    }

    fn put(&mut self, place: usize, value: i32) -> bool {
        if place >= PLACES {
            return false;
        }
        let at = self.entries[..self.used].iter().position(|entry| usize::from(entry.0) >= place).unwrap_or(self.used);
        let there = at < self.used && usize::from(self.entries[at].0) == place;
        match (there, value != 0) {
            (true, true) => self.entries[at].1 = value,
            (true, false) => {
                self.entries.copy_within(at + 1..self.used, at);
                self.used -= 1;
                self.entries[self.used] = UNUSED;
            }
            (false, true) => {
                self.entries.copy_within(at..self.used, at + 1);
                self.entries[at] = (place as u8, value);
                self.used += 1;
            }
            (false, false) => {}
        }
        true
    }

    fn get(&self, place: usize) -> i32 {
        let found = self.entries[..self.used].iter().find(|entry| usize::from(entry.0) == place);
        found.map_or(0, |entry| entry.1)
    }

    fn image(&self, buffer: &mut [u8]) {
        for (bytes, (place, value)) in buffer.chunks_exact_mut(5).zip(self.entries) {
            bytes[0] = place;
            bytes[1..].copy_from_slice(&value.to_be_bytes());
        }
    }
}

#[cfg(test)]
mod tests {
    use super::*;

    fn image<S: Store>(store: &S) -> Vec<u8> {
        let mut bytes = vec![0xAA; S::IMAGE];
        store.image(&mut bytes);
        bytes
    }

    fn dense(cells: &[(usize, [u8; 4])]) -> Vec<u8> {
        let mut bytes = vec![0; 256];
        for (place, value) in cells {
            bytes[4 * place..4 * place + 4].copy_from_slice(value);
        }
        bytes
    }

    fn sparse(front: &[u8]) -> Vec<u8> {
        let mut bytes = front.to_vec();
        while bytes.len() < 320 {
            bytes.extend([0xFF, 0, 0, 0, 0]);
        }
        bytes
    }

    #[test]
    fn images_of_the_docs() {
        let (mut d, mut s) = (DenseStore::new(), SparseStore::new());
        assert_eq!((image(&d), image(&s)), (dense(&[]), sparse(&[])));
        assert!(d.put(9, 5) && s.put(9, 5));
        assert_eq!((image(&d), image(&s)), (dense(&[(9, [0, 0, 0, 5])]), sparse(&[9, 0, 0, 0, 5])));
        assert!(d.put(2, -1) && s.put(2, -1));
        assert_eq!(image(&d), dense(&[(2, [255; 4]), (9, [0, 0, 0, 5])]));
        assert_eq!(image(&s), sparse(&[2, 255, 255, 255, 255, 9, 0, 0, 0, 5]));
        assert!(d.put(9, 0) && s.put(9, 0));
        assert_eq!(image(&d), dense(&[(2, [255; 4])]));
        assert_eq!(image(&s), sparse(&[2, 255, 255, 255, 255]));
    }

    #[test]
    fn beyond_the_last_place() {
        let (mut d, mut s) = (DenseStore::new(), SparseStore::new());
        assert!(!d.put(64, 1) && !s.put(64, 1));
        assert_eq!((d.get(64), s.get(64), s.get(255)), (0, 0, 0));
        assert_eq!((image(&d), image(&s)), (dense(&[]), sparse(&[])));
    }

    #[test]
    fn full_stores() {
        let (mut d, mut s) = (DenseStore::new(), SparseStore::new());
        for place in (0..64).rev() {
            assert!(d.put(place, place as i32 - 70) && s.put(place, place as i32 - 70));
        }
        for place in 0..64 {
            assert_eq!((d.get(place), s.get(place)), (place as i32 - 70, place as i32 - 70));
        }
    }
}
