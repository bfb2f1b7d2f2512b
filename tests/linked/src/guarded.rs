//! Memory lent to a call, between guards.

use std::fmt::Debug;

use second::seed::Rng;

/// What lent memory is counted in: bytes of a file, words of a table.
pub trait Unit: Copy + Eq + Debug {
    const BYTES: usize;
    fn noise(rng: &mut Rng) -> Self;
    /// To `BYTES` bytes.
    fn put(self, bytes: &mut [u8]);
    /// From `BYTES` bytes.
    fn of_bytes(bytes: &[u8]) -> Self;
}

impl Unit for u8 {
    const BYTES: usize = 1;

    fn noise(rng: &mut Rng) -> u8 {
        rng.bits() as u8
    }

    fn put(self, bytes: &mut [u8]) {
        bytes[0] = self;
    }

    fn of_bytes(bytes: &[u8]) -> u8 {
        bytes[0]
    }
}

impl Unit for u32 {
    const BYTES: usize = 4;

    fn noise(rng: &mut Rng) -> u32 {
        rng.bits() as u32
    }

    fn put(self, bytes: &mut [u8]) {
        bytes.copy_from_slice(&self.to_le_bytes());
    }

    fn of_bytes(bytes: &[u8]) -> u32 {
        u32::from_le_bytes(bytes.try_into().expect("four bytes"))
    }
}

/// The least guard on either side, in units.
const GUARD: usize = 4;

/// A lent part in the middle of memory that must stay as it is.
#[derive(Clone, Debug, PartialEq, Eq)]
pub struct Guarded<T> {
    memory: Vec<T>,
    before: usize,
    length: usize,
}

impl<T: Unit> Guarded<T> {
    /// So many units to read, between guards. The guard before has any length from four to seven,
    /// so that bytes begin at every alignment.
    pub fn holding(rng: &mut Rng, part: &[T]) -> Guarded<T> {
        Guarded::holding_before(rng, part, &[])
    }

    /// The same with these units right behind the part, the guard's first ones: a call that looked
    /// at them would take them for a good end of the part.
    pub fn holding_before(rng: &mut Rng, part: &[T], behind: &[T]) -> Guarded<T> {
        let before = GUARD + rng.below(GUARD);
        let mut memory: Vec<T> = (0..before).map(|_| T::noise(rng)).collect();
        memory.extend(part);
        memory.extend(behind);
        memory.extend((0..GUARD).map(|_| T::noise(rng)));
        Guarded { memory, before, length: part.len() }
    }

    /// So many units of noise to write to. `reach` is how many units a wrong call could write:
    /// the guard behind takes them all, so that the slip is seen and does not end the test.
    pub fn noise(rng: &mut Rng, length: usize, reach: usize) -> Guarded<T> {
        let memory = (0..GUARD + length + GUARD + reach).map(|_| T::noise(rng)).collect();
        Guarded { memory, before: GUARD, length }
    }

    pub fn part(&self) -> &[T] {
        &self.memory[self.before..][..self.length]
    }

    pub fn part_mut(&mut self) -> &mut [T] {
        &mut self.memory[self.before..][..self.length]
    }

    /// The first unit that is not as expected, for a message; the lent part begins at 0, so that
    /// a place below 0 or from its length on is in a guard.
    pub fn difference(&self, expected: &Guarded<T>) -> Option<String> {
        let pairs = self.memory.iter().zip(&expected.memory);
        let (place, (is, should)) = pairs.enumerate().find(|(_, (is, should))| is != should)?;
        let place = place as isize - self.before as isize;
        Some(format!("unit {place} of {} is {is:?} and not {should:?}", self.length))
    }
}

/// Guarded memory of either unit, as bytes that can be sent away and come back.
pub trait Area {
    /// Units of guard before the lent part, and units lent.
    fn shape(&self) -> [usize; 2];
    /// Bytes of guards and part.
    fn bytes(&self) -> usize;
    fn put(&self, bytes: &mut Vec<u8>);
    fn set(&mut self, bytes: &[u8]);
}

impl<T: Unit> Area for Guarded<T> {
    fn shape(&self) -> [usize; 2] {
        [self.before, self.length]
    }

    fn bytes(&self) -> usize {
        self.memory.len() * T::BYTES
    }

    fn put(&self, bytes: &mut Vec<u8>) {
        let start = bytes.len();
        bytes.resize(start + self.bytes(), 0);
        for (unit, bytes) in self.memory.iter().zip(bytes[start..].chunks_exact_mut(T::BYTES)) {
            unit.put(bytes);
        }
    }

    fn set(&mut self, bytes: &[u8]) {
        for (unit, bytes) in self.memory.iter_mut().zip(bytes.chunks_exact(T::BYTES)) {
            *unit = T::of_bytes(bytes);
        }
    }
}
