//! Random numbers, the same in every run.

pub struct Random(u64);

impl Random {
    pub fn seeded(seed: u64) -> Random {
        Random(seed)
    }

    /// The next of SplitMix64.
    pub fn number(&mut self) -> u64 {
        self.0 = self.0.wrapping_add(0x9E37_79B9_7F4A_7C15);
        let mixed = (self.0 ^ self.0 >> 30).wrapping_mul(0xBF58_476D_1CE4_E5B9);
        let mixed = (mixed ^ mixed >> 27).wrapping_mul(0x94D0_49BB_1331_11EB);
        mixed ^ mixed >> 31
    }

    /// A number below the bound; 0 where the bound is 0.
    pub fn below(&mut self, bound: u64) -> u64 {
        self.number() % bound.max(1)
    }

    pub fn index(&mut self, length: usize) -> usize {
        self.below(length as u64) as usize
    }

    pub fn pick<T: Copy>(&mut self, from: &[T]) -> T {
        from[self.index(from.len())]
    }

    pub fn bytes(&mut self, length: usize, bound: u64) -> Vec<u8> {
        (0..length).map(|_| self.below(bound) as u8).collect()
    }

    /// The names 1 to n, shuffled.
    pub fn names(&mut self, n: usize) -> Vec<u8> {
        let mut names: Vec<u8> = (1..=n as u8).collect();
        for last in (1..n).rev() {
            names.swap(last, self.index(last + 1));
        }
        names
    }

    /// z cells on each of q levels, shuffled; at most 255 cells.
    pub fn arrangement(&mut self, q: usize, z: usize) -> Vec<u8> {
        self.names(q * z).into_iter().map(|name| (name - 1) / z as u8 + 1).collect()
    }

    /// Levels that read as these names, with random gaps below the top, which is n - 1 at least.
    pub fn levels(&mut self, names: &[u8], top: u16) -> Vec<u16> {
        let mut levels = vec![0; names.len()];
        let mut level = top;
        for (below, &name) in (0..names.len() as u16).rev().zip(names) {
            levels[usize::from(name) - 1] = level;
            let widest = self.pick(&[1, 1, 2, 300, u16::MAX]).min((level - below).saturating_add(1));
            level = level.saturating_sub(1 + self.below(widest.into()) as u16);
        }
        levels
    }

    /// Levels of n cells without a tie.
    pub fn group_below(&mut self, n: usize, top: u16) -> Vec<u16> {
        let names = self.names(n);
        self.levels(&names, top)
    }

    /// Levels of n cells without a tie, with their top at the ceiling, near it, at its least or anywhere.
    pub fn group(&mut self, n: usize) -> Vec<u16> {
        let least = n as u16 - 1;
        let near = u16::MAX - self.below(45) as u16;
        let anywhere = least + self.below(60_000) as u16;
        let top = self.pick(&[u16::MAX, near, least, anywhere, anywhere]);
        self.group_below(n, top)
    }
}
