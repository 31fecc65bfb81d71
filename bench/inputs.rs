//! Random numbers for the sets of the rows, the same in each run.

/// Pseudorandom numbers, the same from each seed.
pub struct Random {
    state: u64,
}

impl Random {
    pub fn start() -> Random {
        Random { state: 0x853c_49e6_748f_ea9b }
    }

    /// The next number, below `len`.
    pub fn below(&mut self, len: usize) -> usize {
        self.state ^= self.state << 13;
        self.state ^= self.state >> 7;
        self.state ^= self.state << 17;
        (self.state % len as u64) as usize
    }

    /// The next `count` numbers below `len`.
    pub fn numbers_below(&mut self, len: usize, count: usize) -> Vec<usize> {
        (0..count).map(|_| self.below(len)).collect()
    }
}

/// Random numbers below `len`: the elements of the rows' sets, and the arguments of calls.
pub struct Density {
    pub label: &'static str,
    pub len: usize,
    pub members: Vec<usize>,
    pub numbers: Vec<usize>,
}

impl Density {
    pub fn of(label: &'static str, len: usize, count: usize) -> Density {
        let mut random = Random::start();
        let members = random.numbers_below(len, count);
        let numbers = random.numbers_below(len, count);
        Density { label, len, members, numbers }
    }
}

/// Two sets of this many runs of numbers below `len`, in ascending order: half of the runs of the second are in the
/// first.
pub fn overlapping(len: usize, count: usize, run: usize) -> [Vec<usize>; 2] {
    let mut random = Random::start();
    let [first, mut second] = [0, 1].map(|_| random.numbers_below(len - run, count));
    second[..count / 2].copy_from_slice(&first[..count / 2]);
    [first, second].map(|starts| {
        let mut numbers: Vec<usize> = starts.iter().flat_map(|start| *start..*start + run).collect();
        numbers.sort_unstable();
        numbers.dedup();
        numbers
    })
}
