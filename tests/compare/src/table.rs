//! Cases, and how often each was met on each of a few channels or fans.

pub struct Table<const N: usize> {
    of: [&'static str; N],
    names: &'static [&'static str],
    counts: Vec<[u64; N]>,
}

impl<const N: usize> Table<N> {
    /// Nothing met yet.
    pub fn none(of: [&'static str; N], names: &'static [&'static str]) -> Table<N> {
        Table {
            of,
            names,
            counts: vec![[0; N]; names.len()],
        }
    }

    pub fn count(&mut self, place: usize, met: &[bool]) {
        for (counts, met) in self.counts.iter_mut().zip(met) {
            counts[place] += u64::from(*met);
        }
    }

    pub fn add(&mut self, other: &Table<N>) {
        let sums = self.counts.as_flattened_mut().iter_mut();
        for (sum, more) in sums.zip(other.counts.as_flattened()) {
            *sum += more;
        }
    }

    pub fn print(&self) {
        for (name, counts) in self.names.iter().zip(&self.counts) {
            let columns: String = counts.iter().map(|count| format!(" {count:>10}")).collect();
            println!("{name:<28}{columns}");
        }
    }

    /// What was met on one of them.
    #[cfg(test)]
    pub fn met(&self, place: usize) -> Vec<&'static str> {
        let cases = self.names.iter().zip(&self.counts);
        let met = cases.filter(|case| case.1[place] > 0);
        met.map(|case| *case.0).collect()
    }

    /// What was never met.
    pub fn missing(&self) -> Vec<String> {
        let mut missing = Vec::new();
        for (name, counts) in self.names.iter().zip(&self.counts) {
            for place in (0..N).filter(|&place| counts[place] == 0) {
                missing.push(format!("{}: {name}", self.of[place]));
            }
        }
        missing
    }
}
