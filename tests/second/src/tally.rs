//! Counts with names, in a fixed order.

/// Counts of what occurred, each with its name.
pub struct Tally {
    names: &'static [&'static str],
    counts: Vec<u64>,
}

impl Tally {
    /// All counts 0.
    pub fn new(names: &'static [&'static str]) -> Tally {
        Tally { names, counts: vec![0; names.len()] }
    }

    /// Counts so many of the name.
    pub fn add(&mut self, name: &str, count: u64) {
        let at = self.names.iter().position(|&known| known == name);
        self.counts[at.unwrap_or_else(|| panic!("no count is named {name}"))] += count;
    }

    /// Counts one of the name if it occurs.
    pub fn add_if(&mut self, name: &str, occurs: bool) {
        self.add(name, u64::from(occurs));
    }

    /// Those above 0.
    pub fn occurred(&self) -> Vec<(&'static str, u64)> {
        let all = self.names.iter().copied().zip(self.counts.iter().copied());
        all.filter(|&(_, count)| count > 0).collect()
    }

    /// Each name and its count.
    pub fn text(&self) -> String {
        let all = self.names.iter().zip(&self.counts).map(|(name, count)| format!("{name} {count}"));
        all.collect::<Vec<_>>().join(", ")
    }
}

#[cfg(test)]
mod tests {
    use super::Tally;

    #[test]
    fn counts_keep_their_order() {
        let mut tally = Tally::new(&["one", "other", "none"]);
        tally.add("other", 5);
        tally.add_if("one", true);
        tally.add_if("none", false);
        assert_eq!(tally.text(), "one 1, other 5, none 0");
        assert_eq!(tally.occurred(), [("one", 1), ("other", 5)]);
    }
}
