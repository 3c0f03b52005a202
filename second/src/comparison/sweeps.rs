//! Sweeps over what any operation takes: every K, a few blocks, every setting, every step list that is refused.

use std::fmt::Debug;

use second::drawn::{allowed_layouts, lent, REFUSED_SETTINGS, REFUSED_STEPS};
use second::lent::Entry;
use second::random::Random;

use super::operations::Operation;
use super::Group;

impl<I: Entry, R: Entry, A: Debug + PartialEq> Operation<I, R, A> {
    /// What is accepted, of each K at every setting; where there is a query table, K past 16 come with one M each.
    pub fn every_count(&self, group: &mut Group, seed: u64, rounds: u64) {
        let mut random = Random::new(seed);
        for layout in self.layouts().repeat(rounds as usize) {
            let drawn = |k: &usize| self.greatest_q != 4 || *k <= 16 || (k + layout.layers).is_multiple_of(4);
            for blocks in (1..=self.most_blocks(layout)).filter(drawn) {
                self.compare(group, &(self.drawn)(&mut random, layout, blocks));
            }
        }
    }

    /// What is accepted, of one to four blocks at every setting.
    pub fn few_blocks(&self, group: &mut Group, seed: u64, rounds: u64) {
        let mut random = Random::new(seed);
        for layout in self.layouts().repeat(rounds as usize) {
            let blocks = 1 + random.place(self.most_blocks(layout).min(4));
            self.compare(group, &(self.drawn)(&mut random, layout, blocks));
        }
    }

    /// What is accepted but for its settings, which are each of the refused and of the allowed ones.
    pub fn every_setting(&self, group: &mut Group, seed: u64) {
        let mut random = Random::new(seed);
        let allowed: Vec<_> = allowed_layouts().into_iter().map(lent).collect();
        for layout in self.layouts() {
            let mut asked = (self.drawn)(&mut random, layout, 1);
            for &settings in REFUSED_SETTINGS.iter().chain(&allowed) {
                asked.settings = settings;
                self.compare(group, &asked);
            }
        }
    }

    /// What is accepted but for one of its step lists, which is each of the refused ones.
    pub fn refused_steps(&self, group: &mut Group, seed: u64, lists: usize) {
        let mut random = Random::new(seed);
        for layout in self.layouts() {
            let good = (self.drawn)(&mut random, layout, 1);
            for (list, steps) in (0..lists).flat_map(|list| REFUSED_STEPS.map(|steps| (list, steps))) {
                let mut asked = good.clone();
                asked.steps[list] = steps.to_vec();
                self.compare(group, &asked);
            }
        }
    }
}
