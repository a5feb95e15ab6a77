//! The switch: all that a history leaves behind.

use super::addresses::Addresses;
use super::counters::Counters;
use super::refusals::{refuse_lowest, MEMORY_LENGTH};
use super::settings::Settings;
use super::waiting::{cells_in_use, Waiting};

#[derive(Clone, Debug, PartialEq, Eq)]
pub struct Switch {
    pub cell_count: usize,
    pub settings: Settings,
    pub addresses: Addresses,
    pub counters: Counters,
    /// In order of arrival.
    pub waiting: Vec<Waiting>,
}

impl Switch {
    /// The fresh call: "the host lends 64 to 2,048" cells.
    pub fn fresh(cell_count: usize) -> Result<Switch, u32> {
        refuse_lowest(&[(MEMORY_LENGTH, !(64..=2_048).contains(&cell_count))])?;
        Ok(Switch {
            cell_count,
            settings: Settings::fresh(),
            addresses: Addresses::fresh(),
            counters: Counters::fresh(),
            waiting: Vec::new(),
        })
    }

    pub fn free_cells(&self) -> usize {
        self.cell_count - cells_in_use(&self.waiting)
    }
}
