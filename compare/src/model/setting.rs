//! How a table is run. The board's is what the library does; the two others are for the question what undo costs. Only the three
//! functions here take a setting apart; every rule speaks through them.

#[derive(Clone, Copy, PartialEq, Eq, Debug)]
pub enum Setting {
    /// Joining, 16 rooms, the hard rule.
    Board,
    /// No joining, 64 rooms, every patch soft.
    AllSoft,
    /// No joining, 64 rooms, the hard rule.
    HardRule,
}

impl Setting {
    pub fn rooms(self) -> u32 {
        match self {
            Setting::Board => 16,
            Setting::AllSoft | Setting::HardRule => 64,
        }
    }

    pub fn joins(self) -> bool {
        match self {
            Setting::Board => true,
            Setting::AllSoft | Setting::HardRule => false,
        }
    }

    pub fn all_soft(self) -> bool {
        match self {
            Setting::AllSoft => true,
            Setting::Board | Setting::HardRule => false,
        }
    }
}
