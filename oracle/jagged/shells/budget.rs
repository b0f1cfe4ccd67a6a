//! Shell for a file of the original that is not at hand: nothing here is asked.

/// Shell.
pub struct CellBudget;
