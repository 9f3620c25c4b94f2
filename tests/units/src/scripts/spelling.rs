//! Entries of a coordinator, written as lines.

use lra_core::Coordinator;
use lra_journal::{Memory, write_entry};
use lra_model::Entry;

/// Appends the lines of entries.
fn spell(entries: &[Entry], text: &mut Vec<u8>) -> Result<(), Memory> {
    for entry in entries {
        write_entry(entry, text)?;
    }
    Ok(())
}

/// Appends the lines of a coordinator's entries. If the text has room for them this takes no memory.
pub fn spell_entries(coordinator: &Coordinator, text: &mut Vec<u8>) -> Result<(), Memory> {
    coordinator.lawful();
    spell(coordinator.entries(), text)
}
