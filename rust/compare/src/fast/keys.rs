//! Which regions have a message: a table found by one multiplication.

use lsc_reference::value::Message;

/// Slots of the table.
const SLOTS: usize = 256;

/// A slot of the table; empty if no region carries the key.
#[derive(Clone, Copy, Debug)]
struct Slot {
    key: u32,
    carriers: u32,
}

/// A table from messages' keys to their regions.
#[derive(Clone, Debug)]
pub struct Keys {
    multiplier: u32,
    slots: [Slot; SLOTS],
}

/// A message as one number: source, destination, label.
#[inline]
pub fn key_of(message: Message) -> u32 {
    u32::from_be_bytes(message.to_bytes())
}

#[inline]
fn slot_of(key: u32, multiplier: u32) -> usize {
    (key.wrapping_mul(multiplier) >> 24) as usize
}

/// A multiplier that gives few or no collisions.
fn multiplier_for(keys: &[(u32, u32)]) -> u32 {
    let mut multiplier = 0x9E37_79B1u32;
    for _ in 0..64 {
        let mut used = [false; SLOTS];
        let collides = keys.iter().any(|&(key, _)| {
            let slot = slot_of(key, multiplier);
            std::mem::replace(&mut used[slot], true)
        });
        if !collides {
            break;
        }
        multiplier = multiplier.wrapping_mul(0x85EB_CA6B) | 1;
    }
    multiplier
}

impl Keys {
    /// The table of keys, each with its regions.
    pub fn of(keys: &[(u32, u32)]) -> Keys {
        let multiplier = multiplier_for(keys);
        let empty = Slot {
            key: 0,
            carriers: 0,
        };
        let mut slots = [empty; SLOTS];
        for &(key, carriers) in keys {
            let mut slot = slot_of(key, multiplier);
            while slots[slot].carriers != 0 {
                slot = (slot + 1) % SLOTS;
            }
            slots[slot] = Slot { key, carriers };
        }
        Keys { multiplier, slots }
    }

    /// The regions that have the message; none at all for a foreign one.
    #[inline]
    pub fn carriers(&self, key: u32) -> u32 {
        let mut slot = slot_of(key, self.multiplier);
        loop {
            let found = self.slots[slot];
            if found.carriers == 0 || found.key == key {
                return found.carriers;
            }
            slot = (slot + 1) % SLOTS;
        }
    }
}
