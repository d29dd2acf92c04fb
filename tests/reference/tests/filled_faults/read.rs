//! What a station reads next, and all that a fault may go by.

use reference::model::{Mark, Register, Station, World};

/// What a station reads next.
pub struct Read {
    /// Of the collect: 2, 4 or 6.
    pub phase: u8,
    pub position: usize,
    pub own: bool,
    pub register: Register,
    pub on_its_island: bool,
    pub heard: bool,
    pub row: Vec<Register>,
}

impl Read {
    pub fn of(world: &World, who: usize) -> Option<Read> {
        let (phase, life, collect, row) = match &world.stations[who] {
            Station::ReadM(l, c) => (2, l, c, &world.m[..]),
            Station::ReadA(l, c) => (4, l, c, world.a.row(l.island)),
            Station::ReadB(l, _, c) => (6, l, c, world.b.row(l.island)),
            _ => return None,
        };
        let register = row[collect.next];
        let on_its_island = phase != 2 || register.is_none_or(|entry| entry.island == life.island);
        let heard = register.is_some_and(|entry| collect.heard.contains(&entry));
        Some(Read {
            phase,
            position: collect.next,
            own: collect.next == who,
            register,
            on_its_island,
            heard,
            row: row.to_vec(),
        })
    }

    pub fn last(&self) -> bool {
        self.position + 1 == self.row.len()
    }

    pub fn is(&self, mark: Mark) -> bool {
        self.register.is_some_and(|entry| entry.mark == mark)
    }
}

pub fn filled(registers: &[Register]) -> u16 {
    registers.iter().flatten().count() as u16
}
