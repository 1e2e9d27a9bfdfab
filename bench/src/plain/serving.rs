//! Turns at the cutter: a queue in a fixed array, served at the front and joined at the back.

use crate::nettlestair::{OpenOutline, Opened, State, Turned};

/// How many corners a turn hands out at most.
const A_TURN: usize = 16;

/// Opens an outline at the back, else 22 to 24.
pub fn open(state: State, cycle: u32, count: u32) -> Opened {
    let queue = state.open();
    let number = if cycle >= count {
        22
    } else if queue.iter().any(|outline| outline.cycle == cycle) {
        23
    } else if queue.len() == state.outlines.len() {
        24
    } else {
        0
    };
    match number {
        0 => Opened { number, state: State::of(queue).joined(OpenOutline { cycle, handed: 0 }) },
        _ => Opened { number, state },
    }
}

/// Serves the outline at the front, which then goes to the back or closes.
pub fn turn(state: State, corners: &[u32], ends: &[u32], count: u32) -> Turned {
    let mut places = [0; A_TURN];
    let Some((&front, behind)) = state.open().split_first() else {
        return Turned { served: false, count: 0, cycle: 0, places, state };
    };
    let OpenOutline { cycle, handed } = front;
    let due = stretch(corners, ends, count, cycle).get(handed as usize..).unwrap_or(&[]);
    let given = &due[..due.len().min(A_TURN)];
    places[..given.len()].copy_from_slice(given);
    let behind = State::of(behind);
    let state = match due.len() > A_TURN {
        true => behind.joined(OpenOutline { cycle, handed: handed + A_TURN as u32 }),
        false => behind,
    };
    Turned { served: true, count: given.len() as u32, cycle, places, state }
}

/// The corners of a cycle, none where the lists have no such stretch.
fn stretch<'a>(corners: &'a [u32], ends: &[u32], count: u32, cycle: u32) -> &'a [u32] {
    let at = cycle as usize;
    if cycle >= count || at >= ends.len() {
        return &[];
    }
    let begin = if at == 0 { 0 } else { ends[at - 1] };
    corners.get(begin as usize..ends[at] as usize).unwrap_or(&[])
}

impl State {
    /// The open outlines, from the front to the back.
    fn open(&self) -> &[OpenOutline] {
        &self.outlines[..self.outlines.len().min(self.length as usize)]
    }

    /// The state with these outlines open.
    fn of(open: &[OpenOutline]) -> State {
        let mut state = State { length: open.len() as u32, ..State::default() };
        state.outlines[..open.len()].copy_from_slice(open);
        state
    }

    /// With one more at the back. There is room for it.
    fn joined(mut self, outline: OpenOutline) -> State {
        self.outlines[self.length as usize] = outline;
        self.length += 1;
        self
    }
}
