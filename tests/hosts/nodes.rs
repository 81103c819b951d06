//! A member's words as a host keeps them.

use crate::calls::*;
use crate::words::*;
use reference::*;

/// A member's words as a host keeps them, and the member that they stand for.
#[derive(Clone)]
pub struct Node {
    pub state: Vec<u32>,
    pub table: Vec<u32>,
    pub twin: Option<Member>,
}

impl Node {
    /// Words of a member; what is no part of the state is 0 or noise.
    pub fn of(member: Member, rng: &mut Rng) -> Node {
        // At times room for a row or two more.
        let most = if rng.chance(300) { 600 } else { 40 };
        let extra_table = rng.below(most);
        let extra_state = rng.below(4);
        let noise = rng.chance(500);
        let length = table_words(member.settings.ceiling) + extra_table as usize;
        let mut table = vec![0; length];
        let mut state = state_words(&member).to_vec();
        if noise {
            let places = rng.below(length as u64 / 8);
            for _ in 0..places {
                table[rng.below(length as u64) as usize] = rng.word();
            }
            for row in table.chunks_mut(ROW) {
                row[0] = 0;
            }
            // Nothing waits before the member's queues are written.
            table[..9].fill(0);
            if member.proposal.is_none() {
                state[23..MARGIN].fill_with(|| rng.word());
            }
        }
        write_table(&member, &mut table);
        (0..extra_state).for_each(|_| state.push(rng.word()));
        Node { state, table, twin: Some(member) }
    }

    /// Reads the member from the words again.
    pub fn read_again(&mut self) {
        self.twin = read_member(&self.state, &self.table);
    }
}
