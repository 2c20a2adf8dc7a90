//! Commands that zero blocks in pieces.

use super::*;

impl Trial {
    /// Executes pieces of 32 blocks of a command with this ticket.
    fn zero_pieces(&mut self, firsts: &[u64], ticket: u64) {
        for first in firsts {
            let need = Need::Zero { first: *first, blocks: 32 };
            let (room, _) = self.storage.bring(need);
            room.fill(0);
            let at_hand = (room.len() / SIZE) as u64;
            self.storage.take(need, at_hand, ticket);
            self.storage.begin(false).unwrap();
        }
    }

    fn end_pieces(&mut self, ticket: u64) {
        self.storage.end_pieces();
        let (connection, entry) = (self.id(), SubmissionEntry::new(0, 0, 0));
        let owed = Owed { connection, entry, answer: Answer::of(SUCCESS), is_synced: false };
        assert!(self.storage.close(ticket, owed).is_none());
    }
}

#[test]
fn the_disk_zeroes_adjacent_pieces_together() {
    let mut it = Trial::new(Fake::new(1024), false);
    let ticket = it.storage.begin_pieces(0);
    it.zero_pieces(&[0, 32], ticket);
    assert_eq!(it.storage.workers.under_way, 0, "the disk waits for the last piece");
    // What is written between two pieces is zeroed by the second one, or stays.
    it.write(70, 1, 7);
    it.write(40, 1, 8);
    it.zero(900, 1);
    it.zero_pieces(&[64, 512], ticket);
    assert_eq!(it.read(32, 64), [vec![0; 8 * SIZE], vec![8; SIZE], vec![0; 55 * SIZE]].concat());
    it.end_pieces(ticket);
    it.settle();
    let zeroes: BTreeSet<Call> = it.calls().into_iter().filter(|it| it.0 == 'z').collect();
    assert_eq!(zeroes, BTreeSet::from([('z', 0), ('z', 512), ('z', 900)]));
    assert_eq!([0, 31, 40, 70, 95, 96, 512, 543, 544].map(|block| it.block(block)), [0, 0, 8, 0, 0, 96, 0, 0, 32]);
    assert_eq!((it.answered.len(), it.storage.ledger.len()), (4, 0));
}

#[test]
fn pieces_of_a_command_that_is_dropped_are_zeroed() {
    let mut it = Trial::new(Fake::new(1024), false);
    let ticket = it.storage.begin_pieces(0);
    it.zero_pieces(&[0], ticket);
    it.storage.leave_pieces(ticket);
    let (id, need) = (it.id(), Need::Flush);
    while !it.storage.prepare(need, id) {
        it.turn();
    }
    assert_eq!((it.calls(), it.storage.ledger.len()), (vec![('z', 0), ('s', 0)], 0));
}
