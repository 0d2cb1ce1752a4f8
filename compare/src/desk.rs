//! The desk's peak of the proved library.

use cephlouk::{desk_peak_in, DeskPeak, Plan, TaskRecord};
use compare::fence::fenced;
use compare::lists::Lists;
use peer::Record;

/// The number, the peak and its task. The lists are left as they are found
/// afterwards, and the order lies against forbidden pages.
pub fn peak(_commands: &[u8], lent: &mut Lists) -> Vec<u64> {
    let records: Vec<TaskRecord> = lent
        .records
        .iter()
        .map(|&Record { parent, work, out }| TaskRecord { parent, work, out })
        .collect();
    let answer = fenced(&mut lent.activation, |activation| {
        // Marks that no answer leaves: the words are all 0 afterwards.
        let mut room = Box::new([0xA5A5_A5A5; Plan::WORDS]);
        let answer = desk_peak_in(&records, activation, &mut room);
        assert!(room.iter().all(|&word| word == 0), "the room is left empty");
        answer
    });
    lent.records = records
        .into_iter()
        .map(|TaskRecord { parent, work, out }| Record { parent, work, out })
        .collect();
    match answer {
        Ok(DeskPeak { peak, by }) => vec![0, peak, by.into()],
        Err(refusal) => vec![refusal.number().into(), 0, 0],
    }
}
