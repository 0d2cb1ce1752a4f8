//! The planners' desk.

use crate::exported;
use crate::plan::Plan;
use crate::refusal::Refusal;

/// A step of the desk's own list: its parent (0 for the last step), its work
/// and its out.
#[repr(C)]
#[derive(Clone, Copy, Debug, Default, PartialEq, Eq)]
pub struct TaskRecord {
    /// The step that it feeds.
    pub parent: u16,
    /// The trays that it takes while it runs.
    pub work: u16,
    /// The trays that it leaves.
    pub out: u16,
}

/// How many places an activation order needs, and where.
#[derive(Clone, Copy, Debug, PartialEq, Eq)]
pub struct DeskPeak {
    /// The most trays that the order needs, one step after another.
    pub peak: u64,
    /// The step that sets the peak, the earliest in the order where several are
    /// equal.
    pub by: u16,
}

/// How many places an activation order needs, one step after another, and the
/// step that needs them. The first record is step 1.
///
/// ```
/// use cephlouk::{desk_peak, DeskPeak, Refusal, TaskRecord};
///
/// let record = |parent, work, out| TaskRecord { parent, work, out };
/// let records = [record(3, 5, 1), record(3, 1, 4), record(0, 0, 1)];
/// assert_eq!(desk_peak(&records, &[1, 2, 3]), Ok(DeskPeak { peak: 6, by: 1 }));
/// assert_eq!(desk_peak(&records, &[2, 1, 3]), Ok(DeskPeak { peak: 10, by: 1 }));
/// assert_eq!(desk_peak(&records, &[1, 3, 2]), Err(Refusal::ParentFirst));
/// ```
///
/// # Errors
///
/// [`Refusal::OutsideLimits`] for lists of unequal lengths, of none or of too many
/// entries, and for a number outside its limits; then [`Refusal::Repeated`],
/// [`Refusal::NotOneRoot`] and [`Refusal::ParentFirst`].
///
/// # Panics
///
/// Where the library that was linked is of another version.
pub fn desk_peak(records: &[TaskRecord], activation: &[u16]) -> Result<DeskPeak, Refusal> {
    let room = vec![0; Plan::WORDS].into_boxed_slice();
    let mut room: Box<[u32; Plan::WORDS]> = room.try_into().expect("as many words as a plan has");
    desk_peak_in(records, activation, &mut room)
}

/// The same, in words that the caller has: they may hold anything, and are all
/// 0 afterwards.
///
/// # Errors
///
/// Those of [`desk_peak`].
///
/// # Panics
///
/// As [`desk_peak`] does.
pub fn desk_peak_in(
    records: &[TaskRecord],
    activation: &[u16],
    room: &mut [u32; Plan::WORDS],
) -> Result<DeskPeak, Refusal> {
    exported::test_number();
    // SAFETY: two lists, each as a pointer and a length, are only read, and the
    // words are as many as a plan has.
    let answer = unsafe {
        exported::cephlouk_records_peak(
            records.as_ptr(),
            records.len(),
            activation.as_ptr(),
            activation.len(),
            room.as_mut_ptr(),
        )
    };
    match Refusal::of_number(answer.number) {
        None => Ok(DeskPeak {
            peak: answer.peak,
            by: answer.by,
        }),
        Some(refusal) => Err(refusal),
    }
}
