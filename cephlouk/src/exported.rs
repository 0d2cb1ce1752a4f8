//! The functions of the static library, as include/cephlouk.h has them.

use crate::answer::{Answer, Wrote};
use crate::desk::TaskRecord;
use crate::phase::Standing;
use crate::reason::FlatReason;

/// The number of these declarations, `CEPHLOUK_ABI` in the header.
const ABI: u32 = 1;

/// What the desk is answered.
#[repr(C)]
pub(crate) struct DeskAnswer {
    pub number: u8,
    pub peak: u64,
    pub by: u16,
}

/// The byte of a command, and its operands by their names; what it does not have
/// is 0.
#[repr(C)]
#[derive(Clone, Copy, Default)]
pub(crate) struct FlatCommand {
    pub byte: u8,
    pub stations: u8,
    pub steps: u16,
    pub step: u16,
    pub parent: u16,
    pub work: u16,
    pub out: u16,
    pub places: u32,
}

/// What stands at a place of some bytes.
#[repr(C)]
pub(crate) struct FlatDecoded {
    pub number: u8,
    pub used: usize,
    pub command: FlatCommand,
}

extern "C" {
    /// The name has the number, so that no library of another number links.
    fn cephlouk_abi_1() -> u32;

    pub(crate) fn cephlouk_encode(command: FlatCommand, list: *mut u8, length: usize) -> Wrote;

    pub(crate) fn cephlouk_decode(bytes: *const u8, length: usize, place: usize) -> FlatDecoded;

    pub(crate) fn cephlouk_plan_empty(plan: *mut u32);

    pub(crate) fn cephlouk_plan_command(
        plan: *mut u32,
        bytes: *const u8,
        length: usize,
        place: usize,
        starts: *mut u16,
        room: usize,
    ) -> Answer;

    pub(crate) fn cephlouk_plan_phase(plan: *const u32) -> u32;

    pub(crate) fn cephlouk_plan_booked(plan: *const u32) -> u32;

    pub(crate) fn cephlouk_plan_in_use(plan: *const u32) -> u32;

    pub(crate) fn cephlouk_plan_fullness(plan: *const u32) -> u32;

    pub(crate) fn cephlouk_plan_standing(plan: *const u32) -> Standing;

    pub(crate) fn cephlouk_plan_why(plan: *const u32, task: u16) -> FlatReason;

    pub(crate) fn cephlouk_plan_write(plan: *const u32, list: *mut u8, length: usize) -> Wrote;

    pub(crate) fn cephlouk_plan_find_order(
        plan: *const u32,
        list: *mut u16,
        length: usize,
    ) -> Wrote;

    pub(crate) fn cephlouk_thousandths(booked: u32, places: u32) -> u32;

    pub(crate) fn cephlouk_records_peak(
        records: *const TaskRecord,
        records_length: usize,
        activation: *const u16,
        activation_length: usize,
        room: *mut u32,
    ) -> DeskAnswer;
}

/// Sees that the library is of these declarations. Every way in comes by here
/// before it calls another function.
#[inline]
pub(crate) fn test_number() {
    // SAFETY: the function takes nothing and tells a number.
    let number = unsafe { cephlouk_abi_1() };
    assert_eq!(number, ABI, "the library is of another version");
}

#[cfg(test)]
mod tests {
    use super::*;
    use std::mem::{offset_of, size_of};

    /// How many bytes a field has.
    fn width<Struct, Field>(_: fn(&Struct) -> &Field) -> usize {
        size_of::<Field>()
    }

    /// The lines of a struct in the recorded table.
    macro_rules! lines {
        ($kind:ident as $name:literal: $($field:ident),*) => {
            vec![
                format!("struct {} of {} bytes", $name, size_of::<$kind>()),
                $(format!(
                    "field {}.{} at {}, of {} bytes",
                    $name,
                    stringify!($field),
                    offset_of!($kind, $field),
                    width(|value: &$kind| &value.$field),
                ),)*
            ]
        };
    }

    /// The sizes and places of the numbers are those that are recorded of the
    /// header, and the number is the same.
    #[test]
    fn layouts_are_those_of_the_header() {
        let recorded = include_str!("../../compare/layout.txt");
        let ours = [
            vec![
                format!("number {ABI}"),
                format!(
                    "struct plan of {} bytes",
                    size_of::<[u32; crate::Plan::WORDS]>()
                ),
            ],
            lines!(FlatCommand as "command": byte, stations, steps, step, parent, work, out, places),
            lines!(FlatDecoded as "decoded": number, used, command),
            lines!(Answer as "answer": number, used, starts, peak, by, offers),
            lines!(Standing as "counts": waiting, activated, running, finished),
            lines!(FlatReason as "reason": number, kind, task, lack),
            lines!(Wrote as "wrote": number, count),
            lines!(TaskRecord as "record": parent, work, out),
            lines!(DeskAnswer as "desk_answer": number, peak, by),
        ];
        for line in ours.concat() {
            assert!(recorded.lines().any(|other| other == line), "{line}");
        }
    }
}
