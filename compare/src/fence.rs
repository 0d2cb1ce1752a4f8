//! Lists between forbidden pages: whoever reads or writes one entry past an end
//! of such a list is stopped at once.

use std::ffi::{c_int, c_long, c_void};
use std::marker::PhantomData;
use std::ptr::null_mut;

/// The bytes of a page on x86-64.
const PAGE: usize = 4096;

/// `mman.h` of the C library on 64-bit Linux.
const PROT_NONE: c_int = 0;
const PROT_READ_WRITE: c_int = 1 | 2;
const MAP_PRIVATE_ANONYMOUS: c_int = 0x02 | 0x20;

extern "C" {
    fn mmap(
        address: *mut c_void,
        length: usize,
        protection: c_int,
        flags: c_int,
        file: c_int,
        offset: c_long,
    ) -> *mut c_void;
    fn mprotect(address: *mut c_void, length: usize, protection: c_int) -> c_int;
    fn munmap(address: *mut c_void, length: usize) -> c_int;
}

/// Where a list lies.
#[derive(Clone, Copy)]
pub enum Side {
    /// Right behind the forbidden page ahead.
    Front,
    /// Right ahead of the forbidden page behind.
    Back,
}

/// Room for a list of numbers, with a forbidden page on either side.
pub struct Fence<Number> {
    /// The first forbidden page.
    pages: *mut c_void,
    /// How many bytes lie between the two.
    room: usize,
    numbers: PhantomData<Number>,
}

/// What may lie in any bytes.
pub trait Number: Copy + PartialEq {}

impl Number for u8 {}
impl Number for u16 {}

impl<N: Number> Fence<N> {
    /// Room for so many numbers at least.
    pub fn new(most: usize) -> Fence<N> {
        let room = (most * size_of::<N>()).next_multiple_of(PAGE);
        // SAFETY: the pages are new, and those between the first and the last
        // are opened.
        let pages = unsafe {
            let length = PAGE + room + PAGE;
            let pages = mmap(null_mut(), length, PROT_NONE, MAP_PRIVATE_ANONYMOUS, -1, 0);
            assert_ne!(pages as isize, -1, "pages of memory");
            let opened = mprotect(pages.byte_add(PAGE), room, PROT_READ_WRITE);
            assert_eq!(opened, 0, "pages opened for reading and writing");
            pages
        };
        Fence {
            pages,
            room,
            numbers: PhantomData,
        }
    }

    /// The list, put at one side of the room.
    pub fn put(&mut self, list: &[N], side: Side) -> &mut [N] {
        let bytes = size_of_val(list);
        assert!(bytes <= self.room, "there is room");
        let ahead = match side {
            Side::Front => 0,
            Side::Back => self.room - bytes,
        };
        // SAFETY: so many bytes between the forbidden pages, aligned since
        // pages are, hold numbers, and are lent as long as the room is.
        let put = unsafe {
            let first = self.pages.byte_add(PAGE + ahead).cast::<N>();
            std::slice::from_raw_parts_mut(first, list.len())
        };
        put.copy_from_slice(list);
        put
    }
}

impl<N> Drop for Fence<N> {
    fn drop(&mut self) {
        // SAFETY: the pages are these, and nothing is lent of them.
        unsafe { munmap(self.pages, PAGE + self.room + PAGE) };
    }
}

/// A call that is lent a list right behind a forbidden page, and once more right
/// ahead of one. Both times it must answer the same and leave the same list.
pub fn fenced<N: Number, Answer: PartialEq>(
    lent: &mut [N],
    call: impl Fn(&mut [N]) -> Answer,
) -> Answer {
    let mut fence = Fence::new(lent.len());
    let [front, back] = [Side::Front, Side::Back].map(|side| {
        let list = fence.put(lent, side);
        (call(list), list.to_vec())
    });
    assert!(front == back, "the same at either side");
    let (answer, list) = front;
    lent.copy_from_slice(&list);
    answer
}

#[cfg(test)]
mod tests {
    use super::*;
    use std::cell::Cell;

    #[test]
    fn a_list_ends_where_the_forbidden_page_begins() {
        let mut fence = Fence::new(70);
        let list: &[u16] = &[1, 2, 3];
        let put = fence.put(list, Side::Back);
        assert_eq!(put, list);
        assert!((put.as_ptr_range().end as usize).is_multiple_of(PAGE));
        let put = fence.put(list, Side::Front);
        assert_eq!(put, list);
        assert!((put.as_ptr() as usize).is_multiple_of(PAGE));
    }

    /// Whether a list of an even length and one of an odd length lie at a side
    /// in one of the two calls.
    fn comes_to(is_at_side: fn(&[u16]) -> bool) -> [bool; 2] {
        [2, 3].map(|length| {
            let came = Cell::new(false);
            fenced(&mut vec![0; length], |list| {
                came.set(came.get() || is_at_side(list));
            });
            came.get()
        })
    }

    #[test]
    fn every_list_lies_at_both_sides() {
        let at_front = comes_to(|list| (list.as_ptr() as usize).is_multiple_of(PAGE));
        let at_back = comes_to(|list| (list.as_ptr_range().end as usize).is_multiple_of(PAGE));
        assert_eq!([at_front, at_back], [[true; 2]; 2]);
    }

    #[test]
    fn entries_written_are_left_in_the_list() {
        let mut list = [1, 2, 3];
        assert_eq!(fenced(&mut list, |list: &mut [u16]| list[1] = 7), ());
        assert_eq!(list, [1, 7, 3]);
    }

    #[test]
    #[should_panic(expected = "the same at either side")]
    fn another_answer_at_one_side_is_told() {
        fenced(&mut [0u16; 2], |list| list.as_ptr() as usize);
    }

    #[test]
    #[should_panic(expected = "the same at either side")]
    fn another_list_at_one_side_is_told() {
        fenced(&mut [0u16; 2], |list| list[0] = list.as_ptr() as u16);
    }
}
