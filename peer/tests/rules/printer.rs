//! The day printer: refusals, ends of input, and answering as it goes.

use crate::menu::{hex, plan_a};
use crate::plan_a;
use peer::printer;
use std::cell::RefCell;
use std::io::{self, Read, Write};

/// What is printed of a stream.
pub fn printed(stream: &[u8]) -> String {
    let mut output = Vec::new();
    printer::print(stream, &mut output).unwrap();
    String::from_utf8(output).unwrap()
}

#[test]
fn refusals_name_the_command_s_offset() {
    assert_eq!(printed(&hex("09")), "refused 2 at 0\n");
    assert_eq!(printed(&hex("05 09")), "refused 3 at 0\n");
    assert_eq!(printed(&hex("02 03 00")), "refused 1 at 0\n");
    assert_eq!(
        printed(&hex("01 03 00 02 07 00 00 00 05 09")),
        "refused 3 at 8\n"
    );
    assert_eq!(
        printed(&hex("01 03 00 02 07 00 00 00 01")),
        "refused 1 at 8\n"
    );
}

#[test]
fn nothing_where_the_input_ends_between_commands() {
    assert_eq!(printed(&[]), "");
    assert_eq!(printed(&hex("01 03 00 02 07 00 00 00")), "");
}

#[test]
fn offsets_of_long_inputs() {
    let plan = hex("01 01 00 01 00 00 00 00");
    let mut stream = plan.repeat(100_000);
    stream.push(0x00);
    assert_eq!(printed(&stream), "refused 2 at 800000\n");
}

#[test]
fn several_starts_have_single_spaces() {
    let mut menu = plan_a();
    menu.memory_bound = 12;
    let mut stream = menu.commands().concat();
    stream.push(0x05);
    let line = "begin peak=7 by=2 booked=12 used=12 full=1000 start 1 2\n";
    assert_eq!(printed(&stream), line);
    stream.extend(hex("06 03 00 06 01 00"));
    assert_eq!(printed(&stream), format!("{line}refused 6 at 48\n"));
}

/// Input that comes byte by byte, and notes how much was printed before each.
struct Typist<'a> {
    bytes: &'a [u8],
    output: &'a RefCell<Vec<u8>>,
    printed_before: &'a RefCell<Vec<usize>>,
}

impl Read for Typist<'_> {
    fn read(&mut self, buffer: &mut [u8]) -> io::Result<usize> {
        self.printed_before
            .borrow_mut()
            .push(self.output.borrow().len());
        let Some((&byte, rest)) = self.bytes.split_first() else {
            return Ok(0);
        };
        self.bytes = rest;
        buffer[0] = byte;
        Ok(1)
    }
}

struct Screen<'a>(&'a RefCell<Vec<u8>>);

impl Write for Screen<'_> {
    fn write(&mut self, bytes: &[u8]) -> io::Result<usize> {
        self.0.borrow_mut().write(bytes)
    }

    fn flush(&mut self) -> io::Result<()> {
        Ok(())
    }
}

#[test]
fn a_line_is_out_before_the_next_byte_is_waited_for() {
    let stream = hex(plan_a::BYTES);
    let before_begin = plan_a().commands().concat().len();
    let (output, printed_before) = (RefCell::default(), RefCell::default());
    let typist = Typist {
        bytes: &stream,
        output: &output,
        printed_before: &printed_before,
    };
    printer::print(typist, io::BufWriter::new(Screen(&output))).unwrap();
    let printed_before = printed_before.into_inner();
    assert_eq!(printed_before.len(), stream.len() + 1);
    assert_eq!(printed_before[before_begin], 0);
    // BEGIN, three DONEs and FETCH: a line is there as soon as its command is.
    let (mut place, mut lines_len) = (before_begin, 0);
    for (line, used) in plan_a::LINES.split_inclusive('\n').zip([1, 3, 3, 3, 1]) {
        let before_its_last = printed_before[place + used - 1];
        assert_eq!(before_its_last, lines_len, "{line}");
        place += used;
        lines_len += line.len();
        assert_eq!(printed_before[place], lines_len, "{line}");
    }
    assert_eq!(place, stream.len());
    assert_eq!(output.into_inner(), plan_a::LINES.as_bytes());
}
