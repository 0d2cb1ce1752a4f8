//! Plan text: to bytes and back, and every message of old lines.

use crate::menu::{example, hex, to_bytes, to_text, PLAN_A};
use kitchen::text::Broken;
use peer::generate::{encode, stream, Random};
use peer::{decode, Command, Plan, Record};

fn fault(line: usize, what: &str) -> (usize, String) {
    (line, what.to_string())
}

/// Where the whole commands of a stream end, as the rules decode them.
fn whole(stream: &[u8]) -> usize {
    let mut place = 0;
    while let Ok((_, used)) = decode(stream, place) {
        place += used;
    }
    place
}

/// The end of the first whole command that has a number outside its limits:
/// those of plans, and of steps in the plan that was opened last.
fn outside_limits(stream: &[u8]) -> Option<usize> {
    let mut place = 0;
    let mut steps = 1..=Plan::TASKS as u16;
    while let Ok((command, used)) = decode(stream, place) {
        place += used;
        let is_within = match command {
            Command::Plan {
                tasks, processors, ..
            } => {
                steps = 1..=tasks;
                (1..=Plan::TASKS).contains(&tasks.into())
                    && (1..=Plan::PROCESSORS).contains(&processors.into())
            }
            Command::Step(Record { parent: 0, .. })
            | Command::Begin
            | Command::Fetch
            | Command::Places(_) => true,
            Command::Step(Record { parent: step, .. })
            | Command::Activation(step)
            | Command::Execution(step)
            | Command::Done(step) => steps.contains(&step),
        };
        if !is_within {
            return Some(place);
        }
    }
    None
}

/// The text of a stream gives its whole commands again, byte for byte, and
/// these the same text. Where a number is outside its limits, its line is told.
fn check_both_ways(stream: &[u8]) {
    let end = whole(stream);
    let (text, fault) = to_text(stream);
    assert_eq!(fault.map_or(stream.len(), |fault| fault.byte), end);
    assert_eq!(to_text(&stream[..end]), (text.clone(), None));
    match (to_bytes(&text), outside_limits(stream)) {
        (Ok(bytes), None) => assert_eq!(bytes, stream[..end]),
        (Err((line, what)), Some(wrong)) => {
            let up_to_it = to_text(&stream[..wrong]).0;
            assert_eq!(line, up_to_it.lines().count(), "{what}");
            let limits = [" wants a number from ", " wants a step: a number from "];
            assert!(limits.iter().any(|limit| what.contains(limit)), "{what}");
        }
        (got, wrong) => panic!("{got:?} where the first wrong command ends at {wrong:?}"),
    }
}

#[test]
fn streams_of_the_generator_both_ways() {
    for seed in 0..500 {
        check_both_ways(&stream(seed));
    }
}

/// Whole commands with any numbers, mostly refused by the rules.
fn any_commands(random: &mut Random) -> Vec<u8> {
    let mut commands = Vec::new();
    for _ in 0..random.below(200) {
        let mut bytes = vec![random.between(0x01, 0x08) as u8];
        bytes.extend(random.bytes(12));
        if let Ok((_, used)) = decode(&bytes, 0) {
            commands.extend(&bytes[..used]);
        }
    }
    commands
}

/// Whole commands with any numbers within the limits, mostly out of turn.
fn commands_within_limits(random: &mut Random) -> Vec<u8> {
    let most = random.pick(&[1, 9, 300, Plan::TASKS as u16]);
    let mut commands = encode(Command::Plan {
        tasks: most,
        processors: random.between(1, 64) as u8,
        memory_bound: random.between(0, u32::MAX),
    });
    for _ in 0..random.below(200) {
        let step = random.between(1, most.into()) as u16;
        commands.extend(encode(match random.between(0x02, 0x08) {
            0x02 => Command::Step(Record {
                parent: step - u16::from(random.chance(50)),
                work: random.between(0, 65_535) as u16,
                out: random.between(0, 65_535) as u16,
            }),
            0x03 => Command::Activation(step),
            0x04 => Command::Execution(step),
            0x05 => Command::Begin,
            0x06 => Command::Done(step),
            0x07 => Command::Fetch,
            _ => Command::Places(random.between(0, u32::MAX)),
        }));
    }
    commands
}

#[test]
fn any_numbers_both_ways() {
    let mut random = Random::new(11);
    for _ in 0..500 {
        let stream = any_commands(&mut random);
        assert_eq!(whole(&stream), stream.len());
        check_both_ways(&stream);
        let stream = commands_within_limits(&mut random);
        assert_eq!(outside_limits(&stream), None);
        check_both_ways(&stream);
    }
}

#[test]
fn any_bytes_both_ways() {
    let mut random = Random::new(12);
    for _ in 0..2000 {
        check_both_ways(
            &random
                .bytes(40)
                .iter()
                .map(|byte| byte % 10)
                .collect::<Vec<_>>(),
        );
    }
}

#[test]
fn the_example_is_the_paper_s_plan_a() {
    assert_eq!(to_bytes(&example("plan-a")), Ok(hex(PLAN_A)));
    let text = "\
plan steps 3 stations 2 places 7
step 1: parent 3 work 5 out 1
step 2: parent 3 work 5 out 1
step 3: parent - work 0 out 1
activation 1 2 3
execution 1 2 3
begin
done 1 2 3
fetch
";
    assert_eq!(to_text(&hex(PLAN_A)), (text.to_string(), None));
}

#[test]
fn execution_lines_may_be_left_out() {
    let text = example("plan-a").replace("execution  1 2 3\n", "");
    let bytes = to_bytes(&text).unwrap();
    let without = hex(&PLAN_A.replace("04 01 00 04 02 00 04 03 00", ""));
    assert_eq!(bytes, without);
    let back = to_text(&bytes).0;
    assert!(!back.contains("execution"), "{back}");
    assert_eq!(to_bytes(&back), Ok(bytes));
}

#[test]
fn ways_to_write_a_line() {
    for (text, bytes) in [
        ("", ""),
        ("\n  \t\r\n# plan\n", ""),
        ("begin", "05"),
        ("  begin# now\r\nbegin\n", "05 05"),
        ("fetch", "07"),
        ("\tfetch # at noon\r\n\nfetch\n", "07 07"),
        (
            "plan steps 1 stations 1 places 0",
            "01 01 00 01 00 00 00 00",
        ),
        (
            "plan steps 1024 stations 64 places 4294967295",
            "01 00 04 40 ff ff ff ff",
        ),
        (
            "plan steps 258 stations 3 places 67305985",
            "01 02 01 03 01 02 03 04",
        ),
        (
            "step parent 772 work 1286 out 65535",
            "02 04 03 06 05 ff ff",
        ),
        ("step 01: parent 0 work 00 out 007", "02 00 00 00 00 07 00"),
        ("step 1: parent - work 0 out 0", "02 00 00 00 00 00 00"),
        (
            "activation 2 1\nexecution 513",
            "03 02 00 03 01 00 04 01 02",
        ),
        ("done 2 1024\ndone 1", "06 02 00 06 00 04 06 01 00"),
        ("places 0", "08 00 00 00 00"),
        ("places 67305985 # at ten\n", "08 01 02 03 04"),
        (
            "places 4294967295\nplaces 007",
            "08 ff ff ff ff 08 07 00 00 00",
        ),
        ("\u{feff}begin\n\u{feff}# Tuesday\n\u{feff}begin", "05 05"),
    ] {
        assert_eq!(to_bytes(text), Ok(hex(bytes)), "{text}");
    }
}

#[test]
fn each_plan_numbers_its_steps_anew() {
    let text = "\
step 1: parent 9 work 0 out 0
plan steps 2 stations 1 places 0
step 1: parent 2 work 0 out 0
step 2: parent - work 0 out 0
begin
step 3: parent - work 0 out 0

plan steps 1 stations 1 places 0
step 1: parent - work 0 out 0
";
    let spaced = text.replace("plan steps 2", "\nplan steps 2");
    assert_eq!(to_text(&to_bytes(text).unwrap()), (spaced, None));
    let unnumbered = text
        .replace(" 1:", "")
        .replace(" 2:", "")
        .replace(" 3:", "");
    assert_eq!(to_bytes(&unnumbered), to_bytes(text));
}

#[test]
fn long_lists_go_on_in_a_new_line() {
    let text = "\
activation 1 2 3 4 5 6 7 8 9 10 11 12 13 14 15 16
activation 17
execution 1
activation 18
";
    assert_eq!(to_text(&to_bytes(text).unwrap()), (text.to_string(), None));
}

#[test]
fn wrong_lines() {
    for (line, what) in [
        ("stpe", "'stpe' is no command"),
        ("Begin", "'Begin' is no command"),
        ("plan", "'plan' wants 'stations' next, found nothing"),
        (
            "plan steps",
            "'steps' wants a number from 1 to 1024, found nothing",
        ),
        (
            "plan steps # 3",
            "'steps' wants a number from 1 to 1024, found nothing",
        ),
        (
            "plan steps 65536",
            "'steps' wants a number from 1 to 1024, found '65536'",
        ),
        (
            "plan steps 3 places 7",
            "'plan' wants 'stations' next, found 'places'",
        ),
        (
            "plan steps 3 stations 256 places 7",
            "'stations' wants a number from 1 to 64, found '256'",
        ),
        (
            "plan steps 3 stations 2 places 4294967296",
            "'places' wants a number from 0 to 4294967295, found '4294967296'",
        ),
        (
            "plan steps 3 stations 2 places 7 8",
            "'plan' wants nothing more, found '8'",
        ),
        (
            "step 1: parent 3 work 5 out 1",
            "this is step 3, found '1:'",
        ),
        (
            "step 4: parent 3 work 5 out 1",
            "this is step 3, found '4:'",
        ),
        ("step : parent 3 work 5 out 1", "this is step 3, found ':'"),
        (
            "step 3 parent 3 work 5 out 1",
            "'step' wants a name with ':' or 'parent' next, found 'parent'",
        ),
        (
            "step 3: parent 3x",
            "'parent' wants a step: a number from 0 to 1024 or a name, found '3x'",
        ),
        (
            "step 3: parent 3 work x",
            "'work' wants a number from 0 to 65535, found 'x'",
        ),
        (
            "step 3: parent 3 work -",
            "'work' wants a number from 0 to 65535, found '-'",
        ),
        (
            "step 3: parent 3 work -1",
            "'work' wants a number from 0 to 65535, found '-1'",
        ),
        (
            "step 3: parent 3 work 5 out",
            "'out' wants a number from 0 to 65535, found nothing",
        ),
        (
            "step 3: parent 3 out 1",
            "'step' wants 'work' next, found 'out'",
        ),
        (
            "step 3: parent 3 work 5 out 1 2",
            "'step' wants nothing more, found '2'",
        ),
        (
            "activation",
            "'activation' wants a step: a number from 1 to 1024 or a name, found nothing",
        ),
        (
            "execution 1, 2",
            "'execution' wants a step: a number from 1 to 1024 or a name, found '1,'",
        ),
        ("begin 1", "'begin' wants nothing more, found '1'"),
        ("fetch 1", "'fetch' wants nothing more, found '1'"),
        ("fetch fetch", "'fetch' wants nothing more, found 'fetch'"),
        ("Fetch", "'Fetch' is no command"),
        ("fetched", "'fetched' is no command"),
        (
            "places",
            "'places' wants a number from 0 to 4294967295, found nothing",
        ),
        (
            "places places 7",
            "'places' wants a number from 0 to 4294967295, found 'places'",
        ),
        (
            "places -",
            "'places' wants a number from 0 to 4294967295, found '-'",
        ),
        (
            "places 4294967296",
            "'places' wants a number from 0 to 4294967295, found '4294967296'",
        ),
        ("places 7 12", "'places' wants nothing more, found '12'"),
        ("place 7", "'place' is no command"),
        (
            "done 1 65536",
            "'done' wants a step: a number from 1 to 1024 or a name, found '65536'",
        ),
    ] {
        let text = format!(
            "# Two steps.\n\nstep 1: parent 2 work 0 out 0\nstep parent - work 0 out 0\n{line}\nnonsense\n"
        );
        assert_eq!(to_bytes(&text), Err(fault(5, what)), "{line}");
    }
}

#[test]
fn limits() {
    // Each is the line of a plan of three steps, but for the first ones.
    for (line, what) in [
        (
            "plan steps 0 stations 1 places 0",
            "'steps' wants a number from 1 to 1024, found '0'",
        ),
        (
            "plan steps 1025 stations 1 places 0",
            "'steps' wants a number from 1 to 1024, found '1025'",
        ),
        (
            "plan steps 2000 stations 1 places 0",
            "'steps' wants a number from 1 to 1024, found '2000'",
        ),
        (
            "plan steps 1 stations 0 places 0",
            "'stations' wants a number from 1 to 64, found '0'",
        ),
        (
            "plan steps 1 stations 65 places 0",
            "'stations' wants a number from 1 to 64, found '65'",
        ),
        (
            "plan steps 1 stations 200 places 0",
            "'stations' wants a number from 1 to 64, found '200'",
        ),
        (
            "step parent 4 work 0 out 0",
            "'parent' wants a step: a number from 0 to 3 or a name, found '4'",
        ),
        (
            "step parent 3 work 65536 out 0",
            "'work' wants a number from 0 to 65535, found '65536'",
        ),
        (
            "step parent 3 work 0 out 65536",
            "'out' wants a number from 0 to 65535, found '65536'",
        ),
        (
            "activation 3 0",
            "'activation' wants a step: a number from 1 to 3 or a name, found '0'",
        ),
        (
            "activation 1 2 3 4",
            "'activation' wants a step: a number from 1 to 3 or a name, found '4'",
        ),
        (
            "execution 4",
            "'execution' wants a step: a number from 1 to 3 or a name, found '4'",
        ),
        (
            "execution -",
            "'execution' wants a step: a number from 1 to 3 or a name, found '-'",
        ),
        (
            "done 0",
            "'done' wants a step: a number from 1 to 3 or a name, found '0'",
        ),
        (
            "done 3 4",
            "'done' wants a step: a number from 1 to 3 or a name, found '4'",
        ),
    ] {
        let text = format!(
            "plan steps 9 stations 1 places 0\ndone 9\nplan steps 3 stations 2 places 7\n{line}\n"
        );
        assert_eq!(to_bytes(&text), Err(fault(4, what)), "{line}");
    }
    for line in [
        "plan steps 1024 stations 64 places 0",
        "step parent 3 work 65535 out 65535",
        "step parent 0 work 0 out 0",
        "activation 1 2 3",
        "done 3",
    ] {
        let text = format!("plan steps 3 stations 2 places 7\n{line}\n");
        assert!(to_bytes(&text).is_ok(), "{line}");
    }
}

#[test]
fn of_a_long_word_the_front_is_shown() {
    let long = "x".repeat(1_000_000);
    let front = "x".repeat(40);
    for (text, what) in [
        (long.clone(), format!("'{front}'... is no command")),
        (
            format!("done {long}"),
            format!("'done' wants a step: a number from 1 to 1024 or a name, found '{front}'..."),
        ),
        (
            format!("plan {long}"),
            format!("'plan' wants 'stations' next, found '{front}'..."),
        ),
        (
            format!("step 7{long}: parent"),
            format!("this is step 1, found '7{}'...", "x".repeat(39)),
        ),
        (
            format!("begin {long}"),
            format!("'begin' wants nothing more, found '{front}'..."),
        ),
        (front.clone(), format!("'{front}' is no command")),
        (
            "\u{1b}[2J\0é".to_string(),
            "'\\u{1b}[2J\\u{0}é' is no command".to_string(),
        ),
    ] {
        assert_eq!(to_bytes(&text), Err(fault(1, &what)));
    }
}

#[test]
fn wrong_bytes() {
    let begin = "begin\n";
    for (bytes, text, place, what) in [
        ("09", "", 0, "09 is no command"),
        ("05 00", begin, 1, "00 is no command"),
        ("05 ff 05", begin, 1, "ff is no command"),
        ("05 0a 05", begin, 1, "0a is no command"),
        ("05 08 05", begin, 1, "the command 08 is cut short"),
        (
            "08 07 00 00 00 08 07 00 00",
            "places 7\n",
            5,
            "the command 08 is cut short",
        ),
        ("07 02 03", "fetch\n", 1, "the command 02 is cut short"),
        ("01", "", 0, "the command 01 is cut short"),
        (
            "05 01 03 00 02 07 00 00",
            begin,
            1,
            "the command 01 is cut short",
        ),
        ("05 02 03 00", begin, 1, "the command 02 is cut short"),
        ("05 03 01", begin, 1, "the command 03 is cut short"),
        ("05 04", begin, 1, "the command 04 is cut short"),
        (
            "06 01 00 06 02",
            "done 1\n",
            3,
            "the command 06 is cut short",
        ),
    ] {
        let broken = Broken {
            byte: place,
            what: what.to_string(),
        };
        let wanted = (text.to_string(), Some(broken));
        assert_eq!(to_text(&hex(bytes)), wanted, "{bytes}");
    }
}
