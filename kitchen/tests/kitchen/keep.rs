//! `cephlouk run --keep`: a day kept through a power cut.

use crate::menu::{example, file, fine, first_line, run, to_text, PROGRAM};
use kitchen::text::stream;
use peer::generate::{stream as generated, Random};
use peer::listening::{listen, PATIENCE};
use peer::Plan;
use std::fs;
use std::io::Write;
use std::os::unix::process::{CommandExt, ExitStatusExt};
use std::process::{Command, Output, Stdio};

/// How many random days are killed at every write; more where a variable says so.
const DAYS: usize = 20;
const DAYS_WANTED: &str = "KEPT_DAYS";
/// Days of more bytes take long and show nothing more.
const SHORT: usize = 260;

/// What ends a program whose file has grown to its limit.
const LIMIT_SIGNAL: i32 = 25;
const LIMIT_OF_FILES: i32 = 1;
const LIMIT_OF_CORES: i32 = 4;

/// `struct rlimit` of the C library on 64-bit Linux.
#[repr(C)]
struct Limit {
    now: u64,
    most: u64,
}

extern "C" {
    fn setrlimit(resource: i32, limit: *const Limit) -> i32;
}

/// A path in memory where there is such a folder: a kill loses nothing that was
/// written, and syncing thousands of days to a disk takes long.
fn quick(name: &str) -> String {
    let folder = match fs::exists("/dev/shm") {
        Ok(true) => "/dev/shm",
        _ => env!("CARGO_TARGET_TMPDIR"),
    };
    format!("{folder}/cephlouk-{}-{name}", std::process::id())
}

/// A path for a journal that is not there yet.
fn fresh(name: &str) -> String {
    let path = file(name, b"");
    fs::remove_file(&path).unwrap();
    path
}

/// A copy of a journal, to be gone on with by itself.
fn fresh_copy(journal: &str) -> String {
    let copy = format!("{journal}.copy");
    fs::copy(journal, &copy).unwrap();
    copy
}

/// Runs a text with its journal; a limit kills it at that byte of the journal.
fn keep(text: &str, journal: &str, limit: Option<u64>) -> Output {
    let mut command = Command::new(PROGRAM);
    command.args(["run", "--plain", text, "--keep", journal]);
    if let Some(bytes) = limit {
        let set = move || {
            for (resource, now) in [(LIMIT_OF_FILES, bytes), (LIMIT_OF_CORES, 0)] {
                let limit = Limit { now, most: now };
                // SAFETY: the limit is only read.
                if unsafe { setrlimit(resource, &limit) } != 0 {
                    return Err(std::io::Error::last_os_error());
                }
            }
            Ok(())
        };
        // SAFETY: between fork and exec only limits are set.
        unsafe { command.pre_exec(set) };
    }
    command.stderr(Stdio::null()).output().unwrap()
}

/// The bytes of the commands ahead of the first that the peer refuses.
fn accepted(bytes: &[u8]) -> &[u8] {
    let (mut plan, mut place) = (Plan::new(), 0);
    let mut starts = [0; Plan::STARTS];
    loop {
        let answer = plan.command(bytes, place, &mut starts);
        if answer.number != 0 {
            return &bytes[..place];
        }
        place += answer.used;
    }
}

/// Lines of answers, without the one of a refusal.
fn answers(output: &[u8]) -> Vec<String> {
    let text = String::from_utf8(output.to_vec()).unwrap();
    let lines = text.lines().filter(|line| !line.starts_with("refused"));
    lines.map(str::to_string).collect()
}

/// Kills a day at the start of each write and somewhere inside, and takes it up
/// again. Answers how often.
fn kill_everywhere(seed: u64, random: &mut Random) -> usize {
    let text = to_text(&generated(seed)).0;
    let (name, whole, cut) = (quick("plan"), quick("journal"), quick("cut"));
    fs::write(&name, &text).unwrap();
    let answered = answers(&keep(&name, &whole, None).stdout);
    let journal = fs::read(&whole).unwrap();
    let (read, fault) = stream(std::str::from_utf8(&journal).unwrap());
    assert_eq!(
        (&read[..], fault),
        (accepted(&stream(&text).0), None),
        "seed {seed}"
    );

    let mut kills = 0;
    let mut start = 0;
    for record in journal.split_inclusive(|&byte| byte == b'\n') {
        for inside in [0, 1 + random.below(record.len() - 1)] {
            let killed = keep(&name, &cut, Some((start + inside) as u64));
            assert_eq!(killed.status.signal(), Some(LIMIT_SIGNAL), "seed {seed}");
            assert_eq!(fs::read(&cut).unwrap(), journal[..start + inside]);
            let mut both = answers(&killed.stdout);
            both.extend(answers(&keep(&name, &cut, None).stdout));
            assert_eq!(
                both,
                answered,
                "seed {seed}, killed at byte {}",
                start + inside
            );
            assert_eq!(fs::read(&cut).unwrap(), journal, "seed {seed}");
            fs::remove_file(&cut).unwrap();
            kills += 1;
        }
        start += record.len();
    }
    for path in [name, whole] {
        fs::remove_file(path).unwrap();
    }
    kills
}

#[test]
fn killed_at_every_write() {
    let wanted = std::env::var(DAYS_WANTED).map_or(DAYS, |days| days.parse().unwrap());
    let mut random = Random::new(36);
    let is_short = |&seed: &u64| (20..SHORT).contains(&accepted(&generated(seed)).len());
    let days: Vec<u64> = (0..).filter(is_short).take(wanted).collect();
    let kills: usize = days
        .iter()
        .map(|&seed| kill_everywhere(seed, &mut random))
        .sum();
    println!("{wanted} days, killed {kills} times");
    assert!(kills > 20 * wanted, "{kills}");
}

/// A journal of breakfast up to a line, and its name.
fn journal_of(name: &str, up_to: &str) -> (String, String) {
    let breakfast = example("breakfast");
    let (ahead, _) = breakfast.split_once(up_to).unwrap();
    let journal = fresh(name);
    let ended = run(&["run", "--keep", &journal], ahead.as_bytes());
    assert_eq!(ended.status, 1);
    (fs::read_to_string(&journal).unwrap(), journal)
}

#[test]
fn a_typed_day_goes_on_where_it_was() {
    let (_, journal) = journal_of("typed.journal", "done 6");
    let ended = run(&["run", "--keep", &journal], b"done 6\n");
    let lines: Vec<&str> = ended.text().lines().collect();
    assert!(lines[0].starts_with("taken up: 3 of 10 steps have ended; 12 in use, 16 booked of 16;"));
    assert_eq!(lines[1], "running: 1, 6");
    assert!(lines[2].starts_with("done 6: start 8 "), "{}", lines[2]);
    let plain = run(&["run", "--plain", "--keep", &journal], b"done 6\n");
    assert_eq!(plain.output, b"refused 6 at 0\n");
    // All other subcommands read it.
    assert_eq!(
        run(&["why", &journal, "2"], b"").text(),
        "2: not booked; 2 is next and lacks 3 places\n"
    );
}

#[test]
fn names_minutes_and_times_are_kept() {
    let text = "\
plan \"Soup # and bread\" stations 1 places 9
step soup: parent - work 1 out 1 minutes 25
activation soup
begin at 09:00
";
    let journal = fresh("names.journal");
    run(&["run", "--keep", &journal], text.as_bytes());
    let ended = run(&["run", "--keep", &journal], b"done soup at 08:59\n");
    let wrong = "standard input:1:14: 08:59 is before 09:00, the last time told";
    assert_eq!(first_line(&ended.errors), wrong);
    let ended = run(&["run", "--keep", &journal], b"done soup at 09:30\nfetch\n");
    assert_eq!(ended.status, 0, "{}", ended.errors);
    let tidy = "\
plan \"Soup # and bread\" steps 1 stations 1 places 9
step 1 soup: parent - work 1 out 1 minutes 25
activation 1
execution 1
";
    assert_eq!(run(&["write", &journal], b"").text(), tidy);
}

#[test]
fn a_text_is_run_again() {
    let (_, journal) = journal_of("again.journal", "done 6");
    let name = file("again.plan", example("breakfast").as_bytes());
    let told = run(&["run", &name, "--keep", &fresh_copy(&journal)], b"");
    let up = "taken up: 3 of 10 steps have ended; 12 in use, 16 booked of 16; of 10 steps 4 wait, 1 are booked, 2 run, 3 have ended\nrunning: 1, 6\ndone 6: ";
    assert!(told.text().starts_with(up), "{}", told.text());
    let ended = run(&["run", "--plain", &name, "--keep", &journal], b"");
    let whole = run(&["run", "--plain", &name], b"");
    assert_eq!(ended.status, 0);
    assert!(whole.text().ends_with(ended.text()) && ended.text().starts_with("done 6 "));
    // A third time there is nothing left to answer.
    let ended = run(&["run", &name, "--keep", &journal], b"");
    let up = "taken up: the day is over; 0 in use, 0 booked of 16; of 10 steps 0 wait, 0 are booked, 0 run, 10 have ended\n";
    assert_eq!(ended, fine(up));
    // A text that says something else is told.
    let other = file(
        "other.plan",
        example("breakfast")
            .replace("done 5 ", "done 1 ")
            .as_bytes(),
    );
    let ended = run(&["run", &other, "--keep", &journal], b"");
    let told = format!("{other}:39:6: the journal has 'done 5' here");
    assert_eq!((first_line(&ended.errors), ended.status), (&*told, 1));
    // A shorter text ends where the journal does.
    let (short, _) = example("breakfast")
        .split_once("done 5")
        .map(|(short, rest)| (short.to_string(), rest.to_string()))
        .unwrap();
    let short = file("short.plan", short.as_bytes());
    assert_eq!(run(&["run", &short, "--keep", &journal], b"").status, 0);
}

#[test]
fn a_torn_record_is_cut_off_and_told() {
    let (text, journal) = journal_of("torn.journal", "done 6");
    let torn = [text.as_bytes(), b"done 6 #6 12"].concat();
    for torn in [&torn[..], &[text.as_bytes(), &[0; 100]].concat()] {
        fs::write(&journal, torn).unwrap();
        let ended = run(&["run", "--keep", &journal], b"");
        let bytes = torn.len() - text.len();
        let told = format!("{journal}: a last record was cut off after {bytes} bytes, and is gone");
        assert_eq!(first_line(&ended.errors), told);
        assert_eq!(fs::read_to_string(&journal).unwrap(), text);
    }
}

#[test]
fn a_changed_byte_is_told_with_its_place() {
    let (text, journal) = journal_of("changed.journal", "done 6");
    let lines: Vec<usize> = text.match_indices('\n').map(|(end, _)| end + 1).collect();
    for place in (0..text.len() - 1).step_by(7) {
        let mut bytes = text.clone().into_bytes();
        bytes[place] ^= 0x01;
        fs::write(&journal, &bytes).unwrap();
        let ended = run(&["run", "--keep", &journal], b"done 6\n");
        let line = lines.iter().rev().find(|&&start| start <= place).copied();
        let told = match line {
            None => format!("{journal}: it is no journal, and is left as it is"),
            Some(start) => {
                format!("{journal}: byte {start} and those behind it are not as they were written")
            }
        };
        assert_eq!(first_line(&ended.errors), told, "byte {place}");
        assert_eq!((ended.text(), fs::read(&journal).unwrap()), ("", bytes));
        assert_eq!(ended.status, if line.is_none() { 2 } else { 3 });
    }
    // Lines that were taken out, or swapped, are missed.
    let all: Vec<&str> = text.split_inclusive('\n').collect();
    let (mut without, mut swapped) = (all.clone(), all.clone());
    without.remove(5);
    swapped.swap(all.len() - 1, all.len() - 2);
    for lines in [without, swapped] {
        fs::write(&journal, lines.concat()).unwrap();
        assert_eq!(run(&["run", "--keep", &journal], b"").status, 3);
    }
}

#[test]
fn other_files_are_left_alone() {
    let plan = file("plan.journal", example("lunch").as_bytes());
    let ended = run(&["run", "--keep", &plan], b"");
    assert!(ended
        .errors
        .contains("it is no journal, and is left as it is"));
    assert_eq!(fs::read_to_string(&plan).unwrap(), example("lunch"));
    let folder = env!("CARGO_TARGET_TMPDIR");
    assert_eq!(run(&["run", "--keep", folder], b"").status, 3);
    assert_eq!(
        run(&["run", "--keep", "/no/such/folder/day"], b"").status,
        3
    );
    let ended = run(&["run", "--keep", "/dev/zero"], b"");
    let told = "/dev/zero: a journal is kept in a file on a disk, and this is none\n";
    assert_eq!((&*ended.errors, ended.status), (told, 3));
}

#[test]
fn only_its_run_writes_to_a_journal() {
    let (text, journal) = journal_of("ordered.journal", "done 6");
    let ended = run(&["order", "--write", &journal], b"");
    let told = format!("{journal}: it is a journal, which only its own run writes to\n");
    assert_eq!((ended.errors, ended.status), (told, 2));
    assert_eq!(fs::read_to_string(&journal).unwrap(), text);
}

#[test]
fn what_the_rules_refuse_is_told_with_its_line() {
    // A journal of a kitchen that refused nothing.
    let (text, journal) = journal_of("refused.journal", "activation");
    let sum = |before: u32, bytes: &[u8]| {
        let mut sum = !before;
        for &byte in bytes {
            sum ^= u32::from(byte);
            for _ in 0..8 {
                sum = (sum >> 1) ^ (0xedb8_8320 * (sum & 1));
            }
        }
        !sum
    };
    let before = text
        .split_inclusive('\n')
        .fold(0, |before, line| sum(before, line.as_bytes()));
    let begin = format!("begin #5 {:08x}\n", sum(before, b"begin"));
    fs::write(&journal, format!("{text}{begin}")).unwrap();
    let ended = run(&["run", "--keep", &journal], b"");
    let told = format!("{journal}:13:1: begin refused (3): 'activation' is in turn, 10 more");
    assert_eq!((first_line(&ended.errors), ended.status), (&*told, 1));
    assert_eq!(
        fs::read_to_string(&journal).unwrap(),
        format!("{text}{begin}")
    );
}

/// A kill loses nothing that was written, so that only the system's calls show whether
/// it was synced. Where they cannot be watched, the test says that it did not run.
#[test]
fn synced_before_it_is_answered() {
    let text = file("synced.plan", example("plan-a").as_bytes());
    let (journal, calls) = (fresh("synced.journal"), file("synced.calls", b""));
    let watched = Command::new("strace")
        .args(["-e", "trace=write,fsync,fdatasync", "-o", &calls, PROGRAM])
        .args(["run", "--plain", &text, "--keep", &journal])
        .output();
    if !watched.is_ok_and(|output| output.status.success()) {
        eprintln!("NOT RUN: 'strace' is not there or may not watch, and syncing was not tried");
        return;
    }
    let (mut is_synced, mut answers) = (true, 0);
    for call in fs::read_to_string(&calls).unwrap().lines() {
        if call.starts_with("fsync(") || call.starts_with("fdatasync(") {
            is_synced = true;
        } else if call.starts_with("write(1,") {
            assert!(is_synced, "{call}");
            answers += 1;
        } else if call.starts_with("write(") {
            is_synced = false;
        }
    }
    assert_eq!((answers, is_synced), (5, true));
}

#[test]
fn one_writer_at_a_time() {
    let journal = fresh("locked.journal");
    let mut first = Command::new(PROGRAM)
        .args(["run", "--plain", "--keep", &journal])
        .stdin(Stdio::piped())
        .stdout(Stdio::piped())
        .spawn()
        .unwrap();
    let mut input = first.stdin.take().unwrap();
    input.write_all(example("plan-a").as_bytes()).unwrap();
    let output = first.stdout.take().unwrap();
    // Once it has answered, it holds the journal; and it is heard on.
    let heard = listen(output);
    heard.recv_timeout(PATIENCE).unwrap();
    let ended = run(&["run", "--keep", &journal], b"");
    let told = format!("{journal}: another run keeps its day in it\n");
    assert_eq!((ended.errors, ended.status), (told, 3));
    drop(input);
    first.wait().unwrap();
    assert_eq!(run(&["check", &journal], b"").status, 0);
}

#[test]
fn where_the_disk_is_full_nothing_is_answered() {
    // A limit of the size of files stands for a full disk; its signal is ignored
    // by a shell's trap.
    let text = file("full.plan", example("plan-a").as_bytes());
    let journal = fresh("full.journal");
    let script =
        format!("trap '' XFSZ; ulimit -f 1; '{PROGRAM}' run --plain '{text}' --keep '{journal}'");
    let output = Command::new("bash").args(["-c", &script]).output().unwrap();
    let whole = run(&["run", "--plain", &text], b"");
    // Plan A fits into one block, so that nothing is lost here.
    assert_eq!(output.stdout, whole.output);
    let many = example("plan-a").repeat(20);
    let text = file("full.plan", many.as_bytes());
    let journal = fresh("full.journal");
    let script =
        format!("trap '' XFSZ; ulimit -f 1; '{PROGRAM}' run --plain '{text}' --keep '{journal}'");
    let output = Command::new("bash").args(["-c", &script]).output().unwrap();
    let errors = String::from_utf8(output.stderr).unwrap();
    assert_eq!(output.status.code(), Some(3), "{errors}");
    assert!(errors.contains("is not kept: "), "{errors}");
    // All that was answered is there, and nothing is torn.
    let kept = stream(&fs::read_to_string(&journal).unwrap()).0;
    let mut printed = Vec::new();
    peer::printer::print(&kept[..], &mut printed).unwrap();
    assert_eq!(String::from_utf8(printed), String::from_utf8(output.stdout));
    assert!(fs::read(&journal).unwrap().ends_with(b"\n"));
}
