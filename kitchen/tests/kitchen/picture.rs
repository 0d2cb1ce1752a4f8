//! Pictures: what they show is what the library answers, and nothing in a name is
//! markup.

use crate::menu::{example, file, fine, first_line, run};
use cephlouk::{Command, Phase, Plan, Reason};
use kitchen::day::{Day, Report};
use kitchen::picture::colours::Colours;
use kitchen::picture::stations::idles;
use kitchen::picture::timeline::Unit;
use kitchen::picture::trays::shares;
use kitchen::picture::{draw, page, Timeline};
use kitchen::simulate::simulate;
use kitchen::text::{commands, Given, Place};
use peer::generate::{cut_stream, stream, Random};
use std::fs;

/// The day that a stream's commands lead to, up to the first refusal, with a copy
/// of the plan at each moment.
fn led(stream: &[u8]) -> (Day, Vec<Plan>) {
    let (mut day, mut plans) = (Day::default(), Vec::new());
    for command in commands(stream).0 {
        // The moments of one plan are looked at.
        if matches!(command, Command::Plan { .. }) && !day.moments.is_empty() {
            break;
        }
        match day.give(&Given::plain(command, Place::nowhere())) {
            Ok(Some(_)) => plans.push(day.plan.clone()),
            Ok(None) => {}
            Err(_) => break,
        }
    }
    (day, plans)
}

#[test]
fn it_shows_what_the_library_answers() {
    let mut seen = 0;
    for seed in 0..400 {
        let bytes = if seed % 2 == 0 {
            stream(seed)
        } else {
            cut_stream(seed)
        };
        let (day, plans) = led(&bytes);
        if day.moments.is_empty() || day.sheet.steps.len() > 200 {
            continue;
        }
        let timeline = Timeline::of(day).unwrap();
        check_ways(&timeline, &plans);
        check_trays(&timeline, &plans);
        check_idles(&timeline, &plans);
        seen += plans.len();
    }
    assert!(seen > 2_000, "{seen}");
}

/// Each step waits, is booked, runs or has ended, as 'why' tells at each moment.
fn check_ways(timeline: &Timeline, plans: &[Plan]) {
    for (now, plan) in plans.iter().enumerate() {
        if plan.phase() != Phase::Running {
            continue;
        }
        for (step, way) in timeline.day.sheet.numbers().zip(&timeline.ways) {
            let reached = |moment: Option<usize>| moment.is_some_and(|moment| moment <= now);
            let told = plan.why(step).unwrap();
            assert_eq!(reached(way.ended), told == Reason::Ended, "step {step}");
            let has_started = matches!(told, Reason::Ended | Reason::Running);
            assert_eq!(reached(way.started), has_started, "step {step}");
            let is_booked = !matches!(told, Reason::NotBooked { .. });
            assert_eq!(reached(way.booked), is_booked, "step {step}");
        }
    }
}

/// The branches' shares together are the trays in use.
fn check_trays(timeline: &Timeline, plans: &[Plan]) {
    let shares = shares(timeline, &Colours::of(&timeline.day.sheet));
    for (now, plan) in plans.iter().enumerate() {
        let sum: u64 = shares.iter().map(|share| share[now]).sum();
        assert_eq!(sum, u64::from(plan.in_use()));
        let moment = &timeline.day.moments[now];
        assert_eq!(moment.booked, plan.booked());
        assert_eq!(moment.standing, plan.standing());
    }
}

/// No two steps share a station, and a free one is hatched exactly where some
/// step waits.
fn check_idles(timeline: &Timeline, plans: &[Plan]) {
    let idles = idles(timeline);
    for (now, plan) in plans.iter().enumerate() {
        let is_on = |from: Option<usize>, to: Option<usize>| {
            from.is_some_and(|from| from <= now) && to.is_none_or(|to| to > now)
        };
        let mut busy: Vec<usize> = timeline
            .ways
            .iter()
            .filter(|way| is_on(way.started, way.ended))
            .map(|way| way.station)
            .collect();
        assert_eq!(busy.len(), plan.standing().running as usize);
        busy.sort_unstable();
        busy.dedup();
        assert_eq!(
            busy.len(),
            plan.standing().running as usize,
            "one step a station"
        );
        let time = timeline.times[now];
        if timeline.until(now) == time {
            continue;
        }
        let hatched = idles
            .iter()
            .filter(|idle| idle.from <= time && time < idle.to);
        let free = usize::from(timeline.day.sheet.stations) - busy.len();
        let waits = plan.standing().waiting > 0;
        assert_eq!(hatched.count(), if waits { free } else { 0 });
    }
}

/// The timeline of a text.
fn timeline(text: &str) -> Timeline {
    let (mut day, mut reader) = (Day::default(), kitchen::text::Reader::default());
    for line in text.lines() {
        for said in reader.line(line, &day.sheet).said {
            if let kitchen::text::Said::Command(given) = said {
                day.give(&given).unwrap();
            }
        }
    }
    Timeline::of(day).unwrap()
}

#[test]
fn what_the_axis_counts() {
    let lunch = example("ward-lunch");
    let reported = timeline(&lunch);
    assert_eq!((reported.unit, reported.length), (Unit::Minutes, Some(173)));
    let (plan, _) = lunch.split_once("\nbegin").unwrap();
    let simulated = timeline(plan);
    assert_eq!(
        (simulated.unit, simulated.length),
        (Unit::Minutes, Some(173))
    );
    let starts = |timeline: &Timeline| -> Vec<Vec<u16>> {
        timeline
            .day
            .moments
            .iter()
            .map(|moment| moment.starts.clone())
            .collect()
    };
    assert_eq!(starts(&simulated), starts(&reported));
    assert_eq!(simulated.times, reported.times);
    let bare: String = lunch
        .lines()
        .map(|line| line.split(" minutes").next().unwrap().to_string() + "\n")
        .collect();
    let counted = timeline(&bare);
    assert_eq!((counted.unit, counted.length), (Unit::Reports, Some(20)));
    let clock = "\
plan stations 1 places 9
step soup: parent - work 1 out 1
activation soup
begin at 09:00
done soup at 09:42
fetch at 10:05
";
    let clock = timeline(clock);
    assert_eq!(
        (clock.unit, clock.length, clock.ends()),
        (Unit::Clock, Some(582), (540, 605))
    );
    assert!(draw(&clock).svg.contains(">09:40</text>"));
}

#[test]
fn nothing_in_a_name_is_markup() {
    let text = "\
plan \"</title></script><script>alert(1)</script>&\" stations 1 places 9
step <img/src=x>&';alert(1)</script>: parent - work 1 out 1 minutes 5
activation 1
";
    let timeline = timeline(text);
    let svg = draw(&timeline).svg;
    assert!(
        !svg.contains("<script")
            && !svg.contains("<img")
            && svg.contains("&lt;img/src=x&gt;&amp;&#39;")
    );
    let page = page(&timeline);
    assert_eq!(page.matches("<script>").count(), 1);
    assert_eq!(page.matches("</script>").count(), 1);
    assert!(!page.contains("<img"));
    for id in svg.split(" id=\"").skip(1) {
        assert!(id.starts_with("ck-"), "{id}");
    }
}

#[test]
fn the_forms_of_a_picture() {
    let name = file("pictured.plan", example("ward-lunch").as_bytes());
    let svg = file("pictured.svg", b"");
    assert_eq!(run(&["picture", &name, "-o", &svg], b""), fine(""));
    let drawn = fs::read_to_string(&svg).unwrap();
    assert!(drawn.starts_with("<svg ") && drawn.ends_with("</svg>\n"));
    assert_eq!(run(&["picture", &name], b""), fine(&drawn));
    assert_eq!(run(&["picture", &name, "-o", "-"], b""), fine(&drawn));
    let html = file("pictured.html", b"");
    run(&["picture", &name, "-o", &html], b"");
    let page = fs::read_to_string(&html).unwrap();
    assert!(page.starts_with("<!doctype html>") && page.contains(drawn.trim_end()));
    let letters = run(&["picture", "--terminal", &name], b"");
    assert!(letters
        .text()
        .starts_with("Ward lunch\n20 steps · 3 stations"));
    assert!(
        letters
            .text()
            .lines()
            .all(|line| line.chars().count() <= 110),
        "{}",
        letters.text()
    );
    assert!(!letters.text().contains('\u{1b}'));
    let ended = run(&["picture", &name, "-o", "lunch.png"], b"");
    assert_eq!(
        first_line(&ended.errors),
        "cephlouk: 'lunch.png' is neither .svg nor .html"
    );
}

#[test]
fn the_picture_in_the_documents_is_what_is_drawn() {
    let path = concat!(env!("CARGO_MANIFEST_DIR"), "/../docs/ward-lunch.svg");
    let drawn = draw(&timeline(&example("ward-lunch"))).svg;
    let help = "cephlouk picture examples/ward-lunch.plan -o docs/ward-lunch.svg";
    assert!(
        fs::read_to_string(path).unwrap() == drawn,
        "draw it anew: {help}"
    );
}

#[test]
fn nothing_to_draw() {
    let ended = run(&["picture"], b"");
    assert_eq!(
        (&*ended.errors, ended.status),
        ("standard input: there is no plan in it\n", 1)
    );
    let (plan, _) = example("lunch")
        .split_once("\nbegin")
        .map(|(plan, day)| (plan.to_string(), day.to_string()))
        .unwrap();
    let ended = run(&["picture"], plan.as_bytes());
    let told = "standard input: it has no day to draw, and step 1 has no minutes to make one by";
    assert_eq!((first_line(&ended.errors), ended.status), (told, 1));
    let low = example("ward-lunch").replace("places 18", "places 15");
    let low = low.split("\nbegin").next().unwrap();
    for arguments in [&["picture"][..], &["simulate"]] {
        let ended = run(arguments, low.as_bytes());
        let told =
            "standard input: begin refused (9): needs 16 places at step 20 trolley; there are 15";
        assert_eq!(
            (first_line(&ended.errors), ended.status),
            (told, 1),
            "{arguments:?}"
        );
    }
}

/// How long the day of a plan's commands is by the peer's rules.
fn length_by_peer(bytes: &[u8], minutes: &[u32]) -> u32 {
    let mut plan = peer::Plan::new();
    let mut starts = [0; peer::Plan::STARTS];
    let mut give = |plan: &mut peer::Plan, bytes: &[u8]| {
        let answer = plan.command(bytes, 0, &mut starts);
        assert_eq!(answer.number, 0);
        (answer.used, starts[..answer.starts].to_vec())
    };
    let mut rest = bytes;
    while !rest.is_empty() {
        let (used, _) = give(&mut plan, rest);
        rest = &rest[used..];
    }
    let mut running: Vec<(u32, usize, u16)> = Vec::new();
    let (mut now, mut count) = (0, 0);
    let (_, mut started) = give(&mut plan, &[0x05]);
    loop {
        for step in started {
            running.push((now + minutes[usize::from(step) - 1], count, step));
            count += 1;
        }
        let Some(&first) = running.iter().min() else {
            return now;
        };
        running.retain(|&one| one != first);
        now = first.0;
        let [low, high] = first.2.to_le_bytes();
        started = give(&mut plan, &[0x06, low, high]).1;
    }
}

#[test]
fn days_by_minutes_are_the_peer_s() {
    let (mut compared, mut random) = (0, Random::new(7));
    for seed in 0..600 {
        let (day, _) = led(&stream(seed));
        let Ok(mut fresh) = day.with(day.sheet.places, day.sheet.stations) else {
            continue;
        };
        // With the places that the day began with, and fewer than all steps at once.
        if day.moments.is_empty() || day.sheet.steps.len() > 100 {
            continue;
        }
        fresh = fresh
            .with(day.moments[0].places, day.sheet.stations)
            .unwrap();
        let count = fresh.sheet.steps.len();
        let minutes: Vec<u32> = (0..count).map(|_| random.between(0, 60)).collect();
        let simulated = simulate(&fresh, &minutes).unwrap();
        let mut written = vec![0; Plan::MOST_BYTES];
        let length = day.plan.write(&mut written).unwrap();
        // M of a plan is the one in force; the day began with this one.
        written[4..8].copy_from_slice(&day.moments[0].places.to_le_bytes());
        let by_peer = length_by_peer(&written[..length], &minutes);
        assert_eq!(simulated.length, by_peer, "seed {seed}");
        compared += 1;
    }
    assert!(compared > 100, "{compared}");
}

#[test]
fn a_day_by_its_minutes() {
    let name = file("simulated.plan", example("ward-lunch").as_bytes());
    let ended = run(&["simulate", &name], b"");
    let lines: Vec<&str> = ended.text().lines().collect();
    assert_eq!(lines[1], "    0     15        1  4 potatoes-peeled");
    assert_eq!(lines[20], "  163    173        2  20 trolley");
    assert_eq!(lines[21], "the day takes 173 minutes");
    let json = run(&["simulate", "--json", &name], b"");
    assert!(json.text().starts_with(
        "{\"minutes\":173,\"steps\":[{\"step\":4,\"station\":1,\"start\":0,\"end\":15}"
    ));
    let without = example("ward-lunch").replacen(" minutes 30", "", 1);
    let ended = run(&["simulate"], without.as_bytes());
    assert_eq!(
        first_line(&ended.errors),
        "standard input: step 2 stock-simmered has no minutes"
    );
    assert_eq!(ended.status, 1);
}

#[test]
fn how_many_places_are_worth_having() {
    let name = file("swept.plan", example("ward-lunch").as_bytes());
    let table = "\
places    2 st.    3 st.
    15        -        -
    16      231      231
    17      198      198
    18      177      173
minutes of the day; - where the places are fewer than the peak
";
    let asked = ["sweep", &name, "--places", "15..18", "--stations", "2..3"];
    assert_eq!(run(&asked, b""), fine(table));
    let json = run(&["sweep", &name, "--places", "18", "--json"], b"");
    assert_eq!(
        json.text(),
        "{\"days\":[{\"places\":18,\"stations\":3,\"minutes\":173}]}\n"
    );
    let svg = file("swept.svg", b"");
    run(&["sweep", &name, "-o", &svg], b"");
    assert!(fs::read_to_string(&svg).unwrap().starts_with("<svg "));
    for (switch, said) in [
        ("--places", "18..16"),
        ("--places", "x"),
        ("--places", "1..4294967296"),
        ("--stations", "0..2"),
        ("--stations", "1..65"),
    ] {
        let ended = run(&["sweep", &name, switch, said], b"");
        assert!(
            ended.errors.contains(&format!("'{switch}' wants A..B")),
            "{}",
            ended.errors
        );
        assert_eq!(ended.status, 2);
    }
    let ended = run(&["sweep", &name, "-o", "swept.png"], b"");
    assert_eq!(
        first_line(&ended.errors),
        "cephlouk: 'swept.png' is no .svg"
    );
    // The widest range is tried at a few of its numbers.
    let wide = run(
        &[
            "sweep",
            &name,
            "--places",
            "0..4294967295",
            "--stations",
            "1..64",
        ],
        b"",
    );
    assert_eq!(wide.text().lines().count(), 26);
}

#[test]
fn a_day_that_goes_on_shows_what_stands() {
    let lunch = example("ward-lunch");
    for (up_to, last, end) in [("done fish", 25, 26), ("done apples", 117, 122)] {
        let timeline = timeline(lunch.split(up_to).next().unwrap());
        assert_eq!(timeline.length, None);
        assert_eq!(
            (timeline.times.last(), timeline.ends().1),
            (Some(&last), end)
        );
    }
    let breakfast = example("breakfast");
    let (ahead, _) = breakfast.split_once("done 5").unwrap();
    let reports = timeline(ahead);
    assert_eq!((reports.times.len(), reports.ends()), (3, (0, 3)));
}

#[test]
fn a_report_is_drawn_where_it_was() {
    let timeline = timeline(&example("cleaning"));
    let reports: Vec<Report> = timeline
        .day
        .moments
        .iter()
        .map(|moment| moment.report)
        .collect();
    assert_eq!(reports[1], Report::Places(11));
    assert_eq!(
        timeline.ways[2].booked,
        Some(1),
        "the bread starts with the shelf"
    );
}
