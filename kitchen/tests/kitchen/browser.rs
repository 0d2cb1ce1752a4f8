//! The page in a real browser: slider, keys, and no request that leaves it. Where
//! chromium is not installed the test says that it did not run.

use crate::menu::{example, file, run};
use std::fs;
use std::net::TcpListener;
use std::process::Command;
use std::sync::atomic::{AtomicUsize, Ordering};
use std::sync::Arc;
use std::thread;
use std::time::Duration;

const BROWSER: &str = "chromium";

/// What is asked of the page, once it is loaded: presses, and what it shows then.
const PRESSES: &str = r#"
const seen = [];
const look = () => seen.push([slider.value, line.getAttribute("x1"), ...["told", "waiting", "booked", "running", "ended"]
  .map((id) => document.getElementById(id).textContent)].join("|"));
const press = (key) => document.dispatchEvent(new KeyboardEvent("keydown", { key, cancelable: true }));
look();
press("ArrowRight"); look();
document.getElementById("on").click(); look();
press("ArrowLeft"); look();
press("End"); look();
press("ArrowRight"); look();
press("Home"); look();
slider.value = 4; slider.dispatchEvent(new Event("input")); look();
fetch("http://127.0.0.1:PORT/fetched").catch(() => 0);
new Image().src = "http://127.0.0.1:PORT/image";
const script = document.createElement("script");
script.src = "http://127.0.0.1:PORT/script";
document.body.append(script);
const pre = document.createElement("pre");
pre.id = "seen";
pre.textContent = seen.join("\n");
document.body.append(pre);
"#;

/// What the page shows after presses, and how many requests left it.
fn pressed(page: &str, name: &str) -> Option<(Vec<String>, usize)> {
    let listener = TcpListener::bind("127.0.0.1:0").unwrap();
    let port = listener.local_addr().unwrap().port();
    let requests = Arc::new(AtomicUsize::new(0));
    let counted = requests.clone();
    thread::spawn(move || {
        for _ in listener.incoming() {
            counted.fetch_add(1, Ordering::SeqCst);
        }
    });
    let presses = PRESSES.replace("PORT", &port.to_string());
    let page = page.replace("</body>", &format!("<script>{presses}</script></body>"));
    let path = file(name, page.as_bytes());
    let output = Command::new(BROWSER)
        .args(["--headless", "--disable-gpu", "--no-first-run"])
        // As root it does not run otherwise; the page is ours.
        .arg("--no-sandbox")
        .args(["--virtual-time-budget=2000", "--dump-dom"])
        .arg(format!("file://{path}"))
        .output()
        .ok()?;
    thread::sleep(Duration::from_millis(200));
    let dom = String::from_utf8_lossy(&output.stdout).into_owned();
    let (_, behind) = dom.split_once("<pre id=\"seen\">")?;
    let (seen, _) = behind.split_once("</pre>")?;
    let lines = seen.lines().map(str::to_string).collect();
    Some((lines, requests.load(Ordering::SeqCst)))
}

#[test]
fn the_page_is_stepped_through() {
    if Command::new(BROWSER).arg("--version").output().is_err() {
        eprintln!("NOT RUN: {BROWSER} is not installed, and the page was not tried in a browser");
        return;
    }
    let name = file("browsed.plan", example("ward-lunch").as_bytes());
    let html = file("browsed.html", b"");
    run(&["picture", &name, "-o", &html], b"");
    let page = fs::read_to_string(&html).unwrap();
    let (seen, requests) = pressed(&page, "pressed.html").expect("a page that was loaded");
    let places: Vec<&str> = seen
        .iter()
        .map(|line| line.split('|').next().unwrap())
        .collect();
    assert_eq!(places, ["0", "1", "2", "1", "21", "21", "0", "4"]);
    let parts: Vec<&str> = seen[0].split('|').collect();
    assert_eq!(parts[1], "270");
    assert!(parts[2].starts_with(
        "0 min · begin: start 4 potatoes-peeled, 6 beef-seared, 8 beans-trimmed · 13 in use"
    ));
    assert_eq!(parts[4], "5 potatoes-mashed, 7 beef-braised, 9 plates-laid");
    assert_eq!(
        parts[5],
        "4 potatoes-peeled, 6 beef-seared, 8 beans-trimmed"
    );
    assert_eq!(parts[6], "");
    let last: Vec<&str> = seen[4].split('|').collect();
    assert_eq!((last[3], last[4], last[5]), ("", "", ""));
    assert!(last[6].ends_with("20 trolley"));
    assert_eq!(requests, 0, "no request leaves the page");
    // Without its policy they would, and would be seen.
    let (head, rest) = page.split_once("<meta http-equiv").unwrap();
    let (_, rest) = rest.split_once(">\n").unwrap();
    let (_, requests) = pressed(&format!("{head}{rest}"), "open.html").expect("a page");
    assert!(requests > 0, "requests would be seen");
}
