//! `page`: its cells against `show --slots`, its ways against `follow`, its links against their targets, and nothing from elsewhere.

mod common;

use common::*;
use std::collections::{BTreeSet, HashMap};
use std::ffi::{OsStr, OsString};
use std::fs;
use std::os::unix::ffi::OsStrExt;
use std::path::Path;

/// What a run wrote to standard output, where it is done.
#[track_caller]
fn done<S: AsRef<OsStr>>(words: &[S]) -> String {
    let output = run(words);
    assert_eq!(
        (output.status.code(), output.stderr.len()),
        (Some(0), 0),
        "{}",
        String::from_utf8_lossy(&output.stderr)
    );
    String::from_utf8(output.stdout).unwrap()
}

fn page(log: &Path) -> String {
    done(&[OsStr::new("page"), log.as_os_str()])
}

/// The lines of `show --slots` of a log, without the header.
fn slots(log: &Path) -> Vec<String> {
    let folder = Folder::new();
    let file = folder.path("x.file");
    let words = [
        OsStr::new("publish"),
        log.as_os_str(),
        "-o".as_ref(),
        file.as_ref(),
    ];
    assert_eq!(run(&words).status.code(), Some(0));
    let shown = done(&[OsStr::new("show"), "--slots".as_ref(), file.as_ref()]);
    shown.lines().skip(1).map(str::to_string).collect()
}

/// What stands between two texts, each time.
fn between<'a>(text: &'a str, from: &str, to: &str) -> Vec<&'a str> {
    let parts = text.split(from).skip(1);
    parts.map(|part| part.split(to).next().unwrap()).collect()
}

fn unescaped(text: &str) -> String {
    let text = text.replace("&lt;", "<").replace("&gt;", ">");
    let text = text.replace("&quot;", "\"").replace("&#39;", "'");
    text.replace("&amp;", "&")
}

/// A section of a page.
fn section<'a>(page: &'a str, name: &str) -> &'a str {
    let found = between(page, &format!("<section id=\"{name}\""), "</section>");
    assert_eq!(found.len(), 1, "{name}");
    found[0]
}

/// The cells of the grid in order, each from its `td` on.
fn cells(page: &str) -> Vec<&str> {
    let body = between(section(page, "slots"), "<tbody>", "</tbody>")[0];
    let cells = between(body, "<td class=\"", "</td>");
    cells
        .into_iter()
        .filter(|cell| cell.contains("aria-label"))
        .collect()
}

fn label(cell: &str) -> String {
    unescaped(between(cell, "aria-label=\"", "\"")[0])
}

/// The class and letter that a record's cell has.
fn kind(quality: &str, method: &str) -> (&'static str, &'static str) {
    match (quality, method) {
        ("A", "0") => ("m", ""),
        ("A", "1") => ("o", "0"),
        ("S", "2" | "18") => ("l", "L"),
        ("S", "3" | "19") => ("d", "D"),
        ("F", "5") => ("f", "F"),
        ("N", "0") => ("n", "N"),
        other => panic!("{other:?}"),
    }
}

/// A label as a line of `show --slots`.
fn as_line(label: &str) -> String {
    let (when, what) = label.split_once('\n').unwrap();
    let (period, value) = when.split_once(", ").unwrap();
    let (date, times) = period.split_once(' ').unwrap();
    let value = value.strip_suffix(" Wh").unwrap().replace(',', "");
    let (_, record) = what.split_once(": quality ").unwrap();
    let (quality, method) = record.split_once(", method ").unwrap();
    format!("{date},{},{value},{quality},{method}", &times[..5])
}

/// Holds the cells of a page of up to 62 days against the slots, and gives the kinds that it met.
fn holds_cells(page: &str, log: &Path) -> BTreeSet<String> {
    let (cells, slots) = (cells(page), slots(log));
    assert_eq!(cells.len(), slots.len());
    let mut met = BTreeSet::new();
    for (cell, slot) in cells.iter().zip(&slots) {
        assert_eq!(&as_line(&label(cell)), slot);
        let fields: Vec<&str> = slot.split(',').collect();
        let (class, letter) = kind(fields[3], fields[4]);
        assert!(cell.starts_with(&format!("{class}\"")), "{slot}: {cell}");
        assert_eq!(cell.contains("href="), class != "m", "{slot}: {cell}");
        assert!(
            letter.is_empty() || cell.contains(&format!(">{letter}</a>")),
            "{slot}: {cell}"
        );
        met.insert(format!("{} {}", fields[3], fields[4]));
    }
    met
}

/// Each anchor stands once, each link leads to one, and nothing else is referred to.
fn holds_links(page: &str) {
    let mut anchors = HashMap::new();
    for anchor in between(page, " id=\"", "\"") {
        *anchors.entry(anchor).or_insert(0) += 1;
    }
    assert!(anchors.values().all(|count| *count == 1));
    for link in between(page, "href=\"", "\"") {
        let target = link.strip_prefix('#').expect(link);
        assert!(anchors.contains_key(target), "{link}");
    }
    let page = page.to_ascii_lowercase();
    for word in [
        "http:", "https:", "//", "src=", "url(", "@import", "<link", "<img", "<iframe", "<object",
        "<embed", "<base", "srcset", "fetch(", "import(", "xmlhttp", "data:", "file:",
    ] {
        assert!(!page.contains(word), "{word}");
    }
}

/// The cells that are not simply delivered lead to their ways, which lead back.
fn holds_ways(page: &str) {
    let ways: Vec<&str> = between(page, "<div id=\"way-", "</details>");
    let linked: Vec<&str> = cells(page)
        .into_iter()
        .filter(|cell| cell.contains("href="))
        .collect();
    assert_eq!(ways.len(), linked.len().min(2_000));
    for (way, cell) in ways.iter().zip(&linked) {
        let slot = way.split('"').next().unwrap();
        assert_eq!(between(cell, "href=\"#way-", "\""), [slot]);
        assert_eq!(between(cell, "id=\"slot-", "\""), [slot]);
        assert_eq!(between(way, "href=\"#slot-", "\""), [slot]);
        let text = between(way, "<pre>", "</pre>")[0];
        let when = label(cell).split_once(',').unwrap().0.to_string();
        assert!(
            text.starts_with(&format!("slot {slot}: {when}\n")),
            "{text}"
        );
    }
    for cell in linked.iter().skip(2_000) {
        assert_eq!(between(cell, "href=\"", "\""), ["#more-ways"]);
    }
}

/// The text of each way is what `follow` writes.
fn holds_texts(page: &str, log: &Path, every: usize) {
    let texts = between(section(page, "ways"), "<pre>", "</pre>");
    for text in texts.into_iter().step_by(every).map(unescaped) {
        let words: Vec<&str> = text.split_whitespace().take(4).collect();
        let follow = [
            OsStr::new("follow"),
            log.as_os_str(),
            words[2].as_ref(),
            words[3].as_ref(),
        ];
        assert_eq!(text, done(&follow));
    }
}

/// Without markup.
fn plain(html: &str) -> String {
    let mut text = String::new();
    for part in html.split('<') {
        text += part.split_once('>').map_or(part, |(_, text)| text);
        text.push('|');
    }
    unescaped(&text)
}

/// The table of the spans has what `show --spans` writes.
fn holds_spans(page: &str, log: &Path) {
    let folder = Folder::new();
    let file = folder.path("x.file");
    run(&[
        OsStr::new("publish"),
        log.as_os_str(),
        "-o".as_ref(),
        file.as_ref(),
    ]);
    let spans = done(&[OsStr::new("show"), "--spans".as_ref(), file.as_ref()]);
    let rows = between(section(page, "spans"), "<tr><th scope=\"row\">", "</tr>");
    assert_eq!(rows.len(), spans.lines().count() - 1);
    for (row, span) in rows.iter().zip(spans.lines().skip(1)) {
        let text = plain(&row.replace(',', ""));
        for field in span.split(',') {
            assert!(text.contains(field), "{span}: {text}");
        }
    }
}

/// The spans have the measured sum V, and T where it was shared out, that the ways tell.
fn holds_shares(page: &str) -> usize {
    let rows = between(section(page, "spans"), "<tr><th scope=\"row\">", "</tr>");
    let rows: Vec<String> = rows
        .iter()
        .map(|row| plain(&row.replace(',', "")))
        .collect();
    let mut met = 0;
    for way in between(section(page, "ways"), "<pre>", "</pre>") {
        let told = |from: &str| between(way, from, ",").first().map(|text| text.to_string());
        let (Some(dates), Some(sum)) = (
            told("\nspan: ").filter(|text| text.len() == 24),
            told(", V "),
        ) else {
            continue;
        };
        let (first, last) = dates.split_once(" to ").unwrap();
        let row = rows
            .iter()
            .find(|row| row.starts_with(first) && row.contains(last))
            .unwrap();
        assert!(row.contains(&format!("|{sum}|")), "{way}: {row}");
        let shared = told("\nscaled: T ").map(|total| format!("|{total} Wh over "));
        assert!(
            shared.is_none_or(|shared| row.contains(&shared)),
            "{way}: {row}"
        );
        met += 1;
    }
    met
}

/// The list of refused calls has what `answers --refused` writes.
fn holds_refused(page: &str, log: &Path) {
    let refused = done(&[OsStr::new("answers"), log.as_os_str(), "--refused".as_ref()]);
    let (conflicts, others): (Vec<&str>, Vec<&str>) = refused
        .lines()
        .partition(|line| line.contains(": refused 10:"));
    let rows = between(section(page, "refused"), "<tr><td", "</tr>");
    assert_eq!(rows.len(), conflicts.len() + others.len());
    for (row, line) in rows.iter().zip(conflicts.iter().chain(&others)) {
        let (number, rest) = line
            .strip_prefix("line ")
            .unwrap()
            .split_once(": refused ")
            .unwrap();
        let (code, words) = rest.split_once(": ").unwrap();
        let text = plain(row);
        assert!(
            text.starts_with(&format!("{number}|"))
                && text.contains(&format!("|{code}|"))
                && text.contains(words),
            "{line}: {text}"
        );
    }
}

#[test]
fn sample_logs() {
    for name in SAMPLES {
        let log = log(name);
        let page = page(&log);
        holds_cells(&page, &log);
        holds_links(&page);
        holds_ways(&page);
        holds_texts(&page, &log, 1);
        holds_spans(&page, &log);
        holds_refused(&page, &log);
        assert_eq!(holds_shares(&page) > 0, name != "wrap", "{name}");
    }
}

/// A generator of its own, so that a failure comes again.
struct Draws(u64);

impl Draws {
    fn below(&mut self, bound: u64) -> u64 {
        self.0 ^= self.0 << 13;
        self.0 ^= self.0 >> 7;
        self.0 ^= self.0 << 17;
        self.0 % bound
    }

    fn one_in(&mut self, bound: u64) -> bool {
        self.below(bound) == 0
    }
}

/// The calls of a slot: mostly a delivery, at times nothing, an odd status, an agreed value, a correction or a conflict.
fn slot_lines(draws: &mut Draws, slot: u64, loss: u64, lost: &mut u64) -> String {
    let mut text = String::new();
    if *lost == 0 && draws.below(1000) < loss {
        *lost = 1 + draws.below(8);
    }
    if *lost == 0 {
        let status = if draws.one_in(40) { draws.below(8) } else { 0 };
        text += &format!("delivery {slot} 1 {} {status}\n", draws.below(800));
    }
    *lost = lost.saturating_sub(1);
    if draws.one_in(60) {
        text += &format!("agreed {slot} 1 {}\n", draws.below(600));
    }
    if draws.one_in(80) {
        text += &format!(
            "delivery {slot} {} {} 0\n",
            draws.below(3),
            draws.below(800)
        );
    }
    text
}

/// A random log of so many days.
fn random_log(seed: u64, days: u64, interval: u64) -> String {
    let mut draws = Draws(seed.wrapping_mul(0x9e37_79b9_7f4a_7c15) | 1);
    let in_day = 1440 / interval;
    let loss = match draws.below(4) {
        0 => 0,
        1 => 5,
        2 => 30,
        _ => 200,
    };
    let (month, first) = (1 + draws.below(12), 1 + draws.below(28));
    let mut text = format!(
        "# {seed}\nopen 20{:02}-{month:02}-{first:02} {days} {interval} 1 {}\n",
        draws.below(98),
        draws.below(900)
    );
    let (mut dial, mut lost) = (draws.below(100_000_000), 0);
    for day in 0..days {
        if draws.one_in(9) {
            text += &format!("holiday {day}\n");
        }
        if draws.one_in(4) {
            text += &format!(
                "register {day} 1 {} {}\n",
                dial % 100_000_000,
                draws.below(2) * draws.below(90)
            );
        }
        for slot in day * in_day..(day + 1) * in_day {
            text += &slot_lines(&mut draws, slot, loss, &mut lost);
        }
        dial += in_day * 410;
    }
    text + &format!(
        "register {days} 1 {}\nregister {} 1 5\nholiday {days}\n",
        dial % 100_000_000,
        days + 1
    )
}

#[test]
fn random_logs() {
    let folder = Folder::new();
    let mut met = BTreeSet::new();
    let days = [2, 8, 20, 62, 1].into_iter().cycle();
    let sizes = days.zip([15, 5, 30].into_iter().cycle());
    for (seed, (days, interval)) in (1..=24).zip(sizes) {
        let text = random_log(seed, days, interval);
        let log = folder.write("x.log", text);
        let page = page(&log);
        met.extend(holds_cells(&page, &log));
        holds_links(&page);
        holds_ways(&page);
        holds_texts(&page, &log, 97);
        holds_spans(&page, &log);
        holds_refused(&page, &log);
    }
    let all = ["A 0", "A 1", "F 5", "N 0", "S 18", "S 19", "S 2", "S 3"];
    assert!(met.iter().eq(all), "{met:?}");
}

#[test]
fn half_hours_and_weeks_over_62_days() {
    let folder = Folder::new();
    let log = folder.write("x.log", random_log(3, 63, 5));
    let page = page(&log);
    holds_links(&page);
    let (cells, slots) = (cells(&page), slots(&log));
    assert_eq!((cells.len(), slots.len()), (63 * 48, 63 * 288));
    assert_eq!(
        between(section(&page, "curves"), "<figure", "</figure>").len(),
        9
    );
    for (cell, slots) in cells.iter().zip(slots.chunks(6)) {
        let fields: Vec<Vec<&str>> = slots.iter().map(|slot| slot.split(',').collect()).collect();
        let sum: u64 = fields
            .iter()
            .map(|slot| slot[2].parse::<u64>().unwrap())
            .sum();
        let label = label(cell);
        let (when, what) = label.split_once('\n').unwrap();
        assert!(
            when.starts_with(&format!("{} {} to ", fields[0][0], fields[0][1])),
            "{when}"
        );
        assert!(
            when.replace(',', "").ends_with(&format!(" {sum} Wh")),
            "{when}"
        );
        for slot in fields {
            assert!(
                what.contains(&format!("quality {}, method {}", slot[3], slot[4])),
                "{what}"
            );
        }
    }
}

#[test]
fn two_thousand_ways_and_then_the_command() {
    let folder = Folder::new();
    let log = folder.write("it's.log", "open 2024-05-01 31 5 1 0\n");
    let page = page(&log);
    holds_cells(&page, &log);
    holds_links(&page);
    holds_ways(&page);
    let more = plain(between(&page, "<p id=\"more-ways\">", "</p>")[0]);
    let name = log.to_str().unwrap().replace('\'', r"'\''");
    assert!(
        more.contains(&format!("sawmauve follow '{name}' 2024-05-07 22:40|")),
        "{more}"
    );
    assert!(more.starts_with("6,928 more"), "{more}");
}

#[test]
fn curves_of_each_day() {
    let page = page(&log("month"));
    let curves = between(section(&page, "curves"), "<figure", "</figure>");
    assert_eq!(curves.len(), 31);
    let fitted: Vec<usize> = (0..31)
        .filter(|day| curves[*day].contains("class=\"b\""))
        .collect();
    let slots = slots(&log("month"));
    let days: BTreeSet<usize> = (0..slots.len())
        .filter(|at| slots[*at].contains(",S,1"))
        .map(|at| at / 48)
        .collect();
    assert!(!days.is_empty() && days.into_iter().eq(fitted));
}

#[test]
fn heading_in_words() {
    let page = page(&log("month"));
    let text = plain(between(&page, "<header>", "</header>")[0]);
    for words in [
        "month.log",
        "2024-05-01 to 2024-05-31, 31 days",
        "30 minutes",
        "70,000 W",
        "500 Wh",
        "773,038",
        "Of 1,488 slots:",
    ] {
        assert!(text.contains(words), "{words}: {text}");
    }
    let slots = slots(&log("month"));
    for (records, words) in [
        (&[",A,0"][..], "measured"),
        (&[",A,1"], "zeroed by an outage"),
        (&[",S,2", ",S,18"], "on a line"),
        (&[",S,3", ",S,19"], "from other days"),
        (&[",F,5"], "agreed"),
        (&[",N,0"], "missing"),
    ] {
        let count = slots
            .iter()
            .filter(|slot| records.iter().any(|record| slot.ends_with(record)))
            .count();
        let count = match count {
            1000.. => format!("{},{:03}", count / 1000, count % 1000),
            _ => count.to_string(),
        };
        assert!(
            text.contains(&format!("{count}| {words}|")),
            "{count} {words}: {text}"
        );
    }
}

#[test]
fn markup_and_odd_bytes_are_text() {
    let folder = Folder::new();
    let name = OsStr::from_bytes(b"<b>&\xff'\"\x1b.log");
    let text = "# <script>alert(1)</script> & \"x\" \u{202e}\nopen 2024-05-01 1 30 1 0\ndelivery 99 1 5 0\r\n";
    let log = folder.write(name, text);
    let page = page(&log);
    holds_links(&page);
    assert_eq!(page.matches("<script>").count(), 1);
    assert!(page.contains("<h1><bdi>&lt;b&gt;&amp;\u{fffd}&#39;&quot;\u{fffd}.log</bdi></h1>"));
    assert!(
        page.contains(
            "<bdi>&lt;script&gt;alert(1)&lt;/script&gt; &amp; &quot;x&quot; \u{202e}</bdi>"
        )
    );
    assert!(page.contains("<code><bdi>delivery 99 1 5 0</bdi></code>"));
    let word = unescaped(between(&page, "<code>sawmauve follow ", "</code>")[0]);
    let shell_reads = format!(
        "bash -c \"printf %s {}\"",
        word.replace('\\', r"\\").replace('$', r"\$")
    );
    assert_eq!(shell(&shell_reads).stdout, log.as_os_str().as_bytes());
}

/// The slots that differ, by `compare --csv`, with ours and theirs.
fn differing(ours: &Path, theirs: &Path) -> Vec<String> {
    let folder = Folder::new();
    let files = [ours, theirs].map(|log| {
        let file = folder.path(log.file_name().unwrap()).with_extension("file");
        run(&[
            OsStr::new("publish"),
            log.as_os_str(),
            "-o".as_ref(),
            file.as_ref(),
        ]);
        file
    });
    let output = run(&[
        "compare".as_ref(),
        files[0].as_os_str(),
        files[1].as_os_str(),
        "--csv".as_ref(),
    ]);
    let text = String::from_utf8(output.stdout).unwrap();
    text.lines()
        .filter(|line| line.starts_with("slot,"))
        .map(str::to_string)
        .collect()
}

/// A label of a cell that differs as a line of `compare --csv`, up to the difference.
fn as_pair(label: &str) -> String {
    let lines: Vec<&str> = label.lines().collect();
    let side = |line: &str, name: &str| {
        let (value, rest) = line
            .strip_prefix(name)
            .unwrap()
            .split_once(" Wh, ")
            .unwrap();
        let (quality, method) = rest
            .split_once(": quality ")
            .unwrap()
            .1
            .split_once(", method ")
            .unwrap();
        format!("{},,{quality},{method}", value.replace(',', ""))
    };
    format!(
        "slot,{},{},{}",
        &lines[0][..16],
        side(lines[1], "ours "),
        side(lines[2], "theirs ")
    )
}

#[track_caller]
fn holds_two(ours: &Path, theirs: &Path) {
    let page = done(&[OsStr::new("page"), ours.as_os_str(), theirs.as_os_str()]);
    holds_links(&page);
    let outlined: Vec<&str> = cells(&page)
        .into_iter()
        .filter(|cell| cell.contains(" differs "))
        .collect();
    let want = differing(ours, theirs);
    assert_eq!(outlined.len(), want.len());
    for (cell, line) in outlined.iter().zip(&want) {
        let fields: Vec<&str> = line.split(',').collect();
        let without_end = [&fields[..2], &fields[3..11]].concat().join(",");
        assert_eq!(as_pair(&label(cell)), without_end);
    }
    let rows = between(section(&page, "differ"), "<tr id=\"differ-", "</tr>");
    assert_eq!(rows.len(), want.len());
    let equal = cells(&page)
        .into_iter()
        .filter(|cell| !cell.contains(" differs "))
        .map(label);
    let own: Vec<String> = slots(ours);
    assert!(
        equal
            .map(|label| as_line(&label))
            .all(|line| own.contains(&line))
    );
}

#[test]
fn two_logs() {
    let offices = home().join("../examples/two-offices");
    holds_two(&offices.join("ours.log"), &offices.join("theirs.log"));
    let folder = Folder::new();
    for seed in 1..=6 {
        let text = random_log(seed, 3, 30);
        let kept = |at: usize| !(at as u64 * seed).is_multiple_of(11) || at < 2;
        let theirs: Vec<&str> = text
            .lines()
            .enumerate()
            .filter(|(at, _)| kept(*at))
            .map(|(_, line)| line)
            .collect();
        let (ours, theirs) = (
            folder.write("ours.log", &text),
            folder.write("theirs.log", theirs.join("\n")),
        );
        holds_two(&ours, &theirs);
        holds_two(&ours, &ours);
    }
}

#[test]
fn the_lists_of_reconcile() {
    let offices = home().join("../examples/two-offices");
    let (ours, theirs) = (offices.join("ours.log"), offices.join("theirs.log"));
    let page = done(&["page".as_ref(), ours.as_os_str(), theirs.as_os_str()]);
    let text = plain(&page).replace('|', " ");
    let told = String::from_utf8(
        run(&["reconcile".as_ref(), ours.as_os_str(), theirs.as_os_str()]).stdout,
    )
    .unwrap();
    let lists = told.split("moved:").next().unwrap();
    for line in lists.lines().filter(|line| line.starts_with(' ')) {
        let words = line
            .trim()
            .replacen(": delivery", " delivery", 1)
            .replace(": stands", " stands");
        let words: Vec<&str> = words.split_whitespace().collect();
        let all: Vec<&str> = text.split_whitespace().collect();
        assert!(all.windows(words.len()).any(|part| part == words), "{line}");
    }
}

#[test]
fn logs_of_other_times() {
    let folder = Folder::new();
    let ours = folder.write("a.log", "open 2024-05-01 1 30 1 0\n");
    let theirs = folder.write("b.log", "open 2024-05-01 2 30 1 0\n");
    let page = done(&["page".as_ref(), ours.as_os_str(), theirs.as_os_str()]);
    holds_links(&page);
    assert!(
        page.contains("The slots are other times: no more is compared.")
            && !page.contains("<table")
    );
}

#[test]
fn written_whole_or_not_at_all() {
    let folder = Folder::new();
    let good = folder.write("good.log", "open 2024-05-01 1 30 1 0\n");
    let bad = folder.write("bad.log", "open 2024-05-01 1 30 1 0\nholiday  0\n");
    let out = folder.write("month.html", "old");
    let words = |log: &Path, out: &Path| -> Vec<OsString> {
        vec!["page".into(), log.into(), "-o".into(), out.into()]
    };
    is_trouble(&run(&words(&bad, &out)), "bad.log:2: not a call");
    assert_eq!(fs::read(&out).unwrap(), b"old");
    ends(&run(&words(&good, &out)), 0, b"", "");
    assert_eq!(fs::read_to_string(&out).unwrap(), page(&good));
    is_trouble(&run(&words(&good, &good)), "good.log: the log itself");
    is_trouble(&run(&words(&good, &folder.0)), "is a directory");
    is_trouble(
        &run(&words(&good, &folder.path("none/month.html"))),
        "No such file or directory",
    );
    is_trouble(
        &run(&words(&good, Path::new("/dev/full"))),
        "No space left on device",
    );
    let mut two = words(&good, &good);
    two.insert(1, folder.path("good.log").into());
    is_trouble(&run(&two), "good.log: the log itself");
    assert_eq!(folder.names(), ["bad.log", "good.log", "month.html"]);
    assert_eq!(
        fs::read_to_string(&good).unwrap(),
        "open 2024-05-01 1 30 1 0\n"
    );
}

#[test]
fn standard_input_and_output() {
    let folder = Folder::new();
    let good = folder.write("good.log", "open 2024-05-01 1 30 1 0\n");
    let name = good.display();
    let written = shell(&format!("$S page - -o - < {name}"));
    let text = String::from_utf8(written.stdout).unwrap();
    assert_eq!(
        (
            written.status.code(),
            text.contains("<h1><bdi>standard input</bdi></h1>")
        ),
        (Some(0), true)
    );
    assert_eq!(
        shell(&format!("$S page - {name} < {name}")).status.code(),
        Some(0)
    );
    is_trouble(
        &run(&["page", "-", "-"]),
        "only one of the two can be standard input",
    );
    is_trouble(
        &shell(&format!("$S page {name} > /dev/full")),
        "standard output: No space left on device",
    );
    is_trouble(
        &shell(&format!("$S page {name} >&-")),
        "standard output: closed",
    );
}

#[test]
fn wrong_uses() {
    let quiet = log("quiet-day");
    let quiet = quiet.to_str().unwrap();
    is_trouble(&run(&["page"]), "page: wants a log or two logs");
    is_trouble(
        &run(&["page", quiet, quiet, quiet]),
        "page: wants a log or two logs",
    );
    is_trouble(&run(&["page", quiet, "-o"]), "-o wants a value");
    is_trouble(&run(&["page", quiet, "--slots"]), "no option of page");
    is_trouble(
        &run(&["page", "none.log"]),
        "none.log: No such file or directory",
    );
    is_trouble(
        &run(&["page", quiet, "none.log"]),
        "none.log: No such file or directory",
    );
    let file = expected("month.file");
    is_trouble(
        &run(&["page", file.to_str().unwrap()]),
        "month.file:1: not a call",
    );
}
