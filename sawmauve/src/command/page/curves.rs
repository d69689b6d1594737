//! Each day's curve, in a long book each week's: what was measured and what was filled as areas, and before the dial as a line.

use super::cells::{ALL, Cell, Kind};
use super::html::{counted, escaped, grouped};
use super::month::Month;

/// The height of a curve in the units of its drawing.
const HEIGHT: u64 = 200;

/// A book of fewer days has its curves side by side, and not by weekdays.
const WEEK: usize = 7;

/// The highest value of all cells, which is the top of every curve.
fn top(month: &Month) -> u64 {
    let values = month
        .cells()
        .map(|cell| cell.value().max(cell.value_before().unwrap_or(0)));
    values.max().unwrap_or(0).max(1)
}

fn height(value: u64, top: u64) -> u64 {
    let height = u128::from(value) * u128::from(HEIGHT) / u128::from(top.max(1));
    // No value is above the top, so that the height is at most the drawing's.
    HEIGHT - u64::try_from(height).unwrap_or(HEIGHT).min(HEIGHT)
}

/// A curve of steps through the places that have a height; `ground` closes each unbroken run of them to an area.
fn steps(heights: impl Iterator<Item = Option<u64>>, ground: bool) -> String {
    let (mut path, mut open) = (String::new(), false);
    for (x, y) in heights.chain([None]).enumerate() {
        match (y, open) {
            (Some(y), true) => path += &format!("V{y}h1"),
            (Some(y), false) if ground => path += &format!("M{x} {HEIGHT}V{y}h1"),
            (Some(y), false) => path += &format!("M{x} {y}h1"),
            (None, true) if ground => path += &format!("V{HEIGHT}z"),
            (None, _) => {}
        }
        open = y.is_some();
    }
    path
}

fn path(class: &str, drawn: &str) -> String {
    match drawn.is_empty() {
        true => String::new(),
        false => format!("<path class=\"{class}\" d=\"{drawn}\"/>"),
    }
}

/// The area of the cells that have a slot of a kind, on top of those nearer to measured. A slot that is missing or zeroed has no value to
/// draw: the whole height is marked.
fn area(cells: &[Cell], kind: Kind, top: u64) -> String {
    let heights = cells.iter().map(|cell| match kind {
        _ if !cell.has(kind) => None,
        Kind::Missing | Kind::Outage => Some(0),
        _ => Some(height(cell.value_up_to(kind), top)),
    });
    path(kind.class(), &steps(heights, true))
}

/// All areas. In cells of several slots each stands in front of those on top of it; else what was filled has its outline in front.
fn areas(month: &Month, cells: &[Cell], top: u64) -> String {
    let mut kinds = ALL;
    kinds.sort();
    if month.slots_per_cell() > 1 {
        kinds.reverse();
    }
    kinds.map(|kind| area(cells, kind, top)).concat()
}

fn before(cells: &[Cell], top: u64) -> String {
    let heights = cells
        .iter()
        .map(|cell| Some(height(cell.value_before()?, top)));
    path("b", &steps(heights, false))
}

/// Lines at 06:00, 12:00 and 18:00, or between the days of a week.
fn ticks(width: usize, apart: usize) -> String {
    let places = (1..).map(|tick| tick * apart).take_while(|x| *x < width);
    path(
        "t",
        &places
            .map(|x| format!("M{x} 0v{HEIGHT}"))
            .collect::<String>(),
    )
}

/// The curve in words.
fn words(month: &Month, cells: &[Cell]) -> String {
    let kinds = ALL.into_iter().filter_map(|kind| {
        let slots = cells.iter().flat_map(|cell| cell.slots);
        let count = slots.filter(|slot| Kind::of(slot) == kind).count();
        (count != 0).then(|| format!("{} {}", counted(count, "slot", "slots"), kind.words()))
    });
    let kinds = kinds.collect::<Vec<_>>().join(", ");
    let Some(highest) = cells.iter().max_by_key(|cell| cell.value()) else {
        return kinds;
    };
    let (value, time) = (grouped(highest.value()), month.period_of(highest));
    format!("{kinds}; highest {value} Wh, {time}")
}

fn drawing(month: &Month, cells: &[Cell], top: u64) -> String {
    let width = match month.is_long() {
        true => cells.len().max(WEEK * month.cells_per_day()),
        false => month.cells_per_day(),
    };
    let apart = if month.is_long() {
        width / WEEK
    } else {
        width / 4
    };
    format!(
        "<svg viewBox=\"0 0 {width} {HEIGHT}\" preserveAspectRatio=\"none\" role=\"img\" aria-label=\"{}\">{}{}{}</svg>",
        escaped(&words(month, cells)),
        areas(month, cells, top),
        ticks(width, apart.max(1)),
        before(cells, top)
    )
}

fn figure(month: &Month, day: u32, cells: &[Cell], top: u64) -> String {
    let in_day = month.head().slots_per_day().max(1);
    let last = cells.last().map_or(day, |cell| cell.first / in_day);
    let totals = month.totals.get(day as usize..=last as usize);
    let totals = totals.unwrap_or(&[]).iter().map(|total| u128::from(*total));
    let (total, weekday) = (grouped(totals.sum::<u128>()), month.weekday(day) + 1);
    let until = match last == day {
        true => String::new(),
        false => format!(" to {}", month.date(last)),
    };
    format!(
        "<figure class=\"on-{weekday}\"><figcaption><a href=\"#day-{day}\">{}{until}</a> <span>{total} Wh</span></figcaption>{}</figure>\n",
        month.date(day),
        drawing(month, cells, top)
    )
}

/// How to read the curves.
fn legend(month: &Month, top: u64) -> String {
    let (cell, lines, filled) = match month.is_long() {
        true => (
            30,
            "between the days",
            "on what was measured of its half hour",
        ),
        false => (
            month.head().interval,
            "at 06:00, 12:00 and 18:00",
            "with a broken outline",
        ),
    };
    format!(
        "<p>The top of every curve is {} Wh in {cell} minutes; the upright lines are {lines}.</p>\n\
         <ul class=\"legend\"><li><span class=\"key curve m\" aria-hidden=\"true\"></span> measured</li>\
         <li><span class=\"key curve l\" aria-hidden=\"true\"></span><span class=\"key curve d\" aria-hidden=\"true\"></span>\
         <span class=\"key curve f\" aria-hidden=\"true\"></span> filled: on a line, from other days, agreed, {filled}</li>\
         <li><span class=\"key curve b\" aria-hidden=\"true\"></span> filled, before it was fitted to the dial</li>\
         <li><span class=\"key curve n\" aria-hidden=\"true\"></span> missing</li>\
         <li><span class=\"key curve o\" aria-hidden=\"true\"></span> zeroed by an outage</li></ul>\n",
        grouped(top)
    )
}

pub fn curves(month: &Month) -> String {
    let cells: Vec<Cell> = month.cells().collect();
    let (top, days) = (top(month), if month.is_long() { WEEK } else { 1 });
    let class = match month.head().day_count() as usize {
        _ if month.is_long() => "weeks",
        0..WEEK => "few",
        _ => "days",
    };
    let parts = cells.chunks(days * month.cells_per_day());
    let figures = (0..)
        .step_by(days)
        .zip(parts)
        .map(|(day, cells)| figure(month, day, cells, top));
    let figures: String = figures.collect();
    format!(
        "{}<div class=\"curves {class}\">\n{figures}</div>\n",
        legend(month, top)
    )
}
