//! The month as a grid: a row a day, a cell a slot or half hour, with the day's total and the dial where it was read.

use super::cells::{Cell, Kind};
use super::html::{escaped, grouped};
use super::month::Month;
use sawmauve::Reading;

/// What stands beside the cells of a day: its name, total and dial, as HTML, and whether it is a holiday.
pub struct Margin {
    pub date: String,
    pub total: String,
    pub dial: Option<String>,
    pub is_holiday: bool,
}

/// A dial as it was read: a number, or from one to another.
pub fn dial(reading: Reading) -> Option<String> {
    let Reading {
        version,
        reading,
        width,
    } = reading;
    let highest = u64::from(reading) + u64::from(width);
    match (version, width) {
        (0, _) => None,
        (_, 0) => Some(grouped(reading)),
        _ => Some(format!("{} to {}", grouped(reading), grouped(highest))),
    }
}

/// Of a day, or of the boundary after the last one.
pub fn margin(month: &Month, day: u32) -> Margin {
    let book = &month.played.book;
    let total = month.totals.get(day as usize);
    Margin {
        date: month.date(day),
        total: total.map_or_else(String::new, |total| grouped(*total)),
        dial: book.reading(day).and_then(dial),
        is_holiday: book.is_holiday(day),
    }
}

/// Two columns or more for each hour. Two figures in one place want a wider column.
fn header(margins: &[Margin], cells_per_day: usize) -> String {
    let span = (cells_per_day / 24).max(1);
    let hours = (0..24).map(|hour| format!("<th scope=\"col\" colspan=\"{span}\">{hour:02}</th>"));
    let hours: String = hours.collect();
    let wide = |of: fn(&Margin) -> Option<&String>| {
        margins.iter().filter_map(of).any(|text| text.contains(' '))
    };
    format!(
        "<colgroup><col class=\"date\"><col span=\"{cells_per_day}\"><col class=\"{}\"><col class=\"{}\"></colgroup>\n\
         <thead><tr><th scope=\"col\">Day</th>{hours}<th scope=\"col\">Wh</th><th scope=\"col\">Dial at 00:00</th></tr></thead>\n",
        if wide(|margin| Some(&margin.total)) {
            "total wide"
        } else {
            "total"
        },
        if wide(|margin| margin.dial.as_ref()) {
            "dial wide"
        } else {
            "dial"
        }
    )
}

fn row(day: usize, margin: &Margin, cells: &str) -> String {
    let Margin {
        date,
        total,
        dial,
        is_holiday,
    } = margin;
    let class = if dial.is_some() {
        " class=\"read\""
    } else {
        ""
    };
    let holiday = if *is_holiday {
        " <span class=\"holiday\"><span aria-hidden=\"true\">H</span><span class=\"unseen\">holiday</span></span>"
    } else {
        ""
    };
    let dial = dial.as_deref().unwrap_or("");
    format!(
        "<tr{class} id=\"day-{day}\"><th scope=\"row\">{date}{holiday}</th>{cells}\
         <td class=\"total\">{total}</td><td class=\"dial\">{dial}</td></tr>\n"
    )
}

/// The boundary after the last day.
fn last_row(margin: &Margin, cells_per_day: usize) -> String {
    let Some(dial) = &margin.dial else {
        return String::new();
    };
    let date = &margin.date;
    format!(
        "<tfoot><tr class=\"read\"><th scope=\"row\">{date}</th>\
         <td class=\"after\" colspan=\"{}\"></td><td class=\"dial\">{dial}</td></tr></tfoot>\n",
        cells_per_day + 1
    )
}

/// The table of these cells, each a whole `td`; after the days' margins stands the last boundary's.
pub fn table(margins: &[Margin], cells: &[String], cells_per_day: usize) -> String {
    let days = cells.chunks(cells_per_day).zip(margins).enumerate();
    let rows: String = days
        .map(|(day, (cells, margin))| row(day, margin, &cells.concat()))
        .collect();
    let last = margins
        .last()
        .map_or_else(String::new, |margin| last_row(margin, cells_per_day));
    format!(
        "<p id=\"grid-words\">A row a day, the hours from left to right. <span class=\"holiday\">H</span> is a holiday; \
         a thick line is a boundary at which the dial was read.</p>\n\
         <div class=\"scroll tall\"><table class=\"grid of-{cells_per_day}\" \
         aria-labelledby=\"slots-heading\" aria-describedby=\"grid-words\">\n{}\
         <tbody>\n{rows}</tbody>\n{last}</table></div>\n",
        header(margins, cells_per_day)
    )
}

/// A cell; what is not simply delivered leads to its way.
fn cell(month: &Month, cell: &Cell, linked: impl Fn(u32) -> String) -> String {
    let label = escaped(&cell.label(&month.period_of(cell)));
    let (kind, first) = (cell.kind(), cell.first);
    let (class, letter) = (kind.class(), kind.letter());
    if kind == Kind::Measured {
        return format!("<td class=\"m\" tabindex=\"0\" aria-label=\"{label}\"></td>");
    }
    let not_delivered = (first..)
        .zip(cell.slots)
        .find(|(_, slot)| Kind::of(slot) != Kind::Measured);
    let way = linked(not_delivered.map_or(first, |(slot, _)| slot));
    format!(
        "<td class=\"{class}\"><a id=\"slot-{first}\" href=\"#{way}\" aria-label=\"{label}\">{letter}</a></td>"
    )
}

/// The grid of a month; `way` is the anchor that a slot's way has.
pub fn grid(month: &Month, way: impl Fn(u32) -> String) -> String {
    let cells: Vec<String> = month.cells().map(|one| cell(month, &one, &way)).collect();
    let margins: Vec<Margin> = (0..=month.head().days)
        .map(|day| margin(month, day))
        .collect();
    table(&margins, &cells, month.cells_per_day())
}
