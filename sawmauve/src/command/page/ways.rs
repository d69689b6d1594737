//! The way of each slot that is not simply delivered, in `follow`'s text, folded until it is asked for.

use super::super::way;
use super::cells::{Kind, short_words};
use super::html::{counted, escaped, grouped, shell_word};
use super::month::Month;
use sawmauve::Error;
use std::panic::resume_unwind;
use std::thread;

/// The most ways of a page.
pub const MOST: usize = 2_000;

/// The least number of ways that a thread is started for.
const LEAST: usize = 64;

/// The anchor of the command that gives the other ways.
const MORE: &str = "more-ways";

/// The slots that are not simply delivered.
pub struct Ways {
    slots: Vec<u32>,
}

impl Ways {
    pub fn of(month: &Month) -> Ways {
        let slots = (0..).zip(month.slots());
        Ways {
            slots: slots
                .filter(|(_, slot)| Kind::of(slot) != Kind::Measured)
                .map(|(at, _)| at)
                .collect(),
        }
    }

    /// Those whose ways stand in the page.
    fn told(&self) -> &[u32] {
        &self.slots[..self.slots.len().min(MOST)]
    }

    /// Where the way of a slot stands.
    pub fn anchor(&self, slot: u32) -> String {
        match self.told().last() {
            Some(last) if slot <= *last => format!("way-{slot}"),
            _ => MORE.to_string(),
        }
    }

    /// The command for the ways that are not in the page.
    fn more(&self, month: &Month) -> String {
        let Some(next) = self.slots.get(MOST) else {
            return String::new();
        };
        format!(
            "<p id=\"{MORE}\">{} more: for each the command with its date and time, for the next one \
             <code>sawmauve follow {} {}</code></p>\n",
            grouped((self.slots.len() - MOST) as u128),
            shell_word(month.name),
            month.times().slot(*next)
        )
    }

    /// All ways of the page.
    pub fn section(&self, month: &Month) -> Result<String, Error> {
        if self.slots.is_empty() {
            return Ok("<p>None: every slot is as it was delivered.</p>\n".to_string());
        }
        let told = self.told();
        let texts = way::Ways::of(&month.log, &month.played, |slot| {
            told.binary_search(&slot).is_ok()
        })?;
        let items = on_all_cores(told, |slot| item(month, slot, &texts.text(slot)?))?;
        let count = counted(self.slots.len(), "slot is", "slots are");
        let command = shell_word(month.name);
        Ok(format!(
            "<p>{count} not simply delivered. Each opens to what <code>sawmauve follow {command}</code> prints of it.</p>\n\
             <div class=\"ways\">\n{}</div>\n{}",
            items,
            self.more(month)
        ))
    }
}

/// What is made of each slot, one after the other, made in parts on all cores: of a slot in a long span it is dear, since its explanation
/// sums the span.
fn on_all_cores<F>(slots: &[u32], make: F) -> Result<String, Error>
where
    F: Fn(u32) -> Result<String, Error> + Sync,
{
    let cores = thread::available_parallelism().map_or(1, usize::from);
    let (size, make) = (slots.len().div_ceil(cores).max(LEAST), &make);
    thread::scope(|scope| {
        let parts = slots.chunks(size).map(|part| {
            let all = move || {
                part.iter()
                    .map(|slot| make(*slot))
                    .collect::<Result<String, Error>>()
            };
            let worker = thread::Builder::new().spawn_scoped(scope, all);
            (worker, all)
        });
        let parts: Vec<_> = parts.collect();
        let texts = parts.into_iter().map(|(worker, all)| match worker {
            // A panic ends the command before it comes here: `report_panics`.
            Ok(worker) => worker.join().unwrap_or_else(|panic| resume_unwind(panic)),
            Err(_) => all(),
        });
        texts.collect()
    })
}

/// A way below its slot; the anchor stands inside, so that a link to it unfolds it.
fn item(month: &Month, slot: u32, text: &str) -> Result<String, Error> {
    let record = month
        .slots()
        .get(slot as usize)
        .ok_or(Error::Refused(sawmauve::Refusal::Place))?;
    let (kind, size) = (Kind::of(record), month.slots_per_cell());
    let cell = slot / size * size;
    Ok(format!(
        "<details><summary><span class=\"key {}\" aria-hidden=\"true\">{}</span> {} · {} Wh · {}</summary>\
         <div id=\"way-{slot}\"><pre>{}</pre><a href=\"#slot-{cell}\">back to its cell</a></div></details>\n",
        kind.class(),
        kind.letter(),
        month.period(slot, 1),
        grouped(record.value),
        short_words(record),
        escaped(text)
    ))
}
