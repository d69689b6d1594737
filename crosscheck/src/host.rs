//! The other build, `libsawmauve.a`, by the safe functions of the package `sawmauve`. Every list
//! is lent as `guard` has it.

use sawmauve::calls;

use crate::compare::side::{Answer, Side};
use crate::guard::{lent, lent_mut};
use crate::second::book::Filed;
use crate::second::head::Head;
use crate::second::lists::{Agreement, Delivery, Lists, RegisterRead};
use crate::second::market::{Codes, Texts};
use crate::second::reader::Figures;
use crate::tries::dates::Books;
use crate::tries::dials::Dials;
use crate::tries::explain::Explains;
use crate::tries::logs::Logs;
use crate::tries::strips::Strips;

/// A call with the ten lists of a book, `&` or `&mut` each, between what comes before and after.
macro_rules! with_book {
    ($call:ident($($before:expr),*; $($borrowed:tt)+)($lists:ident)($($after:expr),*)) => {
        calls::$call(
            $($before,)*
            $($borrowed)+ $lists.values,
            $($borrowed)+ $lists.versions,
            $($borrowed)+ $lists.statuses,
            $($borrowed)+ $lists.holidays,
            $($borrowed)+ $lists.readings,
            $($borrowed)+ $lists.read_versions,
            $($borrowed)+ $lists.agreed,
            $($borrowed)+ $lists.agreed_versions,
            $($borrowed)+ $lists.counts,
            $($borrowed)+ $lists.widths,
            $($after,)*
        )
    };
}

fn given(head: Head) -> sawmauve::Head {
    sawmauve::Head {
        year: head.year,
        month: head.month,
        day: head.day,
        days: head.days,
        interval: head.interval,
        limit: head.limit,
        tolerance: head.tolerance,
    }
}

pub fn stays(file: &[u8], pairs: &[u32], totals: &mut [u64]) -> u32 {
    calls::stays(&lent(file), &lent(pairs), &mut lent_mut(totals))
}

pub fn limit(table: &[u32], kind: u32) -> u32 {
    calls::limit(&lent(table), kind)
}

pub fn nem12(file: &[u8], texts: &Texts, codes: Codes, out: &mut [u8]) -> u64 {
    let [method_2, method_3, method_5, method_18, method_19] = codes;
    calls::nem12(
        &lent(file),
        &lent(texts.identifier),
        &lent(texts.from),
        &lent(texts.to),
        &lent(texts.configuration),
        &lent(texts.register_id),
        &lent(texts.suffix),
        &lent(texts.stream),
        &lent(texts.serial),
        &lent(texts.next_read),
        &lent(texts.reason),
        &lent(texts.created),
        method_2,
        method_3,
        method_5,
        method_18,
        method_19,
        &mut lent_mut(out),
    )
}

pub fn simulate(
    head: Head,
    seed: u32,
    loss: u32,
    lists: &mut Lists,
    out: &mut [u8],
    report: &mut [i64],
) -> u32 {
    with_book!(simulate(given(head), seed, loss; &mut)(lists)(
        &mut lent_mut(out),
        &mut lent_mut(report)
    ))
}

fn explain(head: Head, lists: &Lists, slot: u32, fields: &mut [u64]) -> u32 {
    with_book!(explain(given(head); &)(lists)(slot, &mut lent_mut(fields)))
}

pub fn play(log: &[u8], lists: &mut Lists, answers: &mut [u8]) -> u32 {
    with_book!(play(&lent(log); &mut)(lists)(&mut lent_mut(answers)))
}

/// The host's packed decimal.
pub const DIALS: Dials = Dials {
    pack: |reading, bytes| calls::pack(reading, &mut lent_mut(bytes)),
    unpack: |bytes| calls::unpack(&lent(bytes)),
};

/// The host's strips and their inverse.
pub const STRIPS: Strips = Strips {
    to: |interval, table, out| calls::to_strips(interval, &lent(table), &mut lent_mut(out)),
    from: |interval, strips, out| calls::from_strips(interval, &lent(strips), &mut lent_mut(out)),
};

/// The host's logs, and what goes with them.
pub const LOGS: Logs = Logs {
    log: |log, figures| calls::log(&lent(log), &mut lent_mut(figures)),
    log_line: |log| calls::log_line(&lent(log)),
    play,
    call: |line, fields| calls::call(&lent(line), &mut lent_mut(fields)),
    slot: |head, [year, month, day], minute| calls::slot(given(head), year, month, day, minute),
    date: calls::date,
    line: |file, out| calls::line(&lent(file), &mut lent_mut(out)),
};

/// The host's opening and publishing.
pub const BOOKS: Books = Books {
    open: |head, lists| Host.open(head, lists),
    publish: |head, lists, out| Host.publish(head, lists, out),
};

/// The host's way of one slot, and its publishing.
pub const EXPLAINS: Explains = Explains {
    explain,
    publish: |head, lists, out| Host.publish(head, lists, out),
};

/// The host as a side of the comparison.
pub struct Host;

/// How many figures the host's reader gives.
const FIGURES: usize = 9;

/// What `figures` holds before the host's reader is called.
const UNWRITTEN: u64 = 0xA5C3_96E1_5A3C_691E;

/// None of 01's numbers: a refused file's figures were written all the same.
pub const WRITTEN_ON_REFUSAL: u64 = 999;

fn filed(code: u32) -> Answer {
    match code {
        0 => Answer::Filed(Filed::Stored),
        100 => Answer::Filed(Filed::Late),
        101 => Answer::Filed(Filed::Repeat),
        number => Answer::Refused(number.into()),
    }
}

impl Side for Host {
    fn open(&self, head: Head, lists: &mut Lists) -> Answer {
        match with_book!(open(given(head); &mut)(lists)()) {
            0 => Answer::Done,
            number => Answer::Refused(number.into()),
        }
    }

    fn deliver(&self, head: Head, lists: &mut Lists, delivery: Delivery) -> Answer {
        filed(calls::deliver(
            given(head),
            &mut lists.values,
            &mut lists.versions,
            &mut lists.statuses,
            &mut lists.counts,
            delivery.slot,
            delivery.version,
            delivery.value,
            delivery.status,
        ))
    }

    fn holiday(&self, head: Head, lists: &mut Lists, day: u32) -> Answer {
        filed(calls::holiday(given(head), &mut lists.holidays, day))
    }

    fn register(&self, head: Head, lists: &mut Lists, read: RegisterRead) -> Answer {
        filed(calls::register(
            given(head),
            &mut lists.readings,
            &mut lists.read_versions,
            &mut lists.widths,
            read.boundary,
            read.version,
            read.reading,
            read.width,
        ))
    }

    fn agree(&self, head: Head, lists: &mut Lists, agreement: Agreement) -> Answer {
        filed(calls::agree(
            given(head),
            &mut lists.agreed,
            &mut lists.agreed_versions,
            agreement.slot,
            agreement.version,
            agreement.value,
        ))
    }

    fn publish(&self, head: Head, lists: &Lists, out: &mut [u8]) -> Answer {
        match with_book!(publish(given(head); &)(lists)(&mut lent_mut(out))) {
            number @ 0..=31 => Answer::Refused(number),
            length => Answer::Length(length),
        }
    }

    fn read(&self, file: &[u8]) -> Result<Figures, u64> {
        let file = lent(file);
        let mut figures = [UNWRITTEN; FIGURES];
        let number = calls::read(&file, &mut lent_mut(&mut figures));
        if number == 0 {
            return Ok(figures_of(figures));
        }
        if figures == [UNWRITTEN; FIGURES] {
            Err(number.into())
        } else {
            Err(WRITTEN_ON_REFUSAL)
        }
    }

    fn tables(&self, file: &[u8]) -> u64 {
        calls::tables(&lent(file))
    }

    /// `sawmauve_check` answers as `sawmauve_read` does; a list of figures that is not 9 long is refused, 2, and not written.
    fn keeps_convention(&self, file: &[u8]) -> bool {
        let file = lent(file);
        let number = calls::read(&file, &mut [UNWRITTEN; FIGURES]);
        let checked = calls::check(&file) == number;
        checked
            && [0, 1, FIGURES - 1, FIGURES + 1].into_iter().all(|len| {
                let mut figures = vec![UNWRITTEN; len];
                let number = calls::read(&file, &mut lent_mut(&mut figures));
                number == 2 && figures.iter().all(|&figure| figure == UNWRITTEN)
            })
    }
}

fn figures_of(figures: [u64; FIGURES]) -> Figures {
    let [
        first_day,
        days,
        interval,
        spans,
        actual,
        substituted,
        none,
        sum,
        layout,
    ] = figures;
    Figures {
        first_day,
        days,
        interval,
        spans,
        actual,
        substituted,
        none,
        sum,
        layout,
    }
}
