//! The library: no input makes it panic, and its types say what the exports do.

use sawmauve::{
    Accepted, Book, Call, Date, Error, File, Head, Log, Method, Quality, REFUSALS, Refusal, State,
    calls, from_strips, simulate,
};

const HEAD: Head = Head {
    year: 2024,
    month: 5,
    day: 1,
    days: 1,
    interval: 30,
    limit: 40_000,
    tolerance: 0,
};

/// 01's whole case.
fn whole() -> Book {
    let mut book = Book::open(HEAD).unwrap();
    for slot in (0..48).filter(|slot| *slot != 10) {
        assert_eq!(book.deliver(slot, 1, 100, 0), Ok(Accepted::Stored));
    }
    book
}

#[test]
fn the_whole_case() {
    let file = File::read(whole().publish().unwrap()).unwrap();
    assert_eq!(file.line().unwrap(), b"2024-05-01 1 30 47 1 0 4800");
    let values = file.slots().iter().map(|slot| slot.value);
    assert_eq!(values.sum::<u32>(), 4800);
    assert_eq!(file.slots()[10].quality, Quality::Substituted);
    assert_eq!(file.spans().len(), 0);
    assert_eq!(file.stays(&[(0, 1)]), Ok(vec![4800]));
    let strips = file.strips().unwrap();
    assert_eq!(from_strips(30, &strips).unwrap(), file.slot_table());
    let told = whole().explain(10).unwrap();
    assert_eq!((told.outcome.value, told.line.unwrap().length), (100, 1));
}

#[test]
fn without_its_readings_a_book_has_what_was_filled() {
    let bytes = std::fs::read(concat!(
        env!("CARGO_MANIFEST_DIR"),
        "/../examples/month.log"
    ));
    let book = Log::read(&bytes.unwrap()).unwrap().play().unwrap().book;
    let slots = |book: &Book| {
        File::read(book.publish().unwrap())
            .unwrap()
            .slots()
            .to_vec()
    };
    let (filled, fitted) = (slots(&book.unread()), slots(&book));
    for (at, slot) in (0..).zip(&filled) {
        let told = book.explain(at).unwrap().filled;
        let record = (u64::from(slot.value), slot.quality, slot.method);
        assert_eq!(record, (told.value, told.quality, told.method));
    }
    assert_eq!((filled.len(), filled == fitted), (1488, false));
    assert!((0..=31).all(|day| book.is_holiday(day) == [0, 8].contains(&day)));
}

/// Each byte is one of these, printed as it stands in a file or on a page, or refused.
fn all_of<T: TryFrom<u8, Error = Error> + ToString>(known: &[(u8, &str)]) {
    for byte in 0..=u8::MAX {
        let known = known.iter().find(|(number, _)| *number == byte);
        let want = known.map(|(_, text)| text.to_string());
        let want = want.ok_or(Error::Unknown(byte.into()));
        assert_eq!(T::try_from(byte).map(|one| one.to_string()), want);
    }
}

#[test]
fn qualities_methods_and_states() {
    all_of::<Quality>(&[(b'A', "A"), (b'S', "S"), (b'F', "F"), (b'N', "N")]);
    all_of::<Method>(&[
        (0, "0"),
        (1, "1"),
        (2, "2"),
        (3, "3"),
        (5, "5"),
        (18, "18"),
        (19, "19"),
    ]);
    all_of::<State>(&[(0, "agrees"), (1, "scaled"), (2, "open"), (3, "disagrees")]);
}

#[test]
fn refusals_have_01s_numbers() {
    assert!(
        (1..)
            .zip(REFUSALS)
            .all(|(number, refusal)| refusal.number() == number)
    );
    assert_eq!((Refusal::of(0), Refusal::of(23)), (None, None));
    assert_eq!(Refusal::of(10), Some(Refusal::Conflict));
    assert_eq!(Refusal::Seed.to_string(), "refused 20: a seed of 0");
    let mut book = whole();
    let refused = |refusal| Err(Error::Refused(refusal));
    assert_eq!(book.deliver(48, 1, 100, 0), refused(Refusal::Place));
    assert_eq!(book.deliver(0, 0, 100, 0), refused(Refusal::Version));
    assert_eq!(book.deliver(0, 2, 100, 256), refused(Refusal::Status));
    assert_eq!(book.deliver(0, 1, 101, 0), refused(Refusal::Conflict));
    assert_eq!(
        book.register(0, 1, 100_000_000, 0),
        refused(Refusal::Reading)
    );
    assert_eq!(book.register(0, 1, 0, 10_000), refused(Refusal::Width));
    assert_eq!(book.agree(0, 1, 100_000_000), refused(Refusal::Agreed));
    assert_eq!(book.holiday(1), refused(Refusal::Place));
    assert_eq!(
        book.explain(48).unwrap_err(),
        Error::Refused(Refusal::Place)
    );
    assert_eq!(book, whole());
}

#[test]
fn heads_of_any_kind() {
    for interval in [0, 1, 7, 30, u32::MAX] {
        for days in [0, 401, u32::MAX] {
            let head = Head {
                interval,
                days,
                ..HEAD
            };
            assert_eq!(Book::open(head).unwrap_err(), Error::Refused(Refusal::Head));
            assert_eq!(
                simulate(head, 1, 1).unwrap_err(),
                Error::Refused(Refusal::Head)
            );
            let date = Date {
                year: 0,
                month: 13,
                day: 32,
            };
            assert!(head.slot_at(date, 1440).is_err());
        }
    }
}

#[test]
fn lists_of_any_length() {
    assert_eq!(
        calls::deliver(HEAD, &mut [], &mut [], &mut [], &mut [], 0, 1, 1, 0),
        2
    );
    assert_eq!(calls::stays(&[], &[], &mut []), 8);
    assert_eq!(calls::limit(&[], 1), 100_000_013);
    assert_eq!(calls::read(&[], &mut []), 2);
    assert_eq!(
        calls::play(
            b"open",
            &mut [],
            &mut [],
            &mut [],
            &mut [],
            &mut [],
            &mut [],
            &mut [],
            &mut [],
            &mut [],
            &mut [],
            &mut []
        ),
        105
    );
}

#[test]
fn logs() {
    let text =
        b"limits 1000 40000\nopen 2024-05-01 1 30 2 0\n# c\r\nregister 0 1 12\ndelivery 0 1 5 0";
    let log = Log::read(text).unwrap();
    assert_eq!(
        (log.head(), log.call_count(), log.lines().count()),
        (HEAD, 2, 5)
    );
    let played = log.play().unwrap();
    assert_eq!(
        played
            .answers()
            .map(|answer| answer.to_string())
            .collect::<Vec<_>>(),
        ["", "done", "", "stored", "stored"]
    );
    assert_eq!((played.refused(), played.book.counts()), ((0, 0), &[1][..]));
    let mut book = Book::open(HEAD).unwrap();
    book.register(0, 1, 12, 0).unwrap();
    book.deliver(0, 1, 5, 0).unwrap();
    assert_eq!(played.book, book);
    assert_eq!(
        Call::read(b"register 0 1 12"),
        Ok(Some(Call::Register {
            boundary: 0,
            version: 1,
            reading: 12,
            width: 0
        }))
    );
    assert_eq!(Call::read(b"delivery 0 1 5"), Ok(None));
    assert_eq!(Log::read(b"").unwrap_err(), Error::NoOpening);
    assert_eq!(Log::read(b"\nx").unwrap_err(), Error::NotACall(2));
    assert_eq!(
        Log::read(b"limits 0").unwrap_err(),
        Error::RefusedLine(1, Refusal::Table)
    );
}

#[test]
fn dates() {
    for (text, number) in [
        ("2000-01-01", 0),
        ("2000-02-29", 59),
        ("2099-12-31", 36_524),
        ("2100-01-01", 36_525),
    ] {
        let date = Date::parse(text.as_bytes()).unwrap();
        assert_eq!(
            (date.day_number(), date.to_string()),
            (Some(number), text.to_string())
        );
    }
    for text in [
        "1999-12-31",
        "2001-02-29",
        "2100-01-02",
        "2024-00-10",
        "9999-99-99",
    ] {
        assert_eq!(
            Date::parse(text.as_bytes()).unwrap().day_number(),
            None,
            "{text}"
        );
    }
    for text in ["", "2024-5-01", "2024-05-01 ", "2024/05/01", "x024-05-01"] {
        assert_eq!(Date::parse(text.as_bytes()), None, "{text}");
    }
    assert!((0..=36_525).all(|day| Date::of(day).and_then(Date::day_number) == Some(day)));
    assert_eq!(Date::of(36_526), None);
}

#[test]
fn damaged_files_do_not_panic() {
    let good = whole().publish().unwrap();
    for at in 0..good.len() {
        for bit in 0..8 {
            let mut bytes = good.clone();
            bytes[at] ^= 1 << bit;
            if let Ok(file) = File::read(bytes) {
                assert_eq!(file.slots().len(), 48);
            }
        }
        assert!(File::read(good[..at].to_vec()).is_err());
    }
}
