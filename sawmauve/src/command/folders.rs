//! `compare` of two folders: the files of many meters, by name.

use super::arguments::Arguments;
use super::compare::lacks_words;
use super::differences::signed;
use super::show::quoted;
use super::streams;
use super::tasks::named;
use super::trouble::{Status, Trouble, line_about, tell};
use sawmauve::{Error, File, Lacks, Pair, compare};
use std::collections::BTreeMap;
use std::ffi::{OsStr, OsString};
use std::path::Path;

/// What became of a meter: what its equal files lack, the sums of its differing ones, or which was refused.
enum Meter {
    Equal(Lacks),
    Differs(Pair<u64>),
    OnlyHere,
    OnlyThere,
    Refused(Pair<Option<Error>>),
    Unread,
}

/// The kinds of meters, as the last line counts them.
const KINDS: [&str; 6] = [
    "equal",
    "differ",
    "only here",
    "only there",
    "refused",
    "not read",
];

const HEADER: &str =
    "meter,result,ours Wh,theirs Wh,difference Wh,missing slots,open spans,disagreeing spans\n";

impl Meter {
    /// Its place in `KINDS`.
    fn kind(&self) -> usize {
        match self {
            Meter::Equal(_) => 0,
            Meter::Differs(_) => 1,
            Meter::OnlyHere => 2,
            Meter::OnlyThere => 3,
            Meter::Refused(_) => 4,
            Meter::Unread => 5,
        }
    }

    fn status(&self, complete: bool) -> Status {
        match self {
            Meter::Equal(lacks) if lacks.is_complete() || !complete => Status::Done,
            Meter::Refused(_) | Meter::Unread => Status::Trouble,
            _ => Status::No,
        }
    }

    fn words(&self) -> String {
        match self {
            Meter::Equal(lacks) => format!("equal; {}", lacks_words(lacks)),
            Meter::Differs(sums) => format!("differs by {}", signed(sums.difference())),
            Meter::Refused(Pair { ours, theirs }) => {
                let side =
                    |name, error: &Option<Error>| error.map(|error| format!("{name} {error}"));
                let sides = [side("ours", ours), side("theirs", theirs)];
                sides.into_iter().flatten().collect::<Vec<_>>().join(", ")
            }
            _ => KINDS[self.kind()].to_string(),
        }
    }

    /// The fields after its name.
    fn fields(&self) -> String {
        match self {
            Meter::Equal(lacks) => {
                let (open, disagreeing) = (lacks.open, lacks.disagreeing);
                format!("equal,,,,{},{open},{disagreeing}", lacks.missing)
            }
            Meter::Differs(sums) => {
                let (Pair { ours, theirs }, difference) = (sums, sums.difference());
                format!("differs,{ours},{theirs},{difference},,,")
            }
            _ => format!("{},,,,,,", KINDS[self.kind()]),
        }
    }
}

/// The names of both folders, and which of them has each.
fn names(folders: Pair<&OsStr>) -> Result<BTreeMap<OsString, Pair<bool>>, Trouble> {
    let mut names: BTreeMap<OsString, Pair<bool>> = BTreeMap::new();
    for path in named(Path::new(folders.ours), "file")? {
        let name = path.file_name().unwrap_or_default();
        names.entry(name.into()).or_default().ours = true;
    }
    for path in named(Path::new(folders.theirs), "file")? {
        let name = path.file_name().unwrap_or_default();
        names.entry(name.into()).or_default().theirs = true;
    }
    Ok(names)
}

fn compared(ours: &File, theirs: &File) -> Meter {
    let found = compare(ours, theirs);
    if found.is_empty() {
        Meter::Equal(Lacks::of(ours))
    } else {
        Meter::Differs(found.sums())
    }
}

/// A meter whose file is in both folders; what cannot be read is reported.
fn meter(folders: Pair<&OsStr>, name: &OsStr) -> Meter {
    let read = |folder: &&OsStr| streams::read_file(Path::new(folder).join(name).as_os_str());
    let Pair { ours, theirs } = folders.map(read);
    match (ours, theirs) {
        (Ok(Ok(ours)), Ok(Ok(theirs))) => compared(&ours, &theirs),
        (Ok(ours), Ok(theirs)) => Meter::Refused(Pair {
            ours: ours.err(),
            theirs: theirs.err(),
        }),
        (ours, theirs) => {
            for trouble in [ours.err(), theirs.err()].into_iter().flatten() {
                trouble.tell();
            }
            Meter::Unread
        }
    }
}

fn meters(folders: Pair<&OsStr>) -> Result<Vec<(OsString, Meter)>, Trouble> {
    let meters = names(folders)?.into_iter().map(|(name, has)| {
        let meter = match (has.ours, has.theirs) {
            (true, true) => meter(folders, &name),
            (true, false) => Meter::OnlyHere,
            _ => Meter::OnlyThere,
        };
        (name, meter)
    });
    Ok(meters.collect())
}

fn lines(meters: &[(OsString, Meter)]) -> Vec<u8> {
    let mut out = Vec::new();
    for (name, meter) in meters {
        out.extend(line_about(name, meter.words()));
        out.push(b'\n');
    }
    let count = |kind| {
        meters
            .iter()
            .filter(|(_, meter)| meter.kind() == kind)
            .count()
    };
    let counts = (0..)
        .zip(KINDS)
        .map(|(kind, name)| format!("{} {name}", count(kind)));
    let counts: Vec<String> = counts.collect();
    let noun = if meters.len() == 1 { "meter" } else { "meters" };
    out.extend(format!("{} {noun}: {}\n", meters.len(), counts.join(", ")).into_bytes());
    out
}

fn rows(meters: &[(OsString, Meter)]) -> Vec<u8> {
    let mut out = HEADER.as_bytes().to_vec();
    for (name, meter) in meters {
        out.extend(quoted(name));
        out.extend(format!(",{}\n", meter.fields()).into_bytes());
    }
    out
}

/// Compares the *.file of two folders by name.
pub fn compare_all(arguments: &Arguments, ours: &OsStr, theirs: &OsStr) -> Result<Status, Trouble> {
    let meters = meters(Pair { ours, theirs })?;
    streams::write(&match arguments.has("--csv") {
        true => rows(&meters),
        false => lines(&meters),
    })?;
    let complete = arguments.has("--complete");
    let worst = meters.iter().map(|(_, meter)| meter.status(complete)).max();
    let pairs = meters.iter().filter(|(_, meter)| meter.kind() < 2).count();
    if pairs == 0 {
        tell(b"no two files were compared");
        return Ok(Status::Trouble);
    }
    Ok(worst.unwrap_or(Status::Trouble))
}
