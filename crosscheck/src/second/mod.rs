//! The second build. 01: `head`, `book`, `rules`, `file`, `reader`, `contents`, `line`; 02: `dial`,
//! `strips`, `stays`, `limits`, `market`, `simulate`, `reach`; behind both: `explain`, `log`,
//! `moment`. `lists` has the ten lists and the calls over them.

pub mod book;
pub mod contents;
pub mod dial;
pub mod explain;
pub mod file;
pub mod head;
pub mod limits;
pub mod line;
pub mod lists;
pub mod log;
pub mod market;
pub mod moment;
pub mod reach;
pub mod reader;
pub mod refusal;
pub mod rules;
pub mod simulate;
pub mod stays;
pub mod strips;
pub mod trailer;
