//! A replay of fan controller traces: the chip is in `keeper`, its register
//! table in `table`, the trace reader and the report in `text`; the search of
//! several keepers on one line in `row`; why the fans run as they do, and since when,
//! in `why`; degrees and revolutions in `panel`.

pub mod keeper;
pub mod panel;
pub mod row;
pub mod table;
pub mod text;
pub mod why;

#[cfg(test)]
mod cards;

pub use panel::panel;
pub use text::replay;
pub use why::why;
