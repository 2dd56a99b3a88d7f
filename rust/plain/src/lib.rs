//! A plain reader of PRICAT 2.0d and 2.0c price sheets, written from document 01, items 1, 2, 4 and 6, the settled readings
//! and the guides' pages.
//!
//! It is the other side of the comparison: nothing here is taken from the proved library. The layers stand as the
//! paper has them: `marks` has the service characters, `segments` knows segments and messages, `cut` separators, `text`
//! reads decoded components, `guide`, `pages` and `edition` are the tables, `judge` puts a verdict on one message
//! (`answers`), `agree` is rule 23, `reader` has the calls, `report` the lines.

mod agree;
mod answers;
mod cut;
mod edition;
mod guide;
mod judge;
mod library;
mod marks;
mod pages;
mod reader;
mod reading;
mod report;
mod segments;
mod text;

pub use answers::Verdict;
pub use library::{Library, Plain};
pub use marks::Characters;
pub use reader::{article, judge_at, next_message, prices, segment_at, survey, without_releases, Article, Survey};
pub use reading::Reading;
pub use report::report;
