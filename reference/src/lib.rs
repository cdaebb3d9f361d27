//! The rating scale desk in plain Rust, written from document 01, requests of document
//! 02 and REPLAY.md alone: a second opinion on the proved library. Everything is done by
//! definition, not cleverly, so that it can be read next to the documents.
//!
//! * the library: `table`, `book`, `pooling`, `cutoff`, `shares`, `shortlist`, `events`, `measures`,
//!   `spread`, `desk`, `print`;
//! * the scripts of REPLAY.md: `script` (calls), `answer` (lines);
//! * the generator: `random`, `announced` (rates), `population` (tables), `partners` and `lenders`
//!   (pairs of tables), `lumping` and `rivals` (tables of whole books), `courses` (of tables
//!   by events), `diagonal` (tables for Pietra), `draft` (books), `damage` and `cuts` (of books), `operands`, `scenes`, `cut_scene`,
//!   `pair_scene`, `band_scene`, `empty_scene`, `nearly_empty_scene`, `announced_scene`,
//!   `shares_scene`, `shortlist_scene`, `events_scene`, `tail`, `generate`;
//! * the comparison: `compare`, `tally`, `empty_tally`, `announced_tally`, `shares_tally`,
//!   `shortlist_tally`, `events_tally` and `spots` (what events meet);
//! * `natural`: whole numbers of any size, for the bound on the residual.

pub mod announced;
pub mod announced_scene;
pub(crate) mod announced_tally;
pub mod answer;
pub mod band_scene;
pub mod book;
pub mod compare;
pub mod courses;
pub mod cut_scene;
pub mod cutoff;
pub mod cuts;
pub mod damage;
pub mod desk;
pub mod diagonal;
pub mod draft;
pub mod empty_scene;
pub(crate) mod empty_tally;
pub mod events;
pub mod events_scene;
pub(crate) mod events_tally;
pub mod generate;
pub mod lenders;
pub(crate) mod lumping;
pub mod measures;
pub mod natural;
pub mod nearly_empty_scene;
pub mod operands;
pub mod pair_scene;
pub mod partners;
pub mod pooling;
pub mod population;
pub mod print;
pub mod random;
pub mod rivals;
pub mod scenes;
pub mod script;
pub mod shares;
pub mod shares_scene;
pub(crate) mod shares_tally;
pub mod shortlist;
pub mod shortlist_scene;
pub(crate) mod shortlist_tally;
pub mod spots;
pub mod spread;
pub mod table;
pub mod tail;
pub mod tally;
