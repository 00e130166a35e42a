//! A second model of 01 (the GridStep sequence board) with 02's followers, turns and rates, a leaping peer, the proved
//! library, and lists of calls to compare them by.

pub mod against;
pub mod bench;
pub mod call;
pub mod cards;
pub mod followers;
pub mod gen;
pub mod library;
pub mod lists;
pub mod model;
pub mod peer;
pub mod plot;
pub mod rates;
pub mod record;
pub mod refused;
pub mod script;
pub mod tally;
pub mod ticks;
pub mod track;
pub mod traps;
pub mod turns;
