//! Document 01's machine, sheet reader and runner written once more, and what is needed to compare another program with them.

pub mod cover;
pub mod damage;
pub mod differ;
pub mod form;
pub mod generate;
pub mod help;
pub mod random;
pub mod reach;
pub mod runner;
pub mod scene;
pub mod sheet;
pub mod start;
pub mod step;
pub mod style;
pub mod table;
pub mod watch;
