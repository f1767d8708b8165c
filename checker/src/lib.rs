//! A checker of Dalelead, written from its scope paper (document 01), the layout of its work area and include/dalelead.h alone. It has
//! a meaning, a merge, a propagation, a book of calls, a test of wholeness, an OPB reader and a console of its own, and drivers that
//! compare a library and programs with them.

pub mod alarm;
pub mod assignments;
pub mod book;
pub mod calls;
pub mod console;
pub mod console_driver;
pub mod direct;
pub mod drive;
pub mod generate;
pub mod largest;
pub mod library;
pub mod listing;
pub mod meaning;
pub mod merge;
pub mod misread;
pub mod mutate;
pub mod opb;
pub mod planted;
pub mod programs;
pub mod random;
pub mod reach;
pub mod scripts;
pub mod selftest;
pub mod shrink;
pub mod standin;
pub mod texts;
pub mod whole;
