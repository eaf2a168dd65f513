//! Two consoles over two parts, given one script: the plain counterpart of the proved library, from the chip up to the account.

pub mod account;
pub mod array;
pub mod book;
pub mod chip;
pub mod console;
pub mod driver;
pub mod geometry;
pub mod part;
pub mod pile;
pub mod script;
