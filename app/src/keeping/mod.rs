//! Files of the program's own making: written whole or not at all, and never over what is somebody else's.
mod beside;
pub mod page;
pub mod site;
