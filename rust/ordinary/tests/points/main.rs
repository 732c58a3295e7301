//! Points of the requirements one by one, and the cases of the programs.

mod cases;
mod codes;
mod desk;
mod further;
mod keyboard;
mod kinds;
mod lacking;
mod returning;
mod shift;
mod support;
