//! Generated lists of calls, made on the emulator, on a twin of it with other garbage, and on the
//! second program, and compared after every call.

#![forbid(unsafe_code)]

mod account;
pub mod call;
pub mod damage;
pub mod device_files;
pub mod events;
pub mod generate;
pub mod interrupts;
pub mod meaning;
pub mod pairs;
pub mod programs;
pub mod queues;
pub mod random;
pub mod run;
pub mod shorten;
pub mod streams;
pub mod trio;
