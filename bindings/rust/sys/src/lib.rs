#![doc = include_str!("../README.md")]
#![no_std]

mod calls;

pub use calls::*;
