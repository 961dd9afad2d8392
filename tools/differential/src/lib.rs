//! A second tool chain for Dana, written from the documents alone, and the comparer that drives a chain against it.

pub mod chain;
pub mod compare;
pub mod damage;
pub mod expect;
pub mod generate;
pub mod inputs;
pub mod machine;
pub mod meaning;
pub mod numbers;
pub mod rng;
pub mod show;
pub mod stand_in;
pub mod statistics;
pub mod table;
pub mod translate;
pub mod tree;
