//! The program run as its users run it: exit status, standard output and
//! standard error.

mod descriptors;
mod inputs;
mod lists;
mod maps;
mod merges;
mod pages;
mod plans;
mod requests;
mod run;
mod usage;
mod why;
