//! Tests of the crate against the files of the repository.

#![forbid(unsafe_code)]

mod any_lines;
mod fixed_list;
mod header;
mod scripts;
mod search;
mod sessions;
