//! The oracle's own test, a program apart from the comparison: `build --test`.
#![allow(dead_code)]

mod layout;
mod oracle;
mod oracle_test;

fn main() {
    oracle_test::all();
}
