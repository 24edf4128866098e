//! The oracle on its own: the rules' bench cases, an example, node records, and random histories on random boards.

mod cases;
mod histories;
mod make;
mod node_records;
mod random;

pub fn all() {
    cases::bench_cases();
    cases::examples();
    println!("bench cases and examples: as the rules say");
    node_records::answers();
    println!("node records: as the rules say");
    histories::same_on_loaded_states(2000, 100);
}
