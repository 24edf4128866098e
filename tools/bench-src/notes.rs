//! What has to be said of the figures, in words.

/// With a place for each cost, and for what was met on the way down the stack.
pub const NOTES: &str = "\
What is compared:

- Both run in one process, a repetition of ours and one of the Rust's in turn. A repetition of a call is {rounds} rounds over
  {instances} boards of the kind, in a warm cache; what brings a board to where the call begins, and back, is not timed. On either
  side a call is one call of a function that is not inlined.
- Before anything is timed, both sides' codes and stored states (affinities, CPUs, entries, domains, mode) are compared after each
  step on each board, and the whole output of the script; a difference ends the run.
- The Rust takes a spin lock for each node, and calls the platform and the SPM, whose stand-ins do nothing but keep their argument
  alive. Ours takes no lock, and gives back the code and the states: the notices are its caller's to make of them.
- The Rust is compiled for the board's own counts, with opt-level 3, one codegen unit, no debug assertions, no overflow checks and
  panic=abort. Ours is compiled once, for every board up to 16 CPUs.
- The timer costs {timer}, which is subtracted from both. It is measured before each turn, as the other
  costs are.
- A call of the Rust that does not return (off, a suspend to power-down) is left by a switch back to the driver's stack. That costs
  {leave} by itself, and is subtracted from the Rust's figure.
- The Rust's suspend + finish is one call, whose wait returns at once. The wait costs {wait} by itself, and
  is subtracted too. Ours is two calls.
- The event: a script of every call, with one refused on in each round. The Rust has no scripts: there the driver reads the same bytes,
  makes the calls and writes the same answer records, with the states that the Rust's own `set_local_states_from_nodes` reads under its
  locks. So reading and writing is in both figures. A run with no event is subtracted from both,
  and from the Rust's what leaving and waiting cost.
- Stack: the compilers' own report of each frame, in bytes, summed along the deepest chain of calls, with the return addresses, and for
  ours with the arguments that are passed on the stack. It is without what the platform, the SPM and the wait use, and without
  panics. The Rust's event has none: the driver is not the Rust's. {met}";
