// Answers the oracle's calls by the proved functions, as rust/tests/calls has it: one line in, one line out.
#[path = "../rust/tests/calls/mod.rs"]
mod calls;

fn main() {
    for line in std::io::read_to_string(std::io::stdin()).unwrap().lines() {
        println!("{}", calls::answer(line));
    }
}
