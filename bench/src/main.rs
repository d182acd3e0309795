// Times the proved entries against Rust on the same input, in one run, after comparing what they give. Every ratio is the proved entry's time as a part of the
// other's: below 1 the proved one is faster.
mod finishing;
mod growth;
mod leaves;
mod records;
mod rust;
mod sections;
mod timing;

fn main() {
    sections::print();
    finishing::print();
    growth::print();
    leaves::print();
}
