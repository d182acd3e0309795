// The oracle's parts, for its program and for tests that ask it directly: wasm-encoder itself answers, as document 01 says.
pub mod entries;
pub mod item;
pub mod lines;
pub mod make;
pub mod reader;
pub mod record;
pub mod text;
