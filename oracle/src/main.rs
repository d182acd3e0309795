// The oracle as a program.
//   oracle lines        hex lines on standard input, answer lines on standard output
//   oracle entries      calls that hex lines cannot reach, one a line (src/entries.rs)
//   oracle make lines SEED, oracle make list SEED, oracle make entries SEED, oracle make reads SEED, oracle make short BYTE, oracle make modules SEED
//                       a generated input file: hex lines, many of them, or calls; or modules of standard features, in hexadecimal (src/make.rs)
use oracle::{entries, lines, make};
use std::io::{Read, Write};

fn main() {
    let args: Vec<String> = std::env::args().skip(1).collect();
    let args: Vec<&str> = args.iter().map(String::as_str).collect();
    let input = || {
        let mut all = vec![];
        std::io::stdin().read_to_end(&mut all).expect("standard input");
        all
    };
    let output = match args[..] {
        ["lines"] => lines::answers(&input()).into_bytes(),
        ["filled"] => lines::filled(&input()),
        ["entries"] => String::from_utf8(input()).expect("text").lines().flat_map(|l| (entries::answer(l) + "\n").into_bytes()).collect(),
        ["make", kind, seed] => make::file(kind, seed.parse().expect("SEED is a number")),
        _ => {
            eprintln!("usage: oracle lines | filled | entries | make lines|list|entries|reads|short|modules SEED");
            std::process::exit(2);
        }
    };
    std::io::stdout().write_all(&output).expect("standard output");
}
