// Refusals, by the numbers and words of document 01's table.
use core::fmt;

/// Why an entry refused: a number of the table. Nothing was changed then.
#[derive(Debug, Clone, Copy, PartialEq, Eq, Hash)]
pub struct Refusal {
    pub number: u32,
}

macro_rules! refusals {
    ($($name:ident = $number:literal, $words:literal;)*) => {
        /// The refusals of the table, by name.
        #[allow(non_upper_case_globals)]
        impl Refusal {
            $(#[doc = $words] pub const $name: Refusal = Refusal { number: $number };)*

            /// The refusal of a number, as it stands in a hex line's answer; none for 0 and past the table.
            pub fn from_number(number: u32) -> Option<Refusal> {
                match number {
                    $($number => Some(Refusal::$name),)*
                    _ => None,
                }
            }
        }

        impl fmt::Display for Refusal {
            fn fmt(&self, f: &mut fmt::Formatter) -> fmt::Result {
                f.write_str(match self.number {
                    $($number => $words,)*
                    _ => return write!(f, "answer {}", self.number),
                })
            }
        }
    };
}

refusals! {
    StoreOver = 1, "store over its limit, or room used above its length";
    NoRecord = 2, "words are no record, more than 4,096, or some left over";
    BadText = 3, "text too long, or a span ends past it";
    BadName = 4, "a name is not UTF-8";
    BadExpr = 5, "an expression is not a constant expression";
    ItemLarge = 6, "item over 65,536 bytes";
    StoreFull = 7, "room used + item length + 5 above store length";
    BadOrder = 8, "order list too long or with another id";
    NoFrames = 9, "frames from byte 0 don't end at room used";
    OutputShort = 10, "output shorter than the result";
    NothingToRead = 11, "no item of that section, or no number of that kind, begins the bytes";
    BadLine = 12, "hex line malformed, too long, or with a wrong sum";
}

impl Refusal {
    /// Its number in the table.
    pub fn number(self) -> u32 {
        self.number
    }
}

impl core::error::Error for Refusal {}

/// What stands beside the answer 0, or the refusal.
pub(crate) fn told<T>(number: u32, value: T) -> Result<T, Refusal> {
    if number == 0 { Ok(value) } else { Err(Refusal { number }) }
}

#[cfg(test)]
mod tests {
    use super::*;
    use alloc::string::{String, ToString};
    use alloc::vec::Vec;

    #[test]
    fn words_of_the_table() {
        let all: Vec<String> = (1..=12).map(|number| Refusal { number }.to_string()).collect();
        assert!(all.iter().all(|words| !words.starts_with("answer")));
        assert!((0..12).all(|i| !all[..i].contains(&all[i])));
        assert_eq!(told(10, 0).unwrap_err().to_string(), "output shorter than the result");
    }

    #[test]
    fn numbers_and_words_of_the_table() {
        let all: Vec<Refusal> = (0..100).filter_map(Refusal::from_number).collect();
        assert!(all.iter().map(|r| r.number()).eq(1..=12));
        assert!((0..12).all(|i| all[..i].iter().all(|r| r.to_string() != all[i].to_string())));
        assert_eq!((told(10, 0), Refusal::OutputShort.to_string().as_str()), (Err(Refusal::OutputShort), "output shorter than the result"));
    }
}
