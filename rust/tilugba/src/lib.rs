//! Financial contracts between parties, in this process: words and files go in as bytes, a status
//! and a text come back, exact to the last decimal.
//!
//! ```
//! use tilugba::{run, Day, Decimal};
//!
//! let loan = b"portfolio 1;
//! amounts 2;
//! party Bank, Shop;
//! asset EUR;
//! contract loan = both(scale(100.00, pay(EUR, Bank, Shop)),
//!                      after(90, scale(105.00, pay(EUR, Shop, Bank))));
//! ";
//! let flows = run(&["flows", "loan.txt"], &[("loan.txt", loan)]).flows()?;
//! assert_eq!(flows[1].to_string(), "loan,90,Shop,Bank,EUR,105.00");
//! assert_eq!(flows[1].day, Day::Number(90));
//! assert_eq!(flows[1].amount, Decimal { mantissa: 10_500, decimals: 2 });
//! # Ok::<(), tilugba::Fault>(())
//! ```
//!
//! The words are those of the program's command line, and a file's name is the word that names it:
//! no file is opened. What stops a command is a [`Fault`]:
//!
//! ```
//! use tilugba::{run, Fault};
//!
//! let text = "portfolio 1;\namounts 2;\nparty A, B\nasset EUR;\n";
//! let fault = run(&["flows", "book"], &[("book", text)]).flows().unwrap_err();
//! assert_eq!(fault, Fault::Text { kind: "syntax".into(), line: 4, column: 1 });
//! assert_eq!(fault.status(), 6);
//! assert_eq!(fault.to_string(), "fault text syntax line 4 column 1");
//! ```
//!
//! What is proved is the function of the library that is called, `tilugba_run`. This crate around
//! it is tested, and not proved.
//!
//! - Any number of threads may call at once, since nothing is kept between calls. A thread needs 2
//!   MB of stack, which [`std::thread`] gives by default.
//! - A call cannot be stopped, and a text at its limits may take minutes and much memory.
//! - The library is for x86-64 with SSE4.2: see [`is_supported`].

#![warn(missing_docs)]

mod decimal;
mod fault;
mod native;
mod rows;

pub use decimal::{Day, Decimal, NoDay, NoNumber};
pub use fault::Fault;
pub use rows::{text_of, Advanced, Flow, Named, Position, Scenarios, Verdict};

use std::fmt;

/// The number of the surface of C that this crate is written for.
pub const ABI: u32 = 1;

/// The status of a run, which is the exit status of the program, and what it has written.
#[derive(Clone, PartialEq, Eq)]
pub struct Answer {
    /// 0 if it is done, and otherwise what stopped it.
    pub status: u32,
    /// The text.
    pub text: Vec<u8>,
}

impl Answer {
    /// The text of a command that was done: of `payoff`, `migrate`, `expand` and `sample`.
    pub fn done(&self) -> Result<&str, Fault> {
        let fault = || Fault::of(self.status, &String::from_utf8_lossy(&self.text));
        match (self.status, std::str::from_utf8(&self.text)) {
            (0, Ok(text)) => Ok(text),
            _ => Err(fault()),
        }
    }
}

impl fmt::Debug for Answer {
    fn fmt(&self, f: &mut fmt::Formatter<'_>) -> fmt::Result {
        write!(
            f,
            "{}: {:?}",
            self.status,
            String::from_utf8_lossy(&self.text)
        )
    }
}

/// Runs the command of the words over the files. Of two files with one name the first counts.
///
/// # Panics
///
/// If the linked library has another surface than [`ABI`].
pub fn run<W, N, B>(words: &[W], files: &[(N, B)]) -> Answer
where
    W: AsRef<[u8]>,
    N: AsRef<[u8]>,
    B: AsRef<[u8]>,
{
    assert_eq!(
        native::abi(),
        ABI,
        "the library and this crate are of two releases"
    );
    let (status, text) = native::call(words, files);
    Answer { status, text }
}

/// Whether this processor runs the library. On one that does not, a call ends the process by a
/// signal.
pub fn is_supported() -> bool {
    #[cfg(target_arch = "x86_64")]
    return std::is_x86_feature_detected!("sse4.2")
        && std::is_x86_feature_detected!("popcnt")
        && std::is_x86_feature_detected!("cmpxchg16b");
    #[cfg(not(target_arch = "x86_64"))]
    false
}
