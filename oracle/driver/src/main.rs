//! Reads a script of calls from standard input, makes them through the original, and prints its answers.
//!
//! The script language is that of `raytable`. What only this program prints: `panic MESSAGE` where the original
//! panics, `inexpressible WHY` where the original cannot be handed the input, `absent` for a call that it does not
//! have, and `ok longer required=R ...` where its answer is longer than the buffer that the line lends.

mod calls;
mod faults;
mod kinds;
mod sources;
mod words;

use std::any::Any;
use std::io::{self, BufWriter, Read, Write};
use std::panic::{self, AssertUnwindSafe};
use std::thread;

use calls::Session;

/// Room for sources that are nested as deep as a table has records.
const STACK: usize = 1 << 30;

fn main() {
    // A panic is an answer here, so nothing is written about it elsewhere.
    panic::set_hook(Box::new(|_| {}));
    let work = thread::Builder::new().stack_size(STACK).spawn(run).expect("a thread");
    if let Err(payload) = work.join() {
        eprintln!("oracle: {}", message(&*payload));
        std::process::exit(1);
    }
}

fn run() {
    let mut text = Vec::new();
    io::stdin().read_to_end(&mut text).expect("the script");
    let mut output = BufWriter::new(io::stdout().lock());
    let mut session = Session::default();
    for (place, line) in text.split(|&byte| byte == b'\n').enumerate() {
        let words: Vec<&[u8]> = line
            .split(|byte| b" \t\r".contains(byte))
            .filter(|word| !word.is_empty())
            .collect();
        if words.first().is_none_or(|word| word[0] == b'#') {
            continue;
        }
        let answer = panic::catch_unwind(AssertUnwindSafe(|| session.answer(&words)));
        let answer = match answer {
            Ok(Some(answer)) => answer,
            Ok(None) => "no call".into(),
            Err(payload) => format!("panic {}", message(&*payload).replace('\n', " ")),
        };
        writeln!(output, "{} {answer}", place + 1).expect("the answers");
    }
}

fn message(payload: &(dyn Any + Send)) -> &str {
    payload
        .downcast_ref::<String>()
        .map(String::as_str)
        .or_else(|| payload.downcast_ref::<&str>().copied())
        .unwrap_or("without a message")
}
