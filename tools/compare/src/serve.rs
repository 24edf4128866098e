//! The Rust in the place of our programs, to try the way there and back: `serve` for `trace`, `print` for `scriptrun`.

use crate::layout::{request, *};
use crate::oracle::{self, Oracle};
use crate::records;
use crate::script_text;
use std::io::{BufRead, BufReader, BufWriter, Read, Write, stdin, stdout};

/// Answers requests until there are no more.
pub fn requests() -> std::io::Result<()> {
    let mut input = BufReader::with_capacity(1 << 16, stdin().lock());
    let mut output = BufWriter::with_capacity(1 << 16, stdout().lock());
    let mut bytes: Request = [0; request::SIZE];
    while !input.fill_buf()?.is_empty() {
        input.read_exact(&mut bytes)?;
        output.write_all(&*answer(&bytes))?;
        if input.buffer().len() < request::SIZE {
            output.flush()?;
        }
    }
    output.flush()
}

fn answer(bytes: &Request) -> Box<Reply> {
    let record = &bytes[request::RECORD..request::IMAGE];
    if bytes[request::KIND] == request::EVENT {
        let image: &Image = bytes[request::IMAGE..].try_into().unwrap();
        return Oracle::load(image).event(records::trimmed(record)).reply;
    }
    match records::read_board(record) {
        Some((board, _)) => Oracle::start(&board).0.reply,
        None => oracle::malformed_board().reply,
    }
}

/// Prints what `scriptrun` prints.
pub fn script() -> std::io::Result<()> {
    let mut script = Vec::new();
    stdin().lock().read_to_end(&mut script)?;
    stdout()
        .lock()
        .write_all(script_text::text(&script, |_, _| ()).0.as_bytes())
}
