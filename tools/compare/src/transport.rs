//! The way to our program and back: one thread writes requests, another reads replies and compares them with what the
//! Rust answered, which waits in a queue of bounded length.

use crate::explain;
use crate::layout::{request, *};
use crate::records;
use crate::shared::{Difference, Shared};
use std::io::{Read, Write};
use std::process::{Child, ChildStdin, ChildStdout, Command, Stdio};
use std::sync::Arc;
use std::sync::atomic::Ordering;
use std::sync::mpsc::{Receiver, SyncSender, sync_channel};
use std::thread::JoinHandle;

const BATCH: usize = 32;
const BATCHES: usize = 512;

/// A request, and the Rust's answer to it.
pub struct Expected {
    pub number: u64,
    pub is_event: bool,
    pub phase: &'static str,
    pub request: Box<Request>,
    pub reply: Box<Reply>,
}

enum Item {
    Expected(Expected),
    /// A line that is printed once all before it is compared.
    Say(String),
    /// A difference that was seen without our program's reply, or in another program.
    Differs(Difference),
}

pub struct Link {
    bytes: Vec<u8>,
    items: Vec<Item>,
    waiting: usize,
    writer: SyncSender<Vec<u8>>,
    reader: SyncSender<Vec<Item>>,
    threads: Vec<JoinHandle<()>>,
    child: Child,
}

impl Link {
    /// Starts our program.
    pub fn new(command: &[String], shared: &Arc<Shared>) -> std::io::Result<Link> {
        let mut child = Command::new(&command[0])
            .args(&command[1..])
            .stdin(Stdio::piped())
            .stdout(Stdio::piped())
            .spawn()?;
        let (input, output) = (child.stdin.take().unwrap(), child.stdout.take().unwrap());
        let (writer, to_write) = sync_channel(BATCHES);
        let (reader, to_read) = sync_channel(BATCHES);
        let shared = shared.clone();
        let threads = vec![
            std::thread::spawn(move || write_all(input, to_write)),
            std::thread::spawn(move || compare_all(output, to_read, &shared)),
        ];
        Ok(Link {
            bytes: Vec::new(),
            items: Vec::new(),
            waiting: 0,
            writer,
            reader,
            threads,
            child,
        })
    }

    pub fn send(&mut self, expected: Expected) {
        self.bytes.extend(*expected.request);
        self.items.push(Item::Expected(expected));
        self.waiting += 1;
        if self.waiting >= BATCH {
            self.flush();
        }
    }

    /// Prints a line once all that was sent before it is compared.
    pub fn say(&mut self, line: String) {
        self.items.push(Item::Say(line));
        self.flush();
    }

    /// Keeps a difference in its place after what was sent before it.
    pub fn differs(&mut self, difference: Difference) {
        self.items.push(Item::Differs(difference));
        self.flush();
    }

    /// A thread that is gone has said why.
    fn flush(&mut self) {
        self.waiting = 0;
        let _ = self.reader.send(std::mem::take(&mut self.items));
        let _ = self.writer.send(std::mem::take(&mut self.bytes));
    }

    /// Waits for the last replies, and for our program to end well.
    pub fn finish(mut self, shared: &Shared) {
        self.flush();
        let Link {
            writer,
            reader,
            threads,
            mut child,
            ..
        } = self;
        drop((writer, reader));
        for thread in threads {
            let _ = thread.join();
        }
        if shared.stopped() {
            let _ = child.kill();
        }
        let status = child.wait();
        if !shared.stopped() && !matches!(&status, Ok(status) if status.success()) {
            let text = format!("our program ended with {status:?}");
            shared.differs(Difference {
                short: text.clone(),
                long: format!("{text}\n"),
            });
        }
    }
}

fn write_all(mut input: ChildStdin, batches: Receiver<Vec<u8>>) {
    for bytes in batches {
        if input.write_all(&bytes).is_err() {
            return;
        }
    }
}

fn compare_all(mut output: ChildStdout, batches: Receiver<Vec<Item>>, shared: &Shared) {
    let mut found: Box<Reply> = Box::new([0; reply::SIZE]);
    for item in batches.iter().flatten() {
        let expected = match item {
            Item::Expected(expected) => expected,
            Item::Say(line) => {
                println!("{line}");
                continue;
            }
            Item::Differs(difference) => {
                shared.differs(difference);
                if shared.stopped() {
                    return;
                }
                continue;
            }
        };
        if output.read_exact(&mut *found).is_err() {
            let short = format!("request {}: our program gives no reply", expected.number);
            let long = format!("{short}\n{}", explain::request(&expected.request));
            shared.differs(Difference { short, long });
            shared.stop();
            return;
        }
        if *expected.reply != *found {
            shared.differs(difference(&expected, &found));
            if shared.stopped() {
                return;
            }
        }
        let events = u64::from(expected.is_event);
        shared.compared.fetch_add(events, Ordering::Relaxed);
    }
    if matches!(output.read(&mut found[..1]), Ok(1)) {
        let text = "our program gives more replies than it was asked".to_string();
        shared.differs(Difference {
            short: text.clone(),
            long: text + "\n",
        });
    }
}

fn difference(expected: &Expected, found: &Reply) -> Difference {
    let list = explain::differing(&*expected.reply, found);
    let record = &expected.request[request::RECORD..];
    let name = if expected.request[request::KIND] == request::START {
        "board"
    } else {
        records::call(record).name()
    };
    let short = format!(
        "request {} ({}), {name}: {}",
        expected.number, expected.phase, list[0].0
    );
    let mut long = format!("{short}\n{}", explain::request(&expected.request));
    for (field, rust, ours) in &list {
        long += &format!("  {field}: the Rust {rust}, ours {ours}\n");
    }
    Difference { short, long }
}
