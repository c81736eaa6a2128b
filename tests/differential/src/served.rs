//! The static library's functions, served by a program over its standard input
//! and output: for a processor on which the library can't be linked. `serve.c`
//! says how.

use std::io::{self, BufReader, BufWriter, Read, Write};
use std::process::{ChildStdin, ChildStdout, Command, Stdio};
use std::sync::Mutex;

use reference::To;

use crate::functions::{Functions, SUMMARY};

/// The answer in place of the library's where the server ended, or where
/// something was changed that isn't lent. It is nobody's right answer.
const HARMED: u64 = u64::MAX;

/// The most posts of a net.
const MOST_POSTS: usize = 256;

/// The functions, by their numbers in a request.
#[derive(Clone, Copy)]
enum Function {
    Check,
    Plan,
    Rewrite,
    Margin,
    Drawn,
    ToSecond,
    ToFirst,
}

/// Entries as bytes, lowest first.
trait Entries {
    fn bytes(&self) -> Vec<u8>;
    fn take(&mut self, bytes: &[u8]);
}

macro_rules! entries {
    ($($entry:ty),*) => {$(
        impl Entries for &mut [$entry] {
            fn bytes(&self) -> Vec<u8> {
                self.iter().flat_map(|entry| entry.to_le_bytes()).collect()
            }

            fn take(&mut self, bytes: &[u8]) {
                let each = bytes.chunks_exact(size_of::<$entry>());
                for (entry, bytes) in self.iter_mut().zip(each) {
                    *entry = <$entry>::from_le_bytes(bytes.try_into().expect("as long"));
                }
            }
        }
    )*};
}

entries!(u8, u16, u32, i64);

/// A server that runs.
struct Server {
    to: BufWriter<ChildStdin>,
    from: BufReader<ChildStdout>,
}

impl Server {
    fn start(program: &str) -> io::Result<Self> {
        let mut child = Command::new(program)
            .stdin(Stdio::piped())
            .stdout(Stdio::piped())
            .spawn()?;
        Ok(Server {
            to: BufWriter::new(child.stdin.take().expect("piped")),
            from: BufReader::new(child.stdout.take().expect("piped")),
        })
    }

    fn number(&mut self) -> io::Result<u64> {
        let mut bytes = [0; 8];
        self.from.read_exact(&mut bytes)?;
        Ok(u64::from_le_bytes(bytes))
    }

    /// Asks for a function's answer, and lends it a record and up to four lists.
    fn ask(
        &mut self,
        function: Function,
        numbers: [u64; 3],
        record: &[u8],
        lists: &mut [&mut dyn Entries],
    ) -> io::Result<u64> {
        let lent: Vec<Vec<u8>> = lists.iter().map(|list| list.bytes()).collect();
        let mut lengths = [0; 5];
        lengths[0] = record.len() as u64;
        for (length, list) in lengths[1..].iter_mut().zip(&lent) {
            *length = list.len() as u64;
        }
        for number in [function as u64].iter().chain(&numbers).chain(&lengths) {
            self.to.write_all(&number.to_le_bytes())?;
        }
        self.to.write_all(record)?;
        for list in &lent {
            self.to.write_all(list)?;
        }
        self.to.flush()?;
        let answer = self.number()?;
        let unharmed = self.number()?;
        for (list, mut bytes) in lists.iter_mut().zip(lent) {
            self.from.read_exact(&mut bytes)?;
            list.take(&bytes);
        }
        Ok(if unharmed == 1 { answer } else { HARMED })
    }
}

/// The functions that a program serves. Each thread that asks has a server of
/// its own.
pub struct Served {
    program: String,
    idle: Mutex<Vec<Server>>,
}

impl Served {
    /// The functions that this program serves, if it runs.
    pub fn by(program: &str) -> io::Result<Self> {
        Ok(Served {
            program: program.into(),
            idle: Mutex::new(vec![Server::start(program)?]),
        })
    }

    fn ask(
        &self,
        function: Function,
        numbers: [u64; 3],
        record: &[u8],
        lists: &mut [&mut dyn Entries],
    ) -> u64 {
        let idle = self.idle.lock().expect("no panics").pop();
        let server = idle.map_or_else(|| Server::start(&self.program), Ok);
        let asked = server.and_then(|mut server| {
            let answer = server.ask(function, numbers, record, lists)?;
            Ok((server, answer))
        });
        match asked {
            Ok((server, answer)) => {
                self.idle.lock().expect("no panics").push(server);
                answer
            }
            Err(_) => HARMED,
        }
    }
}

impl Functions for Served {
    fn name(&self) -> &str {
        "the library that is served"
    }

    fn check(&self, record: &[u8]) -> u64 {
        self.ask(Function::Check, [0; 3], record, &mut [])
    }

    fn plan(
        &self,
        record: &[u8],
        mut lightest: &mut [u16],
        mut shortest: &mut [u16],
        mut between: &mut [u16],
        mut summary: &mut [u32],
    ) -> u64 {
        self.ask(
            Function::Plan,
            [0; 3],
            record,
            &mut [&mut lightest, &mut shortest, &mut between, &mut summary],
        )
    }

    fn rewrite(&self, record: &[u8], mut room: &mut [u8]) -> u64 {
        self.ask(Function::Rewrite, [0; 3], record, &mut [&mut room])
    }

    fn moved(&self, record: &[u8], to: To, mut room: &mut [u8]) -> u64 {
        let function = match to {
            To::Second => Function::ToSecond,
            To::First => Function::ToFirst,
        };
        self.ask(function, [0; 3], record, &mut [&mut room])
    }

    fn margin(&self, record: &[u8], tree: u32, post: u32, mut out: &mut [i64]) -> u64 {
        let numbers = [tree.into(), post.into(), 0];
        self.ask(Function::Margin, numbers, record, &mut [&mut out])
    }

    fn drawn(&self, corner: u32, first_bits: u64, second_bits: u64) -> u64 {
        let numbers = [corner.into(), first_bits, second_bits];
        self.ask(Function::Drawn, numbers, &[], &mut [])
    }

    fn printed(&self, record: &[u8]) -> String {
        let mut trees = [[0; MOST_POSTS]; 3];
        let mut numbers = [0; SUMMARY];
        let [lightest, shortest, between] = &mut trees;
        let answer = self.plan(record, lightest, shortest, between, &mut numbers);
        if answer != 0 {
            return format!("refused {} {}\n", answer >> 32, answer as u32);
        }
        let [posts, segments, source, p, q, ..] = numbers;
        let mut text = format!("net {posts} {segments} {source} {p}/{q}\n");
        let measures = numbers[5..11].chunks(2);
        for ((name, tree), measure) in ["mst", "spt", "last"].iter().zip(&trees).zip(measures) {
            text += &format!("{name} {} {}", measure[0], measure[1]);
            for (_, entry) in (0..posts).zip(tree).filter(|(post, _)| *post != source) {
                text += &format!(" {entry}");
            }
            text += "\n";
        }
        text + &format!("laid {}\n", numbers[11])
    }
}
