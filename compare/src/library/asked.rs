//! A process that answers for the proved implementation.

use std::io::{BufRead, BufReader, BufWriter, Read, Write};
use std::process::{Child, ChildStdin, ChildStdout, Command, Stdio};

/// How many counts the driver gives back for every call.
pub const COUNTS: usize = 4;

/// A process that is asked on its standard input and answers on its standard output.
pub struct Asked {
    _child: Child,
    to: BufWriter<ChildStdin>,
    from: BufReader<ChildStdout>,
}

impl Asked {
    /// The process of the command that a variable of the environment holds, if it does.
    pub fn named(variable: &str) -> Option<Asked> {
        let command = std::env::var(variable).ok()?;
        let mut words = command.split_whitespace();
        let mut child = Command::new(words.next()?)
            .args(words)
            .stdin(Stdio::piped())
            .stdout(Stdio::piped())
            .spawn()
            .expect("the command starts");
        let to = BufWriter::new(child.stdin.take().expect("a pipe"));
        let from = BufReader::new(child.stdout.take().expect("a pipe"));
        Some(Asked {
            _child: child,
            to,
            from,
        })
    }

    pub fn put(&mut self, bytes: &[u8]) {
        self.to.write_all(bytes).expect("the process listens");
    }

    pub fn put_u32(&mut self, number: usize) {
        self.put(&(number as u32).to_le_bytes());
    }

    pub fn put_u16s(&mut self, words: &[u16]) {
        let bytes: Vec<u8> = words.iter().flat_map(|word| word.to_le_bytes()).collect();
        self.put(&bytes);
    }

    pub fn ask(&mut self) {
        self.to.flush().expect("the process listens");
    }

    pub fn get<const N: usize>(&mut self) -> [u8; N] {
        let mut bytes = [0; N];
        self.get_bytes(&mut bytes);
        bytes
    }

    pub fn get_bytes(&mut self, bytes: &mut [u8]) {
        self.from.read_exact(bytes).expect("the process answers");
    }

    pub fn get_u16s(&mut self, words: &mut [u16]) {
        let mut bytes = vec![0; 2 * words.len()];
        self.get_bytes(&mut bytes);
        for (word, pair) in words.iter_mut().zip(bytes.chunks(2)) {
            *word = u16::from_le_bytes([pair[0], pair[1]]);
        }
    }

    /// The status, the counts and the mean, with which every answer begins.
    pub fn head(&mut self) -> (u32, [u64; COUNTS], f64) {
        let status = u32::from_le_bytes(self.get());
        let counts = [(); COUNTS].map(|()| u64::from_le_bytes(self.get()));
        (status, counts, f64::from_le_bytes(self.get()))
    }

    /// The lines up to one that ends an answer.
    pub fn lines(&mut self, is_last: impl Fn(&str) -> bool) -> String {
        let mut text = String::new();
        loop {
            let mut line = String::new();
            self.from.read_line(&mut line).expect("the process answers");
            text.push_str(&line);
            if line.is_empty() || is_last(&line) {
                return text;
            }
        }
    }
}
