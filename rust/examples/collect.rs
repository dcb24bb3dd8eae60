//! Collects the messages that a server sends over TCP, as bulk lease query does (RFC 6926), and prints a line for each.
//! A requestor writes its query to the socket before; this program writes nothing to it.

use sindovaleph::{Frames, Message, Refusal, Stream};
use std::env;
use std::io::{self, ErrorKind, Read, Write};
use std::net::{TcpListener, TcpStream};
use std::process::ExitCode;

const HELP: &str = "\
collect [--buffer BYTES] HOST:PORT            connects to it
collect --listen [--buffer BYTES] HOST:PORT   accepts one connection there

Collects messages over TCP, each behind its size of two bytes, as bulk lease query sends them (RFC 6926). It sends
nothing. A frame is gathered in a buffer of BYTES; without --buffer it has 65535, which take every size. With --listen,
standard error tells first on which address and port it listens; port 0 is any that is free.

Standard output has a line for each frame as soon as its last byte is there, and one for the end of the connection:

message 1: 300 bytes, xid 3735928559, options 53 54 51, end
    a message, and the codes of its options field in order: `end` closes them, or they are `not closed`
frame 2: refused, the message has fewer than 240 bytes
    a frame that is no message; reading goes on behind it
ended between two frames: 1 messages, 1 refused, 3 reads
    or `ended within a frame`; a read of the socket counts where it gave bytes

Exit statuses, all but 0 with a sentence on standard error:

0   the connection ended between two frames
1   there was no connection, or it failed, or nothing could be printed
2   the arguments are wrong
3   the connection ended within a frame
4   the size of a frame is more than the buffer has: what follows it cannot be told apart
";

const FAILED: u8 = 1;
const WRONG_ARGUMENTS: u8 = 2;
const ENDED_WITHIN: u8 = 3;
const ABOVE_BUFFER: u8 = 4;

/// Why the program ends, if not by the end of a connection between two frames.
struct Failure {
    status: u8,
    says: String,
}

impl Failure {
    /// An input or output that failed.
    fn of(what: &str, error: &io::Error) -> Failure {
        Failure { status: FAILED, says: format!("{what}: {error}") }
    }
}

/// What the arguments ask for.
enum Asked {
    Help,
    Collect { listens: bool, bytes: u16, address: String },
}

/// Reads the arguments.
fn asked(mut words: impl Iterator<Item = String>) -> Result<Asked, String> {
    let (mut listens, mut bytes, mut address) = (false, u16::MAX, None);
    while let Some(word) = words.next() {
        match word.as_str() {
            "-h" | "--help" => return Ok(Asked::Help),
            "--listen" => listens = true,
            "--buffer" => bytes = number(&words.next().ok_or("--buffer takes a number of bytes")?)?,
            option if option.starts_with('-') => return Err(format!("there is no option {option}")),
            _ if address.is_some() => return Err(format!("there is one address too many, {word}")),
            _ => address = Some(word),
        }
    }
    let address = address.ok_or("the address is missing")?;
    Ok(Asked::Collect { listens, bytes, address })
}

/// The number of bytes that `--buffer` names.
fn number(word: &str) -> Result<u16, String> {
    word.parse().map_err(|_| format!("--buffer takes a number from 0 to 65535, not {word}"))
}

/// The first connection to an address.
fn accept(address: &str) -> io::Result<TcpStream> {
    let listener = TcpListener::bind(address)?;
    eprintln!("listening on {}", listener.local_addr()?);
    let (socket, _) = listener.accept()?;
    Ok(socket)
}

/// The connection that is asked for.
fn connection(listens: bool, address: &str) -> Result<TcpStream, Failure> {
    if listens {
        accept(address).map_err(|error| Failure::of(&format!("cannot listen on {address}"), &error))
    } else {
        TcpStream::connect(address).map_err(|error| Failure::of(&format!("cannot connect to {address}"), &error))
    }
}

/// What one read of the socket gives; nothing at the end of the connection.
fn chunk<'c>(socket: &mut impl Read, room: &'c mut [u8]) -> Result<Option<&'c [u8]>, Failure> {
    loop {
        match socket.read(room) {
            Ok(0) => return Ok(None),
            Ok(len) => return Ok(Some(&room[..len])),
            Err(error) if error.kind() == ErrorKind::Interrupted => (),
            Err(error) => return Err(Failure::of("the connection failed", &error)),
        }
    }
}

/// A message in words.
fn told(message: &Message<'_>, join: &mut [u8]) -> String {
    let mut text = format!("{} bytes, xid {}, options", message.bytes().len(), message.xid());
    let mut opts = message.opts(join);
    for opt in &mut opts {
        text += &match opt {
            Ok(opt) => format!(" {}", opt.code()),
            Err(refusal) => format!(" .. option refused: {refusal}"),
        };
    }
    text + if opts.is_closed() { ", end" } else { ", not closed" }
}

/// Prints a text, which is to be seen at once.
fn print(out: &mut impl Write, text: &str) -> Result<(), Failure> {
    let printed = out.write_all(text.as_bytes()).and_then(|()| out.flush());
    printed.map_err(|error| Failure::of("cannot print", &error))
}

/// How many messages, other frames and reads there were.
#[derive(Default)]
struct Counts {
    messages: u64,
    refused: u64,
    reads: u64,
}

impl Counts {
    /// Prints a line for each frame that a chunk completes.
    fn list(&mut self, mut frames: Frames<'_, '_, '_>, join: &mut [u8], out: &mut impl Write) -> Result<(), Failure> {
        while let Some(frame) = frames.next() {
            let number = self.messages + self.refused + 1;
            match frame {
                Ok(message) => {
                    self.messages += 1;
                    print(out, &format!("message {number}: {}\n", told(&message, join)))?;
                }
                Err(refusal @ Refusal::MessageTooShort) => {
                    self.refused += 1;
                    print(out, &format!("frame {number}: refused, {refusal}\n"))?;
                }
                Err(refusal) => {
                    let says = format!("frame {number}: {refusal}, so what follows cannot be told apart");
                    return Err(Failure { status: ABOVE_BUFFER, says });
                }
            }
        }
        Ok(())
    }

    /// Prints the last line.
    fn end(&self, place: &str, out: &mut impl Write) -> Result<(), Failure> {
        let Counts { messages, refused, reads } = self;
        print(out, &format!("ended {place}: {messages} messages, {refused} refused, {reads} reads\n"))
    }
}

/// Collects what a socket gives, up to the end of the connection, in a buffer of so many bytes.
fn collect(socket: &mut impl Read, bytes: usize, out: &mut impl Write) -> Result<(), Failure> {
    // No message is longer than the buffer, so every option can be joined in as many bytes.
    let (mut buffer, mut join) = (vec![0; bytes], vec![0; bytes]);
    let mut stream = Stream::new(&mut buffer);
    let mut counts = Counts::default();
    let mut room = [0; 4096];
    while let Some(chunk) = chunk(socket, &mut room)? {
        counts.reads += 1;
        counts.list(stream.read(chunk), &mut join, out)?;
    }
    if stream.is_between() {
        return counts.end("between two frames", out);
    }
    counts.end("within a frame", out)?;
    Err(Failure { status: ENDED_WITHIN, says: "the connection ended within a frame".into() })
}

fn run() -> Result<(), Failure> {
    let words = env::args_os().skip(1).map(|word| word.to_string_lossy().into_owned());
    let wrong = |why| Failure { status: WRONG_ARGUMENTS, says: format!("{why}; see collect --help") };
    let mut out = io::stdout();
    match asked(words).map_err(wrong)? {
        Asked::Help => print(&mut out, HELP),
        Asked::Collect { listens, bytes, address } => {
            collect(&mut connection(listens, &address)?, bytes.into(), &mut out)
        }
    }
}

fn main() -> ExitCode {
    match run() {
        Ok(()) => ExitCode::SUCCESS,
        Err(Failure { status, says }) => {
            eprintln!("collect: {says}");
            ExitCode::from(status)
        }
    }
}
