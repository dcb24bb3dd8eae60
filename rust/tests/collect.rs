//! The example `collect`, run over real sockets: however a stream is cut, it prints the same lines, each as soon as its
//! frame is complete, and each way to end has its exit status.

mod common;

use common::message_with;
use std::env;
use std::fs::{self, File};
use std::io::{self, BufRead, BufReader, Read, Write};
use std::net::{TcpListener, TcpStream};
use std::process::{Child, Command, Stdio};
use std::sync::mpsc::{self, Receiver, RecvTimeoutError};
use std::thread;
use std::time::{Duration, Instant};

/// How long a test waits for anything, before it fails.
const LIMIT: Duration = Duration::from_secs(30);
const PAUSE: Duration = Duration::from_millis(1);
const TOO_SHORT: &str = "refused, the message has fewer than 240 bytes";
const WITHIN: &str = "collect: the connection ended within a frame\n";

/// The example, by the runner of cargo's settings if there is one.
fn program() -> Command {
    let tests = env::current_exe().expect("the test knows where it is");
    let path = tests.ancestors().nth(2).expect("the test is in a folder").join("examples/collect");
    assert!(path.is_file(), "there is no {}: run cargo build --examples", path.display());
    let words = env::var("CARGO_TARGET_X86_64_UNKNOWN_LINUX_GNU_RUNNER").unwrap_or_default();
    let mut words = words.split_whitespace();
    let Some(runner) = words.next() else { return Command::new(path) };
    let mut command = Command::new(runner);
    command.args(words).arg(path);
    command
}

/// The lines of a pipe as they come, each with its end.
fn lines(pipe: impl Read + Send + 'static) -> Receiver<String> {
    let (sender, receiver) = mpsc::channel();
    thread::spawn(move || {
        let mut pipe = BufReader::new(pipe);
        let mut line = String::new();
        while pipe.read_line(&mut line).is_ok_and(|len| len > 0) && sender.send(line.split_off(0)).is_ok() {}
    });
    receiver
}

/// The example as it runs. It does not outlive the test.
struct Run {
    child: Child,
    out: Receiver<String>,
    says: Receiver<String>,
}

impl Drop for Run {
    fn drop(&mut self) {
        let _ = self.child.kill();
        let _ = self.child.wait();
    }
}

/// How a run ended: its exit status, and what of its output was not yet looked at.
#[derive(Debug, PartialEq)]
struct Ended {
    status: Option<i32>,
    out: String,
    says: String,
}

impl Ended {
    fn with(status: i32, out: &str, says: &str) -> Ended {
        Ended { status: Some(status), out: out.into(), says: says.into() }
    }
}

fn next(lines: &Receiver<String>) -> String {
    lines.recv_timeout(LIMIT).expect("a line comes")
}

/// All lines that are still to come.
fn rest(lines: &Receiver<String>) -> String {
    let mut text = String::new();
    let begun = Instant::now();
    while begun.elapsed() < LIMIT {
        match lines.recv_timeout(LIMIT) {
            Ok(line) => text += &line,
            Err(RecvTimeoutError::Disconnected) => return text,
            Err(RecvTimeoutError::Timeout) => break,
        }
    }
    panic!("the example does not end behind {text}")
}

impl Run {
    fn begin(arguments: &[&str], out: Stdio) -> Run {
        let mut command = program();
        command.args(arguments).stdin(Stdio::null()).stdout(out).stderr(Stdio::piped());
        let mut child = command.spawn().expect("the example runs");
        let out = child.stdout.take().map_or_else(|| lines(io::empty()), lines);
        let says = lines(child.stderr.take().expect("it is piped"));
        Run { child, out, says }
    }

    fn with(arguments: &[&str]) -> Run {
        Run::begin(arguments, Stdio::piped())
    }

    fn end(mut self) -> Ended {
        let (out, says) = (rest(&self.out), rest(&self.says));
        let status = self.child.wait().expect("the example ends");
        Ended { status: status.code(), out, says }
    }
}

/// The first connection to a listener.
fn accepted(listener: TcpListener) -> TcpStream {
    let (sender, receiver) = mpsc::channel();
    thread::spawn(move || sender.send(listener.accept()));
    let (socket, _) = receiver.recv_timeout(LIMIT).expect("there is a connection").expect("it is accepted");
    socket
}

/// A listener of the test's, and its address.
fn listener() -> (TcpListener, String) {
    let listener = TcpListener::bind("127.0.0.1:0").expect("there is a port");
    let address = listener.local_addr().expect("it has an address").to_string();
    (listener, address)
}

/// The side on which the example is.
#[derive(Clone, Copy, Debug)]
enum Side {
    Connects,
    Listens,
}

const SIDES: [Side; 2] = [Side::Connects, Side::Listens];

/// The example at one end of a connection, and the socket of the other.
fn connected(side: Side, options: &[&str]) -> (Run, TcpStream) {
    let (run, socket) = match side {
        Side::Connects => {
            let (listener, address) = listener();
            (Run::with(&[options, &[&address]].concat()), accepted(listener))
        }
        Side::Listens => {
            let run = Run::with(&[options, &["--listen", "127.0.0.1:0"]].concat());
            let line = next(&run.says);
            let address = line.strip_prefix("listening on ").expect("it says where it listens").trim_end();
            let socket = TcpStream::connect(address).expect("it listens there");
            (run, socket)
        }
    };
    socket.set_nodelay(true).expect("nothing is held back");
    socket.set_write_timeout(Some(LIMIT)).expect("no write takes forever");
    (run, socket)
}

/// How a run ends whose peer writes these bytes at once and then closes.
fn ended(side: Side, options: &[&str], bytes: &[u8]) -> Ended {
    let (run, mut socket) = connected(side, options);
    socket.write_all(bytes).expect("the bytes are sent");
    drop(socket);
    run.end()
}

/// A frame as it is sent, and the two parts of its line around the number.
struct Frame {
    sent: Vec<u8>,
    line: [String; 2],
}

impl Frame {
    fn of(bytes: &[u8], what: &str, told: &str) -> Frame {
        let size = u16::try_from(bytes.len()).expect("a size has two bytes");
        Frame { sent: [&size.to_be_bytes(), bytes].concat(), line: [what.into(), told.into()] }
    }

    fn message(xid: u32, area: &[u8], told: &str) -> Frame {
        let mut bytes = message_with(area);
        bytes[4..8].copy_from_slice(&xid.to_be_bytes());
        Frame::of(&bytes, "message", &format!("{} bytes, xid {xid}, {told}", bytes.len()))
    }

    fn refused(bytes: &[u8]) -> Frame {
        Frame::of(bytes, "frame", TOO_SHORT)
    }

    fn line(&self, number: usize) -> String {
        let [what, told] = &self.line;
        format!("{what} {number}: {told}\n")
    }
}

/// A message of 258 bytes, with an option in two parts.
fn whole() -> Frame {
    let area = b"\x35\x01\x0D\x0C\x02ho\x0C\x02st\x33\x04\0\0\x0E\x10\xFF";
    Frame::message(0xDEAD_BEEF, area, "options 53 12 51, end")
}

/// Two messages, and between them a frame of three bytes and one of none.
fn frames() -> [Frame; 4] {
    let open = Frame::message(7, &[53, 1, 13], "options 53, not closed");
    [whole(), Frame::refused(&[1, 2, 3]), Frame::refused(&[]), open]
}

fn bytes(frames: &[Frame]) -> Vec<u8> {
    frames.iter().flat_map(|frame| frame.sent.iter().copied()).collect()
}

fn text(frames: &[Frame]) -> String {
    frames.iter().zip(1..).map(|(frame, number)| frame.line(number)).collect()
}

/// Sends the frames in pieces, with a pause behind each, and looks at each line as soon as a piece completes its frame.
/// So many frames were sent before.
fn send(run: &Run, socket: &mut TcpStream, pieces: &[&[u8]], before: usize) {
    let frames = frames();
    let ends = frames.iter().zip(before + 1..).scan(0, |end, (frame, number)| {
        *end += frame.sent.len();
        Some((*end, frame.line(number)))
    });
    let (mut ends, mut sent) = (ends.peekable(), 0);
    for piece in pieces {
        socket.write_all(piece).expect("the piece is sent");
        sent += piece.len();
        while let Some((_, line)) = ends.next_if(|(end, _)| *end <= sent) {
            assert_eq!(next(&run.out), line, "behind {sent} bytes");
        }
        thread::sleep(PAUSE);
    }
}

/// How many reads the last line tells, whose beginning is known.
fn reads(ended: &Ended, begins: &str) -> usize {
    assert_eq!((ended.status, &*ended.says), (Some(0), ""));
    let number = ended.out.strip_prefix(begins).and_then(|rest| rest.strip_suffix(" reads\n"));
    number.and_then(|number| number.parse().ok()).unwrap_or_else(|| panic!("the last line is {}", ended.out))
}

#[test]
fn frames_in_one_piece() {
    let frames = frames();
    let out = text(&frames) + "ended between two frames: 2 messages, 2 refused, 1 reads\n";
    for side in SIDES {
        assert_eq!(ended(side, &[], &bytes(&frames)), Ended::with(0, &out, ""), "{side:?}");
    }
}

#[test]
fn frames_cut_at_every_place() {
    let bytes = bytes(&frames());
    let (run, mut socket) = connected(Side::Connects, &[]);
    for cut in 1..bytes.len() {
        let (first, second) = bytes.split_at(cut);
        send(&run, &mut socket, &[first, second], 4 * (cut - 1));
    }
    drop(socket);
    let count = bytes.len() - 1;
    let begins = format!("ended between two frames: {} messages, {} refused, ", 2 * count, 2 * count);
    let reads = reads(&run.end(), &begins);
    assert!(reads > count && reads <= 2 * count, "{count} streams in two pieces came in {reads} reads");
}

#[test]
fn frames_byte_by_byte() {
    let bytes = bytes(&frames());
    let pieces: Vec<&[u8]> = bytes.chunks(1).collect();
    let (run, mut socket) = connected(Side::Listens, &[]);
    send(&run, &mut socket, &pieces, 0);
    drop(socket);
    let reads = reads(&run.end(), "ended between two frames: 2 messages, 2 refused, ");
    assert!(reads > 4 && reads <= bytes.len(), "{} bytes came in {reads} reads", bytes.len());
}

#[test]
fn a_peer_that_closes_within_a_frame() {
    let frame = whole();
    let out = frame.line(1) + "ended within a frame: 1 messages, 0 refused, 1 reads\n";
    // Behind the first byte of a size, behind the size, and within the bytes.
    for (side, cut) in SIDES.into_iter().flat_map(|side| [1, 2, 3, 100, 259].map(|cut| (side, cut))) {
        let bytes = [&frame.sent, &frame.sent[..cut]].concat();
        assert_eq!(ended(side, &[], &bytes), Ended::with(3, &out, WITHIN), "{side:?}, {cut}");
    }
    let out = "ended within a frame: 0 messages, 0 refused, 1 reads\n";
    assert_eq!(ended(Side::Connects, &[], &frame.sent[..1]), Ended::with(3, out, WITHIN));
}

#[test]
fn a_peer_that_closes_between_two_frames() {
    for side in SIDES {
        let out = "ended between two frames: 0 messages, 0 refused, 0 reads\n";
        assert_eq!(ended(side, &[], &[]), Ended::with(0, out, ""), "{side:?}");
        let out = whole().line(1) + "ended between two frames: 1 messages, 0 refused, 1 reads\n";
        assert_eq!(ended(side, &[], &whole().sent), Ended::with(0, &out, ""), "{side:?}");
        let out = Frame::refused(&[]).line(1) + "ended between two frames: 0 messages, 1 refused, 1 reads\n";
        assert_eq!(ended(side, &[], &[0, 0]), Ended::with(0, &out, ""), "{side:?}");
    }
}

#[test]
fn the_largest_size_fits_where_no_buffer_is_named() {
    let area = [&[53, 1, 13][..], &[0; 65_535 - 240 - 4], &[255]].concat();
    let frames = [Frame::message(1, &area, "options 53, end"), Frame::refused(&[0; 239]), whole()];
    let (run, mut socket) = connected(Side::Connects, &[]);
    socket.write_all(&bytes(&frames)).expect("the frames are sent");
    drop(socket);
    let mut ended = run.end();
    let last = ended.out.split_off(text(&frames).len());
    assert_eq!(ended, Ended::with(0, &text(&frames), ""));
    assert!(last.starts_with("ended between two frames: 2 messages, 1 refused, "), "{last}");
}

/// What is said of the frame whose size is above the buffer.
fn above(number: usize) -> String {
    let why = "the size of a frame is more than the buffer has, so what follows cannot be told apart";
    format!("collect: frame {number}: {why}\n")
}

#[test]
fn a_size_above_the_buffer() {
    let frames = [Frame::refused(&[9; 239]), whole(), Frame::refused(&[])];
    for side in SIDES {
        let ended = ended(side, &["--buffer", "239"], &bytes(&frames));
        assert_eq!(ended, Ended::with(4, &text(&frames[..1]), &above(2)), "{side:?}");
    }
}

#[test]
fn a_size_above_the_buffer_behind_messages_that_fill_it() {
    let frames = [whole(), whole()];
    let (run, mut socket) = connected(Side::Listens, &["--buffer", "258"]);
    // Of the third frame the size alone is sent, and the connection stays open.
    socket.write_all(&[&bytes(&frames), &[1, 3][..]].concat()).expect("the frames are sent");
    assert_eq!(run.end(), Ended::with(4, &text(&frames), &above(3)));
}

/// Waits until the example is connected to a port of the test's, which has not accepted it.
fn wait_for_connection(port: u16) {
    let end = format!(":{port:04X}");
    let is_there = |line: &str| {
        let words: Vec<&str> = line.split_whitespace().collect();
        words.get(2).is_some_and(|peer| peer.ends_with(&end)) && words.get(3) == Some(&"01")
    };
    let begun = Instant::now();
    while !fs::read_to_string("/proc/net/tcp").expect("connections are listed").lines().any(is_there) {
        assert!(begun.elapsed() < LIMIT, "there is no connection");
        thread::sleep(PAUSE);
    }
    thread::sleep(20 * PAUSE);
}

#[test]
fn a_connection_that_fails_is_no_end() {
    let (listener, address) = listener();
    let run = Run::with(&[&address]);
    wait_for_connection(listener.local_addr().expect("it has an address").port());
    // What was not accepted is reset.
    drop(listener);
    let ended = run.end();
    assert_eq!((ended.status, &*ended.out), (Some(1), ""));
    assert!(ended.says.starts_with("collect: the connection failed: "), "{}", ended.says);
}

#[test]
fn addresses_that_cannot_be_used() {
    let (_listener, taken) = listener();
    // The port of a connection's other end: it stays taken, and nobody listens on it.
    let socket = TcpStream::connect(&taken).expect("the test listens there");
    let silent = socket.local_addr().expect("it has an address").to_string();
    let cases: [(&[&str], String); 4] = [
        (&["--listen", &taken], format!("listen on {taken}")),
        (&[&silent], format!("connect to {silent}")),
        (&["127.0.0.1"], "connect to 127.0.0.1".into()),
        (&["--listen", ":nine"], "listen on :nine".into()),
    ];
    for (words, what) in cases {
        let ended = Run::with(words).end();
        assert_eq!((ended.status, &*ended.out, ended.says.lines().count()), (Some(1), "", 1), "{words:?}");
        assert!(ended.says.starts_with(&format!("collect: cannot {what}: ")), "{}", ended.says);
    }
}

#[test]
fn lines_that_cannot_be_printed() {
    let full = || File::options().write(true).open("/dev/full").expect("there is a full device");
    let (listener, address) = listener();
    let run = Run::begin(&[&address], full().into());
    drop(accepted(listener));
    for ended in [run.end(), Run::begin(&["--help"], full().into()).end()] {
        assert_eq!(ended.status, Some(1));
        assert!(ended.says.starts_with("collect: cannot print: "), "{}", ended.says);
    }
}

#[test]
fn wrong_arguments() {
    let cases: [(&[&str], &str); 9] = [
        (&[], "the address is missing"),
        (&["--listen"], "the address is missing"),
        (&["127.0.0.1:1", "127.0.0.1:2"], "there is one address too many, 127.0.0.1:2"),
        (&["--verbose", "127.0.0.1:1"], "there is no option --verbose"),
        (&["127.0.0.1:1", "-x"], "there is no option -x"),
        (&["--buffer"], "--buffer takes a number of bytes"),
        (&["--buffer", "many", "127.0.0.1:1"], "--buffer takes a number from 0 to 65535, not many"),
        (&["--buffer", "-1", "127.0.0.1:1"], "--buffer takes a number from 0 to 65535, not -1"),
        (&["--buffer", "65536", "127.0.0.1:1"], "--buffer takes a number from 0 to 65535, not 65536"),
    ];
    for (words, why) in cases {
        let says = format!("collect: {why}; see collect --help\n");
        assert_eq!(Run::with(words).end(), Ended::with(2, "", &says), "{words:?}");
    }
}

#[test]
fn help_tells_the_usage_the_lines_and_the_statuses() {
    for words in [&["--help"][..], &["-h"], &["--listen", "--help"]] {
        let ended = Run::with(words).end();
        assert_eq!((ended.status, &*ended.says), (Some(0), ""), "{words:?}");
        for begin in ["collect [--buffer BYTES]", "message 1: ", "frame 2: refused, ", "ended between two frames: "] {
            assert!(ended.out.lines().any(|line| line.starts_with(begin)), "{begin} is not in\n{}", ended.out);
        }
        let statuses = |line: &&str| line.starts_with(|first: char| first.is_ascii_digit());
        assert_eq!(ended.out.lines().filter(statuses).count(), 5, "{}", ended.out);
    }
}
