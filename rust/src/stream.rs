//! Messages out of a stream over TCP, as bulk lease query sends them (RFC 6926): in front of each stands its size, two
//! bytes, the higher first. Reads of a socket cut such a stream anywhere.

use crate::calls;
use crate::message::Message;
use crate::refusal::{Refusal, checked};
use core::fmt;

/// A stream of messages, read chunk by chunk as it comes. However it is cut, the messages handed out and their order are
/// those of the uncut stream. A frame is gathered in the buffer that is lent, and handed out at its last byte.
///
/// ```
/// # let mut message = [0; 250];
/// # message[236..240].copy_from_slice(&[99, 130, 83, 99]);
/// # message[240..244].copy_from_slice(&[53, 1, 13, 255]);
/// # let mut socket = Vec::from([0, 250]);
/// # socket.extend(message);
/// # socket.extend([0, 3, 1, 2, 3, 0]);
/// # let mut socket = socket.chunks(100);
/// use sindovaleph::{Refusal, Stream};
///
/// let mut buffer = [0; 4096]; // 65,535 bytes take every size
/// let mut stream = Stream::new(&mut buffer);
/// # let mut lens = Vec::new();
/// while let Some(chunk) = socket.next() {
///     let mut frames = stream.read(chunk);
///     while let Some(frame) = frames.next() {
///         match frame {
///             Ok(message) => println!("{} bytes, xid {}", message.bytes().len(), message.xid()),
///             Err(Refusal::MessageTooShort) => println!("a frame below 240 bytes"),
///             Err(refusal) => println!("refused until reset: {refusal}"),
///         }
/// #       lens.push(frame.map(|message| message.bytes().len()));
///     }
/// }
/// if !stream.is_between() {
///     println!("the stream ended within a frame");
/// }
/// # assert_eq!(lens, [Ok(250), Err(Refusal::MessageTooShort)]);
/// # assert!(!stream.is_between());
/// ```
///
/// What is handed out stands in the buffer, which the next frame overwrites. So it is gone by then:
///
/// ```compile_fail,E0499
/// # let (mut buffer, chunk) = ([0; 4096], [0; 512]);
/// # let mut stream = sindovaleph::Stream::new(&mut buffer);
/// let mut frames = stream.read(&chunk);
/// let first = frames.next();
/// let second = frames.next();
/// println!("{first:?}");
/// ```
pub struct Stream<'b> {
    buffer: &'b mut [u8],
    stands: calls::Stream,
}

impl<'b> Stream<'b> {
    /// A fresh stream, whose frames are gathered in this buffer. It may have any length; a frame that is longer shuts the
    /// stream, by [`Refusal::SizeAboveBuffer`].
    #[inline]
    #[must_use]
    pub fn new(buffer: &'b mut [u8]) -> Stream<'b> {
        Stream { buffer, stands: calls::Stream::default() }
    }

    /// What comes next of the stream, as one read of the socket gave it. [`Frames::next`] reads it, frame by frame: call
    /// that until it gives `None`. What is left unread of a chunk is lost to the stream.
    #[inline]
    pub fn read<'s, 'c>(&'s mut self, chunk: &'c [u8]) -> Frames<'s, 'b, 'c> {
        Frames { stream: self, rest: chunk, ended: false }
    }

    /// Begins anew: the next byte begins a size. What was gathered of a frame is dropped.
    #[inline]
    pub fn reset(&mut self) {
        self.stands = calls::Stream::default();
    }

    /// Whether the stream is refused, which it stays until [`Stream::reset`]: a size was more than the buffer has.
    #[inline]
    #[must_use]
    pub fn is_refused(&self) -> bool {
        self.stands.state > calls::Stream::FILLING
    }

    /// Whether the stream stands between two frames. A connection that ends there has ended cleanly; one that ends
    /// elsewhere was cut within a frame, unless the stream is refused.
    #[inline]
    #[must_use]
    pub fn is_between(&self) -> bool {
        self.stands.state == calls::Stream::BETWEEN
    }
}

impl fmt::Debug for Stream<'_> {
    fn fmt(&self, f: &mut fmt::Formatter<'_>) -> fmt::Result {
        f.debug_struct("Stream").field("stands", &self.stands).field("buffer", &self.buffer.len()).finish()
    }
}

/// What a chunk of a stream brings: messages and refusals, one after the other. It is no `Iterator`, since each message
/// stands in the stream's one buffer.
#[must_use = "nothing is read of the chunk before `next` is called"]
pub struct Frames<'s, 'b, 'c> {
    stream: &'s mut Stream<'b>,
    rest: &'c [u8],
    ended: bool,
}

impl<'c> Frames<'_, '_, 'c> {
    /// The next frame that the chunk completes, or `None` where it completes no more: a message;
    /// [`Refusal::MessageTooShort`] of a frame below 240 bytes, behind which reading goes on; or
    /// [`Refusal::SizeAboveBuffer`], once for each chunk, behind which nothing is read until [`Stream::reset`].
    #[allow(clippy::should_implement_trait)]
    #[inline]
    #[must_use = "a frame is handed out once"]
    pub fn next(&mut self) -> Option<Result<Message<'_>, Refusal>> {
        if self.ended {
            return None;
        }
        let received = calls::receive(self.stream.stands, self.stream.buffer, self.rest);
        self.stream.stands = received.stream;
        self.rest = self.rest.get(received.used..)?;
        self.ended = self.rest.is_empty() || self.stream.is_refused();
        if let Err(refusal) = checked(received.refused) {
            return Some(Err(refusal));
        }
        match received.len {
            0 => None,
            len => self.stream.buffer.get(..len).map(Message::new),
        }
    }

    /// What was not yet read of the chunk: behind a refused size, what a caller goes on with after a reset.
    #[inline]
    #[must_use]
    pub fn rest(&self) -> &'c [u8] {
        self.rest
    }
}

impl fmt::Debug for Frames<'_, '_, '_> {
    fn fmt(&self, f: &mut fmt::Formatter<'_>) -> fmt::Result {
        f.debug_struct("Frames").field("stream", self.stream).field("rest", &self.rest.len()).finish()
    }
}
