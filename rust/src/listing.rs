//! The listing of a message as text, as `./list` of the repository prints it.

use crate::calls;
use crate::refusal::{Refusal, checked};

/// Writes the listing of a message into a room, and shows it: the header, the hardware address, a line for each option,
/// and the stop of the walk. Any bytes can be listed: fewer than 240 are told as `refused 1`, more than 4,096 as
/// `too long`. A room of 65,535 bytes takes the listing of any message; one that is too short is [`Refusal::NoRoom`].
///
/// ```
/// use sindovaleph::{Refusal, listing};
///
/// let mut room = [0; 65_535];
/// assert_eq!(listing(&[1; 239], &mut room)?, "refused 1\n");
/// # Ok::<(), Refusal>(())
/// ```
pub fn listing<'r>(message: &[u8], room: &'r mut [u8]) -> Result<&'r str, Refusal> {
    let written = calls::write_listing(room, 0, message);
    checked(written.refused)?;
    let text = room.get(..written.place).and_then(calls::text);
    text.ok_or(Refusal::NotUtf8)
}
