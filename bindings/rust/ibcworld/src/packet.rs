//! Packets.
use crate::wire::Field;
use crate::Refused;
use ibcworld_sys as sys;

/// A packet (ICS 4, "Packet"). A timeout of 0 is none.
#[derive(Clone, Debug, PartialEq, Eq, Hash)]
pub struct Packet {
    /// The sequence, from 1 on.
    pub sequence: u64,
    /// The height of the receiving chain from which on it has timed out.
    pub timeout_height: u64,
    /// The time of the receiving chain from which on it has timed out.
    pub timeout_time: u64,
    /// The port that it left.
    pub source_port: String,
    /// The channel that it left.
    pub source_channel: String,
    /// The port that it goes to.
    pub destination_port: String,
    /// The channel that it goes to.
    pub destination_channel: String,
    /// What the application said.
    pub data: Vec<u8>,
}

impl Packet {
    /// The bytes that spell it.
    ///
    /// # Errors
    /// `TooLarge` where a text has more than 65,535 bytes.
    pub fn encode(&self) -> Result<Vec<u8>, Refused> {
        let mut out = Vec::new();
        self.put(&mut out)?;
        Ok(out)
    }
}

impl TryFrom<&[u8]> for Packet {
    type Error = Refused;

    /// The packet that the bytes spell. The library judges whether they spell one: `BadMessage` where not.
    fn try_from(bytes: &[u8]) -> Result<Packet, Refused> {
        let mut told = sys::PacketNumbers::default();
        // SAFETY: the pointer and the length are those of a slice.
        Refused::check(unsafe {
            sys::ibcw_packet_numbers(bytes.as_ptr(), bytes.len(), &mut told)
        })?;
        let mut left = bytes;
        let packet = Packet::take(&mut left)
            .filter(|_| left.is_empty())
            .ok_or(Refused::BadMessage)?;
        debug_assert_eq!(packet.sequence, told.sequence);
        Ok(packet)
    }
}
