//! Messages, as structs and as the bytes that spell them.
use crate::owned::bytes_of;
use crate::wire::Field;
use crate::{Packet, Proof, Refused, Root};
use ibcworld_sys as sys;
use std::ptr::null;

/// In which order packets of a channel are received (ICS 4).
#[derive(Clone, Copy, Debug, PartialEq, Eq, Hash)]
#[repr(u8)]
pub enum Order {
    /// In any order, each once.
    Unordered = 1,
    /// In the order in which they were sent.
    Ordered = 2,
}

/// What a chain published of a height (ICS 2).
#[derive(Clone, Copy, Debug, PartialEq, Eq, Hash)]
pub struct Header {
    /// The number of the chain.
    pub chain: u8,
    /// The height.
    pub height: u64,
    /// Its time.
    pub time: u64,
    /// Its root.
    pub root: Root,
}

/// The state of the peer's client, as a connection's handshake claims it (ICS 3). It is the value at the path of that client.
#[derive(Clone, Copy, Debug, PartialEq, Eq, Hash)]
pub struct ClaimedClient {
    /// The number of the chain that it tracks.
    pub chain: u8,
    /// The latest height that it knows.
    pub latest: u64,
}

impl TryFrom<&[u8]> for ClaimedClient {
    type Error = Refused;

    /// The state that the bytes of a client's value spell. `BadMessage` where they spell none.
    fn try_from(bytes: &[u8]) -> Result<ClaimedClient, Refused> {
        let mut left = bytes;
        let read = ClaimedClient::take(&mut left).filter(|_| left.is_empty());
        read.ok_or(Refused::BadMessage)
    }
}

/// So much of a denomination.
#[derive(Clone, Debug, PartialEq, Eq, Hash)]
pub struct Token {
    /// The denomination.
    pub denom: String,
    /// The amount.
    pub amount: u128,
}

macro_rules! messages {
    ($($tag:literal $(#[$about:meta])* $name:ident { $($(#[$said:meta])* $field:ident: $type:ty,)* })*) => {
        $(
            $(#[$about])*
            #[derive(Clone, Debug, PartialEq, Eq, Hash)]
            pub struct $name {
                $($(#[$said])* pub $field: $type,)*
            }

            impl From<$name> for Message {
                fn from(message: $name) -> Message {
                    Message::$name(message)
                }
            }
        )*

        /// A message that a chain is asked to apply.
        ///
        /// ```
        /// use ibcworld::{CreateClient, Message, Refused};
        /// let message = Message::from(CreateClient { chain: 1 });
        /// assert_eq!(message.encode()?, [1, 1]);
        /// assert_eq!(Message::try_from([1, 1].as_slice())?, message);
        /// assert_eq!(Message::try_from([1].as_slice()), Err(Refused::NoMessage));
        /// # Ok::<(), Refused>(())
        /// ```
        #[derive(Clone, Debug, PartialEq, Eq, Hash)]
        pub enum Message {
            $($(#[$about])* $name($name),)*
        }

        impl Message {
            /// The tag with which its bytes begin, 1 to 19.
            #[must_use]
            pub const fn tag(&self) -> u8 {
                match self {
                    $(Message::$name(_) => $tag,)*
                }
            }

            /// The name of its kind.
            #[must_use]
            pub const fn kind(&self) -> &'static str {
                match self {
                    $(Message::$name(_) => stringify!($name),)*
                }
            }

            /// The bytes that spell it. Whether they are a message is for the library to say.
            ///
            /// # Errors
            /// `TooLarge` where a text has more than 65,535 bytes: nothing is ever cut.
            pub fn encode(&self) -> Result<Vec<u8>, Refused> {
                let mut out = vec![self.tag()];
                match self {
                    $(Message::$name(message) => {
                        $(message.$field.put(&mut out)?;)*
                    })*
                }
                Ok(out)
            }

            fn take(tag: u8, from: &mut &[u8]) -> Option<Message> {
                match tag {
                    $($tag => Some(Message::$name($name { $($field: Field::take(from)?),* })),)*
                    _ => None,
                }
            }
        }
    };
}

messages! {
    1
    /// Makes a client of another chain (ICS 2).
    CreateClient {
        /// The number of the chain.
        chain: u8,
    }
    2
    /// Tells a client of a height (ICS 2).
    UpdateClient {
        /// The client.
        client: String,
        /// What the chain published.
        header: Header,
    }
    3
    /// Begins a connection (ICS 3).
    ConnOpenInit {
        /// The client.
        client: String,
        /// The other chain's client.
        peer_client: String,
    }
    4
    /// Answers a connection's beginning (ICS 3).
    ConnOpenTry {
        /// The client.
        client: String,
        /// The other chain's client.
        peer_client: String,
        /// The other chain's connection.
        peer_connection: String,
        /// The state of the other chain's client.
        claim: ClaimedClient,
        /// The height at which the proofs are.
        height: u64,
        /// The proof of the other end.
        proof_end: Vec<u8>,
        /// The proof of the other chain's client.
        proof_client: Vec<u8>,
    }
    5
    /// Opens a connection (ICS 3).
    ConnOpenAck {
        /// The connection.
        connection: String,
        /// The other chain's connection.
        peer_connection: String,
        /// The state of the other chain's client.
        claim: ClaimedClient,
        /// The height at which the proofs are.
        height: u64,
        /// The proof of the other end.
        proof_end: Vec<u8>,
        /// The proof of the other chain's client.
        proof_client: Vec<u8>,
    }
    6
    /// Confirms a connection (ICS 3).
    ConnOpenConfirm {
        /// The connection.
        connection: String,
        /// The height at which the proof is.
        height: u64,
        /// The proof of the other end.
        proof: Vec<u8>,
    }
    7
    /// Begins a channel (ICS 4).
    ChanOpenInit {
        /// The port.
        port: String,
        /// The order.
        order: Order,
        /// The connection.
        connection: String,
        /// The other end's port.
        peer_port: String,
        /// The version of what the applications say.
        version: String,
    }
    8
    /// Answers a channel's beginning (ICS 4).
    ChanOpenTry {
        /// The port.
        port: String,
        /// The order.
        order: Order,
        /// The connection.
        connection: String,
        /// The other end's port.
        peer_port: String,
        /// The other end's channel.
        peer_channel: String,
        /// The version of what the applications say.
        version: String,
        /// The height at which the proof is.
        height: u64,
        /// The proof of the other end.
        proof: Vec<u8>,
    }
    9
    /// Opens a channel (ICS 4).
    ChanOpenAck {
        /// The port.
        port: String,
        /// The channel.
        channel: String,
        /// The other end's channel.
        peer_channel: String,
        /// The height at which the proof is.
        height: u64,
        /// The proof of the other end.
        proof: Vec<u8>,
    }
    10
    /// Confirms a channel (ICS 4).
    ChanOpenConfirm {
        /// The port.
        port: String,
        /// The channel.
        channel: String,
        /// The height at which the proof is.
        height: u64,
        /// The proof of the other end.
        proof: Vec<u8>,
    }
    11
    /// Closes a channel (ICS 4).
    ChanCloseInit {
        /// The port.
        port: String,
        /// The channel.
        channel: String,
    }
    12
    /// Closes the other end of a closed channel (ICS 4).
    ChanCloseConfirm {
        /// The port.
        port: String,
        /// The channel.
        channel: String,
        /// The height at which the proof is.
        height: u64,
        /// The proof of the other end.
        proof: Vec<u8>,
    }
    13
    /// Sends tokens of one denomination (ICS 20).
    Transfer {
        /// The channel.
        channel: String,
        /// Who sends them.
        user: String,
        /// The denomination.
        denom: String,
        /// How much.
        amount: u128,
        /// Who receives them.
        receiver: String,
        /// What goes with them.
        memo: String,
        /// The height of the other chain from which on they come back, 0 for none.
        timeout_height: u64,
        /// The time of the other chain from which on they come back, 0 for none.
        timeout_time: u64,
    }
    14
    /// Sends a note.
    SendNote {
        /// The channel.
        channel: String,
        /// The note.
        data: Vec<u8>,
        /// The height of the other chain from which on it has timed out, 0 for none.
        timeout_height: u64,
        /// The time of the other chain from which on it has timed out, 0 for none.
        timeout_time: u64,
    }
    15
    /// Brings a packet (ICS 4).
    RecvPacket {
        /// The packet.
        packet: Packet,
        /// The height at which the proof is.
        height: u64,
        /// The proof of its commitment.
        proof: Vec<u8>,
    }
    16
    /// Brings a packet's acknowledgement (ICS 4).
    AckPacket {
        /// The packet.
        packet: Packet,
        /// The acknowledgement.
        ack: Vec<u8>,
        /// The height at which the proof is.
        height: u64,
        /// The proof of the acknowledgement.
        proof: Vec<u8>,
    }
    17
    /// Says that a packet wasn't received in time (ICS 4).
    Timeout {
        /// The packet.
        packet: Packet,
        /// The next sequence that the other end receives, of an ordered channel.
        next_recv: u64,
        /// The height at which the proof is.
        height: u64,
        /// The proof that it wasn't received.
        proof: Vec<u8>,
    }
    18
    /// Says that a packet wasn't received before its channel was closed (ICS 4).
    TimeoutOnClose {
        /// The packet.
        packet: Packet,
        /// The next sequence that the other end receives, of an ordered channel.
        next_recv: u64,
        /// The height at which the proofs are.
        height: u64,
        /// The proof that it wasn't received.
        proof: Vec<u8>,
        /// The proof that the other end is closed.
        proof_close: Vec<u8>,
    }
    19
    /// Sends tokens of several denominations (ICS 20).
    TransferMany {
        /// The channel.
        channel: String,
        /// Who sends them.
        user: String,
        /// The tokens, 1 to 8, in rising order of their denominations.
        tokens: Vec<Token>,
        /// Who receives them.
        receiver: String,
        /// What goes with them.
        memo: String,
        /// The height of the other chain from which on they come back, 0 for none.
        timeout_height: u64,
        /// The time of the other chain from which on they come back, 0 for none.
        timeout_time: u64,
    }
}

impl Transfer {
    /// A transfer without a memo. It has no timeout yet, and a chain wants one: set `timeout_height` or `timeout_time`.
    #[must_use]
    pub fn new(channel: &str, user: &str, denom: &str, amount: u128, receiver: &str) -> Transfer {
        Transfer {
            channel: channel.to_owned(),
            user: user.to_owned(),
            denom: denom.to_owned(),
            amount,
            receiver: receiver.to_owned(),
            memo: String::new(),
            timeout_height: 0,
            timeout_time: 0,
        }
    }
}

impl TryFrom<&[u8]> for Message {
    type Error = Refused;

    /// The message that the bytes spell. The library judges whether they spell one: `NoMessage` where not; `NoMemory`.
    fn try_from(bytes: &[u8]) -> Result<Message, Refused> {
        let tag = message_tag(bytes)?;
        let mut left = &bytes[1..];
        let message = Message::take(tag, &mut left).filter(|_| left.is_empty());
        message.ok_or(Refused::NoMessage)
    }
}

/// A pointer to the bytes, null where there are none.
fn at(bytes: &[u8]) -> *const u8 {
    if bytes.is_empty() {
        null()
    } else {
        bytes.as_ptr()
    }
}

/// The tag, 1 to 19, of the message that the bytes spell.
///
/// # Errors
/// `NoMessage` where they spell none, `NoMemory`.
pub fn message_tag(message: &[u8]) -> Result<u8, Refused> {
    let mut tag = 0;
    // SAFETY: the pointer and the length are those of a slice, or null and 0.
    Refused::check(unsafe { sys::ibcw_message_tag(at(message), message.len(), &mut tag) })?;
    Ok(tag)
}

/// The tag of the message that the bytes spell, each of whose proofs is a proof, whatever it shows. A ledger keeps each message that it refuses,
/// whole and for ever: who takes messages from strangers asks this first.
///
/// ```
/// use ibcworld::{screen, ChanOpenConfirm, Message, Refused};
/// let forged = ChanOpenConfirm {
///     port: "transfer".into(),
///     channel: "channel-0".into(),
///     height: 1,
///     proof: vec![0; 60_000],
/// };
/// assert_eq!(screen(&Message::from(forged).encode()?), Err(Refused::BadProof));
/// assert_eq!(screen(&[1, 1]), Ok(1));
/// # Ok::<(), Refused>(())
/// ```
///
/// # Errors
/// `NoMessage` where they spell none, `BadProof` where a proof that it carries is none, `NoMemory`.
pub fn screen(message: &[u8]) -> Result<u8, Refused> {
    let tag = message_tag(message)?;
    for index in 0..2 {
        match message_proof(message, index).and_then(|(_, proof)| proof.claim()) {
            Ok(_) => (),
            Err(Refused::NothingThere) => break,
            Err(Refused::BadMessage) => return Err(Refused::BadProof),
            Err(refused) => return Err(refused),
        }
    }
    Ok(tag)
}

/// The proof at an index, 0 or 1, that a message carries as its bytes, and the height of the other chain at which it is.
///
/// # Errors
/// `NoMessage` where the bytes spell no message, `NothingThere` where it carries no such proof, `NoMemory`.
pub fn message_proof(message: &[u8], index: u64) -> Result<(u64, Proof), Refused> {
    let mut height = 0;
    // SAFETY: as in `message_tag`.
    let proof = bytes_of(|place, room, size| unsafe {
        sys::ibcw_message_proof(
            at(message),
            message.len(),
            index,
            &mut height,
            place,
            room,
            size,
        )
    })?;
    Ok((height, Proof::from(proof)))
}
