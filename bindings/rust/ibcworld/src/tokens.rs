//! The data of packets of tokens.
use crate::owned::{bytes_of, text_of, whole};
use crate::{Packet, Refused, Token};
use ibcworld_sys as sys;

/// What a packet of port `transfer` says (ICS 20). It is true of a chain where its ledger took the packet: look at the
/// reply, and at the packet's ports and channels.
///
/// ```
/// use ibcworld::{Refused, TokenData};
/// let data = br#"{"amount":"5","denom":"atom","receiver":"bob","sender":"alice"}"#;
/// let told = TokenData::try_from(data.as_slice())?;
/// assert_eq!((told.sender.as_str(), told.receiver.as_str(), told.memo.as_str()), ("alice", "bob", ""));
/// assert_eq!((told.tokens[0].denom.as_str(), told.tokens[0].amount), ("atom", 5));
/// assert_eq!(TokenData::try_from(&data[1..]), Err(Refused::NoData));
/// # Ok::<(), Refused>(())
/// ```
#[derive(Clone, Debug, PartialEq, Eq, Hash)]
#[non_exhaustive]
pub struct TokenData {
    /// The version of the channels over which the bytes spell it: `ics20-1` or `ics20-own-2`.
    pub version: String,
    /// Who sends the tokens.
    pub sender: String,
    /// Who receives them.
    pub receiver: String,
    /// What goes with them, empty where nothing does.
    pub memo: String,
    /// The tokens, 1 to 8, by the denominations that the sending chain has for them ([`Packet::denom_received`] tells the receiving chain's).
    pub tokens: Vec<Token>,
}

const SENDER: u64 = 1;
const RECEIVER: u64 = 2;
const MEMO: u64 = 3;
const VERSION: u64 = 4;

fn part(data: &[u8], number: u64) -> Result<String, Refused> {
    // SAFETY: the pointers and lengths are those of slices.
    bytes_of(|at, room, size| unsafe {
        sys::ibcw_data_part(data.as_ptr(), data.len(), number, at, room, size)
    })
    .map(text_of)
}

fn token(data: &[u8], index: u64) -> Result<Token, Refused> {
    let mut amount = sys::Amount::default();
    // SAFETY: the pointers and lengths are those of slices.
    let denom = bytes_of(|at, room, size| unsafe {
        sys::ibcw_data_token(
            data.as_ptr(),
            data.len(),
            index,
            &mut amount,
            at,
            room,
            size,
        )
    })?;
    Ok(Token {
        denom: text_of(denom),
        amount: whole(&amount),
    })
}

impl TryFrom<&[u8]> for TokenData {
    type Error = Refused;

    /// The data that the bytes spell, exactly as a chain reads it where such a packet comes. `NoData` exactly where they spell none; `NoMemory`.
    fn try_from(data: &[u8]) -> Result<TokenData, Refused> {
        let mut count = 0;
        // SAFETY: the pointer and the length are those of a slice.
        Refused::check(unsafe { sys::ibcw_data_count(data.as_ptr(), data.len(), &mut count) })?;
        Ok(TokenData {
            version: part(data, VERSION)?,
            sender: part(data, SENDER)?,
            receiver: part(data, RECEIVER)?,
            memo: part(data, MEMO)?,
            tokens: (0..count)
                .map(|index| token(data, index))
                .collect::<Result<_, _>>()?,
        })
    }
}

impl Packet {
    /// The denomination that the receiving chain has for one of the packet's (ICS 20, "onRecvPacket"): without the hop of the end that it left,
    /// where the token comes home over this channel, and else with the hop of the end that it goes to.
    ///
    /// ```
    /// use ibcworld::{Packet, Refused};
    /// let packet = Packet {
    ///     sequence: 1,
    ///     timeout_height: 9,
    ///     timeout_time: 0,
    ///     source_port: "transfer".into(),
    ///     source_channel: "channel-3".into(),
    ///     destination_port: "transfer".into(),
    ///     destination_channel: "channel-0".into(),
    ///     data: Vec::new(),
    /// };
    /// assert_eq!(packet.denom_received("atom"), "transfer/channel-0/atom");
    /// assert_eq!(packet.denom_received("transfer/channel-3/gold"), "gold");
    /// ```
    #[must_use]
    pub fn denom_received(&self, denom: &str) -> String {
        let left = format!("{}/{}/", self.source_port, self.source_channel);
        match denom.strip_prefix(left.as_str()) {
            Some(home) => home.to_owned(),
            None => format!(
                "{}/{}/{denom}",
                self.destination_port, self.destination_channel
            ),
        }
    }
}
