//! Why calls are refused.
use std::fmt;

macro_rules! refusals {
    ($($(#[$about:meta])* $name:ident = $number:literal, $text:literal;)*) => {
        /// Why a call is refused, by its number: 1 to 31 as the core refuses, from 101 on as a call of the library does.
        ///
        /// ```
        /// use ibcworld::Refused;
        /// assert_eq!(u32::from(Refused::BadProof), 12);
        /// assert_eq!(Refused::try_from(12), Ok(Refused::BadProof));
        /// assert_eq!(Refused::BadProof.to_string(), "a proof doesn't show what the message says (12)");
        /// ```
        #[derive(Clone, Copy, Debug, PartialEq, Eq, Hash, PartialOrd, Ord)]
        #[non_exhaustive]
        #[repr(u32)]
        pub enum Refused {
            $($(#[$about])* #[doc = $text] $name = $number,)*
        }

        impl Refused {
            /// All refusals, by their numbers.
            pub const ALL: &'static [Refused] = &[$(Refused::$name),*];

            /// What it means, in a sentence.
            #[must_use]
            pub const fn text(self) -> &'static str {
                match self {
                    $(Refused::$name => $text,)*
                }
            }
        }
    };
}

refusals! {
    NoMemory = 1, "memory was refused";
    BadName = 2, "a text is no name of its kind";
    UnknownChain = 3, "there is no such chain";
    OwnChain = 4, "a client of the chain itself";
    UnknownClient = 5, "there is no such client";
    NotPublished = 6, "the height isn't published yet";
    WrongHeader = 7, "the header isn't the one that was published";
    UnknownConnection = 8, "there is no such connection";
    WrongState = 9, "an end isn't in the state that the message asks for";
    WrongPeer = 10, "the packet's other end isn't the channel's peer";
    NoConsensus = 11, "the client doesn't know the height, or the height isn't committed";
    BadProof = 12, "a proof doesn't show what the message says";
    WrongSelfClient = 13, "the claimed state of the peer's client doesn't name this chain";
    UnknownPort = 14, "there is no application on the port";
    UnknownChannel = 15, "there is no such channel";
    WrongOrder = 16, "the application doesn't take this order";
    WrongVersion = 17, "the application doesn't take this version, or the channel has another one";
    NoTimeout = 18, "both timeouts of a packet are 0";
    TimeoutPassed = 19, "a timeout of the packet has passed";
    AlreadyReceived = 20, "the packet was received before";
    OutOfOrder = 21, "the packet isn't the next one of an ordered channel";
    NoCommitment = 22, "no commitment of the packet stands";
    NotTimedOut = 23, "no timeout of the packet has passed at the proved height";
    TooLarge = 24, "an amount or a text is too large, or is empty";
    Poor = 25, "an account holds too little";
    CloseRefused = 26, "the application doesn't let its channels be closed";
    TimeBack = 27, "a block's time lies before the working time";
    TableFull = 28, "the chain has published as many heights as it may";
    NumberFull = 29, "a number has reached its end, 2^64 - 1";
    BadMessage = 30, "a message, a genesis or bytes are not of their form";
    Pruned = 31, "the height is published, and gone from the window of heights that are kept";
    /// Not met by callers of this crate:
    Empty = 101, "the handle holds nothing";
    /// Not met by callers of this crate:
    Full = 102, "the handle holds something already";
    /// Not met by callers of this crate:
    OtherKind = 103, "the handle holds a value of another kind";
    /// Not met by callers of this crate:
    TooShort = 104, "the place is too short for the bytes";
    NothingThere = 105, "there is nothing there";
    OtherWorld = 106, "the ledger is of another world";
    NoMessage = 107, "the bytes spell no message";
    NoData = 108, "the bytes spell no data of tokens";
    OtherAnswer = 109, "another answer is due than the stored one";
}

impl Refused {
    /// The answer of a number, of which 0 is no refusal.
    pub(crate) fn check(number: u32) -> Result<(), Refused> {
        if number == 0 {
            Ok(())
        } else {
            Err(Refused::of(number))
        }
    }

    /// The refusal of a number. The library answers with no other number.
    pub(crate) fn of(number: u32) -> Refused {
        Refused::try_from(number).expect("the library answers with the numbers of its header")
    }

    /// The number.
    #[must_use]
    pub const fn number(self) -> u32 {
        self as u32
    }
}

impl From<Refused> for u32 {
    fn from(refused: Refused) -> u32 {
        refused.number()
    }
}

impl TryFrom<u32> for Refused {
    type Error = u32;

    /// The refusal of a number; the number, where no refusal has it.
    fn try_from(number: u32) -> Result<Refused, u32> {
        let known = Refused::ALL.iter().copied();
        known.clone().find(|it| it.number() == number).ok_or(number)
    }
}

impl fmt::Display for Refused {
    fn fmt(&self, f: &mut fmt::Formatter<'_>) -> fmt::Result {
        write!(f, "{} ({})", self.text(), self.number())
    }
}

impl std::error::Error for Refused {}
