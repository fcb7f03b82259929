//! How fields are spelled (docs/LIBRARY.md): numbers big-endian, texts behind their length in two bytes.
use crate::message::{ClaimedClient, Header, Order, Token};
use crate::{Packet, Refused, Root};

/// A field of a message.
pub(crate) trait Field: Sized {
    /// Writes it. `TooLarge` where a text has more than 65,535 bytes.
    fn put(&self, out: &mut Vec<u8>) -> Result<(), Refused>;

    /// Reads it from the front of the bytes, which it takes off.
    fn take(from: &mut &[u8]) -> Option<Self>;
}

fn take_bytes<'a>(from: &mut &'a [u8], count: usize) -> Option<&'a [u8]> {
    let taken = from.get(..count)?;
    *from = &from[count..];
    Some(taken)
}

macro_rules! numbers {
    ($($number:ty)*) => {$(
        impl Field for $number {
            fn put(&self, out: &mut Vec<u8>) -> Result<(), Refused> {
                out.extend_from_slice(&self.to_be_bytes());
                Ok(())
            }

            fn take(from: &mut &[u8]) -> Option<Self> {
                take_bytes(from, std::mem::size_of::<$number>())?.try_into().ok().map(<$number>::from_be_bytes)
            }
        }
    )*};
}

numbers!(u8 u16 u64 u128);

impl Field for Vec<u8> {
    fn put(&self, out: &mut Vec<u8>) -> Result<(), Refused> {
        u16::try_from(self.len())
            .map_err(|_| Refused::TooLarge)?
            .put(out)?;
        out.extend_from_slice(self);
        Ok(())
    }

    fn take(from: &mut &[u8]) -> Option<Self> {
        let count = u16::take(from)?;
        take_bytes(from, usize::from(count)).map(<[u8]>::to_vec)
    }
}

impl Field for String {
    fn put(&self, out: &mut Vec<u8>) -> Result<(), Refused> {
        u16::try_from(self.len())
            .map_err(|_| Refused::TooLarge)?
            .put(out)?;
        out.extend_from_slice(self.as_bytes());
        Ok(())
    }

    fn take(from: &mut &[u8]) -> Option<Self> {
        String::from_utf8(Vec::take(from)?).ok()
    }
}

impl Field for Root {
    fn put(&self, out: &mut Vec<u8>) -> Result<(), Refused> {
        out.extend_from_slice(self);
        Ok(())
    }

    fn take(from: &mut &[u8]) -> Option<Self> {
        take_bytes(from, 32)?.try_into().ok()
    }
}

impl Field for Order {
    fn put(&self, out: &mut Vec<u8>) -> Result<(), Refused> {
        (*self as u8).put(out)
    }

    fn take(from: &mut &[u8]) -> Option<Self> {
        match u8::take(from)? {
            1 => Some(Order::Unordered),
            2 => Some(Order::Ordered),
            _ => None,
        }
    }
}

/// Structs whose fields stand in the order of their spelling.
macro_rules! structs {
    ($($name:ident { $($field:ident)* })*) => {$(
        impl Field for $name {
            fn put(&self, out: &mut Vec<u8>) -> Result<(), Refused> {
                $(self.$field.put(out)?;)*
                Ok(())
            }

            fn take(from: &mut &[u8]) -> Option<Self> {
                Some($name { $($field: Field::take(from)?),* })
            }
        }
    )*};
}

structs! {
    Header { chain height time root }
    ClaimedClient { chain latest }
    Token { denom amount }
    Packet {
        sequence timeout_height timeout_time source_port source_channel destination_port destination_channel data
    }
}

impl Field for Vec<Token> {
    fn put(&self, out: &mut Vec<u8>) -> Result<(), Refused> {
        u8::try_from(self.len())
            .map_err(|_| Refused::TooLarge)?
            .put(out)?;
        self.iter().try_for_each(|token| token.put(out))
    }

    fn take(from: &mut &[u8]) -> Option<Self> {
        let count = u8::take(from)?;
        (0..count).map(|_| Token::take(from)).collect()
    }
}
