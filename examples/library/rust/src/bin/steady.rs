//! So many packets go from one chain to another and are acknowledged, a hundred between two blocks. At 1,000 packets, 10,000 and so on it prints how many
//! messages and blocks go through in a second of processor, by the last thousand packets, and how long a block takes in which nothing happens:
//!
//!     steady PACKETS
use ibcworld::{relay, Genesis, Ledger, Message, Refused, Relayed};
use library_examples::{open, spent, transfer, Failure};

/// The time of all blocks.
const TIME: u64 = 1;

/// How many packets go between two blocks.
const TRANSFERS: u64 = 100;

/// How many packets are timed.
const TIMED: u64 = 1_000;

/// How many blocks in which nothing happens are timed.
const EMPTY: u32 = 10;

/// A hundred packets go there, and what is owed for those before comes back.
fn round(x: &mut Ledger, y: &mut Ledger, sent: &[u8], done: &mut Relayed) -> Result<(), Refused> {
    for _ in 0..TRANSFERS {
        x.apply_bytes(sent)?;
    }
    relay(x, y, TIME, done)
}

fn events(x: &Ledger, y: &Ledger) -> Result<usize, Refused> {
    Ok(x.history()?.len() + y.history()?.len())
}

/// A thousand packets more, and what they took.
fn timed(
    x: &mut Ledger,
    y: &mut Ledger,
    sent: &[u8],
    done: &mut Relayed,
    packets: u64,
) -> Result<(), Refused> {
    let (before, begun) = (events(x, y)?, spent());
    for _ in 0..TIMED / TRANSFERS {
        round(x, y, sent, done)?;
    }
    let rate = (events(x, y)? - before) as f64 / (spent() - begun);
    let begun = spent();
    for _ in 0..EMPTY {
        x.end_block(TIME)?;
    }
    let empty = (spent() - begun) / f64::from(EMPTY);
    println!("{packets} packets: {rate:.0} messages and blocks a second of processor, {:.0} microseconds an empty block", empty * 1e6);
    Ok(())
}

fn main() -> Result<(), Failure> {
    let last: u64 = std::env::args()
        .nth(1)
        .ok_or("usage: steady PACKETS")?
        .parse()?;
    let mut genesis = Genesis::new(1_000_000, 64)?;
    genesis.add_chain(TIME)?;
    genesis.add_balance("u", "t", 1_000_000_000)?;
    genesis.add_chain(TIME)?;
    let mut world = genesis.world()?;
    let mut x = world.take()?.ok_or("no first ledger")?;
    let mut y = world.take()?.ok_or("no second ledger")?;
    open(&mut x, &mut y, TIME)?;
    let sent = Message::from(transfer("u", "t", 1, "v", (0, 9))).encode()?;
    let (mut done, mut packets, mut at) = (Relayed::default(), 0, TIMED);
    while at <= last {
        while packets + TIMED < at {
            round(&mut x, &mut y, &sent, &mut done)?;
            packets += TRANSFERS;
        }
        timed(&mut x, &mut y, &sent, &mut done, at)?;
        packets += TIMED;
        at *= 10;
    }
    relay(&mut x, &mut y, TIME, &mut done)?;
    println!("received: {}", y.balance("v", "transfer/channel-0/t")?);
    println!("refused: {}", done.refused);
    Ok(())
}
