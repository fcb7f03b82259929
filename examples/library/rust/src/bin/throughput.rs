//! Tokens go from one chain to another, a hundred transfers a round, and a relayer takes two turns behind each round. It prints how many
//! messages and blocks the chains were asked for, and what the accounts hold in the end, as the program prints it for the same steps
//! (tools/library_throughput).
//!
//!     throughput ROUNDS
use ibcworld::{relay, Genesis, Ledger, Message, Refused, Relayed};
use library_examples::{open, transfer, Failure};

/// The time of all blocks.
const TIME: u64 = 1;

/// How many transfers a round has.
const TRANSFERS: usize = 100;

/// How often a relayer goes there and back behind each round.
const TURNS: usize = 2;

fn run(x: &mut Ledger, y: &mut Ledger, rounds: usize) -> Result<(), Refused> {
    open(x, y, TIME)?;
    let sent = Message::from(transfer("u", "t", 1, "v", (0, 9))).encode()?;
    let mut done = Relayed::default();
    for _ in 0..rounds {
        for _ in 0..TRANSFERS {
            x.apply_bytes(&sent)?;
        }
        for _ in 0..TURNS {
            relay(x, y, TIME, &mut done)?;
        }
    }
    Ok(())
}

fn print(ledger: &Ledger, name: &str) -> Result<(), Refused> {
    for held in ledger.balances()? {
        println!("balance {name} {held}");
    }
    Ok(())
}

fn main() -> Result<(), Failure> {
    let rounds = std::env::args().nth(1).ok_or("usage: throughput ROUNDS")?;
    let mut genesis = Genesis::new(4096, 4096)?;
    genesis.add_chain(TIME)?;
    genesis.add_balance("u", "t", 100_000)?;
    genesis.add_chain(TIME)?;
    let mut world = genesis.world()?;
    let mut x = world.take()?.ok_or("no first ledger")?;
    let mut y = world.take()?.ok_or("no second ledger")?;
    run(&mut x, &mut y, rounds.parse()?)?;
    println!("events {}", x.history()?.len() + y.history()?.len());
    print(&x, "a")?;
    print(&y, "b")?;
    Ok(())
}
