//! Tokens go both ways between two chains, each driven by a thread of its own that is also the relayer to it: the script
//! examples/race.json. It prints what the program prints of a race of that script: the balances that the audit tells.
use ibcworld::{message_proof, message_tag, Audit, Genesis, Ledger, Refused, Root, View, World};
use library_examples::{open, transfer, Failure};
use std::sync::mpsc::{channel, Receiver, Sender};
use std::thread;

/// The time of all blocks.
const TIME: u64 = 100;

/// The tag of a message that brings a packet.
const RECV_PACKET: u8 = 15;

/// The connection of both chains, as its path.
const CONNECTION: &str = "connections/connection-0";

/// How often each chain ends its block and is told of the other.
const TURNS: usize = 4;

fn begin() -> Result<World, Refused> {
    let mut genesis = Genesis::new(64, 64)?;
    genesis.add_chain(TIME)?;
    genesis.add_balance("alice", "atom", 1000)?;
    genesis.add_chain(TIME)?;
    genesis.add_balance("carol", "gold", 20)?;
    genesis.world()
}

/// A packet's message is judged by its bytes and the root alone, as the ledger will judge it: its proof shows what it says.
fn judge(message: &[u8], root: &Root) -> Result<(), Refused> {
    if message_tag(message)? == RECV_PACKET {
        message_proof(message, 0)?.1.verify(root)?;
    }
    Ok(())
}

/// Ends a block, shows the other chain what stands, proves the connection under the root of the block, and takes what is owed to this
/// chain, turn by turn.
fn drive(mut ledger: Ledger, to: &Sender<View>, from: &Receiver<View>) -> Result<Ledger, Failure> {
    for _ in 0..TURNS {
        ledger.end_block(TIME)?;
        let sent = to.send(ledger.view()?);
        sent.map_err(|_| "the other thread has ended")?;
        let theirs = from.recv()?;
        let mine = ledger.view()?;
        let proof = ledger.prove(mine.heights()?.height, CONNECTION)?;
        proof.verify(&mine.root()?)?;
        let root = theirs.root()?;
        for message in theirs.plan_for(&mine)? {
            let message = message?;
            judge(&message, &root)?;
            ledger.apply_bytes(&message)?;
        }
    }
    Ok(ledger)
}

fn print(audit: &Audit, name: &str, chain: u64) -> Result<(), Refused> {
    for held in audit.balances(chain)? {
        println!("balance {name} {held}");
    }
    Ok(())
}

fn main() -> Result<(), Failure> {
    let mut world = begin()?;
    let mut harbour = world.take()?.ok_or("no first ledger")?;
    let mut island = world.take()?.ok_or("no second ledger")?;
    open(&mut harbour, &mut island, TIME)?;
    harbour.apply(transfer("alice", "atom", 100, "bob", (1000, 0)))?;
    harbour.apply(transfer("alice", "atom", 20, "bob", (1000, 0)))?;
    island.apply(transfer("carol", "gold", 5, "alice", (1000, 0)))?;

    let (to_island, from_harbour) = channel();
    let (to_harbour, from_island) = channel();
    let harbour = thread::spawn(move || drive(harbour, &to_island, &from_island));
    let island = thread::spawn(move || drive(island, &to_harbour, &from_harbour));
    let harbour = harbour.join().map_err(|_| "a thread has panicked")??;
    let island = island.join().map_err(|_| "a thread has panicked")??;

    world.join(island).map_err(|not| not.refused)?;
    world.join(harbour).map_err(|not| not.refused)?;
    let audit = world.audit()?;
    print(&audit, "harbour", 0)?;
    print(&audit, "island", 1)?;
    Ok(())
}
