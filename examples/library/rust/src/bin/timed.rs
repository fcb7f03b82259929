//! Makes one call over and over, and prints how many answers were right and how long one took:
//!
//!     timed CALL COUNT [SIZE]
//!
//! CALL is `verify` (a proof of presence over so many thousand records), `claim` (what such a proof says of itself), `message` (the tag of a
//! message of the largest kind), `plan` (both views and both plans between two chains while 100 packets stand, after so many thousand
//! were received and acknowledged), `view` (the view of a chain that ended so many times 30 blocks) or `block` (a message that makes one record,
//! and the end of the block, over so many thousand records). SIZE is 1 where it isn't given.
use ibcworld::{
    message_tag, relay, ConnOpenInit, CreateClient, Genesis, Ledger, Message, Packet, Refused,
    Relayed, TimeoutOnClose, World,
};
use library_examples::{open, transfer, Failure};
use std::time::Instant;

/// The time of all blocks.
const TIME: u64 = 1;

/// How many packets stand when plans are made.
const STANDING: usize = 100;

/// How long a payload or a proof may be.
const LONGEST: usize = 0xffff;

/// A world of two chains, with its first ledger and its second.
type Chains = (World, Ledger, Ledger);

fn chains() -> Result<Chains, Failure> {
    let mut genesis = Genesis::new(1_000_000, 64)?;
    genesis.add_chain(TIME)?;
    genesis.add_balance("u", "t", 1_000_000_000)?;
    genesis.add_chain(TIME)?;
    let mut world = genesis.world()?;
    let x = world.take()?.ok_or("no first ledger")?;
    let y = world.take()?.ok_or("no second ledger")?;
    Ok((world, x, y))
}

/// A message that makes a connection, once there is a client.
fn opening() -> Result<Vec<u8>, Refused> {
    let client = "inprocess-0".to_owned();
    Message::from(ConnOpenInit {
        peer_client: client.clone(),
        client,
    })
    .encode()
}

/// Two chains, of which the first has committed so many thousand connections.
fn connected(thousands: usize) -> Result<Chains, Failure> {
    let (world, mut x, y) = chains()?;
    x.apply(CreateClient { chain: 1 })?;
    let opening = opening()?;
    for _ in 0..thousands * 1_000 {
        x.apply_bytes(&opening)?;
    }
    x.end_block(TIME)?;
    Ok((world, x, y))
}

/// Makes a call so often, and prints how many answers were right and how long one took.
fn count(
    call: &str,
    times: usize,
    mut answer: impl FnMut() -> Result<bool, Refused>,
) -> Result<(), Failure> {
    let begun = Instant::now();
    let mut right = 0;
    for _ in 0..times {
        right += usize::from(answer()?);
    }
    let each = begun.elapsed().as_secs_f64() * 1e6 / times.max(1) as f64;
    println!("{call}: {right} right answers of {times}, {each:.2} microseconds each");
    Ok(())
}

fn judge_proofs(call: &str, times: usize, thousands: usize) -> Result<(), Failure> {
    let (_world, x, _y) = connected(thousands)?;
    let path = format!("connections/connection-{}", thousands * 500);
    let value = x.query(&path)?.ok_or("no connection")?;
    let view = x.view()?;
    let (root, proof) = (view.root()?, view.proof(&path)?);
    if call == "verify" {
        count(call, times, || {
            Ok(proof.verify_present(&root, path.as_bytes(), &value).is_ok())
        })
    } else {
        count(call, times, || {
            Ok(proof.claim()?.value.as_deref() == Some(&value[..]))
        })
    }
}

/// A message with a payload and two proofs, each as long as one may be: but for longer names no message has more bytes.
fn largest() -> Result<Vec<u8>, Refused> {
    let long = vec![7; LONGEST];
    let (port, channel) = ("note".to_owned(), "channel-0".to_owned());
    let packet = Packet {
        sequence: 1,
        timeout_height: 1,
        timeout_time: 1,
        source_port: port.clone(),
        source_channel: channel.clone(),
        destination_port: port,
        destination_channel: channel,
        data: long.clone(),
    };
    let late = TimeoutOnClose {
        packet,
        next_recv: 1,
        height: 1,
        proof: long.clone(),
        proof_close: long,
    };
    Message::from(late).encode()
}

fn read_messages(call: &str, times: usize) -> Result<(), Failure> {
    let message = largest()?;
    count(call, times, || Ok(message_tag(&message)? == 18))
}

/// Both views, and whether the plan for the second chain has the packets that stand, and that for the first nothing.
fn is_planned(x: &Ledger, y: &Ledger) -> Result<bool, Refused> {
    let (from_x, from_y) = (x.view()?, y.view()?);
    let to_y = from_x.plan_for(&from_y)?.collect::<Result<Vec<_>, _>>()?;
    let to_x = from_y.plan_for(&from_x)?;
    Ok(to_y.len() == STANDING + 1 && to_x.len() == 0)
}

fn plan(call: &str, times: usize, thousands: usize) -> Result<(), Failure> {
    let (_world, mut x, mut y) = chains()?;
    open(&mut x, &mut y, TIME)?;
    let sent = Message::from(transfer("u", "t", 1, "v", (0, 9))).encode()?;
    let mut done = Relayed::default();
    for _ in 0..thousands * 10 {
        for _ in 0..STANDING {
            x.apply_bytes(&sent)?;
        }
        relay(&mut x, &mut y, TIME, &mut done)?;
        relay(&mut x, &mut y, TIME, &mut done)?;
    }
    for _ in 0..STANDING {
        x.apply_bytes(&sent)?;
    }
    x.end_block(TIME)?;
    y.end_block(TIME)?;
    count(call, times, || is_planned(&x, &y))
}

fn look(call: &str, times: usize, size: usize) -> Result<(), Failure> {
    let (_world, mut x, _y) = chains()?;
    let blocks = 30 * size as u64;
    for _ in 0..blocks {
        x.end_block(TIME)?;
    }
    count(call, times, || Ok(x.view()?.heights()?.height == blocks))
}

fn end_blocks(call: &str, times: usize, thousands: usize) -> Result<(), Failure> {
    let (_world, mut x, _y) = connected(thousands)?;
    let opening = opening()?;
    count(call, times, || {
        x.apply_bytes(&opening)?;
        x.end_block(TIME)?;
        Ok(true)
    })
}

fn main() -> Result<(), Failure> {
    let usage = "usage: timed verify|claim|message|plan|view|block COUNT [SIZE]";
    let words: Vec<String> = std::env::args().skip(1).collect();
    let (call, times, size) = match words.as_slice() {
        [call, times] => (call, times.parse()?, 1),
        [call, times, size] => (call, times.parse()?, size.parse()?),
        _ => return Err(usage.into()),
    };
    match call.as_str() {
        "verify" | "claim" => judge_proofs(call, times, size),
        "message" => read_messages(call, times),
        "plan" => plan(call, times, size),
        "view" => look(call, times, size),
        "block" => end_blocks(call, times, size),
        _ => Err(usage.into()),
    }
}
