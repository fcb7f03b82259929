//! Packets go over one channel between two ledgers, a hundred at a time, from each side in turn. All are received and acknowledged. Behind each number
//! of packets it prints what calls take then, and the memory of the process (tools/long_run makes a table of it):
//!
//!     long_run PACKETS PACKETS [PACKETS ..]
//!
//! Each number is a multiple of 100, and the next one at least 1,000 more. A packet leaves two records where it is received: so each ledger has as many
//! records as both received packets. Calls are told in microseconds of processor, as the medians of the thousand packets behind the number.
use ibcworld::{Effect, Event, Genesis, Ledger, Message, Refused, Totals, View, World};
use library_examples::{open, spent, transfer, Failure};
use std::collections::BTreeMap;

/// The time of all blocks.
const TIME: u64 = 1;

/// How many packets go between two blocks. Where they are received they make twice as many records.
const PACKETS: usize = 100;

/// The tags of the messages that plans have.
const UPDATE: u8 = 2;
const RECEIVE: u8 = 15;
const ACKNOWLEDGE: u8 = 16;

/// How many rounds are timed behind each number of packets.
const ROUNDS: usize = 10;

/// How many calls are timed together, since the clock takes time too.
const TOGETHER: usize = 10;

/// What the user has who sends, at each chain.
const FUNDS: u128 = 1_000_000_000;

/// What a chain calls the tokens that come.
const VOUCHER: &str = "transfer/channel-0/t";

/// At most so many entries of a history are a handshake's.
const OPENING: usize = 20;

/// How many entries are put into a history to see what they take, and how many of them differ.
const PUT: usize = 100_000;
const SAMPLE: usize = 20_000;

/// The microseconds that a call took each time, by what was called.
type Times = BTreeMap<&'static str, Vec<f64>>;

/// What a ledger is owed by a plan: behind an update of its client a hundred messages of one tag. And what each of them tells.
struct Owed {
    tag: u8,
    effect: Effect,
    call: &'static str,
    plan: &'static str,
}

/// Events of histories, one behind another: where each message ends. The end of a block has no bytes.
#[derive(Default)]
struct Sample {
    bytes: Vec<u8>,
    ends: Vec<usize>,
}

/// Two ledgers with a channel of tokens, and what went over it.
struct Pair {
    ledgers: [Ledger; 2],
    transfer: Vec<u8>,
    owed: [Owed; 2],
    rounds: usize,
    seconds: f64,
}

fn ensure(is_so: bool, otherwise: &str) -> Result<(), Failure> {
    if is_so {
        Ok(())
    } else {
        Err(otherwise.into())
    }
}

/// Notes what a call took, by the seconds of so many.
fn note(times: &mut Times, name: &'static str, calls: usize, seconds: f64) {
    let each = seconds * 1e6 / calls as f64;
    times.entry(name).or_default().push(each);
}

/// Has so many calls made, and notes what one took.
fn timed<T>(
    times: &mut Times,
    name: &'static str,
    calls: usize,
    make: impl FnOnce() -> Result<T, Failure>,
) -> Result<T, Failure> {
    let begun = spent();
    let made = make()?;
    note(times, name, calls, spent() - begun);
    Ok(made)
}

fn end_block(ledger: &mut Ledger) -> Result<(), Failure> {
    let is_block = matches!(ledger.end_block(TIME)?, Effect::Block { .. });
    ensure(is_block, "the end of a block tells something else")
}

/// Sends a hundred packets behind so many.
fn send(
    from: &mut Ledger,
    transfer: &[u8],
    before: usize,
    times: &mut Times,
) -> Result<(), Failure> {
    for first in (before..before + PACKETS).step_by(TOGETHER) {
        timed(times, "Transfer", TOGETHER, || {
            for sequence in first + 1..=first + TOGETHER {
                let is_sent = from.apply_bytes(transfer)? == Effect::Sent(sequence as u64);
                ensure(is_sent, "a transfer has another sequence")?;
            }
            Ok(())
        })?;
    }
    Ok(())
}

/// The messages that a ledger is owed, and nothing else, where another one proves so.
fn plan(from: &View, to: &View, owed: &Owed, times: &mut Times) -> Result<Vec<Vec<u8>>, Failure> {
    let messages: Vec<Vec<u8>> = timed(times, owed.plan, 1, || {
        Ok(from.plan_for(to)?.collect::<Result<_, _>>()?)
    })?;
    let tags: Vec<u8> = messages.iter().map(|it| it[0]).collect();
    let is_due = tags.len() == 1 + PACKETS && tags[1..].iter().all(|&tag| tag == owed.tag);
    ensure(is_due && tags[0] == UPDATE, "a plan has other messages")?;
    Ok(messages)
}

/// Brings a ledger what it is owed. The views stay until it has that, as a relayer's do.
fn bring(from: &Ledger, to: &mut Ledger, owed: &Owed, times: &mut Times) -> Result<(), Failure> {
    let begun = spent();
    let views = (from.view()?, to.view()?);
    let made = spent() - begun;
    let messages = plan(&views.0, &views.1, owed, times)?;
    let is_updated = to.apply_bytes(&messages[0])? == Effect::Nothing;
    ensure(is_updated, "an update tells something else")?;
    for some in messages[1..].chunks(TOGETHER) {
        timed(times, owed.call, TOGETHER, || {
            for message in some {
                let is_taken = to.apply_bytes(message)? == owed.effect;
                ensure(is_taken, "a packet has another answer")?;
            }
            Ok(())
        })?;
    }
    let begun = spent();
    drop(views);
    note(times, "view", 2, made + spent() - begun);
    Ok(())
}

impl Pair {
    /// How many packets were received by both ledgers.
    fn received(&self) -> usize {
        self.rounds * PACKETS
    }

    /// A hundred packets go from one side to the other, and their acknowledgements come back.
    fn round(&mut self, times: &mut Times) -> Result<(), Failure> {
        let begun = spent();
        let sent = self.rounds / 2 * PACKETS;
        let [packets, acknowledgements] = &self.owed;
        let [x, y] = &mut self.ledgers;
        let (from, to) = if self.rounds % 2 == 0 { (x, y) } else { (y, x) };
        send(from, &self.transfer, sent, times)?;
        end_block(from)?;
        end_block(to)?;
        bring(from, to, packets, times)?;
        end_block(from)?;
        timed(times, "block of 200 changes", 1, || end_block(to))?;
        bring(to, from, acknowledgements, times)?;
        self.rounds += 1;
        self.seconds += spent() - begun;
        Ok(())
    }

    /// Ends blocks in which nothing happens. Who received the last packets has ended its block since, and was sent nothing more.
    fn idle(&mut self, times: &mut Times) -> Result<(), Failure> {
        let receiver = &mut self.ledgers[self.rounds % 2];
        timed(times, "empty block", TOGETHER, || {
            (0..TOGETHER).try_for_each(|_| end_block(receiver))
        })
    }

    /// Goes on until so many packets were received, and prints what calls take then.
    fn measure(&mut self, packets: usize) -> Result<(), Failure> {
        while self.received() < packets {
            self.round(&mut Times::new())?;
        }
        println!("{packets} seconds: {:.3}", self.seconds);
        println!("{packets} resident: {}", resident()?);
        let mut times = Times::new();
        for _ in 0..ROUNDS {
            self.round(&mut times)?;
            self.idle(&mut times)?;
        }
        for (call, mut each) in times {
            each.sort_by(f64::total_cmp);
            println!("{packets} {call}: {:.2}", each[each.len() / 2]);
        }
        Ok(())
    }

    /// Whether each side holds what it sent and received, and nothing is under way.
    fn check(&self) -> Result<(), Failure> {
        for side in 0..2 {
            let (ledger, peer) = (&self.ledgers[side], &self.ledgers[1 - side]);
            let sent = ((self.rounds + 1 - side) / 2 * PACKETS) as u128;
            let due = Totals {
                escrow: sent,
                vouchers: sent,
                out: 0,
                back: 0,
            };
            ensure(
                ledger.balance("u", "t")? == FUNDS - sent,
                "a sender holds something else",
            )?;
            ensure(
                peer.balance("v", VOUCHER)? == sent,
                "a receiver holds something else",
            )?;
            ensure(
                ledger.totals(peer, "channel-0", "t")? == due,
                "the channel has something else",
            )?;
        }
        Ok(())
    }

    /// Events of both histories, evenly over them, and how many entries these have.
    fn sample(&self) -> Result<(Sample, usize), Failure> {
        let (mut sample, mut entries) = (Sample::default(), 0);
        for ledger in &self.ledgers {
            let history = ledger.history()?;
            entries += history.len();
            let every = 1 + 2 * history.len() / SAMPLE;
            for entry in history.skip(OPENING).step_by(every) {
                if let Event::Message { bytes, .. } = entry?.event {
                    sample.bytes.extend(bytes);
                }
                sample.ends.push(sample.bytes.len());
            }
        }
        Ok((sample, entries))
    }
}

impl Sample {
    /// The events over and over.
    fn events(&self) -> impl Iterator<Item = &[u8]> {
        let begins = std::iter::once(&0).chain(&self.ends);
        let each = begins.zip(&self.ends);
        each.map(|(&begin, &end)| &self.bytes[begin..end]).cycle()
    }

    /// The bytes that one takes in a history, on the average. A ledger without a channel refuses the messages, and keeps nothing of them but the entries.
    fn taken(&self) -> Result<f64, Failure> {
        let (_world, [mut ledger, _other]) = chains()?;
        let before = resident()?;
        for event in self.events().take(PUT) {
            if event.is_empty() {
                end_block(&mut ledger)?;
            } else {
                let answer = ledger.apply_bytes(event);
                let refusals = [Refused::UnknownChannel, Refused::UnknownClient];
                let is_refused = refusals.iter().any(|&it| answer == Err(it));
                ensure(is_refused, "a ledger without a channel takes a message")?;
            }
        }
        ensure(ledger.history()?.len() == PUT, "a history lacks entries")?;
        Ok((resident()? - before) * 1024.0 / PUT as f64)
    }
}

/// The KiB of memory that this process has.
fn resident() -> Result<f64, Failure> {
    let status = std::fs::read_to_string("/proc/self/status")?;
    let line = status.lines().find_map(|it| it.strip_prefix("VmRSS:"));
    let size = line.and_then(|it| it.split_whitespace().next());
    Ok(size.ok_or("nothing tells the memory")?.parse()?)
}

extern "C" {
    /// Has the C library give free memory back, but for so many bytes.
    fn malloc_trim(kept: usize) -> i32;
}

fn chains() -> Result<(World, [Ledger; 2]), Failure> {
    let mut genesis = Genesis::new(1_000_000, 64)?;
    for _ in 0..2 {
        genesis.add_chain(TIME)?;
        genesis.add_balance("u", "t", FUNDS)?;
    }
    let mut world = genesis.world()?;
    let x = world.take()?.ok_or("no first ledger")?;
    let y = world.take()?.ok_or("no second ledger")?;
    Ok((world, [x, y]))
}

fn pair(mut ledgers: [Ledger; 2]) -> Result<Pair, Failure> {
    let [x, y] = &mut ledgers;
    open(x, y, TIME)?;
    let receive = Owed {
        tag: RECEIVE,
        effect: Effect::Ack(br#"{"result":"AQ=="}"#.to_vec()),
        call: "RecvPacket",
        plan: "plan of RecvPackets",
    };
    let acknowledge = Owed {
        tag: ACKNOWLEDGE,
        effect: Effect::Nothing,
        call: "AckPacket",
        plan: "plan of AckPackets",
    };
    Ok(Pair {
        ledgers,
        transfer: Message::from(transfer("u", "t", 1, "v", (0, 9))).encode()?,
        owed: [receive, acknowledge],
        rounds: 0,
        seconds: 0.0,
    })
}

/// The numbers of packets, where they are multiples of those of a round and leave room for the rounds that are timed.
fn sizes() -> Option<Vec<usize>> {
    let words = std::env::args().skip(1);
    let sizes: Vec<usize> = words.map(|it| it.parse().ok()).collect::<Option<_>>()?;
    let are_whole = sizes.iter().all(|it| it % PACKETS == 0 && *it > 0);
    let rise = sizes.windows(2).all(|it| it[1] >= it[0] + ROUNDS * PACKETS);
    (are_whole && rise && sizes.len() > 1).then_some(sizes)
}

fn main() -> Result<(), Failure> {
    let sizes = sizes().ok_or("usage: long_run PACKETS PACKETS [PACKETS ..]")?;
    let (world, ledgers) = chains()?;
    let mut pair = pair(ledgers)?;
    println!("0 resident: {}", resident()?);
    for packets in sizes {
        pair.measure(packets)?;
    }
    pair.check()?;
    let (sample, entries) = pair.sample()?;
    let of_packet = entries as f64 / pair.received() as f64;
    drop((pair, world));
    // SAFETY: any number may be kept.
    unsafe { malloc_trim(0) };
    println!("history: {:.0}", sample.taken()? * of_packet);
    Ok(())
}
