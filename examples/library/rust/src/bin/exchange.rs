//! An exchange on chain `harbour` takes deposits from chain `island` and pays withdrawals back, by what its ledger proves. Of a packet that came it looks
//! at the acknowledgement, the channel, the receiver, the number of tokens, the denomination and the memo before it credits the amount, and it waits
//! until so many blocks have ended behind it. A withdrawal is settled by its own packet, compared as a whole. Others try each of these: a second channel
//! from a chain of their own, another receiver, another denomination, and packets that chains refuse.
use ibcworld::{
    relay, Effect, Entry, Genesis, Ledger, Message, Packet, Refused, Relayed, TokenData, Transfer,
};
use library_examples::{open, transfer, Failure};
use std::collections::BTreeMap;

/// The time of all blocks.
const TIME: u64 = 100;

/// So many blocks have to end behind a deposit.
const CONFIRMATIONS: u64 = 2;

/// The acknowledgement of a packet of tokens that a chain took (ICS 20). Any other says that the tokens go back.
const SUCCESS: &[u8] = br#"{"result":"AQ=="}"#;

/// What the exchange takes, over which channel and on which account.
const PORT: &str = "transfer";
const CHANNEL: &str = "channel-0";
const DENOM: &str = "transfer/channel-0/gold";
const ACCOUNT: &str = "exchange";

/// A deposit that waits for its confirmations.
struct Deposit {
    customer: String,
    amount: u128,
    /// How many blocks had ended before it came.
    height: u64,
}

/// A withdrawal that isn't settled.
struct Withdrawal {
    customer: String,
    amount: u128,
    packet: Packet,
}

/// The exchange's books, by the entries of its ledger's history, each of which is read once.
#[derive(Default)]
struct Books {
    read: usize,
    height: u64,
    waiting: Vec<Deposit>,
    credit: BTreeMap<String, u128>,
    unsettled: Vec<Withdrawal>,
    paid: u128,
}

/// What is a deposit of a packet that came, or why it is none.
fn deposit_in(
    packet: &Packet,
    ack: &[u8],
    height: u64,
) -> Result<Result<Deposit, String>, Refused> {
    if packet.destination_port != PORT || packet.destination_channel != CHANNEL {
        let over = &packet.destination_channel;
        return Ok(Err(format!("it came over {over}")));
    }
    if ack != SUCCESS {
        return Ok(Err("the ledger refused it".into()));
    }
    // (a packet of port transfer has such data where it was taken)
    let told = TokenData::try_from(packet.data.as_slice())?;
    if told.receiver != ACCOUNT {
        return Ok(Err(format!("{} receives it", told.receiver)));
    }
    let [token] = told.tokens.as_slice() else {
        return Ok(Err("it has several tokens".into()));
    };
    let denom = packet.denom_received(&token.denom);
    if denom != DENOM {
        return Ok(Err(format!("it is {denom}")));
    }
    if told.memo.is_empty() {
        return Ok(Err("it names no customer".into()));
    }
    Ok(Ok(Deposit {
        customer: told.memo,
        amount: token.amount,
        height,
    }))
}

impl Books {
    /// Reads what the ledger was asked and answered since the last time. What it refused is passed over.
    fn follow(&mut self, ledger: &Ledger) -> Result<(), Refused> {
        for entry in ledger.history()?.skip(self.read) {
            self.take(&entry?)?;
            self.read += 1;
        }
        Ok(())
    }

    fn take(&mut self, entry: &Entry) -> Result<(), Refused> {
        let Ok(effect) = &entry.reply else {
            return Ok(());
        };
        match (entry.event.message()?, effect) {
            (None, _) => self.end_block(),
            (Some(Message::RecvPacket(it)), Effect::Ack(ack)) => self.judge(&it.packet, ack)?,
            (Some(Message::AckPacket(it)), _) => self.settle(&it.packet, it.ack == SUCCESS),
            (Some(Message::Timeout(it)), _) => self.settle(&it.packet, false),
            (Some(Message::TimeoutOnClose(it)), _) => self.settle(&it.packet, false),
            _ => (),
        }
        Ok(())
    }

    fn judge(&mut self, packet: &Packet, ack: &[u8]) -> Result<(), Refused> {
        match deposit_in(packet, ack, self.height)? {
            Ok(deposit) => self.waiting.push(deposit),
            Err(why) => println!("no deposit, since {why}"),
        }
        Ok(())
    }

    /// A block has ended: deposits that have their confirmations are credited.
    fn end_block(&mut self) {
        self.height += 1;
        let height = self.height;
        let (old, waiting) = std::mem::take(&mut self.waiting)
            .into_iter()
            .partition(|it| it.height + CONFIRMATIONS <= height);
        self.waiting = waiting;
        for it in Vec::<Deposit>::into_iter(old) {
            println!("credited to {}: {}", it.customer, it.amount);
            *self.credit.entry(it.customer).or_default() += it.amount;
        }
    }

    /// Takes the amount from the customer's credit and sends it. The packet is kept until it is settled.
    fn withdraw(
        &mut self,
        ledger: &mut Ledger,
        customer: &str,
        amount: u128,
        receiver: &str,
    ) -> Result<(), Failure> {
        let credit = self.credit.get_mut(customer).ok_or("no such customer")?;
        let left = credit.checked_sub(amount).ok_or("too little credit")?;
        let mut sent = Transfer::new(CHANNEL, ACCOUNT, DENOM, amount, receiver);
        sent.timeout_height = 1000;
        let Effect::Sent(sequence) = ledger.apply(sent)? else {
            return Err("a transfer has a sequence".into());
        };
        *credit = left;
        let packet = ledger.packet(PORT, CHANNEL, sequence)?;
        self.unsettled.push(Withdrawal {
            customer: customer.to_owned(),
            amount,
            packet: packet.ok_or("a packet that was sent is there")?,
        });
        Ok(())
    }

    /// A packet that the chain sent was acknowledged or has timed out. It settles a withdrawal only where it is the very packet.
    fn settle(&mut self, packet: &Packet, is_paid: bool) {
        let Some(at) = self.unsettled.iter().position(|it| it.packet == *packet) else {
            let (sequence, channel) = (packet.sequence, &packet.source_channel);
            println!("no withdrawal is packet {sequence} of {channel}");
            return;
        };
        let it = self.unsettled.remove(at);
        if is_paid {
            println!("paid to {}: {}", it.customer, it.amount);
            self.paid += it.amount;
        } else {
            println!("given back to {}: {}", it.customer, it.amount);
            *self.credit.entry(it.customer).or_default() += it.amount;
        }
    }

    /// What the exchange owes: credits, and deposits that wait. An unsettled withdrawal's tokens have left its account.
    fn owed(&self) -> u128 {
        let waiting: u128 = self.waiting.iter().map(|it| it.amount).sum();
        self.credit.values().sum::<u128>() + waiting
    }
}

/// A transfer with a customer's name as its memo.
fn deposit(user: &str, denom: &str, amount: u128, receiver: &str, memo: &str) -> Transfer {
    let mut sent = transfer(user, denom, amount, receiver, (1000, 0));
    sent.memo = memo.to_owned();
    sent
}

fn main() -> Result<(), Failure> {
    let mut genesis = Genesis::new(64, 64)?;
    genesis.add_chain(TIME)?;
    genesis.add_chain(TIME)?;
    genesis.add_balance("carol", "gold", 500)?;
    genesis.add_balance("dave", "gold", 100)?;
    genesis.add_balance("dave", "lead", 70)?;
    genesis.add_chain(TIME)?;
    genesis.add_balance("mallory", "gold", 1_000_000)?;
    let mut world = genesis.world()?;
    let mut harbour = world.take()?.ok_or("no first ledger")?;
    let mut island = world.take()?.ok_or("no second ledger")?;
    let mut shoal = world.take()?.ok_or("no third ledger")?;
    open(&mut harbour, &mut island, TIME)?;
    open(&mut harbour, &mut shoal, TIME)?;
    let mut books = Books::default();
    let mut done = Relayed::default();

    // carol deposits; what dave and mallory send looks like deposits to who reads a part of it
    island.apply(deposit("carol", "gold", 200, ACCOUNT, "carol"))?;
    island.apply(deposit("dave", "gold", 50, "bob", "dave"))?;
    island.apply(deposit("dave", "lead", 70, ACCOUNT, "dave"))?;
    island.apply(deposit("dave", "gold", 10, "the exchange", "dave"))?;
    shoal.apply(deposit("mallory", "gold", 1_000_000, ACCOUNT, "mallory"))?;
    relay(&mut harbour, &mut island, TIME, &mut done)?;
    relay(&mut harbour, &mut shoal, TIME, &mut done)?;
    books.follow(&harbour)?;
    println!("after one block: {} credited", books.credit.len());
    relay(&mut harbour, &mut island, TIME, &mut done)?;
    books.follow(&harbour)?;

    // she withdraws twice, the second time to a name that the island refuses; bob's packet has the sequence of her first
    books.withdraw(&mut harbour, "carol", 50, "carol")?;
    books.withdraw(&mut harbour, "carol", 30, "Carol of the island")?;
    let mut of_bob = Transfer::new("channel-1", "bob", DENOM, 50, "mallory");
    of_bob.timeout_height = 1000;
    harbour.apply(of_bob)?;
    for _ in 0..2 {
        relay(&mut harbour, &mut shoal, TIME, &mut done)?;
    }
    books.follow(&harbour)?;
    println!("paid so far: {}", books.paid);
    for _ in 0..2 {
        relay(&mut harbour, &mut island, TIME, &mut done)?;
    }
    books.follow(&harbour)?;

    let held = harbour.balance(ACCOUNT, DENOM)?;
    println!(
        "the exchange holds {held} {DENOM}, and owes {}",
        books.owed()
    );
    let (abroad, escrow) = (harbour.supply(DENOM)?, island.escrow(CHANNEL, "gold")?);
    println!("in the harbour: {abroad}, in escrow on the island: {escrow} gold");
    println!("refused on the way: {}", done.refused);
    world.join(harbour).map_err(|not| not.refused)?;
    world.join(island).map_err(|not| not.refused)?;
    world.join(shoal).map_err(|not| not.refused)?;
    println!("the audit tells of {} chains", world.audit()?.chains()?);
    Ok(())
}
