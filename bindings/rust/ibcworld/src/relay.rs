//! A handshake between two ledgers, and a relayer's turn between them.
use crate::{
    ChanOpenAck, ChanOpenConfirm, ChanOpenInit, ChanOpenTry, ClaimedClient, ConnOpenAck,
    ConnOpenConfirm, ConnOpenInit, ConnOpenTry, CreateClient, Effect, Header, Ledger, Order, Plan,
    Refused, UpdateClient, View,
};

/// What is opened between two ledgers: a channel between ports of one name.
#[derive(Clone, Debug, PartialEq, Eq, Hash)]
pub struct Opening {
    /// The port of both ends.
    pub port: String,
    /// The order.
    pub order: Order,
    /// The version of what the applications say.
    pub version: String,
    /// The time of each next block.
    pub time: u64,
}

impl Opening {
    /// A channel for tokens of one denomination a packet (ICS 20).
    #[must_use]
    pub fn of_tokens(time: u64) -> Opening {
        Opening {
            port: "transfer".to_owned(),
            order: Order::Unordered,
            version: "ics20-1".to_owned(),
            time,
        }
    }
}

/// The names that a chain gave.
#[derive(Clone, Debug, Default, PartialEq, Eq, Hash)]
pub struct Opened {
    /// Its client of the other chain.
    pub client: String,
    /// Its connection.
    pub connection: String,
    /// Its channel.
    pub channel: String,
}

/// The name that an effect tells.
fn name_of(effect: Effect) -> String {
    match effect {
        Effect::Client(name) | Effect::Connection(name) | Effect::Channel(name) => name,
        _ => String::new(),
    }
}

/// The number of a chain, which is below 8.
fn number_of(chain: u64) -> Result<u8, Refused> {
    u8::try_from(chain).map_err(|_| Refused::UnknownChain)
}

/// One side of a handshake.
struct Side<'a> {
    ledger: &'a mut Ledger,
    names: Opened,
}

impl Side<'_> {
    fn make_client(&mut self, of: &Ledger) -> Result<(), Refused> {
        let chain = number_of(of.view()?.heights()?.chain)?;
        self.names.client = name_of(self.ledger.apply(CreateClient { chain })?);
        Ok(())
    }

    /// Ends the block, of which the other side's client is told.
    fn end(&mut self, time: u64, other: &mut Side<'_>) -> Result<View, Refused> {
        self.ledger.end_block(time)?;
        let view = self.ledger.view()?;
        let heights = view.heights()?;
        let header = Header {
            chain: number_of(heights.chain)?,
            height: heights.height,
            time: heights.time,
            root: view.root()?,
        };
        other.ledger.apply(UpdateClient {
            client: other.names.client.clone(),
            header,
        })?;
        Ok(view)
    }

    /// The client's state, as its chain has it in the working block, and its path.
    fn claim(&self) -> Result<(ClaimedClient, String), Refused> {
        let path = format!("clients/{}/clientState", self.names.client);
        let state = self.ledger.query(&path)?.ok_or(Refused::UnknownClient)?;
        Ok((ClaimedClient::try_from(state.as_slice())?, path))
    }

    fn connection_path(&self) -> String {
        format!("connections/{}", self.names.connection)
    }

    fn channel_path(&self, port: &str) -> String {
        format!("channelEnds/ports/{port}/channels/{}", self.names.channel)
    }
}

/// The proof of what a view has at a path, as its bytes.
fn proof(view: &View, path: &str) -> Result<Vec<u8>, Refused> {
    view.proof(path).map(Vec::from)
}

fn begin_connection(x: &mut Side<'_>, y: &mut Side<'_>, time: u64) -> Result<View, Refused> {
    let begun = ConnOpenInit {
        client: x.names.client.clone(),
        peer_client: y.names.client.clone(),
    };
    x.names.connection = name_of(x.ledger.apply(begun)?);
    let view = x.end(time, y)?;

    let (claim, path) = x.claim()?;
    let tried = ConnOpenTry {
        client: y.names.client.clone(),
        peer_client: x.names.client.clone(),
        peer_connection: x.names.connection.clone(),
        claim,
        height: view.heights()?.height,
        proof_end: proof(&view, &x.connection_path())?,
        proof_client: proof(&view, &path)?,
    };
    y.names.connection = name_of(y.ledger.apply(tried)?);
    y.end(time, x)
}

/// Ends the connection's handshake by the view of y, and begins the channel.
fn begin_channel(
    x: &mut Side<'_>,
    y: &mut Side<'_>,
    what: &Opening,
    of_y: &View,
) -> Result<View, Refused> {
    let (claim, path) = y.claim()?;
    let answered = ConnOpenAck {
        connection: x.names.connection.clone(),
        peer_connection: y.names.connection.clone(),
        claim,
        height: of_y.heights()?.height,
        proof_end: proof(of_y, &y.connection_path())?,
        proof_client: proof(of_y, &path)?,
    };
    x.ledger.apply(answered)?;
    let begun = ChanOpenInit {
        port: what.port.clone(),
        order: what.order,
        connection: x.names.connection.clone(),
        peer_port: what.port.clone(),
        version: what.version.clone(),
    };
    x.names.channel = name_of(x.ledger.apply(begun)?);
    x.end(what.time, y)
}

/// Confirms the connection by the view of x, and answers the channel.
fn try_channel(
    x: &mut Side<'_>,
    y: &mut Side<'_>,
    what: &Opening,
    of_x: &View,
) -> Result<View, Refused> {
    let height = of_x.heights()?.height;
    let confirmed = ConnOpenConfirm {
        connection: y.names.connection.clone(),
        height,
        proof: proof(of_x, &x.connection_path())?,
    };
    y.ledger.apply(confirmed)?;
    let tried = ChanOpenTry {
        port: what.port.clone(),
        order: what.order,
        connection: y.names.connection.clone(),
        peer_port: what.port.clone(),
        peer_channel: x.names.channel.clone(),
        version: what.version.clone(),
        height,
        proof: proof(of_x, &x.channel_path(&what.port))?,
    };
    y.names.channel = name_of(y.ledger.apply(tried)?);
    y.end(what.time, x)
}

fn end_channel(
    x: &mut Side<'_>,
    y: &mut Side<'_>,
    what: &Opening,
    of_y: &View,
) -> Result<(), Refused> {
    let answered = ChanOpenAck {
        port: what.port.clone(),
        channel: x.names.channel.clone(),
        peer_channel: y.names.channel.clone(),
        height: of_y.heights()?.height,
        proof: proof(of_y, &y.channel_path(&what.port))?,
    };
    x.ledger.apply(answered)?;
    let view = x.end(what.time, y)?;

    let confirmed = ChanOpenConfirm {
        port: what.port.clone(),
        channel: y.names.channel.clone(),
        height: view.heights()?.height,
        proof: proof(&view, &x.channel_path(&what.port))?,
    };
    y.ledger.apply(confirmed)?;
    Ok(())
}

/// Makes clients, a connection and a channel between two ledgers of one world (ICS 2, 3 and 4), by the twenty steps of the program's `open`, and
/// tells the names that each gave. The channel is open then on both sides, and the last step stands in y's working block.
///
/// # Errors
/// The first refusal. What was done before it stays done.
pub fn open(x: &mut Ledger, y: &mut Ledger, what: &Opening) -> Result<(Opened, Opened), Refused> {
    let mut x = Side {
        ledger: x,
        names: Opened::default(),
    };
    let mut y = Side {
        ledger: y,
        names: Opened::default(),
    };
    x.make_client(y.ledger)?;
    y.make_client(x.ledger)?;
    let of_y = begin_connection(&mut x, &mut y, what.time)?;
    let of_x = begin_channel(&mut x, &mut y, what, &of_y)?;
    let of_y = try_channel(&mut x, &mut y, what, &of_x)?;
    end_channel(&mut x, &mut y, what, &of_y)?;
    Ok((x.names, y.names))
}

/// What turns of a relayer came to.
#[derive(Clone, Copy, Debug, Default, PartialEq, Eq, Hash)]
pub struct Relayed {
    /// How many messages were taken.
    pub taken: u64,
    /// How many were refused.
    pub refused: u64,
    /// The last refusal.
    pub last: Option<Refused>,
}

impl Relayed {
    fn send(&mut self, plan: Plan, to: &mut Ledger) -> Result<(), Refused> {
        for message in plan {
            match to.apply_bytes(&message?) {
                Ok(_) => self.taken += 1,
                Err(Refused::NoMemory) => return Err(Refused::NoMemory),
                Err(refused) => {
                    self.refused += 1;
                    self.last = Some(refused);
                }
            }
        }
        Ok(())
    }
}

/// A relayer's turn between two ledgers (ICS 18): both chains end their blocks, and each is sent what it is owed that the other proves. What was
/// taken and refused is added to `done`.
///
/// # Errors
/// A refusal of a block, or `NoMemory`.
pub fn relay(x: &mut Ledger, y: &mut Ledger, time: u64, done: &mut Relayed) -> Result<(), Refused> {
    x.end_block(time)?;
    y.end_block(time)?;
    let (of_x, of_y) = (x.view()?, y.view()?);
    done.send(of_x.plan_for(&of_y)?, y)?;
    done.send(of_y.plan_for(&of_x)?, x)
}
