//! A buyer, a shop and a bank over the channels of the standard library. Each asks a monitor of its role before it sends a message, and
//! reports each message that it received.
//!
//! There is a channel for each ordered pair of roles, so each program has a receiver for each of its peers. One receiver for all of them
//! wouldn't do: the bank's receipt may come to the buyer before the shop's price, or after it, and the buyer reads the price first.
//!
//!     cargo run --example channels_of_three
use rumpsteak::{Monitor, Refusal, State, Value};
use std::collections::HashMap;
use std::error::Error;
use std::sync::mpsc::{channel, Receiver, Sender};
use std::thread;

const ROLES: [&str; 3] = ["Buyer", "Shop", "Bank"];

const TEXT: &str = "roles Buyer, Shop, Bank
protocol rec X. Buyer->Shop{
  order(bytes). Shop->Bank:charge(nat). Shop->Buyer:price(nat). Bank->Buyer:receipt(nat). X,
  bye(). Shop->Bank:bye(). end
}";

type Message = (&'static str, Value);
type Failure = Box<dyn Error + Send + Sync>;

/// The queues of a role's program, one to and one from each of its peers, with the program's monitor.
struct Desk {
    monitor: Monitor,
    to: HashMap<&'static str, Sender<Message>>,
    from: HashMap<&'static str, Receiver<Message>>,
}

impl Desk {
    /// A desk for each role. Each ordered pair of roles has a channel of its own.
    fn all() -> Result<[Desk; 3], Refusal> {
        let open = |role| Ok(Desk { monitor: Monitor::open(TEXT, role)?, to: HashMap::new(), from: HashMap::new() });
        let mut desks = [open(ROLES[0])?, open(ROLES[1])?, open(ROLES[2])?];
        for sender in 0..3 {
            for receiver in (0..3).filter(|&receiver| receiver != sender) {
                let (to, from) = channel();
                desks[sender].to.insert(ROLES[receiver], to);
                desks[receiver].from.insert(ROLES[sender], from);
            }
        }
        Ok(desks)
    }

    fn send(&mut self, peer: &str, label: &'static str, value: impl Into<Value>) -> Result<(), Failure> {
        let value = value.into();
        self.monitor.sent(peer, label, &value)?;
        Ok(self.to[peer].send((label, value))?)
    }

    /// Waits for a message from the peer that the state names; other peers' messages stay in their channels.
    fn receive(&mut self) -> Result<Message, Failure> {
        let peer = match self.monitor.state() {
            State::Receives { peer, .. } => peer.to_owned(),
            state => return Err(format!("{} can't receive now: its state is {state}", self.monitor.role()).into()),
        };
        let (label, value) = self.from[peer.as_str()].recv()?;
        self.monitor.received(&peer, label, &value)?;
        Ok((label, value))
    }
}

fn buyer(mut desk: Desk) -> Result<(), Failure> {
    for item in ["bread", "butter"] {
        desk.send("Shop", "order", item)?;
        let (_, price) = desk.receive()?;
        let (_, receipt) = desk.receive()?;
        if price != receipt {
            return Err(format!("{item} costs {price:?}, and {receipt:?} was paid").into());
        }
        println!("{item}: {}", u64::try_from(price).map_err(|price| format!("{price:?} is no price"))?);
    }
    desk.send("Shop", "bye", ())
}

fn shop(mut desk: Desk) -> Result<(), Failure> {
    while let (_, Value::Bytes(item)) = desk.receive()? {
        let price = item.len() as u64;
        desk.send("Bank", "charge", price)?;
        desk.send("Buyer", "price", price)?;
    }
    desk.send("Bank", "bye", ())
}

fn bank(mut desk: Desk) -> Result<(), Failure> {
    while let (_, Value::Nat(sum)) = desk.receive()? {
        desk.send("Buyer", "receipt", sum)?;
    }
    // The session is over: a message after that would be a fault of this program, and stays here.
    let departure = desk.send("Buyer", "receipt", 1u64).unwrap_err();
    println!("{departure}");
    Ok(())
}

fn main() -> Result<(), Failure> {
    let [at_buyer, at_shop, at_bank] = Desk::all()?;
    let others = [thread::spawn(|| shop(at_shop)), thread::spawn(|| bank(at_bank))];
    buyer(at_buyer)?;
    for other in others {
        other.join().expect("the shop and the bank don't panic")?;
    }
    Ok(())
}
