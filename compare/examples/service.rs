//! A small lease service: it reads stored requests, gives each client an address of its own, and prints the options that it
//! would answer. A file has messages that are each framed by a four-byte length where its name ends with `.bin`, else one
//! message.

use dhcproto::v4::borrowed::Message;
use dhcproto::v4::{DhcpOption, MessageType, Opcode, OptionCode};
use dhcproto::{Encodable, Encoder};
use std::collections::BTreeMap;
use std::error::Error;
use std::net::Ipv4Addr;
use std::path::Path;
use std::{env, fs};

const SERVER: Ipv4Addr = Ipv4Addr::new(192, 0, 2, 1);
const MASK: Ipv4Addr = Ipv4Addr::new(255, 255, 0, 0);
const ROUTERS: [Ipv4Addr; 2] = [SERVER, Ipv4Addr::new(192, 0, 2, 2)];
const SECONDS: u32 = 3600;

/// What the service takes from a message.
#[derive(Default)]
struct Request {
    xid: u32,
    client: Vec<u8>,
    broadcast: bool,
    kind: Option<MessageType>,
    host: String,
    wanted: Option<Ipv4Addr>,
    asked: Vec<OptionCode>,
}

/// What it answers: an address, and the options as bytes.
struct Answer {
    address: Ipv4Addr,
    options: Vec<u8>,
}

/// The addresses that are given, by the client's hardware address.
#[derive(Default)]
struct Leases {
    given: BTreeMap<Vec<u8>, Ipv4Addr>,
}

impl Leases {
    /// The client's own address, or the one that it wants if it is free, or the next one.
    fn give(&mut self, request: &Request) -> Ipv4Addr {
        if let Some(&address) = self.given.get(&request.client) {
            return address;
        }
        let next = Ipv4Addr::from_bits(0x0A00_0001 + self.given.len() as u32);
        let free = |wanted: &Ipv4Addr| self.given.values().all(|given| given != wanted);
        let address = request.wanted.filter(free).unwrap_or(next);
        self.given.insert(request.client.clone(), address);
        address
    }
}

/// Reads a request; what comes from a server is none. Values that cannot be read are passed over.
fn read(bytes: &[u8]) -> Result<Option<Request>, Box<dyn Error>> {
    let message = Message::new(bytes)?;
    if message.opcode() != Opcode::BootRequest {
        return Ok(None);
    }
    let mut request = Request { xid: message.xid(), ..Request::default() };
    request.client = message.chaddr().to_vec();
    request.broadcast = message.flags().broadcast();
    for opt in message.opts() {
        match opt.into_option() {
            Ok(DhcpOption::MessageType(kind)) => request.kind = Some(kind),
            Ok(DhcpOption::Hostname(host)) => request.host = host,
            Ok(DhcpOption::RequestedIpAddress(wanted)) => request.wanted = Some(wanted),
            Ok(DhcpOption::ParameterRequestList(asked)) => request.asked = asked,
            _ => (),
        }
    }
    Ok(Some(request))
}

/// The answer to a request, if there is one.
fn answer(leases: &mut Leases, request: &Request) -> Result<Option<Answer>, Box<dyn Error>> {
    let kind = match request.kind {
        Some(MessageType::Discover) => MessageType::Offer,
        Some(MessageType::Request) => MessageType::Ack,
        _ => return Ok(None),
    };
    let address = leases.give(request);
    let mut options = Vec::new();
    let mut writer = Encoder::new(&mut options);
    DhcpOption::MessageType(kind).encode(&mut writer)?;
    DhcpOption::ServerIdentifier(SERVER).encode(&mut writer)?;
    DhcpOption::AddressLeaseTime(SECONDS).encode(&mut writer)?;
    for code in &request.asked {
        match *code {
            OptionCode::SubnetMask => DhcpOption::SubnetMask(MASK).encode(&mut writer)?,
            OptionCode::Router => DhcpOption::Router(ROUTERS.to_vec()).encode(&mut writer)?,
            _ => (),
        }
    }
    DhcpOption::End.encode(&mut writer)?;
    Ok(Some(Answer { address, options }))
}

/// Serves one message, in a line.
fn serve(leases: &mut Leases, bytes: &[u8]) -> Result<String, Box<dyn Error>> {
    let Some(request) = read(bytes)? else { return Ok("no request".into()) };
    let Some(answer) = answer(leases, &request)? else { return Ok(format!("{:08x} needs no answer", request.xid)) };
    let Request { xid, client, host, .. } = request;
    let way = if request.broadcast { "broadcast" } else { "unicast" };
    Ok(format!("{xid:08x} {client:02x?} {host:?} gets {} by {way}: {:?}", answer.address, answer.options))
}

/// The messages of a file.
fn messages(path: &str) -> Result<Vec<Vec<u8>>, Box<dyn Error>> {
    let bytes = fs::read(path)?;
    if Path::new(path).extension().is_none_or(|end| end != "bin") {
        return Ok(vec![bytes]);
    }
    let (mut all, mut rest) = (Vec::new(), &bytes[..]);
    while let Some((length, behind)) = rest.split_first_chunk() {
        let length = u32::from_be_bytes(*length) as usize;
        let (message, behind) = behind.split_at_checked(length).ok_or("the file is cut")?;
        all.push(message.to_vec());
        rest = behind;
    }
    Ok(all)
}

fn main() -> Result<(), Box<dyn Error>> {
    let mut leases = Leases::default();
    for path in env::args().skip(1) {
        for message in messages(&path)? {
            match serve(&mut leases, &message) {
                Ok(line) => println!("{line}"),
                Err(error) => {
                    println!("not served");
                    eprintln!("{error}");
                }
            }
        }
    }
    Ok(())
}
