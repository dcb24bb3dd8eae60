//! A small lease service: it reads stored requests, gives each client an address of its own, and prints the options that it
//! would answer. A file has messages that are each framed by a four-byte length where its name ends with `.bin`, else one
//! message.

use sindovaleph::{Message, Value, Writer, codes, flags, message_types, ops};
use std::collections::BTreeMap;
use std::error::Error;
use std::net::Ipv4Addr;
use std::path::Path;
use std::{env, fs};

const SERVER: Ipv4Addr = Ipv4Addr::new(192, 0, 2, 1);
const MASK: Ipv4Addr = Ipv4Addr::new(255, 255, 0, 0);
const ROUTERS: [Ipv4Addr; 2] = [SERVER, Ipv4Addr::new(192, 0, 2, 2)];
const SECONDS: u32 = 3600;

/// What the service takes from a message.
#[derive(Default)]
struct Request {
    xid: u32,
    client: Vec<u8>,
    broadcast: bool,
    kind: Option<u8>,
    host: String,
    wanted: Option<Ipv4Addr>,
    asked: Vec<u8>,
}

/// What it answers: an address, and the options as bytes.
struct Answer {
    address: Ipv4Addr,
    options: Vec<u8>,
}

/// The addresses that are given, by the client's hardware address.
#[derive(Default)]
struct Leases {
    given: BTreeMap<Vec<u8>, Ipv4Addr>,
}

impl Leases {
    /// The client's own address, or the one that it wants if it is free, or the next one.
    fn give(&mut self, request: &Request) -> Ipv4Addr {
        if let Some(&address) = self.given.get(&request.client) {
            return address;
        }
        let next = Ipv4Addr::from_bits(0x0A00_0001 + self.given.len() as u32);
        let free = |wanted: &Ipv4Addr| self.given.values().all(|given| given != wanted);
        let address = request.wanted.filter(free).unwrap_or(next);
        self.given.insert(request.client.clone(), address);
        address
    }
}

/// Reads a request; what comes from a server is none. Values that cannot be read are passed over.
fn read(bytes: &[u8]) -> Result<Option<Request>, Box<dyn Error>> {
    let message = Message::new(bytes)?;
    if message.opcode() != ops::BOOT_REQUEST {
        return Ok(None);
    }
    let mut request = Request { xid: message.xid(), ..Request::default() };
    request.client = message.chaddr()?.own().to_vec();
    request.broadcast = message.flags() & flags::BROADCAST != 0;
    let mut join = vec![0; bytes.len()];
    for opt in message.opts(&mut join) {
        let opt = opt?;
        match (opt.code(), opt.read()) {
            (codes::MESSAGE_TYPE, Ok(Value::MessageType(kind))) => request.kind = Some(kind),
            (codes::HOSTNAME, Ok(Value::Text(host))) => request.host = host.into(),
            (codes::REQUESTED_IP_ADDRESS, Ok(Value::Address(wanted))) => request.wanted = Some(wanted),
            (codes::PARAMETER_REQUEST_LIST, Ok(Value::Codes(asked))) => request.asked = asked.to_vec(),
            _ => (),
        }
    }
    Ok(Some(request))
}

/// The answer to a request, if there is one.
fn answer(leases: &mut Leases, request: &Request) -> Result<Option<Answer>, Box<dyn Error>> {
    let kind = match request.kind {
        Some(message_types::DISCOVER) => message_types::OFFER,
        Some(message_types::REQUEST) => message_types::ACK,
        _ => return Ok(None),
    };
    let address = leases.give(request);
    let mut room = [0; 512];
    let mut writer = Writer::new(&mut room);
    writer.message_type(codes::MESSAGE_TYPE, kind)?;
    writer.address(codes::SERVER_IDENTIFIER, SERVER)?;
    writer.u32(codes::ADDRESS_LEASE_TIME, SECONDS)?;
    for code in &request.asked {
        match *code {
            codes::SUBNET_MASK => writer.address(codes::SUBNET_MASK, MASK)?,
            codes::ROUTER => writer.addresses(codes::ROUTER, &ROUTERS)?,
            _ => (),
        }
    }
    writer.close()?;
    Ok(Some(Answer { address, options: writer.written().to_vec() }))
}

/// Serves one message, in a line.
fn serve(leases: &mut Leases, bytes: &[u8]) -> Result<String, Box<dyn Error>> {
    let Some(request) = read(bytes)? else { return Ok("no request".into()) };
    let Some(answer) = answer(leases, &request)? else { return Ok(format!("{:08x} needs no answer", request.xid)) };
    let Request { xid, client, host, .. } = request;
    let way = if request.broadcast { "broadcast" } else { "unicast" };
    Ok(format!("{xid:08x} {client:02x?} {host:?} gets {} by {way}: {:?}", answer.address, answer.options))
}

/// The messages of a file.
fn messages(path: &str) -> Result<Vec<Vec<u8>>, Box<dyn Error>> {
    let bytes = fs::read(path)?;
    if Path::new(path).extension().is_none_or(|end| end != "bin") {
        return Ok(vec![bytes]);
    }
    let (mut all, mut rest) = (Vec::new(), &bytes[..]);
    while let Some((length, behind)) = rest.split_first_chunk() {
        let length = u32::from_be_bytes(*length) as usize;
        let (message, behind) = behind.split_at_checked(length).ok_or("the file is cut")?;
        all.push(message.to_vec());
        rest = behind;
    }
    Ok(all)
}

fn main() -> Result<(), Box<dyn Error>> {
    let mut leases = Leases::default();
    for path in env::args().skip(1) {
        for message in messages(&path)? {
            match serve(&mut leases, &message) {
                Ok(line) => println!("{line}"),
                Err(error) => {
                    println!("not served");
                    eprintln!("{error}");
                }
            }
        }
    }
    Ok(())
}
