//! What stands around a relay that is measured, in plain Rust without crates (`rustc -O`): who asks, who answers, and two
//! relays that do less than one has to. Linux alone: it waits by epoll.
//!
//! - `ask HOST:PORT NAME[,NAME..] WINDOW SECONDS REALM [OCTETS]`: a connection for each name, with so many requests unanswered on
//!   each. Checks each answer, and prints what it has counted. With OCTETS an answer has to grant so many, too.
//! - `check HOST:PORT NAME REALM OCTETS..`: asks for each of these whether the account has what so many octets cost, and prints
//!   0 where it has, else 1 (Check-Balance-Result).
//! - `answer PORT NAME`: a server that answers each credit-control request with DIAMETER_SUCCESS.
//! - `copy PORT HOST:PORT`: hands octets on, each connection to one of its own.
//! - `frame PORT HOST:PORT`: finds the messages, gives each request an identifier of its own and appends a Route-Record to it;
//!   gives the answer its identifier back.
use std::collections::HashMap;
use std::io::{self, ErrorKind, Read, Write};
use std::net::{TcpListener, TcpStream};
use std::os::fd::{AsRawFd, RawFd};
use std::time::{Duration, Instant};

mod poll {
    use std::io;
    use std::os::fd::RawFd;

    pub const IN: u32 = 1;
    pub const OUT: u32 = 4;

    #[repr(C)]
    #[cfg_attr(target_arch = "x86_64", repr(packed))]
    #[derive(Clone, Copy)]
    pub struct Event {
        pub events: u32,
        pub token: u64,
    }

    unsafe extern "C" {
        fn epoll_create1(flags: i32) -> i32;
        fn epoll_ctl(epoll: i32, operation: i32, fd: i32, event: *mut Event) -> i32;
        fn epoll_wait(epoll: i32, events: *mut Event, most: i32, timeout: i32) -> i32;
    }

    pub struct Poll(i32);

    impl Poll {
        pub fn new() -> Self {
            Poll(unsafe { epoll_create1(0) })
        }

        fn control(&self, operation: i32, fd: RawFd, token: usize, events: u32) {
            let mut event = Event { events, token: token as u64 };
            unsafe { epoll_ctl(self.0, operation, fd, &mut event) };
        }

        pub fn add(&self, fd: RawFd, token: usize) {
            self.control(1, fd, token, IN);
        }

        pub fn change(&self, fd: RawFd, token: usize, events: u32) {
            self.control(3, fd, token, events);
        }

        /// An ended connection would be reported for ever.
        pub fn remove(&self, fd: RawFd) {
            self.control(2, fd, 0, 0);
        }

        /// The sources that are ready, after so many milliseconds at most.
        pub fn wait(&self, milliseconds: i32) -> io::Result<Vec<usize>> {
            let mut events = [Event { events: 0, token: 0 }; 64];
            let count = unsafe { epoll_wait(self.0, events.as_mut_ptr(), 64, milliseconds) };
            if count < 0 {
                return Err(io::Error::last_os_error());
            }
            Ok(events[..count as usize].iter().map(|event| event.token as usize).collect())
        }
    }
}

use poll::Poll;

/// A connection: what was read of it and is no whole message yet, and what waits to be written.
struct Conn {
    stream: TcpStream,
    input: Vec<u8>,
    output: Vec<u8>,
    waits: bool,
    ended: bool,
}

impl Conn {
    fn new(stream: TcpStream) -> Self {
        stream.set_nonblocking(true).expect("no blocking");
        stream.set_nodelay(true).expect("no delay");
        Conn { stream, input: Vec::new(), output: Vec::new(), waits: false, ended: false }
    }

    fn fd(&self) -> RawFd {
        self.stream.as_raw_fd()
    }

    /// Reads what is there, a piece at most.
    fn read(&mut self) {
        let mut piece = [0u8; 65_536];
        match self.stream.read(&mut piece) {
            Ok(0) => self.ended = true,
            Ok(count) => self.input.extend_from_slice(&piece[..count]),
            Err(fault) if fault.kind() == ErrorKind::WouldBlock => {}
            Err(_) => self.ended = true,
        }
    }

    /// Writes what waits, and asks to be told when there is room for the rest.
    fn write(&mut self, poll: &Poll, token: usize) {
        while !self.output.is_empty() && !self.ended {
            match self.stream.write(&self.output) {
                Ok(0) => self.ended = true,
                Ok(count) => {
                    self.output.drain(..count);
                }
                Err(fault) if fault.kind() == ErrorKind::WouldBlock => break,
                Err(_) => self.ended = true,
            }
        }
        let waits = !self.output.is_empty();
        if waits != self.waits {
            self.waits = waits;
            poll.change(self.fd(), token, if waits { poll::IN | poll::OUT } else { poll::IN });
        }
    }

    /// Hands on each whole message that was read.
    fn each_message(&mut self, mut on_message: impl FnMut(&[u8], &mut Vec<u8>)) {
        let mut at = 0;
        while self.input.len() - at >= 20 {
            let length = number(&self.input[at..], 0) as usize & 0xFF_FFFF;
            if length < 20 || self.input.len() - at < length {
                break;
            }
            on_message(&self.input[at..at + length], &mut self.output);
            at += length;
        }
        self.input.drain(..at);
    }
}

fn number(octets: &[u8], at: usize) -> u32 {
    u32::from_be_bytes(octets[at..at + 4].try_into().expect("four octets"))
}

fn is_request(message: &[u8]) -> bool {
    message[4] & 0x80 != 0
}

fn code_of(message: &[u8]) -> u32 {
    number(message, 4) & 0xFF_FFFF
}

/// AVPs that stand behind one another: code and value.
fn avps(octets: &[u8]) -> impl Iterator<Item = (u32, &[u8])> {
    let mut at = 0;
    std::iter::from_fn(move || {
        if at + 8 > octets.len() {
            return None;
        }
        let (code, length) = (number(octets, at), number(octets, at + 4) as usize & 0xFF_FFFF);
        let head = if octets[at + 4] & 0x80 != 0 { 12 } else { 8 };
        let value = octets.get(at + head..at + length)?;
        at += length.next_multiple_of(4);
        Some((code, value))
    })
}

/// The value of the first AVP of this code in a group.
fn inner(group: &[u8], code: u32) -> Option<&[u8]> {
    avps(group).find(|avp| avp.0 == code).map(|avp| avp.1)
}

/// The value of the first AVP of this code in a message.
fn value_of(message: &[u8], code: u32) -> Option<&[u8]> {
    inner(&message[20..], code)
}

fn put(message: &mut Vec<u8>, code: u32, flags: u8, value: &[u8]) {
    let length = 8 + value.len() as u32;
    message.extend_from_slice(&code.to_be_bytes());
    message.extend_from_slice(&(u32::from(flags) << 24 | length).to_be_bytes());
    message.extend_from_slice(value);
    message.resize(message.len().next_multiple_of(4), 0);
}

/// A message with these AVPs.
fn message(flags: u8, code: u32, app: u32, ids: [u32; 2], body: impl FnOnce(&mut Vec<u8>)) -> Vec<u8> {
    let mut octets = vec![0; 20];
    body(&mut octets);
    let length = octets.len() as u32;
    for (place, word) in [1 << 24 | length, u32::from(flags) << 24 | code, app, ids[0], ids[1]].into_iter().enumerate() {
        octets[4 * place..4 * place + 4].copy_from_slice(&word.to_be_bytes());
    }
    octets
}

fn put_node(octets: &mut Vec<u8>, name: &str, realm: &str) {
    put(octets, 264, 0x40, name.as_bytes());
    put(octets, 296, 0x40, realm.as_bytes());
}

/// Capabilities behind the origin.
fn put_capabilities(octets: &mut Vec<u8>) {
    put(octets, 257, 0x40, &[0, 1, 127, 0, 0, 1]);
    put(octets, 266, 0x40, &[0; 4]);
    put(octets, 269, 0, b"bench");
    put(octets, 258, 0x40, &4u32.to_be_bytes());
}

const SUCCESS: [u8; 4] = 2001u32.to_be_bytes();

/// What answers a request of the base protocol.
fn base_answer(request: &[u8], name: &str, realm: &str) -> Vec<u8> {
    let ids = [number(request, 12), number(request, 16)];
    message(0, code_of(request), 0, ids, |octets| {
        put(octets, 268, 0x40, &SUCCESS);
        put_node(octets, name, realm);
        if code_of(request) == 257 {
            put_capabilities(octets);
        }
    })
}

/// What answers a credit-control request.
fn credit_answer(request: &[u8], name: &str, realm: &str) -> Vec<u8> {
    let ids = [number(request, 12), number(request, 16)];
    message(0x40, 272, 4, ids, |octets| {
        put(octets, 263, 0x40, value_of(request, 263).unwrap_or(b""));
        put(octets, 268, 0x40, &SUCCESS);
        put_node(octets, name, realm);
        put(octets, 258, 0x40, &4u32.to_be_bytes());
        for code in [416, 415] {
            put(octets, code, 0x40, value_of(request, code).unwrap_or(&[0; 4]));
        }
    })
}

/// Serves all that connect, for ever.
fn serve(port: &str, mut on_message: impl FnMut(&[u8], &mut Vec<u8>)) -> io::Result<()> {
    let listener = TcpListener::bind(format!("127.0.0.1:{port}"))?;
    listener.set_nonblocking(true)?;
    let poll = Poll::new();
    poll.add(listener.as_raw_fd(), usize::MAX);
    let mut conns: HashMap<usize, Conn> = HashMap::new();
    loop {
        for token in poll.wait(1_000)? {
            if token == usize::MAX {
                if let Ok((stream, _)) = listener.accept() {
                    let conn = Conn::new(stream);
                    let token = conn.fd() as usize;
                    poll.add(conn.fd(), token);
                    conns.insert(token, conn);
                }
            } else if let Some(conn) = conns.get_mut(&token) {
                conn.read();
                conn.each_message(&mut on_message);
                conn.write(&poll, token);
                if conn.ended {
                    conns.remove(&token);
                }
            }
        }
    }
}

fn answer(port: &str, name: &str, realm: &str) -> io::Result<()> {
    serve(port, |request, output| {
        if is_request(request) {
            output.extend(if code_of(request) == 272 { credit_answer(request, name, realm) } else { base_answer(request, name, realm) });
        }
    })
}

/// Connections in pairs, each end under a place of its own: 2n and 2n + 1. What one end reads goes through `hand` to the other.
fn pairs(port: &str, to: &str, mut hand: impl FnMut(usize, &mut Conn, &mut Vec<u8>)) -> io::Result<()> {
    let listener = TcpListener::bind(format!("127.0.0.1:{port}"))?;
    listener.set_nonblocking(true)?;
    let poll = Poll::new();
    poll.add(listener.as_raw_fd(), usize::MAX);
    let mut conns: Vec<Conn> = Vec::new();
    loop {
        for token in poll.wait(1_000)? {
            if token == usize::MAX {
                if let Ok((stream, _)) = listener.accept() {
                    for stream in [stream, TcpStream::connect(to)?] {
                        conns.push(Conn::new(stream));
                        poll.add(conns[conns.len() - 1].fd(), conns.len() - 1);
                    }
                }
                continue;
            }
            conns[token].read();
            let other = token ^ 1;
            let mut output = std::mem::take(&mut conns[other].output);
            hand(token, &mut conns[token], &mut output);
            conns[other].output = output;
            conns[other].write(&poll, other);
            conns[token].write(&poll, token);
            if conns[token].ended {
                for place in [token, other] {
                    let _ = conns[place].stream.shutdown(std::net::Shutdown::Both);
                    poll.remove(conns[place].fd());
                }
            }
        }
    }
}

fn copy(port: &str, to: &str) -> io::Result<()> {
    pairs(port, to, |_, from, output| output.append(&mut from.input))
}

/// Identifiers that were given out, with what they stand for; a place that is free names the next one that is.
#[derive(Default)]
struct Pending {
    rows: Vec<u32>,
    free: Vec<u32>,
}

fn frame(port: &str, to: &str) -> io::Result<()> {
    let mut tables: HashMap<usize, Pending> = HashMap::new();
    pairs(port, to, |token, from, output| {
        let pending = tables.entry(token / 2).or_default();
        from.each_message(|octets, _| {
            let start = output.len();
            output.extend_from_slice(octets);
            if code_of(octets) != 272 {
            } else if is_request(octets) {
                let place = pending.free.pop().unwrap_or_else(|| {
                    pending.rows.push(0);
                    pending.rows.len() as u32 - 1
                });
                pending.rows[place as usize] = number(octets, 12);
                output[start + 12..start + 16].copy_from_slice(&place.to_be_bytes());
                put(output, 282, 0x40, b"c1.example");
                let length = (output.len() - start) as u32;
                output[start..start + 4].copy_from_slice(&(1 << 24 | length).to_be_bytes());
            } else {
                let place = number(octets, 12);
                output[start + 12..start + 16].copy_from_slice(&pending.rows[place as usize].to_be_bytes());
                pending.free.push(place);
            }
        });
    })
}

/// What was asked and is not answered: when, which End-to-End Identifier and Session-Id.
struct Asked {
    at: Instant,
    end_to_end: u32,
    session: String,
}

/// Somebody who asks.
struct Client {
    name: String,
    realm: String,
    /// What an answer has to grant, if it has to.
    granted: Option<u64>,
    slots: Vec<Option<Asked>>,
    free: Vec<usize>,
    count: u32,
}

/// What was counted: microseconds of each answer, and what is not to be.
#[derive(Default)]
struct Count {
    micros: Vec<f32>,
    strangers: u64,
    wrong: u64,
}

/// A Session-Id that no other process gives.
fn session_of(name: &str, count: u32) -> String {
    format!("{name};{};{count:08x}", std::process::id())
}

/// An EVENT on the one account, for so many octets of service 10; the action is DIRECT_DEBITING (0) or CHECK_BALANCE (2).
fn event(ids: [u32; 2], session: &str, name: &str, realm: &str, action: u32, octet_count: u64) -> Vec<u8> {
    message(0xC0, 272, 4, ids, |octets| {
        put(octets, 263, 0x40, session.as_bytes());
        put_node(octets, name, "example");
        put(octets, 283, 0x40, realm.as_bytes());
        put(octets, 258, 0x40, &4u32.to_be_bytes());
        put(octets, 461, 0x40, b"32251@3gpp.org");
        put(octets, 416, 0x40, &4u32.to_be_bytes());
        put(octets, 415, 0x40, &[0; 4]);
        put(octets, 436, 0x40, &action.to_be_bytes());
        let mut subscription = Vec::new();
        put(&mut subscription, 450, 0x40, &[0; 4]);
        put(&mut subscription, 444, 0x40, b"491700000001");
        put(octets, 443, 0x40, &subscription);
        let (mut counted, mut service) = (Vec::new(), Vec::new());
        put(&mut counted, 421, 0x40, &octet_count.to_be_bytes());
        put(&mut service, 437, 0x40, &counted);
        put(&mut service, 432, 0x40, &10u32.to_be_bytes());
        put(octets, 456, 0x40, &service);
    })
}

/// Whether an answer grants so many octets, with success for the service too if it says anything of it.
fn grants(answer: &[u8], octet_count: u64) -> bool {
    let is_granted = |service: &[u8]| {
        let granted = inner(service, 431).and_then(|group| inner(group, 421));
        granted == Some(&octet_count.to_be_bytes()) && inner(service, 268).is_none_or(|code| code == SUCCESS)
    };
    value_of(answer, 456).is_some_and(is_granted)
}

impl Client {
    fn ask(&mut self, output: &mut Vec<u8>) {
        let Some(slot) = self.free.pop() else { return };
        self.count += 1;
        let session = session_of(&self.name, self.count);
        let end_to_end = self.count;
        let hop_by_hop = self.count << 10 | slot as u32;
        output.extend(event([hop_by_hop, end_to_end], &session, &self.name, &self.realm, 0, 3_200));
        self.slots[slot] = Some(Asked { at: Instant::now(), end_to_end, session });
    }

    fn on_message(&mut self, octets: &[u8], output: &mut Vec<u8>, count: &mut Count) {
        if is_request(octets) {
            output.extend(base_answer(octets, &self.name, "example"));
            return;
        }
        let (hop_by_hop, end_to_end) = (number(octets, 12), number(octets, 16));
        let slot = hop_by_hop as usize & 1_023;
        let Some(asked) = self.slots.get_mut(slot).and_then(|it| it.take_if(|it| it.end_to_end << 10 | slot as u32 == hop_by_hop)) else {
            count.strangers += 1;
            return;
        };
        let is_right = asked.end_to_end == end_to_end
            && value_of(octets, 263) == Some(asked.session.as_bytes())
            && value_of(octets, 268) == Some(&SUCCESS)
            && self.granted.is_none_or(|octet_count| grants(octets, octet_count));
        count.wrong += u64::from(!is_right);
        count.micros.push(asked.at.elapsed().as_nanos() as f32 / 1_000.0);
        self.free.push(slot);
    }

    fn open(&self) -> usize {
        self.slots.len() - self.free.len()
    }
}

fn read_message(stream: &mut TcpStream) -> io::Result<Vec<u8>> {
    let mut octets = vec![0; 20];
    stream.read_exact(&mut octets)?;
    octets.resize((number(&octets, 0) as usize & 0xFF_FFFF).max(20), 0);
    stream.read_exact(&mut octets[20..])?;
    Ok(octets)
}

/// A connection over which capabilities were exchanged. OTP's diameter loses about one in a hundred of the requests that come
/// right behind its answer to that, so some time passes first.
fn connect(to: &str, name: &str) -> io::Result<TcpStream> {
    let mut stream = TcpStream::connect(to)?;
    stream.write_all(&message(0x80, 257, 0, [1, 1], |octets| {
        put_node(octets, name, "example");
        put_capabilities(octets);
    }))?;
    read_message(&mut stream)?;
    std::thread::sleep(Duration::from_millis(200));
    Ok(stream)
}

/// What the account is told to have of what so many octets cost.
fn check(to: &str, name: &str, realm: &str, octet_counts: &[&str]) -> io::Result<()> {
    let mut stream = connect(to, name)?;
    stream.set_read_timeout(Some(Duration::from_secs(10)))?;
    for (id, octet_count) in (1..).zip(octet_counts) {
        let octet_count = octet_count.parse().expect("octets");
        stream.write_all(&event([id, id], &session_of(name, id), name, realm, 2, octet_count))?;
        let mut answer = read_message(&mut stream)?;
        while is_request(&answer) {
            stream.write_all(&base_answer(&answer, name, "example"))?;
            answer = read_message(&mut stream)?;
        }
        match value_of(&answer, 422) {
            Some(told) => println!("{}", number(told, 0)),
            None => println!("no Check-Balance-Result"),
        }
    }
    Ok(())
}

fn ask(to: &str, names: &str, window: usize, seconds: f64, realm: &str, granted: Option<u64>) -> io::Result<()> {
    let poll = Poll::new();
    let mut conns = Vec::new();
    for (token, name) in names.split(',').enumerate() {
        let conn = Conn::new(connect(to, name)?);
        poll.add(conn.fd(), token);
        let slots = (0..window).map(|_| None).collect();
        let free = (0..window).collect();
        conns.push((conn, Client { name: name.into(), realm: realm.into(), granted, slots, free, count: 0 }));
    }
    let mut count = Count::default();
    let began = Instant::now();
    let ends = began + Duration::from_secs_f64(seconds);
    for (token, (conn, client)) in conns.iter_mut().enumerate() {
        for _ in 0..window {
            client.ask(&mut conn.output);
        }
        conn.write(&poll, token);
    }
    let mut ended = 0;
    while conns.iter().any(|(conn, client)| !conn.ended && client.open() > 0) && Instant::now() < ends + Duration::from_secs(3) {
        for token in poll.wait(100)? {
            let (conn, client) = &mut conns[token];
            conn.read();
            conn.each_message(|octets, output| client.on_message(octets, output, &mut count));
            if Instant::now() < ends {
                for _ in 0..client.free.len() {
                    client.ask(&mut conn.output);
                }
            }
            conn.write(&poll, token);
            if conn.ended {
                ended += 1;
                poll.remove(conn.fd());
            }
        }
    }
    let took = began.elapsed().as_secs_f64();
    let missing: usize = conns.iter().map(|(_, client)| client.open()).sum();
    count.micros.sort_by(f32::total_cmp);
    let at = |share: f64| count.micros.get((share * count.micros.len() as f64) as usize).copied().unwrap_or(0.0);
    println!(
        "answers {} seconds {took:.3} median {:.1} p99 {:.1} greatest {:.1} wrong {} strangers {} missing {missing} ended {ended}",
        count.micros.len(), at(0.5), at(0.99), count.micros.last().unwrap_or(&0.0), count.wrong, count.strangers
    );
    Ok(())
}

fn main() -> io::Result<()> {
    let words: Vec<String> = std::env::args().skip(1).collect();
    let words: Vec<&str> = words.iter().map(String::as_str).collect();
    match words[..] {
        ["ask", to, names, window, seconds, realm, ref granted @ ..] => {
            let granted = granted.first().map(|word| word.parse().expect("octets"));
            ask(to, names, window.parse().expect("a window"), seconds.parse().expect("seconds"), realm, granted)
        }
        ["check", to, name, realm, ref octet_counts @ ..] => check(to, name, realm, octet_counts),
        ["answer", port, name, realm] => answer(port, name, realm),
        ["copy", port, to] => copy(port, to),
        ["frame", port, to] => frame(port, to),
        _ => Err(io::Error::other("ask HOST:PORT NAMES WINDOW SECONDS REALM [OCTETS] | check HOST:PORT NAME REALM OCTETS.. | answer PORT NAME REALM | copy PORT HOST:PORT | frame PORT HOST:PORT")),
    }
}
