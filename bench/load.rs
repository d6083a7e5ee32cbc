//! A load on a server of the frames of docs/FORMATS.md at 127.0.0.1.
//!
//!     load port                                     prints a port that is free
//!     load info PORT CONNECTIONS WINDOW REQUESTS    keeps WINDOW ClusterInfos in flight on each connection, REQUESTS in all on each
//!     load info PORT .. REQUESTS QUIET              the same beside QUIET connections that say nothing
//!     load cluster PORT NODES APPS QUEUES SECONDS   a cluster in which containers are asked for, granted and ended all the time, over 9 connections
//!     load busy PORT NODES MASTERS QUEUES SECONDS   node managers, masters and an operator, each on a connection of its own, that call as fast as they are answered
//!     load fill PORT NODES APPS QUEUES CONTAINERS   an empty cluster, in which all applications ask for so many containers together before all nodes register at once
//!     load beside PORT NODES APPS ASKS SECONDS      a master that asks, releases and asks again, beside APPS applications of one client with ASKS asks each that no node can take:
//!                                                   in turn for hosts and for racks that are not there, and for more than any node has
//!     load quiet PORT CONNECTIONS NODES SECONDS PID connections to the process PID that say nothing, once the first has registered the nodes
//!     load stopped PORT CONNECTIONS PID             calls on each connection before and after the process PID is stopped and continues
//!
//! `info` takes as an answer a reply with success, or the request itself as `engine_runs` writes it back. `cluster` and `busy` submit their applications in turn
//! to the queues root.q1, root.q2 and so on, on a server that has just begun. `busy` holds the answers against each other: each container is granted once,
//! for an ask of its master, and ends once; and nothing is left at the end.
use std::collections::{HashSet, VecDeque};
use std::env;
use std::fs;
use std::io::{self, BufReader, Read, Write};
use std::net::{TcpListener, TcpStream};
use std::process::Command;
use std::sync::atomic::{AtomicBool, AtomicU64, Ordering::SeqCst};
use std::sync::{Barrier, Mutex};
use std::thread;
use std::time::{Duration, Instant};

const SUBMIT: u8 = 1;
const REGISTER_MASTER: u8 = 2;
const ALLOCATE: u8 = 3;
const FINISH_MASTER: u8 = 4;
const REGISTER_NODE: u8 = 5;
const HEARTBEAT: u8 = 6;
const QUEUE_INFO: u8 = 8;
const CLUSTER_INFO: u8 = 10;

/// Version, kind and call id.
const HEAD: usize = 6;

/// How many connections the masters have, and how many the nodes.
const LANES: usize = 4;
/// How often a master allocates, and a node sends a heartbeat.
const PERIOD: Duration = Duration::from_millis(100);
/// How long a cluster runs before it is measured.
const WARM_UP: Duration = Duration::from_secs(1);
/// How long the connection that is measured waits after each reply.
const PAUSE: Duration = Duration::from_millis(1);
/// How many containers an application always wants.
const WANTED: u32 = 64;
/// How many containers a busy master asks for at once.
const BUSY_WANTED: u32 = 4;
/// How often a master allocates at most until all that it has released has ended.
const LAST_ALLOCATES: usize = 1000;
/// The most ended containers in one heartbeat.
const ENDED_MAX: usize = 1024;

type Result<T> = std::result::Result<T, Box<dyn std::error::Error + Send + Sync>>;

fn main() -> Result<()> {
    let words: Vec<String> = env::args().skip(1).collect();
    let numbers: Vec<usize> = words
        .iter()
        .skip(1)
        .map(|word| word.parse())
        .collect::<std::result::Result<_, _>>()?;
    match (words.first().map(String::as_str), numbers.as_slice()) {
        (Some("port"), []) => {
            println!("{}", TcpListener::bind("127.0.0.1:0")?.local_addr()?.port())
        }
        (Some("info"), &[port, connections, window, requests]) => {
            info(port, connections, window, requests)?
        }
        (Some("info"), &[port, connections, window, requests, quiet]) => {
            let _quiet: Vec<Connection> = (0..quiet)
                .map(|_| Connection::open(port))
                .collect::<io::Result<_>>()?;
            info(port, connections, window, requests)?
        }
        (Some("cluster"), &[port, nodes, apps, queues, seconds]) => {
            cluster(port, nodes, apps, queues, seconds as u64)?
        }
        (Some("busy"), &[port, nodes, masters, queues, seconds]) => {
            busy(port, nodes, masters, queues, seconds as u64)?
        }
        (Some("fill"), &[port, nodes, apps, queues, containers]) => {
            fill(port, nodes, apps, queues, containers)?
        }
        (Some("beside"), &[port, nodes, apps, asks, seconds]) => {
            beside(port, nodes, apps, asks, seconds as u64)?
        }
        (Some("quiet"), &[port, connections, nodes, seconds, pid]) => {
            quiet(port, connections, nodes, seconds as u64, pid)?
        }
        (Some("stopped"), &[port, connections, pid]) => stopped(port, connections, pid)?,
        _ => return Err("the words are those of one line at the head of load.rs".into()),
    }
    Ok(())
}

/// One connection. Requests are collected and sent together; replies come in their order.
struct Connection {
    stream: TcpStream,
    reader: BufReader<TcpStream>,
    unsent: Vec<u8>,
    call_id: u32,
    awaited: VecDeque<[u8; HEAD]>,
}

impl Connection {
    fn open(port: usize) -> io::Result<Connection> {
        let stream = TcpStream::connect(("127.0.0.1", port as u16))?;
        stream.set_nodelay(true)?;
        let reader = BufReader::with_capacity(1 << 16, stream.try_clone()?);
        Ok(Connection {
            stream,
            reader,
            unsent: Vec::new(),
            call_id: 0,
            awaited: VecDeque::new(),
        })
    }

    /// Adds a request to those that are sent next.
    fn put(&mut self, kind: u8, body: &[u8]) {
        self.call_id = self.call_id.wrapping_add(1);
        let [a, b, c, d] = self.call_id.to_be_bytes();
        let head = [1, kind, a, b, c, d];
        self.unsent
            .extend_from_slice(&((HEAD + body.len()) as u32).to_be_bytes());
        self.unsent.extend_from_slice(&head);
        self.unsent.extend_from_slice(body);
        self.awaited.push_back(head);
    }

    fn send(&mut self) -> io::Result<()> {
        self.stream.write_all(&self.unsent)?;
        self.unsent.clear();
        Ok(())
    }

    /// Reads the next reply, and gives its body.
    fn read(&mut self) -> Result<Body> {
        let mut length = [0; 4];
        self.reader.read_exact(&mut length)?;
        let mut reply = vec![0; u32::from_be_bytes(length) as usize];
        self.reader.read_exact(&mut reply)?;
        let head = self
            .awaited
            .pop_front()
            .ok_or("a reply that nothing asked for")?;
        if !reply.starts_with(&head) {
            return Err(format!("a reply {reply:02x?} to the request {head:02x?}").into());
        }
        match reply.get(HEAD) {
            None | Some(0) => Ok(Body {
                bytes: reply,
                at: HEAD + 1,
            }),
            Some(status) => Err(format!(
                "a request of kind {} is answered with status {status}",
                head[1]
            )
            .into()),
        }
    }

    /// Whether the next reply, or a part of it, was read already.
    fn has_more(&self) -> bool {
        !self.reader.buffer().is_empty()
    }

    fn call(&mut self, kind: u8, body: &[u8]) -> Result<Body> {
        self.put(kind, body);
        self.send()?;
        self.read()
    }
}

/// The body of a reply, read from left to right.
struct Body {
    bytes: Vec<u8>,
    at: usize,
}

impl Body {
    fn skip(&mut self, count: usize) {
        self.at += count;
    }

    /// A number of so many bytes.
    fn number(&mut self, width: usize) -> Result<u64> {
        let bytes = self
            .bytes
            .get(self.at..self.at + width)
            .ok_or("a reply is too short")?;
        self.at += width;
        Ok(bytes
            .iter()
            .fold(0, |number, byte| number << 8 | u64::from(*byte)))
    }
}

fn put_text(body: &mut Vec<u8>, text: &str) {
    body.push(text.len() as u8);
    body.extend_from_slice(text.as_bytes());
}

fn put_resource(body: &mut Vec<u8>, memory: u64, vcores: u64) {
    body.extend_from_slice(&memory.to_be_bytes());
    body.extend_from_slice(&vcores.to_be_bytes());
}

/// The least of the times that so many of a hundred are at most, in microseconds.
fn percentile(sorted: &[Duration], percent: usize) -> u128 {
    let index = (sorted.len() * percent).div_ceil(100).max(1) - 1;
    sorted.get(index).map_or(0, Duration::as_micros)
}

fn print_times(mut times: Vec<Duration>) {
    times.sort_unstable();
    println!(
        "{} microseconds at the 50th percentile of {} ClusterInfos",
        percentile(&times, 50),
        times.len()
    );
    println!(
        "{} microseconds at the 99th percentile",
        percentile(&times, 99)
    );
}

fn info(port: usize, connections: usize, window: usize, requests: usize) -> Result<()> {
    let opened: io::Result<Vec<Connection>> =
        (0..connections).map(|_| Connection::open(port)).collect();
    let barrier = Barrier::new(connections + 1);
    let (seconds, times) = thread::scope(|scope| -> Result<(f64, Vec<Duration>)> {
        let barrier = &barrier;
        let threads: Vec<_> = opened?
            .into_iter()
            .map(|connection| scope.spawn(move || ask(connection, barrier, window, requests)))
            .collect();
        barrier.wait();
        let begin = Instant::now();
        let mut times = Vec::new();
        for thread in threads {
            times.append(&mut thread.join().map_err(|_| "a thread has panicked")??);
        }
        Ok((begin.elapsed().as_secs_f64(), times))
    })?;
    println!(
        "{:.0} requests a second on {connections} connections",
        times.len() as f64 / seconds
    );
    print_times(times);
    Ok(())
}

/// Keeps `window` requests in flight, `requests` in all: how long each took.
fn ask(
    mut connection: Connection,
    barrier: &Barrier,
    window: usize,
    requests: usize,
) -> Result<Vec<Duration>> {
    let mut begins = VecDeque::with_capacity(window);
    let mut times = Vec::with_capacity(requests);
    let mut left = requests;
    barrier.wait();
    while times.len() < requests {
        let free = (window - begins.len()).min(left);
        left -= free;
        for _ in 0..free {
            connection.put(CLUSTER_INFO, &[]);
            begins.push_back(Instant::now());
        }
        connection.send()?;
        loop {
            connection.read()?;
            times.extend(begins.pop_front().map(|begin| begin.elapsed()));
            if !connection.has_more() {
                break;
            }
        }
    }
    Ok(times)
}

/// Stops a process while its connections are quiet, lets it continue, and sees that each of them is still answered.
fn stopped(port: usize, connections: usize, pid: usize) -> Result<()> {
    let mut quiet = (0..connections)
        .map(|_| Connection::open(port))
        .collect::<io::Result<Vec<Connection>>>()?;
    for connection in &mut quiet {
        connection.call(CLUSTER_INFO, &[])?;
    }
    for signal in ["-STOP", "-CONT"] {
        thread::sleep(PERIOD);
        let kill = Command::new("kill").arg(signal).arg(pid.to_string()).status()?;
        if !kill.success() {
            return Err(format!("kill {signal} {pid} failed").into());
        }
    }
    thread::sleep(PERIOD);
    for connection in &mut quiet {
        connection.call(CLUSTER_INFO, &[])?;
    }
    println!("{connections} connections are answered after a stop");
    Ok(())
}

/// The time that the processors have spent for a process, in hundredths of a second.
fn spent(pid: usize) -> Result<u64> {
    let stat = fs::read_to_string(format!("/proc/{pid}/stat"))?;
    let (_, numbers) = stat.rsplit_once(')').ok_or("a stat of another form")?;
    let times = numbers.split_whitespace().skip(11).take(2);
    Ok(times.map(|time| time.parse::<u64>().unwrap_or(0)).sum())
}

fn quiet(
    port: usize,
    connections: usize,
    nodes: usize,
    seconds: u64,
    pid: usize,
) -> Result<()> {
    let mut lane = Lane::open(port)?;
    let _others = (1..connections)
        .map(|_| Connection::open(port))
        .collect::<io::Result<Vec<Connection>>>()?;
    for index in 0..nodes {
        lane.add_node(&format!("n{index}"))?;
    }
    thread::sleep(WARM_UP);
    let before = spent(pid)?;
    thread::sleep(Duration::from_secs(seconds));
    let hundredths = spent(pid)? - before;
    println!(
        "{} thousandths of a core with {connections} quiet connections",
        hundredths * 10 / seconds.max(1)
    );
    Ok(())
}

/// An application or a node: its number, and the response id of its last reply.
struct Caller {
    number: u64,
    response: u32,
}

/// One connection, and those that call on it.
struct Lane {
    connection: Connection,
    callers: Vec<Caller>,
}

impl Lane {
    fn open(port: usize) -> io::Result<Lane> {
        Ok(Lane {
            connection: Connection::open(port)?,
            callers: Vec::new(),
        })
    }

    fn add_node(&mut self, host: &str) -> Result<()> {
        let body = node_body(host, 64);
        let number = self.connection.call(REGISTER_NODE, &body)?.number(8)?;
        self.callers.push(Caller {
            number,
            response: 0,
        });
        Ok(())
    }

    fn add_app(&mut self, queue: &str) -> Result<()> {
        let mut body = Vec::new();
        put_text(&mut body, queue);
        put_text(&mut body, "u1");
        let number = self.connection.call(SUBMIT, &body)?.number(8)?;
        self.connection
            .call(REGISTER_MASTER, &number.to_be_bytes())?;
        self.callers.push(Caller {
            number,
            response: 0,
        });
        Ok(())
    }
}

/// A node registers on which so many containers of (1024, 1) fit.
fn node_body(host: &str, places: u64) -> Vec<u8> {
    let mut body = Vec::new();
    put_text(&mut body, host);
    put_text(&mut body, "/r1");
    put_resource(&mut body, places * 1024, places);
    body
}

/// How often those who wait for a cluster that fills look at it.
const LOOK: Duration = Duration::from_millis(2);
/// How many asks each application has in it.
const ASKS: u32 = 8;

/// Lets an empty cluster fill, and prints how fast: from the first node on, which registers with all others at once, until so many containers live.
fn fill(port: usize, nodes: usize, apps: usize, queues: usize, containers: usize) -> Result<()> {
    let mut measured = Connection::open(port)?;
    let mut masters = Lane::open(port)?;
    let count = (containers.div_ceil(apps) as u32).div_ceil(ASKS);
    for index in 0..apps {
        masters.add_app(&format!("root.q{}", index % queues + 1))?;
    }
    for app in &masters.callers {
        let mut body = app.number.to_be_bytes().to_vec();
        body.extend_from_slice(&app.response.to_be_bytes());
        body.extend_from_slice(&(ASKS as u16).to_be_bytes());
        for priority in 1..=ASKS {
            body.extend_from_slice(&priority.to_be_bytes());
            body.extend_from_slice(&1u64.to_be_bytes());
            body.extend_from_slice(&count.to_be_bytes());
            put_resource(&mut body, 1024, 1);
            put_text(&mut body, "*");
        }
        body.extend_from_slice(&0u16.to_be_bytes());
        masters.connection.call(ALLOCATE, &body)?;
    }
    let places = containers.div_ceil(nodes) as u64;
    for index in 0..nodes {
        measured.put(REGISTER_NODE, &node_body(&format!("n{index}"), places));
    }
    let begin = Instant::now();
    measured.send()?;
    for _ in 0..nodes {
        measured.read()?;
    }
    let registered = begin.elapsed();
    let live = await_live(&mut measured, containers as u64)?;
    println!(
        "{:.0} containers a second, of {live}, the nodes registered after {} ms",
        live as f64 / begin.elapsed().as_secs_f64(),
        registered.as_millis()
    );
    Ok(())
}

/// Looks until so many containers live, and fails where there are no more after 10 seconds.
fn await_live(measured: &mut Connection, wanted: u64) -> Result<u64> {
    let (mut seen, mut since) = (0, Instant::now());
    loop {
        let mut reply = measured.call(CLUSTER_INFO, &[])?;
        reply.skip(4 + 4);
        let live = reply.number(4)?;
        if live >= wanted {
            return Ok(live);
        }
        if live > seen {
            (seen, since) = (live, Instant::now());
        }
        if since.elapsed() > Duration::from_secs(10) {
            return Err(format!("{live} containers live, and no more").into());
        }
        thread::sleep(LOOK);
    }
}

/// An ask that no node can take: for a host or a rack that is not there, or for more than any node has.
fn put_impossible(body: &mut Vec<u8>, number: usize) {
    body.extend_from_slice(&(number as u32).to_be_bytes());
    body.extend_from_slice(&1u64.to_be_bytes());
    body.extend_from_slice(&1u32.to_be_bytes());
    let (memory, place) = match number % 3 {
        0 => (1024, format!("absent{number}")),
        1 => (1024, format!("/absent{number}")),
        _ => (1 << 20, "*".to_owned()),
    };
    put_resource(body, memory, 1);
    put_text(body, &place);
}

/// A master asks, releases and asks again, beside applications of another client whose asks no node can take. Prints how many containers a second it was
/// granted, and how long ClusterInfos took meanwhile.
fn beside(port: usize, nodes: usize, apps: usize, asks: usize, seconds: u64) -> Result<()> {
    let mut measured = Connection::open(port)?;
    let mut managers = Lane::open(port)?;
    for index in 0..nodes {
        managers.add_node(&format!("n{index}"))?;
    }
    let mut others = Lane::open(port)?;
    for _ in 0..apps {
        others.add_app("root.q2")?;
    }
    for app in &others.callers {
        let mut body = app.number.to_be_bytes().to_vec();
        body.extend_from_slice(&app.response.to_be_bytes());
        body.extend_from_slice(&(asks as u16).to_be_bytes());
        for number in 0..asks {
            put_impossible(&mut body, number);
        }
        body.extend_from_slice(&0u16.to_be_bytes());
        others.connection.call(ALLOCATE, &body)?;
    }
    let master = Master::open(port, "root.q1")?;
    let (ends, calls, granted) = (AtomicBool::new(false), AtomicU64::new(0), AtomicU64::new(0));
    thread::scope(|scope| {
        let (ends, calls, granted) = (&ends, &calls, &granted);
        let asking = scope.spawn(move || master.run(ends, calls, granted));
        thread::sleep(WARM_UP);
        let before = granted.load(SeqCst);
        let begin = Instant::now();
        let mut times = Vec::new();
        while begin.elapsed() < Duration::from_secs(seconds) {
            let sent = Instant::now();
            measured.call(CLUSTER_INFO, &[])?;
            times.push(sent.elapsed());
            thread::sleep(PAUSE);
        }
        let made = granted.load(SeqCst) - before;
        let passed = begin.elapsed().as_secs_f64();
        ends.store(true, SeqCst);
        asking.join().map_err(|_| "a thread has panicked")??;
        println!("{:.0} containers a second were granted to the master", made as f64 / passed);
        print_times(times);
        Ok(())
    })
}

/// What the threads of a cluster share.
struct Cluster {
    /// What runs on each node, by its number, which are 1, 2 and so on.
    running: Vec<Mutex<Vec<u64>>>,
    granted: AtomicU64,
    ended: AtomicU64,
    stops: AtomicBool,
}

fn cluster(port: usize, nodes: usize, apps: usize, queues: usize, seconds: u64) -> Result<()> {
    let mut measured = Connection::open(port)?;
    let lanes = || {
        (0..LANES)
            .map(|_| Lane::open(port))
            .collect::<io::Result<Vec<Lane>>>()
    };
    let (mut masters, mut managers) = (lanes()?, lanes()?);
    for index in 0..nodes {
        managers[index % LANES].add_node(&format!("n{index}"))?;
    }
    for index in 0..apps {
        masters[index % LANES].add_app(&format!("root.q{}", index % queues + 1))?;
    }
    let cluster = Cluster {
        running: (0..=nodes).map(|_| Mutex::default()).collect(),
        granted: AtomicU64::new(0),
        ended: AtomicU64::new(0),
        stops: AtomicBool::new(false),
    };
    thread::scope(|scope| {
        let cluster = &cluster;
        let mut threads = Vec::new();
        threads.extend(
            masters
                .into_iter()
                .map(|lane| scope.spawn(move || cluster.repeat(lane, Cluster::allocate))),
        );
        threads.extend(
            managers
                .into_iter()
                .map(|lane| scope.spawn(move || cluster.repeat(lane, Cluster::heartbeat))),
        );
        let answer = cluster.measure(&mut measured, seconds);
        cluster.stops.store(true, SeqCst);
        for thread in threads {
            thread.join().map_err(|_| "a thread has panicked")??;
        }
        answer
    })
}

impl Cluster {
    /// Lets those of a lane call in each period.
    fn repeat(&self, mut lane: Lane, call: fn(&Cluster, &mut Lane) -> Result<()>) -> Result<()> {
        while !self.stops.load(SeqCst) {
            let begin = Instant::now();
            call(self, &mut lane)?;
            thread::sleep(PERIOD.saturating_sub(begin.elapsed()));
        }
        Ok(())
    }

    /// Each master asks, and lets run what it was granted.
    fn allocate(&self, lane: &mut Lane) -> Result<()> {
        for app in &lane.callers {
            let mut body = app.number.to_be_bytes().to_vec();
            body.extend_from_slice(&app.response.to_be_bytes());
            body.extend_from_slice(&1u16.to_be_bytes());
            body.extend_from_slice(&1u32.to_be_bytes());
            body.extend_from_slice(&1u64.to_be_bytes());
            body.extend_from_slice(&WANTED.to_be_bytes());
            put_resource(&mut body, 1024, 1);
            put_text(&mut body, "*");
            body.extend_from_slice(&0u16.to_be_bytes());
            lane.connection.put(ALLOCATE, &body);
        }
        lane.connection.send()?;
        for app in &mut lane.callers {
            let mut reply = lane.connection.read()?;
            app.response = reply.number(4)? as u32;
            reply.skip(2);
            let granted = reply.number(1)?;
            for _ in 0..granted {
                let container = reply.number(8)?;
                reply.skip(4 + 8);
                let node = reply.number(8)? as usize;
                let host = reply.number(1)? as usize;
                reply.skip(host + 16);
                self.running
                    .get(node)
                    .ok_or("a node of an unknown number")?
                    .lock()
                    .map_err(|_| "a thread has panicked")?
                    .push(container);
            }
            self.granted.fetch_add(granted, SeqCst);
        }
        Ok(())
    }

    /// Each node reports all that runs on it as ended.
    fn heartbeat(&self, lane: &mut Lane) -> Result<()> {
        let mut reported = Vec::new();
        for node in &lane.callers {
            let mut running = self.running[node.number as usize]
                .lock()
                .map_err(|_| "a thread has panicked")?;
            let count = running.len().min(ENDED_MAX);
            let ended: Vec<u64> = running.drain(..count).collect();
            reported.push(ended.len() as u64);
            let mut body = node.number.to_be_bytes().to_vec();
            body.extend_from_slice(&node.response.to_be_bytes());
            body.extend_from_slice(&(ended.len() as u16).to_be_bytes());
            body.extend(ended.iter().flat_map(|container| container.to_be_bytes()));
            lane.connection.put(HEARTBEAT, &body);
        }
        lane.connection.send()?;
        for (node, reported) in lane.callers.iter_mut().zip(reported) {
            let mut reply = lane.connection.read()?;
            node.response = reply.number(4)? as u32;
            let ignored = reply.number(2)?;
            self.ended.fetch_add(reported - ignored, SeqCst);
        }
        Ok(())
    }

    /// How many containers were granted: those that were reported, and those that have ended or live.
    fn count(&self, measured: &mut Connection) -> Result<(u64, u64)> {
        let mut reply = measured.call(CLUSTER_INFO, &[])?;
        reply.skip(4 + 4);
        let live = reply.number(4)?;
        Ok((self.granted.load(SeqCst), self.ended.load(SeqCst) + live))
    }

    fn measure(&self, measured: &mut Connection, seconds: u64) -> Result<()> {
        thread::sleep(WARM_UP);
        let (reported, counted) = self.count(measured)?;
        let begin = Instant::now();
        let mut times = Vec::new();
        while begin.elapsed() < Duration::from_secs(seconds) {
            let sent = Instant::now();
            measured.call(CLUSTER_INFO, &[])?;
            times.push(sent.elapsed());
            thread::sleep(PAUSE);
        }
        let passed = begin.elapsed().as_secs_f64();
        let (more_reported, more_counted) = self.count(measured)?;
        println!(
            "{:.0} grants a second were reported to masters",
            (more_reported - reported) as f64 / passed
        );
        println!(
            "{:.0} grants a second, by the containers that ended and live",
            (more_counted - counted) as f64 / passed
        );
        print_times(times);
        Ok(())
    }
}

/// A master on a connection of its own: it asks for containers, and releases what it was granted when it asks again.
struct Master {
    connection: Connection,
    number: u64,
    response: u32,
    /// How many it was told of its last ask.
    granted: u32,
    held: Vec<u64>,
    /// What was released, and has not ended yet.
    released: HashSet<u64>,
    /// All that it was ever granted.
    ever: Vec<u64>,
}

impl Master {
    fn open(port: usize, queue: &str) -> Result<Master> {
        let mut lane = Lane::open(port)?;
        lane.add_app(queue)?;
        let number = lane.callers.first().map_or(0, |app| app.number);
        Ok(Master {
            connection: lane.connection,
            number,
            response: 0,
            granted: 0,
            held: Vec::new(),
            released: HashSet::new(),
            ever: Vec::new(),
        })
    }

    /// Asks for so many containers, if it asks, releases all that it holds, and holds the answer against what was asked for and released.
    fn allocate(&mut self, wanted: Option<u32>) -> Result<()> {
        let releases = std::mem::take(&mut self.held);
        let mut body = self.number.to_be_bytes().to_vec();
        body.extend_from_slice(&self.response.to_be_bytes());
        body.extend_from_slice(&u16::from(wanted.is_some()).to_be_bytes());
        if let Some(wanted) = wanted {
            body.extend_from_slice(&1u32.to_be_bytes());
            body.extend_from_slice(&self.number.to_be_bytes());
            body.extend_from_slice(&wanted.to_be_bytes());
            put_resource(&mut body, 1024, 1);
            put_text(&mut body, "*");
        }
        body.extend_from_slice(&(releases.len() as u16).to_be_bytes());
        body.extend(releases.iter().flat_map(|container| container.to_be_bytes()));
        self.released.extend(&releases);
        let mut reply = self.connection.call(ALLOCATE, &body)?;
        self.response = reply.number(4)? as u32;
        if reply.number(2)? != 0 {
            return Err("a release of a container that lives was ignored".into());
        }
        for _ in 0..reply.number(1)? {
            let container = reply.number(8)?;
            if (reply.number(4)?, reply.number(8)?) != (1, self.number) {
                return Err("a grant of an ask that was not made".into());
            }
            reply.skip(8);
            let host = reply.number(1)? as usize;
            reply.skip(host);
            if (reply.number(8)?, reply.number(8)?) != (1024, 1) {
                return Err("a grant of another resource".into());
            }
            self.granted += 1;
            self.held.push(container);
            self.ever.push(container);
        }
        if self.granted > BUSY_WANTED {
            return Err("more grants than were asked for".into());
        }
        for _ in 0..reply.number(1)? {
            let container = reply.number(8)?;
            if !self.released.remove(&container) || reply.number(1)? != 1 {
                return Err("an end of a container that was not released".into());
            }
        }
        Ok(())
    }

    /// Asks again as soon as all that it asked for was granted. Returns all that it was ever granted.
    fn run(
        mut self,
        ends: &AtomicBool,
        calls: &AtomicU64,
        granted: &AtomicU64,
    ) -> Result<Vec<u64>> {
        self.allocate(Some(BUSY_WANTED))?;
        while !ends.load(SeqCst) {
            let before = self.ever.len();
            if self.granted == BUSY_WANTED {
                self.granted = 0;
                self.allocate(Some(BUSY_WANTED))?;
            } else {
                self.allocate(None)?;
            }
            calls.fetch_add(1, SeqCst);
            granted.fetch_add((self.ever.len() - before) as u64, SeqCst);
        }
        self.allocate(Some(0))?;
        for _ in 0..LAST_ALLOCATES {
            if self.held.is_empty() && self.released.is_empty() {
                break;
            }
            self.allocate(None)?;
        }
        let number = self.number.to_be_bytes();
        let ended = self.connection.call(FINISH_MASTER, &number)?.number(4)?;
        if ended != 0 || !self.released.is_empty() {
            return Err("containers are left to a master that has released all".into());
        }
        Ok(self.ever)
    }
}

/// Calls as fast as it is answered, until the others end, and counts its calls.
fn repeat(
    mut connection: Connection,
    ends: &AtomicBool,
    calls: &AtomicU64,
    mut call: impl FnMut(&mut Connection) -> Result<()>,
) -> Result<()> {
    while !ends.load(SeqCst) {
        call(&mut connection)?;
        calls.fetch_add(1, SeqCst);
    }
    Ok(())
}

/// A heartbeat of the node on a lane, on which nothing has ended.
fn beat(connection: &mut Connection, node: &mut Caller) -> Result<()> {
    let mut body = node.number.to_be_bytes().to_vec();
    body.extend_from_slice(&node.response.to_be_bytes());
    body.extend_from_slice(&0u16.to_be_bytes());
    node.response = connection.call(HEARTBEAT, &body)?.number(4)? as u32;
    Ok(())
}

fn busy(port: usize, nodes: usize, masters: usize, queues: usize, seconds: u64) -> Result<()> {
    let mut operator = Connection::open(port)?;
    let mut managers = Vec::new();
    for index in 0..nodes {
        let mut lane = Lane::open(port)?;
        lane.add_node(&format!("n{index}"))?;
        managers.push(lane);
    }
    let opened: Vec<Master> = (0..masters)
        .map(|index| Master::open(port, &format!("root.q{}", index % queues + 1)))
        .collect::<Result<_>>()?;
    let (ends, over) = (AtomicBool::new(false), AtomicBool::new(false));
    let (calls, granted) = (AtomicU64::new(0), AtomicU64::new(0));
    let ever = thread::scope(|scope| -> Result<Vec<u64>> {
        let (ends, over, calls, granted) = (&ends, &over, &calls, &granted);
        let mut others = Vec::new();
        for Lane {
            connection,
            mut callers,
        } in managers
        {
            others.push(scope.spawn(move || {
                repeat(connection, over, calls, |connection| {
                    callers.iter_mut().try_for_each(|node| beat(connection, node))
                })
            }));
        }
        let asking: Vec<_> = opened
            .into_iter()
            .map(|master| scope.spawn(move || master.run(ends, calls, granted)))
            .collect();
        let looking = scope.spawn(|| -> Result<()> {
            let mut queue = 0;
            while !over.load(SeqCst) {
                let mut body = Vec::new();
                put_text(&mut body, &format!("root.q{}", queue % queues + 1));
                operator.call(QUEUE_INFO, &body)?;
                calls.fetch_add(1, SeqCst);
                queue += 1;
            }
            let mut info = operator.call(CLUSTER_INFO, &[])?;
            info.skip(4);
            if (info.number(4)?, info.number(4)?) != (0, 0) {
                return Err("applications or containers are left at the end".into());
            }
            Ok(())
        });
        thread::sleep(WARM_UP);
        let (begin, called, told) = (Instant::now(), calls.load(SeqCst), granted.load(SeqCst));
        thread::sleep(Duration::from_secs(seconds));
        let passed = begin.elapsed().as_secs_f64();
        println!("{:.0} requests a second", (calls.load(SeqCst) - called) as f64 / passed);
        println!("{:.0} grants a second", (granted.load(SeqCst) - told) as f64 / passed);
        ends.store(true, SeqCst);
        let mut ever = Vec::new();
        for thread in asking {
            ever.append(&mut thread.join().map_err(|_| "a thread has panicked")??);
        }
        over.store(true, SeqCst);
        for thread in others {
            thread.join().map_err(|_| "a thread has panicked")??;
        }
        looking.join().map_err(|_| "a thread has panicked")??;
        Ok(ever)
    })?;
    let all = ever.len();
    let once: HashSet<u64> = ever.into_iter().collect();
    if once.len() != all {
        return Err("a container was granted twice".into());
    }
    println!("{all} containers were granted, each once, and each has ended once");
    Ok(())
}
