//! Pushes to a collector that takes OTLP over HTTP, with the standard library alone. What was not taken is kept and
//! sent again, before what is collected later. A post that timed out may have arrived, so a delta window may arrive
//! twice; with a cumulative reader that does no harm.
//!
//!     cargo run --offline --release --example otlp_push [HOST:PORT]     without one, a collector of its own refuses the first post
use std::collections::VecDeque;
use std::error::Error;
use std::io::{self, ErrorKind, Read, Write};
use std::net::{TcpListener, TcpStream};
use std::thread;
use std::time::{Duration, Instant};
use wormweekly::{Opened, Reader, Resource, ResourceFault, open};

const WAIT: Duration = Duration::from_secs(5);

/// The longest pause between two posts that were not taken.
const LONGEST: Duration = Duration::from_secs(60);

/// The greatest post, in bytes.
const MOST_BYTES: usize = 4 << 20;

/// Where so many messages wait, nothing more is collected: a delta reader's next window then covers what was recorded
/// meanwhile.
const MOST_WAITING: usize = 1000;

const CATALOGUE: &str = "format = 1
[[meter]]
name = 'shop'
[[meter.instrument]]
name = 'orders'
kind = 'counter'
range = [1, 100]
key = [{ name = 'country', values = ['de', 'fr'] }]
[[recorder]]
name = 'till'
budget = [{ instrument = 0, amount = 1000 }]
";

const CONFIG: &str = "format = 1
[[reader]]
name = 'collector'
temporality = { counter = 'delta' }
";

/// Messages that no collector has answered yet. One after the other they are one message.
struct Outbox {
    host: String,
    waiting: VecDeque<Vec<u8>>,
    pause: Duration,
    paused_until: Instant,
}

/// What became of a post.
enum Answer {
    /// It was taken, but for so many points.
    Taken(u64),
    /// It is to be sent again, no earlier than after this.
    Again(Duration),
    /// It was refused for good, with this status.
    Refused(String),
}

impl Outbox {
    fn has_room(&self) -> bool {
        self.waiting.len() < MOST_WAITING
    }

    /// Keeps what a reader collected, unless it has no points.
    fn put(&mut self, reader: &mut Reader, resource: &Resource) -> Result<(), ResourceFault> {
        let message = reader.otlp(resource)?;
        if !message.is_empty() {
            self.waiting.push_back(message);
        }
        Ok(())
    }

    /// How many messages a post has: as many as fit, but one at least.
    fn count_of_post(&self) -> usize {
        let mut size = 0;
        let fitting = self.waiting.iter().take_while(|message| {
            size += message.len();
            size <= MOST_BYTES
        });
        fitting.count().max(1)
    }

    /// Makes a post of what waits, unless a pause lasts. It goes on waiting only where it is to be sent again.
    fn send(&mut self) -> Option<Answer> {
        if self.waiting.is_empty() || Instant::now() < self.paused_until {
            return None;
        }
        let count = self.count_of_post();
        let messages = self.waiting.range(..count);
        let message: Vec<u8> = messages.flatten().copied().collect();
        let answer = post(&self.host, &message).unwrap_or(Answer::Again(Duration::ZERO));
        self.pause = match answer {
            Answer::Again(_) => (2 * self.pause).clamp(Duration::from_secs(1), LONGEST),
            _ => Duration::ZERO,
        };
        match answer {
            Answer::Again(after) => self.paused_until = Instant::now() + self.pause.max(after),
            _ => drop(self.waiting.drain(..count)),
        }
        Some(answer)
    }
}

// Sends a request to `host`, as "127.0.0.1:4318", and reads the answer by what OpenTelemetry's protocol says of
// statuses.
fn post(host: &str, request: &[u8]) -> io::Result<Answer> {
    let mut stream = TcpStream::connect(host)?;
    stream.set_read_timeout(Some(WAIT))?;
    stream.set_write_timeout(Some(WAIT))?;
    let length = request.len();
    let front = format!(
        "POST /v1/metrics HTTP/1.1\r\nHost: {host}\r\nContent-Type: application/x-protobuf\r\nContent-Length: {length}\r\nConnection: close\r\n\r\n"
    );
    stream.write_all(&[front.as_bytes(), request].concat())?;
    let (head, mut body) = head_of(&mut stream)?;
    let status = head.split(' ').nth(1).unwrap_or("").to_owned();
    match status.as_str() {
        "429" | "502" | "503" | "504" => Ok(Answer::Again(retry_after(&head))),
        status if status.starts_with('2') => {
            stream.take(1 << 16).read_to_end(&mut body)?;
            Ok(Answer::Taken(rejected_by(&body)))
        }
        _ => Ok(Answer::Refused(status)),
    }
}

// How long a collector asks to be left alone.
fn retry_after(head: &str) -> Duration {
    let lines = head.lines().filter_map(|line| line.split_once(':'));
    let mut asked = lines.filter(|(name, _)| name.eq_ignore_ascii_case("retry-after"));
    let seconds = asked
        .next()
        .and_then(|(_, value)| value.trim().parse().ok());
    Duration::from_secs(seconds.unwrap_or(0))
}

// How many points an answer says were rejected: field 1 of `partial_success`, which is its field 1.
fn rejected_by(answer: &[u8]) -> u64 {
    let part = answer.strip_prefix(b"\n").map(|rest| number_of(rest).1);
    let rejected = part.and_then(|part| part.strip_prefix(b"\x08"));
    rejected.map_or(0, |rest| number_of(rest).0)
}

// A number of protobuf, seven bits in each byte, and what follows it.
fn number_of(bytes: &[u8]) -> (u64, &[u8]) {
    let end = bytes.iter().position(|byte| *byte < 128);
    let (number, rest) = bytes.split_at(end.map_or(0, |end| end + 1));
    let joined = number
        .iter()
        .rev()
        .fold(0u64, |all, byte| (all << 7) | u64::from(byte & 127));
    (joined, rest)
}

// The head of a request or an answer, up to its empty line, of at most 8 KiB, and what was read of its body.
fn head_of(stream: &mut TcpStream) -> io::Result<(String, Vec<u8>)> {
    let (mut head, mut piece) = (Vec::new(), [0; 1024]);
    loop {
        if let Some(end) = head.windows(4).position(|end| end == b"\r\n\r\n") {
            let body = head.split_off(end + 4);
            return Ok((String::from_utf8(head).map_err(io::Error::other)?, body));
        }
        match stream.read(&mut piece)? {
            0 => return Err(ErrorKind::UnexpectedEof.into()),
            count => head.extend_from_slice(&piece[..count]),
        }
        if head.len() > 8192 {
            return Err(ErrorKind::InvalidData.into());
        }
    }
}

// A collector that is not ready at the first post, takes the second one but for a point, and gives what it took.
fn collector(listener: &TcpListener) -> io::Result<Vec<u8>> {
    let mut taken = Vec::new();
    for (status, answer) in [
        ("503 Service Unavailable\r\nRetry-After: 0", ""),
        ("200 OK", "\n\x02\x08\x01"),
    ] {
        let (mut stream, _) = listener.accept()?;
        stream.set_read_timeout(Some(WAIT))?;
        let (head, mut body) = head_of(&mut stream)?;
        let length = head.split("Content-Length: ").nth(1);
        let length = length.and_then(|rest| rest.split("\r\n").next()?.parse().ok());
        let mut rest = vec![0; length.unwrap_or(0) - body.len()];
        stream.read_exact(&mut rest)?;
        body.extend(rest);
        let length = answer.len();
        stream.write_all(
            format!("HTTP/1.1 {status}\r\nContent-Length: {length}\r\n\r\n{answer}").as_bytes(),
        )?;
        taken = body;
    }
    Ok(taken)
}

fn main() -> Result<(), Box<dyn Error>> {
    let listener = TcpListener::bind("127.0.0.1:0")?;
    let named = std::env::args().nth(1);
    let (host, own) = match named {
        Some(host) => (host, None),
        None => {
            let host = listener.local_addr()?.to_string();
            (host, Some(thread::spawn(move || collector(&listener))))
        }
    };
    let mut outbox = Outbox {
        host,
        waiting: VecDeque::new(),
        pause: Duration::ZERO,
        paused_until: Instant::now(),
    };
    let Opened {
        metrics,
        mut recorders,
        mut readers,
        ..
    } = open(CATALOGUE, CONFIG, 0)?;
    let orders = metrics.instrument("orders")?;
    let resource = Resource::new(&[("service.name", "shop".into())]);
    for (now, country) in [(1_000, "de"), (2_000, "fr")] {
        recorders[0].record(orders, &[("country", country.into())], 2)?;
        if outbox.has_room() {
            print!("{}", readers[0].collect(orders, now)?);
            outbox.put(&mut readers[0], &resource)?;
        }
        thread::sleep(
            outbox
                .paused_until
                .saturating_duration_since(Instant::now()),
        );
        match outbox.send() {
            None => println!("nothing to send"),
            Some(Answer::Taken(rejected)) => println!("sent, {rejected} points rejected"),
            Some(Answer::Again(_)) => println!("not taken, waiting: {}", outbox.waiting.len()),
            Some(Answer::Refused(status)) => println!("dropped: status {status}"),
        }
    }
    if let Some(own) = own {
        let taken = own.join().expect("the collector does not panic")?;
        println!("taken: {} bytes", taken.len());
    }
    Ok(())
}
