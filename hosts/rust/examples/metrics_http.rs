//! Serves `/metrics` for Prometheus with the standard library alone: at most 8 KiB of head and five seconds for it, and
//! a thread for each of at most 32 clients, so that a slow one holds nobody. What it records are names of code that
//! `wormweekly bind` made of its catalogue.
//!
//!     cargo run --offline --release --example metrics_http [ADDRESS:PORT]
use std::error::Error;
use std::io::{self, ErrorKind, Read, Write};
use std::net::{TcpListener, TcpStream};
use std::sync::atomic::{AtomicUsize, Ordering};
use std::sync::{Arc, Mutex};
use std::thread;
use std::time::{Duration, Instant, SystemTime, UNIX_EPOCH};
use wormweekly::{Dialect, Metrics, Reader, Resource};

#[rustfmt::skip]
#[path = "metrics_http/bound.rs"]
mod bound;

const CATALOGUE: &str = include_str!("metrics_http.toml");
const CONFIG: &str = "format = 1\n[[reader]]\nname = 'prometheus'\n";
const WAIT: Duration = Duration::from_secs(5);

/// What a page is made of. Clients take the reader one after the other, for as long as a page takes to make.
struct Source {
    metrics: Metrics,
    reader: Mutex<Reader>,
    resource: Resource,
}

impl Source {
    fn page(&self, dialect: Dialect) -> Result<String, Box<dyn Error>> {
        let now = SystemTime::now().duration_since(UNIX_EPOCH)?.as_nanos() as u64;
        let mut reader = self.reader.lock().map_err(|_| "a thread has panicked")?;
        Ok(self.resource.page(dialect)? + &self.metrics.page(&mut reader, now, dialect)?)
    }
}

// The head of a request, up to its empty line.
fn head_of(stream: &mut TcpStream) -> io::Result<String> {
    let (mut head, mut piece, begun) = (Vec::new(), [0; 1024], Instant::now());
    while !head.windows(4).any(|end| end == b"\r\n\r\n") {
        let left = WAIT
            .checked_sub(begun.elapsed())
            .filter(|left| !left.is_zero());
        stream.set_read_timeout(Some(left.ok_or(ErrorKind::TimedOut)?))?;
        match stream.read(&mut piece)? {
            0 => return Err(ErrorKind::UnexpectedEof.into()),
            count => head.extend_from_slice(&piece[..count]),
        }
        if head.len() > 8192 {
            return Err(ErrorKind::InvalidData.into());
        }
    }
    String::from_utf8(head).map_err(io::Error::other)
}

fn answer(mut stream: TcpStream, source: &Source) -> io::Result<()> {
    stream.set_write_timeout(Some(WAIT))?;
    let head = head_of(&mut stream)?;
    let lines = head.lines().filter_map(|line| line.split_once(':'));
    let mut accepted = lines.filter(|(name, _)| name.eq_ignore_ascii_case("accept"));
    let dialect = Dialect::for_accept(accepted.next().map_or("", |(_, value)| value));
    let (method, path) = asked(&head);
    let (status, body) = match (method, path) {
        ("GET" | "HEAD", "/metrics") => match source.page(dialect) {
            Ok(page) => ("200 OK", page),
            Err(fault) => ("503 Service Unavailable", format!("# {fault}\n")),
        },
        (_, "/metrics") => ("405 Method Not Allowed", String::new()),
        _ => ("404 Not Found", String::new()),
    };
    let (kind, length) = (dialect.content_type(), body.len());
    let front = format!(
        "HTTP/1.1 {status}\r\nContent-Type: {kind}\r\nContent-Length: {length}\r\nConnection: close\r\n\r\n"
    );
    let body = if method == "HEAD" { "" } else { &body };
    stream.write_all(&[front.as_bytes(), body.as_bytes()].concat())
}

// The method and the path of a request, without the query that a scrape may have.
fn asked(head: &str) -> (&str, &str) {
    let mut words = head.lines().next().unwrap_or("").split(' ');
    let (method, target) = (words.next().unwrap_or(""), words.next().unwrap_or(""));
    (method, target.split('?').next().unwrap_or(""))
}

/// Answers scrapes for as long as the process lives. Where there are 32 clients, the next one is turned away.
fn serve(listener: &TcpListener, source: &Arc<Source>) {
    let clients = Arc::new(AtomicUsize::new(0));
    for stream in listener.incoming().flatten() {
        if clients.fetch_add(1, Ordering::Relaxed) >= 32 {
            clients.fetch_sub(1, Ordering::Relaxed);
            continue;
        }
        let (clients, source) = (Arc::clone(&clients), Arc::clone(source));
        thread::spawn(move || {
            let _ = answer(stream, &source);
            clients.fetch_sub(1, Ordering::Relaxed);
        });
    }
}

fn main() -> Result<(), Box<dyn Error>> {
    let address = std::env::args().nth(1).unwrap_or("127.0.0.1:0".to_owned());
    let mut opened = bound::open(CATALOGUE, CONFIG, 1_000_000_000)?;
    opened.readers[0].expose()?;
    let (shop, till) = (&opened.metrics.shop, &mut opened.recorders.till);
    shop.orders.add(till, bound::Country::De, 2)?;
    shop.took.record(till, 7)?;
    let resource = Resource::new(&[("service.name", "shop".into())]);
    let reader = Mutex::new(opened.readers.remove(0));
    let source = Arc::new(Source {
        metrics: opened.own,
        reader,
        resource,
    });
    let listener = TcpListener::bind(address)?;
    println!("listening on {}", listener.local_addr()?);
    serve(&listener, &source);
    Ok(())
}
