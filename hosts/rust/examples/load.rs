//! A server of a thread for each connection, for `tools/load`: `load measured`, or `load plain`.
use std::error::Error;
use std::io::{BufRead, BufReader, Write};
use std::net::{TcpListener, TcpStream};
use std::sync::{Arc, Mutex, PoisonError};
use std::thread;
use std::time::{Duration, SystemTime, UNIX_EPOCH};
use wormweekly::{Dialect, Reader, Shared, SharedInstrument, TimeUnit, open};

const INSTRUMENTS: &str = "format = 1
[[meter]]
name = 'http'
[[meter.instrument]]
name = 'http.requests'
kind = 'counter'
range = [1, 1]
key = [{ name = 'status', values = [200] }]
[[meter.instrument]]
name = 'http.duration'
kind = 'histogram'
unit = 'ms'
range = [0, 60000]
boundaries = [5, 50, 500]
[[meter.instrument]]
name = 'http.in_flight'
kind = 'up_down_counter'
range = [-1, 1]
";

const CONFIG: &str = "format = 1\n[[reader]]\nname = 'prometheus'\n";

type Answer<T> = Result<T, Box<dyn Error>>;

struct Metered {
    shared: Shared,
    requests: SharedInstrument,
    duration: SharedInstrument,
    in_flight: SharedInstrument,
    reader: Mutex<Reader>,
}

fn now() -> u64 {
    let since = SystemTime::now().duration_since(UNIX_EPOCH);
    since.map_or(0, |since| since.as_nanos() as u64)
}

impl Metered {
    fn open() -> Answer<Metered> {
        let recorders = (0..4).map(|number| {
            let amounts = "{ instrument = 0, amount = 10000 }, { instrument = 1, amount = 10000 }, \
                           { instrument = 2, amount = 20000 }";
            format!("[[recorder]]\nname = '{number}'\nbudget = [{amounts}]\n")
        });
        let catalogue = INSTRUMENTS.to_owned() + &recorders.collect::<String>();
        let (shared, readers) = open(&catalogue, CONFIG, now())?.share();
        Ok(Metered {
            requests: shared.instrument("http.requests")?,
            duration: shared.instrument("http.duration")?,
            in_flight: shared.instrument("http.in_flight")?,
            reader: Mutex::new(readers.into_iter().next().ok_or("no reader")?),
            shared,
        })
    }

    fn page(&self) -> Answer<String> {
        let mut reader = self.reader.lock().unwrap_or_else(PoisonError::into_inner);
        Ok(self
            .shared
            .metrics()
            .page(&mut reader, now(), Dialect::Text)?)
    }

    fn measured(&self) -> String {
        let _in_flight = self.in_flight.in_flight(&[]);
        let _timed = self.duration.time(TimeUnit::Milliseconds, &[]);
        let body = slow();
        self.requests.add(1, &[("status", 200.into())]);
        body
    }
}

fn slow() -> String {
    thread::sleep(Duration::from_millis(50));
    "done\n".to_owned()
}

// Answers what is asked on a connection, until there is nothing more.
fn serve(connection: TcpStream, metered: Option<&Metered>) -> Answer<()> {
    let mut asked = BufReader::new(connection.try_clone()?).lines();
    let mut connection = connection;
    while let Some(first) = asked.next() {
        let is_page = first?.starts_with("GET /metrics");
        while !asked.next().transpose()?.unwrap_or_default().is_empty() {}
        let body = match metered {
            Some(own) if is_page => own.page()?,
            Some(own) => own.measured(),
            None => slow(),
        };
        let head = format!("HTTP/1.1 200 OK\r\nContent-Length: {}\r\n\r\n", body.len());
        connection.write_all((head + &body).as_bytes())?;
    }
    Ok(())
}

fn main() -> Answer<()> {
    let is_measured = std::env::args().nth(1).as_deref() == Some("measured");
    let metered = is_measured.then(Metered::open).transpose()?.map(Arc::new);
    let listener = TcpListener::bind("127.0.0.1:0")?;
    println!("{}", listener.local_addr()?.port());
    for connection in listener.incoming() {
        let (connection, metered) = (connection?, metered.clone());
        // A client that goes away ends its connection alone.
        thread::spawn(move || drop(serve(connection, metered.as_deref())));
    }
    Ok(())
}
