//! Loads a server that speaks memcached's text protocol, and says how many requests it answered and how long they took.
//!
//! Each client has a connection and a thread, and sends a request when the one before is answered. A value tells its key, so an answer for
//! another key is noticed. The program ends with 1 after such an answer, or one that is no answer.
//!
//! usage: load ADDRESS [NAME=NUMBER]..
//!
//! clients=8 seconds=5 keys=100000 value=32 gets=9 (of ten requests) batch=1 (keys of a get) fill=1 (puts each key first) mixed=0 (1: also
//! deletes, appends and compares, and values of all sizes up to that)
use std::collections::HashMap;
use std::env;
use std::io::{self, BufRead, BufReader, Read, Write};
use std::net::TcpStream;
use std::process::ExitCode;
use std::sync::atomic::{AtomicBool, Ordering::Relaxed};
use std::sync::Arc;
use std::thread;
use std::time::{Duration, Instant};

/// Two buckets an octave of nanoseconds would be rough: these are sixteen.
const PARTS: u64 = 16;
const BUCKETS: usize = 64 * PARTS as usize;

/// So long is a value that tells its whole key, so that it still does when something is appended.
const SHORTEST: u64 = 16;

type Numbers = HashMap<String, u64>;

struct Client {
    stream: BufReader<TcpStream>,
    numbers: Numbers,
    seed: u64,
    text: Vec<u8>,
    told: Told,
}

#[derive(Clone)]
struct Told {
    times: Vec<u64>,
    requests: u64,
    hits: u64,
    misses: u64,
    wrong: u64,
}

fn main() -> ExitCode {
    let mut words = env::args().skip(1);
    let Some(address) = words.next() else { return ExitCode::from(2) };
    let defaults =
        [("clients", 8), ("seconds", 5), ("keys", 100_000), ("value", 32), ("gets", 9), ("batch", 1), ("fill", 1), ("mixed", 0)];
    let mut numbers: Numbers = defaults.into_iter().map(|(name, number)| (name.to_owned(), number)).collect();
    for word in words {
        match word.split_once('=').and_then(|(name, number)| Some((name.to_owned(), number.parse().ok()?))) {
            Some((name, number)) if numbers.contains_key(&name) => drop(numbers.insert(name, number)),
            _ => return ExitCode::from(2),
        }
    }
    match run(&address, &numbers) {
        Ok(0) => ExitCode::SUCCESS,
        Ok(_) => ExitCode::FAILURE,
        Err(why) => {
            eprintln!("load: {why}");
            ExitCode::FAILURE
        }
    }
}

fn run(address: &str, numbers: &Numbers) -> io::Result<u64> {
    if numbers["fill"] == 1 {
        Client::connect(address, numbers, 0)?.fill()?;
    }
    let stop = Arc::new(AtomicBool::new(false));
    let clients: Vec<_> = (1..=numbers["clients"])
        .map(|seed| {
            let (mut client, stop) = (Client::connect(address, numbers, seed)?, Arc::clone(&stop));
            Ok(thread::spawn(move || -> io::Result<Told> {
                while !stop.load(Relaxed) {
                    client.request()?;
                }
                Ok(client.told)
            }))
        })
        .collect::<io::Result<_>>()?;
    let begun = Instant::now();
    thread::sleep(Duration::from_secs(numbers["seconds"]));
    stop.store(true, Relaxed);
    let mut sum = Told::none();
    for client in clients {
        sum.add(&client.join().expect("a client does not panic")?);
    }
    sum.print(begun.elapsed());
    Ok(sum.wrong)
}

impl Client {
    fn connect(address: &str, numbers: &Numbers, seed: u64) -> io::Result<Client> {
        let stream = TcpStream::connect(address)?;
        stream.set_nodelay(true)?;
        stream.set_read_timeout(Some(Duration::from_secs(20)))?;
        let stream = BufReader::with_capacity(1 << 16, stream);
        Ok(Client { stream, numbers: numbers.clone(), seed: seed * 7919 + 1, text: Vec::new(), told: Told::none() })
    }

    fn draw(&mut self, below: u64) -> u64 {
        self.seed ^= self.seed << 13;
        self.seed ^= self.seed >> 7;
        self.seed ^= self.seed << 17;
        (self.seed >> 11) % below
    }

    fn fill(&mut self) -> io::Result<()> {
        for key in 0..self.numbers["keys"] {
            self.write_set("set", key, "");
            self.send()?;
            self.read_line()?;
        }
        Ok(())
    }

    fn request(&mut self) -> io::Result<()> {
        let key = self.draw(self.numbers["keys"]);
        let begun;
        if self.draw(10) < self.numbers["gets"] {
            let keys: Vec<u64> = (1..self.numbers["batch"]).map(|_| self.draw(self.numbers["keys"])).chain([key]).collect();
            self.text.extend_from_slice(b"get");
            keys.iter().for_each(|key| write!(self.text, " key:{key}").expect("a vector takes all"));
            self.text.extend_from_slice(b"\r\n");
            begun = self.send()?;
            self.read_values(keys.len() as u64)?;
        } else {
            match self.draw(if self.numbers["mixed"] == 1 { 6 } else { 1 }) {
                1 => write!(self.text, "delete key:{key}\r\n").expect("a vector takes all"),
                2 => self.write_set("append", key, ""),
                3 => self.write_set("add", key, ""),
                4 => self.write_set("cas", key, " 1"),
                5 => self.write_set("replace", key, ""),
                _ => self.write_set("set", key, ""),
            }
            begun = self.send()?;
            let line = self.read_line()?;
            let answers = ["STORED", "NOT_STORED", "DELETED", "NOT_FOUND", "EXISTS"];
            self.told.wrong += u64::from(!answers.contains(&line.trim_end()) && !line.starts_with("SERVER_ERROR"));
        }
        self.told.note(begun.elapsed());
        Ok(())
    }

    fn write_set(&mut self, verb: &str, key: u64, token: &str) {
        let most = self.numbers["value"];
        let length = if self.numbers["mixed"] == 1 { SHORTEST + self.draw(most) } else { most } as usize;
        let value = format!("key:{key} ").repeat(length / 6 + 1);
        write!(self.text, "{verb} key:{key} 0 0 {length}{token}\r\n{}\r\n", &value[..length]).expect("a vector takes all");
    }

    fn send(&mut self) -> io::Result<Instant> {
        let begun = Instant::now();
        self.stream.get_mut().write_all(&self.text)?;
        self.text.clear();
        Ok(begun)
    }

    fn read_line(&mut self) -> io::Result<String> {
        let mut line = String::new();
        self.stream.read_line(&mut line)?;
        if line.ends_with('\n') {
            return Ok(line);
        }
        Err(io::ErrorKind::UnexpectedEof.into())
    }

    fn read_values(&mut self, keys: u64) -> io::Result<()> {
        let mut hits = 0;
        loop {
            let line = self.read_line()?;
            let words: Vec<&str> = line.split_whitespace().collect();
            let ["VALUE", key, _, length] = words[..] else {
                self.told.wrong += u64::from(words != ["END"]);
                break;
            };
            let mut value = vec![0; length.parse::<usize>().unwrap_or(0) + 2];
            self.stream.read_exact(&mut value)?;
            hits += 1;
            self.told.wrong += u64::from(
                !value.starts_with(&format!("{key} ").as_bytes()[..value.len().min(key.len() + 1).min(value.len() - 2)]),
            );
        }
        self.told.hits += hits;
        self.told.misses += keys - hits;
        Ok(())
    }
}

impl Told {
    fn none() -> Told {
        Told { times: vec![0; BUCKETS], requests: 0, hits: 0, misses: 0, wrong: 0 }
    }

    fn note(&mut self, time: Duration) {
        let nanoseconds = (time.as_nanos() as u64).max(PARTS);
        let octave = u64::from(nanoseconds.ilog2());
        let part = (nanoseconds >> (octave - 4)) % PARTS;
        self.times[(octave * PARTS + part) as usize] += 1;
        self.requests += 1;
    }

    fn add(&mut self, other: &Told) {
        self.times.iter_mut().zip(&other.times).for_each(|(sum, count)| *sum += count);
        self.requests += other.requests;
        self.hits += other.hits;
        self.misses += other.misses;
        self.wrong += other.wrong;
    }

    /// Microseconds within which this share of the requests was answered.
    fn within(&self, share: f64) -> f64 {
        let mut left = (self.requests as f64 * share) as u64;
        let bucket = self.times.iter().position(|count| {
            let is_here = *count > left;
            left = left.saturating_sub(*count);
            is_here
        });
        let bucket = bucket.unwrap_or(BUCKETS - 1) as u64;
        ((PARTS + bucket % PARTS) << (bucket / PARTS)) as f64 / PARTS as f64 / 1000.0
    }

    fn print(&self, time: Duration) {
        let (rate, share) =
            (self.requests as f64 / time.as_secs_f64(), self.hits as f64 / (self.hits + self.misses).max(1) as f64);
        let [half, most, nearly_all] = [0.5, 0.99, 0.999].map(|share| self.within(share));
        println!(
            "{rate:.0} requests/s; us: p50 {half:.0}, p99 {most:.0}, p99.9 {nearly_all:.0}; hits {share:.3}; wrong {}",
            self.wrong
        );
    }
}
