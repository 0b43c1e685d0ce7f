//! The command line, with memcached's names.
use crate::listen::Place;
use crate::map_index::BYTES_OF_AN_ENTRY;
use std::net::{IpAddr, SocketAddr};
use std::path::PathBuf;

pub const HELP: &str = "\
cefrodild: a cache server that speaks memcached's text protocol

-p, --port=N             TCP port (11211; 0: any that is free)
-l, --listen=HOST        address or name to listen on, also with a port as in 127.0.0.1:11212
                         (127.0.0.1); may come again, or have several with commas between them
-s, --unix-socket=FILE   listen on a Unix socket, and not on TCP
-a, --unix-mask=MODE     its mode, in octal digits (700)
-U, --udp-port=0         there is no UDP, so only 0 is allowed
-u, --user=NAME          if root starts the server, which needs it: the user that it is to become
-d, --daemon             detach from the terminal, once the server listens
-P, --pidfile=FILE       write the number of the process to a file, which is removed at the end
-v, --verbose            with -d: keep the output open; -vv: show commands
-r, --enable-coredumps   let core files be as large as the system allows
-t, --threads=N          worker threads, 1 to 64 (4)
-m, --memory-limit=N     megabytes for keys, values and index, at least 16 (64)
-n, --items=N            room for so many items at least, up to 768000000 (about one for each 162 bytes
                         of the memory limit)
-c, --conn-limit=N       most connections at a time (1024)
-I, --max-item-size=N    longest value in bytes, or with k or m behind it, 1k to 128m (1m), and at most
                         half of the memory limit
-Z, --enable-ssl         clients of TCP must use TLS; needs ssl_chain_cert and ssl_key of -o
-o, --extended=LIST      idle_timeout=N: leave clients that are silent for N seconds (0: none);
                         ssl_chain_cert=FILE, ssl_key=FILE: the server's certificates and their key (PEM);
                         ssl_verify_mode=N: clients need no certificate (0), are asked for one (1), or
                         need one (2 or 3), from one of those whose certificates ssl_ca_cert=FILE has
-Y, --auth-file=FILE     a client says first who it is, by a name and a password of this file, which has
                         name:password on each line
    --audit=FILE         log changes and answers for mccheck; one shard
-h, --help               print this
-V, --version            print the version
";

/// Where the server listens if nothing is said.
const HOST: &str = "127.0.0.1";

const MEGABYTE: usize = 1 << 20;

/// How many bytes of the limit go with one item of the index, if `-n` doesn't say how many items there are.
const BYTES_OF_AN_ITEM: usize = 162;

/// A table has a power of two of places, and is best filled to this part, in thousandths. A little more would need twice the places.
const FILLED: usize = 790;

/// The most items, and the most with a log, which has one shard.
const MOST_ITEMS: usize = 256 * 3_000_000;
const MOST_LOGGED: usize = 3_774_873;

/// The index takes at most this part of the limit.
const PART_OF_INDEX: usize = 2;

/// A value may take this part of the limit, which is what all clients together may have sent of values that are not complete.
const PART_OF_LONGEST: usize = 2;

/// What the server is to do. [`parse`] makes one.
#[derive(Clone, Debug, Default, PartialEq, Eq)]
pub struct Options {
    /// One place at least.
    pub listen: Vec<Place>,
    /// Whose process it becomes, if it is root's.
    pub user: Option<String>,
    /// Whether it leaves the process that started it.
    pub detaches: bool,
    /// How often it was asked to say more: its output stays open then, and from two times on it shows commands.
    pub verbosity: u32,
    pub dumps_core: bool,
    pub process_file: Option<PathBuf>,
    pub threads: usize,
    /// The most bytes for items and the index.
    pub memory: usize,
    pub items: usize,
    pub connections: usize,
    pub longest: usize,
    /// For so many seconds a client may be silent.
    pub idle_timeout: Option<u32>,
    /// Where the names and passwords of those are who may use it. `None`: all may.
    pub users: Option<PathBuf>,
    /// What is needed if clients are to use TLS.
    pub tls: Option<Tls>,
    /// Memcached's options that were given and change nothing here.
    pub idle: Vec<String>,
    /// Where the log for `mccheck` goes.
    pub audit: Option<String>,
}

/// Files in PEM for TLS, and what clients must have.
#[derive(Clone, Debug, Default, PartialEq, Eq)]
pub struct Tls {
    /// The server's own certificate, and those of who signed it.
    pub chain: PathBuf,
    pub key: PathBuf,
    /// The certificates of those who may sign clients' certificates.
    pub authority: Option<PathBuf>,
    /// Whether clients need no certificate (0), are asked for one (1), or need one.
    pub verify: usize,
}

#[derive(Debug, PartialEq, Eq)]
pub enum Asked {
    Serve(Options),
    Help,
    Version,
}

/// Memcached's options that change nothing here, as the help would have them.
const IDLE: &str = "\
-R, --max-reqs-per-event=N
-b, --listen-backlog=N
-k, --lock-memory
-B, --protocol=ascii
-f, --slab-growth-factor=N
";

/// Memcached's names in the list of `-o` that change nothing here.
const EXTENDED: &str = "\
modern no_modern maxconns_fast no_maxconns_fast hashpower no_hashexpand hash_algorithm
tail_repair_time lru_crawler no_lru_crawler lru_crawler_sleep lru_crawler_tocrawl lru_maintainer
no_lru_maintainer hot_lru_pct warm_lru_pct hot_max_factor warm_max_factor slab_reassign
no_slab_reassign slab_automove slab_chunk_max no_inline_ascii_resp worker_logbuf_size";

/// The letter of the option that has a long name alone.
const UNUSED: char = 'A';

/// What the words have said so far.
struct Given {
    port: u16,
    hosts: Vec<String>,
    file: Option<PathBuf>,
    mode: u32,
    megabytes: usize,
    items: Option<usize>,
    has_tls: bool,
    tls: Tls,
    /// All else. What follows from the fields above is missing there.
    options: Options,
}

/// Reads the words of the command line, without the program's name.
pub fn parse(words: impl IntoIterator<Item = String>) -> Result<Asked, String> {
    let (mut words, mut given) = (words.into_iter(), Given::default());
    while let Some(word) = words.next() {
        let (letter, value) = option(&word, &mut words)?;
        match letter {
            'h' => return Ok(Asked::Help),
            'V' => return Ok(Asked::Version),
            _ => given.take(letter, &word, value)?,
        }
    }
    given.options().map(Asked::Serve)
}

impl Default for Given {
    fn default() -> Given {
        let options = Options { threads: 4, connections: 1024, longest: MEGABYTE, ..Options::default() };
        Given {
            port: 11211,
            hosts: Vec::new(),
            file: None,
            mode: 0o700,
            megabytes: 64,
            items: None,
            has_tls: false,
            tls: Tls::default(),
            options,
        }
    }
}

impl Given {
    fn take(&mut self, letter: char, word: &str, value: String) -> Result<(), String> {
        let options = &mut self.options;
        match letter {
            'p' => self.port = within(word, &value, 0..=65535)? as u16,
            'l' => self.hosts.extend(value.split(',').map(str::to_owned)),
            's' => self.file = Some(path(word, value)?),
            'a' => self.mode = octal(word, &value)?,
            'u' => options.user = Some(value),
            'd' => options.detaches = true,
            'P' => options.process_file = Some(path(word, value)?),
            'v' => options.verbosity += 1 + value.len() as u32,
            'r' => options.dumps_core = true,
            'U' => drop(within(word, &value, 0..=0)?),
            't' => options.threads = within(word, &value, 1..=64)?,
            'm' => self.megabytes = within(word, &value, 16..=1 << 20)?,
            'n' => self.items = Some(within(word, &value, 1..=MOST_ITEMS)?),
            'c' => options.connections = within(word, &value, 1..=1 << 20)?,
            'I' => options.longest = size(word, &value)?,
            'Y' => options.users = Some(path(word, value)?),
            'Z' => self.has_tls = true,
            'o' => value.split(',').try_for_each(|one| self.extended(word, one))?,
            'B' if value != "ascii" => return Err(format!("{word}: there is no protocol but ascii: leave it out")),
            'R' | 'b' | 'k' | 'B' | 'f' => options.idle.push(word.to_owned()),
            _ => options.audit = Some(value),
        }
        Ok(())
    }

    fn extended(&mut self, word: &str, one: &str) -> Result<(), String> {
        let (name, value) = one.split_once('=').unwrap_or((one, ""));
        match name {
            "idle_timeout" => {
                let seconds = within(name, value, 0..=u32::MAX as usize)? as u32;
                self.options.idle_timeout = Some(seconds).filter(|seconds| *seconds > 0);
            }
            "ssl_chain_cert" => self.tls.chain = path(name, value.to_owned())?,
            "ssl_key" => self.tls.key = path(name, value.to_owned())?,
            "ssl_ca_cert" => self.tls.authority = Some(path(name, value.to_owned())?),
            "ssl_verify_mode" => self.tls.verify = within(name, value, 0..=3)?,
            "" => {}
            _ if EXTENDED.split_whitespace().any(|known| known == name) => self.options.idle.push(format!("{word} {name}")),
            _ => return Err(format!("{word}: there is no '{name}' here: leave it out")),
        }
        Ok(())
    }

    fn options(self) -> Result<Options, String> {
        let memory = self.megabytes * MEGABYTE;
        let most = if self.options.audit.is_some() { MOST_LOGGED } else { MOST_ITEMS };
        let items = self.items.unwrap_or_else(|| items_for(memory).min(most));
        if items > most {
            return Err(format!("-n: with --audit there are at most {most} items"));
        }
        if items > memory / PART_OF_INDEX / BYTES_OF_AN_ENTRY {
            return Err(format!("-n: the index of {items} items would take half of the memory limit, or more"));
        }
        if self.options.longest > memory / PART_OF_LONGEST {
            return Err("-I: the longest value may take half of the memory limit (-m) at most".into());
        }
        let tls = tls(self.has_tls, self.tls, self.file.is_some())?;
        let file = self.file.map(|file| Place::File(file, self.mode));
        Ok(Options { listen: places(self.hosts, self.port, file)?, memory, items, tls, ..self.options })
    }
}

/// What is needed for TLS, if it is asked for.
fn tls(is_asked_for: bool, tls: Tls, has_file: bool) -> Result<Option<Tls>, String> {
    let has_certificates = !tls.chain.as_os_str().is_empty() && !tls.key.as_os_str().is_empty();
    match is_asked_for {
        true if !cfg!(feature = "tls") => Err("-Z: this server was built without TLS".into()),
        true if has_file => Err("-Z: there is no TLS on a Unix socket (-s)".into()),
        true if !has_certificates => Err("-Z needs ssl_chain_cert and ssl_key of -o".into()),
        true if tls.verify > 0 && tls.authority.is_none() => Err("ssl_verify_mode needs ssl_ca_cert".into()),
        true => Ok(Some(tls)),
        false if tls != Tls::default() => Err("-o: what begins with ssl_ needs -Z".into()),
        false => Ok(None),
    }
}

/// The places to listen at. With a Unix socket there is no other one.
fn places(hosts: Vec<String>, port: u16, file: Option<Place>) -> Result<Vec<Place>, String> {
    if let Some(file) = file {
        return Ok(vec![file]);
    }
    let hosts = if hosts.is_empty() { vec![HOST.to_owned()] } else { hosts };
    hosts.iter().map(|host| place(host, port)).collect()
}

/// An address or a name, and its own port behind a colon if it has one.
fn place(host: &str, port: u16) -> Result<Place, String> {
    if host.parse::<IpAddr>().is_ok() {
        return Ok(Place::Host(host.to_owned(), port));
    }
    if let Ok(address) = host.parse::<SocketAddr>() {
        return Ok(Place::Host(address.ip().to_string(), address.port()));
    }
    let (name, port) = match host.rsplit_once(':') {
        Some((name, port)) => (name, port.parse().map_err(|_| format!("-l: '{host}' has no port from 0 to 65535"))?),
        None => (host, port),
    };
    if name.is_empty() || name.contains([':', '[', ']', ' ']) {
        return Err(format!("-l: '{host}' is no address and no name"));
    }
    Ok(Place::Host(name.to_owned(), port))
}

/// How many items the index has if nothing says how many. If that is less than a fourth above what fills tables well, it is that.
fn items_for(memory: usize) -> usize {
    let items = memory / BYTES_OF_AN_ITEM;
    let places = 1 << (items * 1000 / FILLED).ilog2();
    let filled = places * FILLED / 1000;
    if items < filled + filled / 4 {
        filled
    } else {
        items
    }
}

/// The names of each option: its letter, its long name, and whether a value follows.
fn names() -> impl Iterator<Item = (char, &'static str, bool)> {
    HELP.lines().chain(IDLE.lines()).filter_map(|line| {
        let (short, rest) = line.split_once("--")?;
        let long = rest.split(' ').next()?;
        let letter = short.chars().nth(1).filter(|letter| *letter != ' ').unwrap_or(UNUSED);
        Some(long.split_once('=').map_or((letter, long, false), |(name, _)| (letter, name, true)))
    })
}

/// The option's letter, and its value: behind the name, or the next word.
fn option(word: &str, words: &mut impl Iterator<Item = String>) -> Result<(char, String), String> {
    let unknown = || format!("there is no option '{word}' here: leave it out, or see --help");
    let (found, value) = if let Some(long) = word.strip_prefix("--") {
        let (name, value) = long.split_once('=').map_or((long, None), |(name, value)| (name, Some(value)));
        (names().find(|(_, known, _)| *known == name), value)
    } else {
        let short = word.strip_prefix('-').ok_or_else(unknown)?;
        let letter = short.chars().next().filter(|letter| *letter != UNUSED).ok_or_else(unknown)?;
        let value = Some(&short[letter.len_utf8()..]).filter(|value| !value.is_empty());
        (names().find(|(known, ..)| *known == letter), value)
    };
    let (letter, _, takes_value) = found.ok_or_else(unknown)?;
    match (takes_value, value) {
        (true, Some(value)) => Ok((letter, value.to_owned())),
        (true, None) => words.next().map(|value| (letter, value)).ok_or_else(|| format!("{word} needs a value")),
        (false, None) => Ok((letter, String::new())),
        // As in -vv.
        (false, Some(value)) if !word.starts_with("--") && value.chars().all(|again| again == letter) => {
            Ok((letter, value.to_owned()))
        }
        (false, Some(_)) => Err(format!("{word} takes no value")),
    }
}

fn within(word: &str, value: &str, range: std::ops::RangeInclusive<usize>) -> Result<usize, String> {
    let number = value.parse().ok().filter(|number| range.contains(number));
    number.ok_or_else(|| match (range.start(), range.end()) {
        (least, most) if least == most => format!("{word}: only {least} is allowed, and not '{value}'"),
        (least, most) => format!("{word}: '{value}' is no number from {least} to {most}"),
    })
}

fn octal(word: &str, value: &str) -> Result<u32, String> {
    let mode = u32::from_str_radix(value, 8).ok().filter(|mode| *mode <= 0o777);
    mode.ok_or_else(|| format!("{word}: '{value}' is no octal number from 0 to 777"))
}

fn path(word: &str, value: String) -> Result<PathBuf, String> {
    if value.is_empty() {
        return Err(format!("{word} needs a file"));
    }
    Ok(value.into())
}

fn size(word: &str, value: &str) -> Result<usize, String> {
    let (digits, unit) = match value.as_bytes().last() {
        Some(b'k' | b'K') => (&value[..value.len() - 1], 1 << 10),
        Some(b'm' | b'M') => (&value[..value.len() - 1], MEGABYTE),
        _ => (value, 1),
    };
    let bytes = digits.parse::<usize>().ok().and_then(|number| number.checked_mul(unit));
    let fits = bytes.filter(|bytes| (1 << 10..=128 * MEGABYTE).contains(bytes));
    fits.ok_or_else(|| format!("{word}: '{value}' is no size from 1k to 128m"))
}
