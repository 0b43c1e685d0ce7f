//! The command line.
use cefrodild::listen::Place;
#[cfg(feature = "tls")]
use cefrodild::options::Tls;
use cefrodild::options::{parse, Asked, Options, HELP};
use std::path::Path;

fn read(words: &str) -> Result<Asked, String> {
    parse(words.split_whitespace().map(str::to_owned))
}

/// The places to listen at, with spaces between them.
fn places(words: &str) -> String {
    options(words).listen.iter().map(Place::to_string).collect::<Vec<_>>().join(" ")
}

fn options(words: &str) -> Options {
    match read(words) {
        Ok(Asked::Serve(options)) => options,
        other => panic!("{words}: {other:?}"),
    }
}

#[test]
fn memcached_s_names() {
    let plain = options("");
    assert_eq!(
        (places(""), plain.threads, plain.memory, plain.connections, plain.longest),
        ("127.0.0.1:11211".into(), 4, 64 << 20, 1024, 1 << 20)
    );
    assert_eq!(plain.items, 414_187, "less than one item for each 162 bytes of the memory limit, so that a table is well filled");
    assert_eq!(options("-m 75").items, 414_187);
    assert_eq!(options("-m 85").items, (85 << 20) / 162);
    assert_eq!(options("-m 100").items, (100 << 20) / 162);
    assert_eq!(options("-m 128").items, 828_375);
    let short = options("-p 1234 -l ::1 -t2 -m 100 -c 10 -U 0 -I 2m");
    let long =
        options("--port=1234 --listen ::1 --threads=2 --memory-limit 100 --conn-limit=10 --udp-port=0 --max-item-size=2048k");
    assert_eq!(short, long);
    assert_eq!(
        (&short.listen, short.threads, short.memory, short.longest),
        (&vec![Place::Host("::1".into(), 1234)], 2, 100 << 20, 2 << 20)
    );
    assert_eq!(options("--audit=file -n 1000").items, 1000);
    assert_eq!((options("-m 1048576").items, options("-m 1048576 --audit=file").items), (768_000_000, 3_774_873));
    assert_eq!(read("-h"), Ok(Asked::Help));
    assert_eq!(read("-p 1 --version"), Ok(Asked::Version));
}

#[test]
fn faults() {
    for (words, what) in [
        ("-x", "'-x'"),
        ("11211", "'11211'"),
        ("--ports=1", "'--ports=1'"),
        ("-p", "-p needs a value"),
        ("-U 1", "-U"),
        ("-l a:b", "-l: 'a:b' has no port from 0 to 65535"),
        ("-l a:65536", "-l: 'a:65536' has no port"),
        ("-l a,,b", "-l: '' is no address and no name"),
        ("-l :1", "-l: ':1' is no address"),
        ("-l [::1]", "-l: '[::1]'"),
        ("-s", "-s needs a value"),
        ("--unix-socket=", "--unix-socket= needs a file"),
        ("-a 1000", "-a: '1000' is no octal number from 0 to 777"),
        ("-a 8", "-a: '8'"),
        ("--pidfile=", "--pidfile= needs a file"),
        ("-vd", "-vd takes no value"),
        ("--daemon=1", "--daemon=1 takes no value"),
        ("-hx", "-hx takes no value"),
        ("-A x", "'-A'"),
        ("-Q", "'-Q'"),
        ("-\u{e9}", "'-\u{e9}'"),
        ("-n 1000000", "half of the memory"),
        ("-m 1048576 -n 768000001", "768000000"),
        ("-m 1048576 -n 3774874 --audit=file", "-n: with --audit there are at most 3774873 items"),
    ] {
        let why = read(words).expect_err(words);
        assert!(why.contains(what), "{words}: {why}");
    }
}

#[test]
fn the_least_and_the_most_of_each_number() {
    let port = |options: Options| match &options.listen[..] {
        [Place::Host(_, port)] => usize::from(*port),
        places => panic!("{places:?}"),
    };
    type Read = fn(Options) -> usize;
    let table: [(&str, &str, Read, usize, usize); 6] = [
        ("-p", "--port", port, 0, 65_535),
        ("-t", "--threads", |options| options.threads, 1, 64),
        ("-m", "--memory-limit", |options| options.memory >> 20, 16, 1 << 20),
        ("-n", "--items", |options| options.items, 1, (64 << 20) / 2 / 56),
        ("-c", "--conn-limit", |options| options.connections, 1, 1 << 20),
        ("-m256 -I", "-m256 --max-item-size", |options| options.longest, 1 << 10, 128 << 20),
    ];
    for (short, long, read_number, least, most) in table {
        for number in [least, most] {
            for words in
                [format!("{short}{number}"), format!("{short} {number}"), format!("{long}={number}"), format!("{long} {number}")]
            {
                assert_eq!(read_number(options(&words)), number, "{words}");
            }
        }
        for number in [least.wrapping_sub(1), most + 1] {
            let words = format!("{short} {number}");
            let why = read(&words).expect_err(&words);
            assert!(short.ends_with(&why[..2]), "{words}: {why}");
        }
    }
}

#[test]
fn sizes_have_units() {
    for (size, bytes) in
        [("1k", 1 << 10), ("1K", 1 << 10), ("3m", 3 << 20), ("3M", 3 << 20), ("128m", 128 << 20), ("131072k", 128 << 20)]
    {
        assert_eq!(options(&format!("-m 256 -I {size}")).longest, bytes, "{size}");
    }
    for size in ["0k", "0m", "129m", "131073k", "1g", "1kk", "k", "m", "", "-1k", "1.5m", "18446744073709551615m", "\u{e9}"] {
        let why = parse(["-I".to_owned(), size.to_owned()]).expect_err(size);
        assert_eq!(why, format!("-I: '{size}' is no size from 1k to 128m"));
    }
}

#[test]
fn a_value_takes_half_of_the_memory_at_most() {
    assert_eq!(options("-m 64 -I 32m").longest, 32 << 20);
    for words in ["-m 64 -I 33m", "-I 33554433 -m 64", "-m 16 -I 9m"] {
        assert!(read(words).expect_err(words).starts_with("-I: the longest value may take half"), "{words}");
    }
}

#[test]
fn options_of_memcached_that_change_nothing() {
    for words in
        ["-R 20", "-R20", "-b 1024", "-k", "-B ascii", "-f 1.25", "-o modern", "-o hashpower=20,no_modern", "--lock-memory"]
    {
        let Options { idle, .. } = options(words);
        assert!(!idle.is_empty() && words.starts_with(&idle[0][..2]), "{words}: {idle:?}");
        assert_eq!(Options { idle, ..options("") }, options(words), "{words}");
    }
    assert_eq!(options("-o modern,lru_crawler").idle, ["-o modern", "-o lru_crawler"]);
    for words in ["-C", "-M", "-S", "-L", "-F", "-B auto", "-B binary", "-o ext_path=/x", "-o modern,x", "--enable-sasl"] {
        assert!(read(words).expect_err(words).contains("leave it out"), "{words}");
    }
}

#[test]
fn clients_may_be_silent_for_a_time() {
    for (words, seconds) in
        [("", None), ("-o idle_timeout=0", None), ("-o idle_timeout=3", Some(3)), ("-o modern,idle_timeout=4", Some(4))]
    {
        assert_eq!(options(words).idle_timeout, seconds, "{words}");
    }
    for words in ["-o idle_timeout", "-o idle_timeout=", "-o idle_timeout=x", "-o idle_timeout=-1", "-o idle_timeout=4294967296"]
    {
        assert!(read(words).expect_err(words).starts_with("idle_timeout: "), "{words}");
    }
}

#[test]
fn what_is_no_number() {
    for option in ["-p", "-t", "-m", "-n", "-c", "-U"] {
        for value in ["", "x", "-1", "1x", "1.5", " 1", "18446744073709551616"] {
            let why = parse([option.to_owned(), value.to_owned()]).expect_err(option);
            assert!(why.starts_with(option) && why.contains(&format!("'{value}'")), "{option} {value}: {why}");
        }
    }
}

#[test]
fn addresses() {
    for (address, shown) in
        [("0.0.0.0", "0.0.0.0:11211"), ("127.0.0.2", "127.0.0.2:11211"), ("::", "[::]:11211"), ("::1", "[::1]:11211")]
    {
        for words in
            [format!("-l {address}"), format!("-l{address}"), format!("--listen={address}"), format!("--listen {address}")]
        {
            assert_eq!(places(&words), shown);
        }
    }
    for (words, shown) in [
        ("-p 5 -l localhost", "localhost:5"),
        ("-l 1.2.3.4:5 -p 6", "1.2.3.4:5"),
        ("-l [::1]:5,cache-1.internal:7,::2", "[::1]:5 cache-1.internal:7 [::2]:11211"),
        ("-l 127.0.0.1 -l 127.0.0.2 -p 1", "127.0.0.1:1 127.0.0.2:1"),
        ("-s /run/a -l 127.0.0.1 -p 1", "/run/a"),
    ] {
        assert_eq!(places(words), shown, "{words}");
    }
    assert!(parse(["-l".to_owned(), String::new()]).is_err());
    assert!(parse(["-l".to_owned(), "a b".to_owned()]).is_err());
}

#[test]
fn unix_sockets_have_a_mode() {
    for (words, mode) in
        [("-s file", 0o700), ("-s file -a 0", 0), ("--unix-mask=777 --unix-socket=file", 0o777), ("-a 0660 -s file", 0o660)]
    {
        assert_eq!(options(words).listen, [Place::File("file".into(), mode)], "{words}");
    }
}

/// The lines of Debian's file but for `logfile`, which is for another program.
#[test]
fn the_options_of_a_service() {
    let plain = options("");
    assert_eq!(
        (plain.user, plain.process_file, plain.detaches, plain.verbosity, plain.dumps_core),
        (None, None, false, 0, false)
    );
    let short = options("-d -v -vv -m 64 -p 11211 -u memcache -l 127.0.0.1 -c 1024 -r -P /run/memcached.pid");
    assert_eq!((short.user.as_deref(), short.process_file.as_deref()), (Some("memcache"), Some(Path::new("/run/memcached.pid"))));
    assert!(short.detaches && short.dumps_core);
    assert_eq!(short, options("--daemon --verbose -vv --user=memcache --pidfile=/run/memcached.pid --enable-coredumps"));
    let each = [options("-d"), options("-v"), options("-vvv"), options("-r")];
    assert_eq!(
        each.map(|one| (one.detaches, one.verbosity, one.dumps_core)),
        [(true, 0, false), (false, 1, false), (false, 3, false), (false, 0, true)]
    );
}

#[test]
fn questions_are_answered_before_later_words_are_read() {
    for (words, asked) in [("-h", Asked::Help), ("--help", Asked::Help), ("-V", Asked::Version), ("--version", Asked::Version)] {
        assert_eq!(read(words), Ok(asked));
        assert!(read(&format!("-x {words}")).is_err() && read(&format!("{words} -x")).is_ok(), "{words}");
        assert!(read(&format!("{words}=1")).is_err(), "{words}");
    }
}

#[test]
fn the_help_names_what_is_accepted() {
    for line in HELP.lines().filter_map(|line| line.trim_start().strip_prefix('-')) {
        let names = line.split("  ").next().unwrap_or_default();
        let (names, value) = names.split_once('=').unwrap_or((names, ""));
        let value = match value {
            "HOST" => "::1",
            "N" => "1024",
            "MODE" => "660",
            "LIST" => "idle_timeout=1",
            // It needs others.
            "" if names.starts_with("Z,") => continue,
            value => value,
        };
        for name in names.split(", -") {
            // 1,024 are too many threads.
            let words = format!("-{name} {value}").replace("threads 1024", "threads 4").replace("-t 1024", "-t 4");
            assert!(read(&words).is_ok(), "{words}: {:?}", read(&words));
        }
    }
}

#[test]
#[cfg(feature = "tls")]
fn what_tls_needs() {
    let given = "-Z -o ssl_chain_cert=chain,ssl_key=key";
    let tls = Tls { chain: "chain".into(), key: "key".into(), authority: None, verify: 0 };
    assert_eq!(options(given).tls, Some(tls.clone()));
    assert_eq!(options("--enable-ssl -o ssl_key=key --extended=ssl_chain_cert=chain").tls, Some(tls.clone()));
    for verify in [0, 1, 2, 3] {
        let words = format!("{given},ssl_ca_cert=those,ssl_verify_mode={verify}");
        assert_eq!(options(&words).tls, Some(Tls { authority: Some("those".into()), verify, ..tls.clone() }));
    }
    assert_eq!(options("").tls, None);
    for (words, named) in [
        ("-Z", "ssl_chain_cert"),
        ("-Z -o ssl_chain_cert=chain", "ssl_key"),
        ("-Z -o ssl_key=key", "ssl_chain_cert"),
        ("-Z -o ssl_chain_cert=,ssl_key=key", "ssl_chain_cert"),
        ("-o ssl_chain_cert=chain,ssl_key=key", "-Z"),
        ("-o ssl_ca_cert=those", "-Z"),
        ("-o ssl_verify_mode=1", "-Z"),
        ("-Z -o ssl_chain_cert=chain,ssl_key=key,ssl_verify_mode=1", "ssl_ca_cert"),
        ("-Z -o ssl_chain_cert=chain,ssl_key=key,ssl_verify_mode=4", "ssl_verify_mode"),
        ("-Z -o ssl_chain_cert=chain,ssl_key=key,ssl_ciphers=x", "ssl_ciphers"),
        ("-Z -o ssl_chain_cert=chain,ssl_key=key -s file", "-s"),
    ] {
        let why = read(words).expect_err(words);
        assert!(why.contains(named), "{words}: {why}");
    }
}

#[test]
#[cfg(not(feature = "tls"))]
fn there_may_be_no_tls() {
    let why = read("-Z -o ssl_chain_cert=chain,ssl_key=key").expect_err("it was built without");
    assert!(why.contains("built without TLS"), "{why}");
}

#[test]
fn the_last_of_two_values_counts() {
    assert_eq!(options("-t 2 -t 3 --threads=4").threads, 4);
    assert_eq!(options("--audit=one --audit two").audit.as_deref(), Some("two"));
    assert_eq!(options("").audit, None);
}

#[test]
fn a_value_may_have_any_sign_in_it() {
    for value in ["a=b=c", "-", "-t", "--help", "a b"] {
        for words in [vec!["--audit".to_owned(), value.to_owned()], vec![format!("--audit={value}")]] {
            let Ok(Asked::Serve(options)) = parse(words) else { panic!("{value}") };
            assert_eq!(options.audit.as_deref(), Some(value));
        }
    }
}

#[test]
fn the_help_tells_the_values_of_options_that_are_not_there() {
    let Options { listen, threads, memory, items, connections, longest, audit, .. } = options("");
    let [Place::Host(host, port)] = &listen[..] else { panic!("{listen:?}") };
    let told = [
        ("--port=", format!("({port}; 0")),
        ("(127", format!("({host})")),
        ("--threads=", format!("1 to 64 ({threads})")),
        ("--memory-limit=", format!("at least 16 ({})", memory >> 20)),
        ("--items=", format!("one for each {} bytes", memory / items)),
        ("--conn-limit=", format!("({connections})")),
        ("--max-item-size=", format!("1k to 128m ({}m)", longest >> 20)),
    ];
    for (name, value) in told {
        let line = HELP.lines().find(|line| line.contains(name)).expect(name);
        assert!(line.contains(&value), "{line}: {value}");
    }
    assert_eq!(audit, None);
}
