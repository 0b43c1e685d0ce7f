//! Clients that must say who they are.
mod plain;
use cefrodild::counts::Count;
use cefrodild::users::Users;
use plain::client::{Client, MEGABYTE};
use std::fs;
use std::io;
use std::path::PathBuf;
use std::process;
use std::sync::atomic::{AtomicUsize, Ordering::Relaxed};
use std::sync::Arc;

/// What a file with this text says.
fn users(text: &str) -> io::Result<Users> {
    static FILES: AtomicUsize = AtomicUsize::new(0);
    let file = PathBuf::from(format!("{}/users-{}-{}", env!("CARGO_TARGET_TMPDIR"), process::id(), FILES.fetch_add(1, Relaxed)));
    fs::write(&file, text)?;
    let users = Users::read(&file);
    fs::remove_file(&file)?;
    users
}

/// A client of a server with the users `u` and `me`, whose passwords are `p` and `x:y`.
fn client() -> Client {
    let mut client = Client::new(MEGABYTE);
    let store = Arc::get_mut(&mut client.store).expect("nobody else has it");
    store.users = Some(users("u:p\nme:x:y\n").expect("there is such a file"));
    client
}

#[test]
fn a_file_of_users() {
    for text in ["u:p", "u:p\n", "u:p\r\n", "\nother:p\n\nu:p\nu:q\n"] {
        let users = users(text).expect(text);
        assert!(users.has(b"u", b"p"), "{text}");
        for (name, password) in [("u", ""), ("", "p"), ("u", "pp"), ("u", "x"), ("p", "u"), ("U", "p"), ("u:p", ""), ("", "")] {
            assert!(!users.has(name.as_bytes(), password.as_bytes()), "{text}: {name} {password}");
        }
    }
    for text in ["", "\n", "u", "u p\n", "u:p\nq\n"] {
        assert_eq!(users(text).expect_err(text).kind(), io::ErrorKind::InvalidData);
    }
    assert!(Users::read(&PathBuf::from("/nowhere")).is_err());
}

#[test]
fn a_web_page_has_no_guess() {
    for line in ["POST / HTTP/1.1", "GET /a b HTTP/1.0", "HTTP/1.1"] {
        let page = format!("{line}\r\nHost: localhost\r\n\r\nset k 0 0 3\r\nu p\r\n");
        assert_eq!(client().ask_bytes(page.as_bytes()), (Vec::new(), true), "{line}");
    }
}

#[test]
fn who_says_a_name_and_its_password_is_served() {
    for said in [
        "set k 0 0 3\nu p\n",
        "set k 0 0 6\nme x:y\n",
        "set k x y 4\nu  p\n",
        "set k 0 0 3 noreply\nu p\n",
        "set k 0 0 5\nu p z\n",
        &format!("set k 0 0 2047\nu p{}\n", " ".repeat(2044)),
    ] {
        let mut client = client();
        assert_eq!(client.ask(said), "STORED\n", "{said}");
        // The value is kept nowhere, and the client is known from now on.
        assert_eq!(client.ask("get k\nset k 0 0 1\n5\nget k\n"), "END\nSTORED\nVALUE k 0 1\n5\nEND\n", "{said}");
    }
}

#[test]
fn others_are_told_why_they_are_not() {
    for (said, answer) in [
        ("set k 0 0 3\nu q\n", "CLIENT_ERROR authentication failure\n"),
        ("set k 0 0 4\nme x\n", "CLIENT_ERROR authentication failure\n"),
        ("set k 0 0 1\nu\n", "CLIENT_ERROR bad authentication token format\n"),
        ("set k 0 0 0\n\n", "CLIENT_ERROR bad authentication token format\n"),
        ("set k 0 0 1\nu p", "CLIENT_ERROR bad command line termination\n"),
        ("set k 0 0 x\n", "CLIENT_ERROR unauthenticated\n"),
        ("set k 0 0\n", "CLIENT_ERROR unauthenticated\n"),
        ("set k 0 0 2048\n", "CLIENT_ERROR unauthenticated\n"),
    ] {
        let mut client = client();
        assert_eq!(client.ask(said), answer, "{said}");
        client.input.clear();
        assert_eq!(client.ask("get k\n"), "CLIENT_ERROR unauthenticated\n", "{said}");
        assert_eq!(client.ask("set k 0 0 3\nu p\nget k\n"), "STORED\nEND\n", "{said}");
    }
}

#[test]
fn a_stranger_can_do_nothing() {
    let mut known = client();
    known.ask("set k 0 0 3\nu p\nset k 0 0 1\n5\n");
    for line in
        ["get k", "mg k v", "delete k", "md k", "flush_all", "stats", "version", "mn", "quit", "touch k 1", "incr k 1", "", "x"]
    {
        let (answer, ends) = known.beside().ask_bytes(format!("{line}\r\n").as_bytes());
        assert_eq!((answer.as_slice(), ends), (b"CLIENT_ERROR unauthenticated\r\n".as_slice(), false), "{line}");
    }
    assert_eq!(known.ask("get k\n"), "VALUE k 0 1\n5\nEND\n");
    // What is no line is not waited for without end.
    for (said, ends) in [("x".repeat(2047), false), ("x".repeat(2048), true), ("set k 0 0 2000000000\r\n".to_owned(), false)] {
        assert_eq!(known.beside().ask_bytes(said.as_bytes()).1, ends, "{}", said.len());
    }
}

#[test]
fn logins_are_counted() {
    let mut client = client();
    client.ask("get k\nset k 0 0 3\nu q\nset k 0 0 3\nu p\nget k\n");
    let counts = &client.store.books.counts;
    assert_eq!((counts.get(Count::Logins), counts.get(Count::BadLogins), counts.get(Count::Gets)), (2, 1, 1));
}
