//! Sessions that end after a while, or by a logout. Each request of a user begins the time anew.
use cefrodil_map::Map;
use std::error::Error;
use std::thread::sleep;
use std::time::Duration;

#[derive(Clone, Copy, Debug, PartialEq)]
struct Session {
    user: u32,
    may_write: bool,
}

fn main() -> Result<(), Box<dyn Error>> {
    let life = Duration::from_millis(100);
    let sessions = Map::<str, Session>::builder(10_000).time_to_live(life).open()?;
    sessions.insert("token of Ann", Session { user: 1, may_write: true })?;
    sessions.insert_for("token of Bob", Session { user: 2, may_write: false }, Duration::from_secs(3600))?;
    for _ in 0..3 {
        sleep(life / 4);
        // Never by `get` and `insert`: those would undo a logout that comes between.
        sessions.modify_for("token of Ann", life, |session| session)?;
    }
    sleep(life);
    println!("Ann: {:?}, Bob: {:?}", sessions.get("token of Ann"), sessions.get("token of Bob"));
    assert!(!sessions.contains_key("token of Ann") && sessions.contains_key("token of Bob"));
    // A removal that fails has to be called again.
    while sessions.remove("token of Bob").is_err() {}
    assert_eq!(sessions.modify_for("token of Bob", life, |session| session)?, None);
    Ok(())
}
