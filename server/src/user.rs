//! Whose process it is.
use nix::unistd::{geteuid, initgroups, setgid, setuid, User};
use std::ffi::CString;

/// Whether the process is root's.
pub fn is_root() -> bool {
    geteuid().is_root()
}

/// Gives up root's rights, if the process has them. It is this user's from then on, with the user's groups. There may be one thread so far.
pub fn become_user(name: &str) -> Result<(), String> {
    if !is_root() {
        return Ok(());
    }
    let text = CString::new(name).map_err(|_| format!("{name:?} is no user"))?;
    let failed = |why| format!("{name}: {why}");
    let user = User::from_name(name).map_err(failed)?.ok_or_else(|| format!("there is no user '{name}'"))?;
    // The user comes last: only root may change the groups.
    initgroups(&text, user.gid).and_then(|()| setgid(user.gid)).and_then(|()| setuid(user.uid)).map_err(failed)
}
