//! Each status that is an error in Rust has the text of the archive. If one has another, the table says so.
use cefrodil::{
    EvictError, Held, ListError, MoreError, OpenError, PutError, PutIfAbsentError, PutIfError, Spent, TurnError, Why,
};
use std::ffi::{c_char, CStr};

extern "C" {
    fn cefrodil_text(status: u32) -> *const c_char;
}

fn text_of_archive(status: u32) -> &'static str {
    // SAFETY: the archive has this call for any number. It returns a text that stays, and ends with a zero.
    unsafe { CStr::from_ptr(cefrodil_text(status)) }.to_str().expect("a text in ASCII")
}

// The errors of a status of this number. None: it is no error in Rust.
fn errors_of(status: u32) -> Vec<String> {
    match status {
        3 => vec![PutError::NoPath.to_string(), Why::NoPath.to_string(), PutIfAbsentError::Put(PutError::NoPath).to_string()],
        4 => vec![PutError::AllRecent.to_string(), EvictError::AllRecent.to_string()],
        5 => vec![
            PutError::Spent.to_string(),
            PutIfError::Spent.to_string(),
            EvictError::Spent.to_string(),
            Spent.to_string(),
            Why::Spent.to_string(),
        ],
        7 => vec![
            TurnError::<Spent>::Held.to_string(),
            Held.to_string(),
            TurnError::<Spent>::from(Held).to_string(),
            MoreError::Held.to_string(),
        ],
        12 => vec![OpenError::NoMemory.to_string(), ListError::NoMemory.to_string(), MoreError::NoMemory.to_string()],
        15 => vec![OpenError::Buckets.to_string(), TurnError::Call(OpenError::Buckets).to_string()],
        16 => vec![OpenError::Items.to_string()],
        17 => vec![OpenError::Stripes.to_string()],
        18 => vec![OpenError::Depth.to_string()],
        19 => vec![OpenError::Tries.to_string()],
        20 => vec![OpenError::Limit.to_string()],
        21 => vec![MoreError::Handles.to_string()],
        23 => vec![Why::NoItem.to_string()],
        24 => vec![OpenError::Shards.to_string()],
        27 => vec![OpenError::Processor.to_string()],
        _ => Vec::new(),
    }
}

#[test]
fn errors_have_the_texts_of_the_archive() {
    let errors: Vec<(u32, Vec<String>)> = (0..100).map(|status| (status, errors_of(status))).collect();
    for (status, texts) in &errors {
        for text in texts {
            assert_eq!(text, text_of_archive(*status), "status {status}");
        }
    }
    assert_eq!(errors.iter().filter(|(_, texts)| !texts.is_empty()).count(), 15);
}

#[test]
fn errors_that_say_more_have_texts_of_their_own() {
    for (status, text, error) in [
        (1, "absent", PutIfError::NotThere { at: 7 }.to_string()),
        (6, "changed", PutIfError::Changed { since: 7 }.to_string()),
        (21, "handles must be from 1 to 1024, and no more than there are to spare", OpenError::Handles.to_string()),
        (25, "present", PutIfAbsentError::Present { since: 7 }.to_string()),
    ] {
        assert_eq!(text_of_archive(status), text);
        assert_ne!(error, text);
    }
    assert_eq!(PutIfError::NotThere { at: 7 }.to_string(), "not there at 7");
    assert_eq!(PutIfError::Changed { since: 7 }.to_string(), "changed since 7");
    assert_eq!(OpenError::Handles.to_string(), "handles must be from 1 to 1024");
    assert_eq!(PutIfAbsentError::Present { since: 7 }.to_string(), "present since 7");
    let version = OpenError::Version { archive: 12_345, crate_version: 120_007 };
    assert_eq!(version.to_string(), "libcefrodil.a has version 1.23.45, and the crate 12.0.7");
}
