//! Why the map refused a call, in the words of the server's index.
use cefrodil_map::{AbsentError, IfError, InsertError};
use cefrodild::index::Refused;

#[test]
fn puts() {
    for why in [InsertError::NoPlace, InsertError::AllRecent, InsertError::Spent] {
        assert_eq!(Refused::from(AbsentError::from(why)), Refused::Full);
    }
    assert_eq!(Refused::from(AbsentError::from(InsertError::Held)), Refused::Held);
    assert_eq!(Refused::from(AbsentError::Present { since: 1 }), Refused::Changed);
    assert_eq!([AbsentError::Busy, AbsentError::Contended].map(Refused::from), [Refused::Held; 2]);
}

#[test]
fn conditions() {
    assert_eq!(Refused::from(IfError::NotThere { at: 1 }), Refused::Absent);
    assert_eq!(Refused::from(IfError::Changed { since: 1 }), Refused::Changed);
    assert_eq!([IfError::Busy, IfError::Held].map(Refused::from), [Refused::Held; 2]);
    assert_eq!(Refused::from(IfError::Spent), Refused::Full);
}
