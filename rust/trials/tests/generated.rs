//! The generated sessions themselves: they reach everything on the list, go
//! through `unpack` and `pack` and come back, and shrink to what matters.

use pack::lines::{unpack, Trouble};
use reference::session::run_bytes;
use trials::observe::Reached;
use trials::sessions::session;
use trials::shrink::shrink;

#[test]
fn the_default_sessions_reach_everything_on_the_list() {
    let mut reached = Reached::default();
    for number in 0..6000 {
        reached.observe(&session(1, number));
    }
    assert!(reached.missing().is_empty(), "not reached: {:?}", reached.missing());
}

#[test]
fn a_seed_gives_the_same_sessions_and_another_gives_others() {
    let sessions = |seed| -> Vec<Vec<u8>> { (0..50).map(|number| session(seed, number)).collect() };
    assert_eq!(sessions(7), sessions(7));
    assert_ne!(sessions(7), sessions(8));
}

#[test]
fn every_session_that_can_be_read_comes_back_from_text() {
    let mut whole = 0;
    for number in 0..1500 {
        let bytes = session(3, number);
        let mut text = Vec::new();
        let read = unpack(&bytes[..], &mut text);
        let mut packed = Vec::new();
        pack::text::pack(&text[..], &mut packed).expect("the lines of unpack");
        match read {
            Ok(()) => {
                assert_eq!(packed, bytes, "session {number}");
                whole += 1;
            }
            Err(Trouble::Refused { refusal, .. }) => {
                assert!(bytes.starts_with(&packed), "session {number}");
                assert!([1, 15, 18, 19, 20].contains(&refusal.number()), "session {number}");
            }
            Err(trouble) => panic!("session {number}: {trouble}"),
        }
        // The text of the text is the same.
        let mut again = Vec::new();
        assert_eq!(unpack(&packed[..], &mut again).is_ok(), unpack(&packed[..], &mut Vec::new()).is_ok());
        assert_eq!(again, text, "session {number}");
    }
    assert!(whole > 700, "{whole} sessions of 1500 can be read whole");
}

#[test]
fn a_shrunk_session_keeps_what_differs_and_little_else() {
    let over_bound = |bytes: &[u8]| {
        let printed = String::from_utf8(run_bytes(bytes)).expect("printed lines");
        printed.lines().any(|line| line.rsplit(' ').next().is_some_and(|nodes| nodes.contains('4')))
            && printed.starts_with("round")
    };
    let mut shrunk = 0;
    for bytes in (0..400).map(|number| session(5, number)).filter(|bytes| over_bound(bytes)) {
        let smaller = shrink(&bytes, over_bound);
        assert!(over_bound(&smaller));
        assert!(smaller.len() <= bytes.len());
        shrunk += 1;
    }
    assert!(shrunk > 20, "{shrunk} sessions had a report over the bound");
}
