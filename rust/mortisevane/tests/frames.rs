//! The frames listened to, and the wait.

use mortisevane::frames::{self, Frames, Listener};
use mortisevane::Refusal;

#[test]
fn case_8_and_the_data_sheets_own() {
    let heard = frames::listened(&[Listener { frame: 3, collapse: 5 }]).unwrap();
    assert!(heard.iter().eq([3, 35, 67, 99]));
    // S8.6.7.
    let heard = frames::listened(&[Listener { frame: 3, collapse: 4 }]).unwrap();
    assert!(heard.iter().eq([3, 19, 35, 51, 67, 83, 99, 115]));
    assert_eq!((heard.count, heard.masks), (8, [8; 8]));
}

#[test]
fn frames_that_two_addresses_share_count_once() {
    let listener = |frame, collapse| Listener { frame, collapse };
    let heard = frames::listened(&[listener(3, 5), listener(35, 5), listener(4, 5)]).unwrap();
    assert!(heard.iter().eq([3, 4, 35, 36, 67, 68, 99, 100]));
    assert_eq!(heard.count, 8);
    assert!(heard.contains(3) && !heard.contains(5) && !heard.contains(128 + 3) && !heard.contains(255));
}

#[test]
fn the_packets_of_table_28() {
    let everything = frames::listened(&[Listener { frame: 0, collapse: 0 }]).unwrap();
    assert_eq!(everything.count, 128);
    assert!(everything.iter().eq(0..128));
    let last = Frames { count: 1, masks: [0x8000, 0, 0, 0, 0, 0, 0, 0] };
    assert!(last.iter().eq([127]));
    assert_eq!(last.assignments()[0].build(), Ok(0x2000_8000));
}

#[test]
fn listeners_that_are_refused() {
    assert_eq!(frames::listened(&[]), Ok(Frames::default()));
    assert_eq!(frames::listened(&[Listener { frame: 128, collapse: 4 }]), Err(Refusal::Packet));
    assert_eq!(frames::listened(&[Listener { frame: 0, collapse: 6 }]), Err(Refusal::Packet));
    assert!(frames::listened(&[Listener { frame: 0, collapse: 5 }; 16]).is_ok());
    assert_eq!(frames::listened(&[Listener { frame: 0, collapse: 5 }; 17]), Err(Refusal::Size));
    assert_eq!(frames::listened(&[Listener { frame: 0, collapse: 6 }; 17]), Err(Refusal::Packet));
}

#[test]
fn waits() {
    assert_eq!(frames::wait(0, 127), Ok(127));
    assert_eq!(frames::wait(127, 0), Ok(1));
    assert_eq!(frames::wait(77, 77), Ok(128));
    assert_eq!(frames::wait(0, 0), Ok(128));
    assert_eq!(frames::wait(0, 128), Err(Refusal::Packet));
    assert_eq!(frames::wait(255, 0), Err(Refusal::Packet));
}
