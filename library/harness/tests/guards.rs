//! Guarded memory: every byte around a buffer that is changed is noticed, and
//! a byte that is only looked at ends the run.

use std::process::Command;

use harness::call::{Call, Lent};
use harness::fence::{making, watch};
use harness::guard::{outcome, Guarded};
use harness::rows::Name;

#[test]
fn a_buffer_comes_back_from_any_place() {
    let mut guarded = Guarded::new();
    for turn in 0..200 {
        for count in [0, 1, 2, 63, 1_000, 70_000] {
            let bytes = Lent::Bytes((0..count).map(|i| (i * 7 + turn) as u8).collect());
            guarded.put(&bytes, turn);
            assert_eq!((guarded.lent(), guarded.count()), (bytes, count));
            let words = Lent::Words((0..count).map(|i| (i * 701 + turn) as u16).collect());
            guarded.put(&words, turn);
            assert_eq!(guarded.words() as usize % 2, 0);
            assert_eq!((guarded.lent(), guarded.count()), (words, count));
            assert!(guarded.canaries_stand());
        }
    }
}

/// Whether a change of one byte, counted from the buffer's start, is noticed.
fn noticed(turn: usize, place: isize) -> bool {
    let mut guarded = Guarded::new();
    guarded.put(&Lent::Bytes(vec![7; 100]), turn);
    // SAFETY: the byte is one of the guarded memory.
    unsafe {
        *guarded.bytes().offset(place) ^= 0x10;
    }
    !guarded.canaries_stand()
}

#[test]
fn every_changed_canary_is_noticed() {
    for place in 1..=64 {
        for turn in [2, 3, 6, 63] {
            assert!(noticed(turn, -place), "{place} before, turn {turn}");
            assert!(noticed(turn, 99 + place), "{place} behind, turn {turn}");
        }
        // right at the end, and right at the start of the memory
        assert!(noticed(0, -place));
        assert!(noticed(1, 99 + place));
    }
    assert!(!noticed(2, 0));
    assert!(!noticed(2, 99));
}

#[test]
fn harm_is_in_the_outcome() {
    let lent = vec![Lent::Bytes(vec![1; 9]), Lent::Bytes(vec![2; 9])];
    let call = Call::new(Name::WriteLine, &[1], lent);
    let mut guards = [Guarded::new(), Guarded::new()];
    for (guard, lent) in guards.iter_mut().zip(&call.lent) {
        guard.put(lent, 2);
    }
    assert_eq!(outcome(&call, vec![0, 0], &mut guards).harm, None);
    // SAFETY: a canary of the guarded memory.
    unsafe {
        *guards[1].bytes().add(9) += 1;
    }
    let harm = outcome(&call, vec![0, 0], &mut guards).harm;
    assert_eq!(harm.as_deref(), Some("a canary of out changed"));
}

/// Run by the test below, in a process of its own.
#[test]
#[ignore = "it ends its process"]
fn looks_outside() {
    let call = Call::new(Name::ScanMode, &[1], vec![Lent::Bytes(vec![7; 100])]);
    let mut guarded = Guarded::new();
    watch();
    making(&call);
    let behind = std::env::var("HARNESS_LOOKS").as_deref() == Ok("behind");
    let (turn, place) = if behind { (0, 100) } else { (1, -1) };
    guarded.put(&call.lent[0], turn);
    // SAFETY: none; the page before or behind may not be looked at.
    let seen = unsafe { guarded.bytes().offset(place).read_volatile() };
    panic!("it looked outside and saw {seen}");
}

#[test]
fn looking_outside_ends_the_run() {
    for place in ["before", "behind"] {
        let run = Command::new(std::env::current_exe().expect("this test"))
            .args(["looks_outside", "--exact", "--ignored", "--nocapture"])
            .env("HARNESS_LOOKS", place)
            .output()
            .expect("the test runs again");
        let words = String::from_utf8_lossy(&run.stderr);
        let said = "harness: hansobrik_scan_mode reached outside its buffers\n";
        assert!(words.contains(said), "{place}: {words}");
        assert_eq!(run.status.code(), Some(1));
    }
}
