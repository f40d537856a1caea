//! The values were computed apart from this program: the words of ChaCha20 for a key and a nonce of zeros, and over them
//! the shuffle and the draw from a range of the crate `rand`, 0.10. Those of datagrams were written by hand.

use crate::chacha::ChaCha;
use crate::choosers::{shuffle, Chooser};
use crate::wire::{Message, WireFault};

fn zeros() -> ChaCha {
    ChaCha::new(&[0; 32])
}

#[test]
fn the_first_words_of_zeros() {
    let mut words = zeros();
    // 76 b8 e0 ad a0 f1 3d 90, as the test vectors of the cipher begin.
    assert_eq!([words.word(), words.word()], [0xade0_b876, 0x903d_f1a0]);
}

#[test]
fn shuffles_and_places_of_one_stream() {
    let mut words = zeros();
    for expected in [[4, 3, 2, 1, 5], [3, 1, 2, 4, 5]] {
        let mut ids = [1, 2, 3, 4, 5];
        shuffle(&mut words, &mut ids);
        assert_eq!(ids, expected);
    }
    let mut chooser = Chooser::Seeded(words);
    for expected in [1, 7, 1, 8] {
        assert_eq!(chooser.place(9), expected);
    }
}

#[test]
fn a_shuffle_of_twenty() {
    let mut ids: Vec<u32> = (1..=20).collect();
    shuffle(&mut zeros(), &mut ids);
    let expected = [
        18, 11, 2, 16, 5, 9, 10, 7, 17, 4, 14, 13, 15, 3, 20, 1, 12, 19, 8, 6,
    ];
    assert_eq!(ids, expected);
}

#[test]
fn places_of_one_stream() {
    let mut chooser = Chooser::Seeded(zeros());
    let last_places = [
        (0, 0),
        (1, 1),
        (5, 5),
        (127, 20),
        (128, 92),
        (u32::MAX, 451_775_904),
    ];
    for (last, expected) in last_places {
        assert_eq!(chooser.place(last), expected);
    }
}

/// A ping, a ping-req and an ack of each version. Those of version 2 that have no address are written as in version 1.
const DATAGRAMS: [&str; 6] = [
    "535701010000000100000001000000020000000000000001",
    "535701020000000200000002000000090000000000000009",
    "53570103ffffffffffffffffffffffffffffffffffffffff",
    "535702010000000100000001000000020000000000000001",
    "5357020200000002000000020000000900000000000000090a0000091b58",
    "53570203ffffffffffffffffffffffffffffffffffffffff",
];

#[test]
fn a_datagram_is_written_as_it_was_read() {
    for text in DATAGRAMS {
        let (bytes, length) = Message::of_digits(text.as_bytes()).unwrap().datagram();
        let written: String = bytes[..length]
            .iter()
            .map(|it| format!("{it:02x}"))
            .collect();
        assert_eq!(written, text);
    }
}

#[test]
fn the_address_of_a_request() {
    let at = |text: &str| Message::of_digits(text.as_bytes()).unwrap().at;
    let found = DATAGRAMS
        .map(at)
        .map(|at| at.map(|peer| (peer.ip, peer.port)));
    assert_eq!(
        found,
        [None, None, None, None, Some(([10, 0, 0, 9], 7000)), None]
    );
}

/// Bytes with ever fewer faults, each of which is told before those that are left.
#[test]
fn the_first_fault_is_told() {
    let faulty = [
        (
            "000000000000000000000000000000000000000000000000000000",
            WireFault::Length,
        ),
        (
            "000000000000000000000000000000000000000000000000000000000000",
            WireFault::Magic,
        ),
        (
            "535703000000000000000000000000000000000000000000000000000000",
            WireFault::Version,
        ),
        (
            "535702000000000000000000000000000000000000000000000000000000",
            WireFault::UnknownKind,
        ),
        (
            "535701020000000000000000000000000000000000000000000000000000",
            WireFault::Form,
        ),
        (
            "535702010000000000000000000000000000000000000000000000000000",
            WireFault::Form,
        ),
        (
            "535702020000000000000000000000000000000000000000",
            WireFault::Form,
        ),
        (
            "535702020000000000000000000000000000000000000000000000000000",
            WireFault::ZeroId,
        ),
        (
            "535702020000000100000001000000020000000000000000000000000000",
            WireFault::ZeroNumber,
        ),
        (
            "535702020000000100000001000000020000000000000001000000000000",
            WireFault::ZeroPort,
        ),
    ];
    for (text, fault) in faulty {
        assert_eq!(Message::of_digits(text.as_bytes()), Err(fault));
    }
}
