//! A relay's frames, handed over in the order in which two lines brought them: every order gives one message.

use std::collections::VecDeque;
use ulm::{Header, Kind, Message, Refusal};

/// Numbers by chance, the same ones in each run.
struct Chance(u64);

impl Chance {
    fn below(&mut self, n: usize) -> usize {
        self.0 ^= self.0 << 13;
        self.0 ^= self.0 >> 7;
        self.0 ^= self.0 << 17;
        (self.0 % n as u64) as usize
    }
}

/// A message as it was written: its frames, each with a sequence number and a second number of its own, its body, and
/// the header of segment 1.
struct Relayed {
    frames: Vec<Vec<u8>>,
    body: Vec<u8>,
    header: Header,
}

/// A message of so many bytes, cut into its frames.
fn relayed(message_type: u8, length: usize) -> Relayed {
    let mut chance = Chance(12);
    let body: Vec<u8> = (0..length).map(|_| chance.below(256) as u8).collect();
    let message = Message { channel: 8, message_type, sequence: 100, date: 16_000, ms: 1_000, body: &body };
    let mut out = vec![0; length + 28 * 128];
    let written = ulm::write(&message, &mut out).unwrap();
    let whole = |frame: ulm::Frame<'_>| written[frame.start - 12..frame.next].to_vec();
    let mut frames: Vec<_> = ulm::frames(written).map(|frame| whole(frame.unwrap())).collect();
    for (i, frame) in frames.iter_mut().enumerate() {
        frame[7] = i as u8 + 1;
        frame[16..18].copy_from_slice(&(200 + i as u16).to_be_bytes());
    }
    let (segments, size) = (frames.len() as u16, frames[0].len() as u32 / 2 - 6);
    let header = Header { size, channel: 8, message_type, sequence: 200, date: 16_000, ms: 1_000, segments, number: 1 };
    Relayed { frames, body, header }
}

impl Relayed {
    /// The frames of these places, in this order.
    fn handed(&self, order: &[usize]) -> Vec<u8> {
        order.iter().map(|i| &self.frames[*i][..]).collect::<Vec<_>>().concat()
    }

    /// The frames in this order give the message, in an output of its length and in a longer one that held other bytes;
    /// what stood after the body stays.
    fn expect_message(&self, order: &[usize]) {
        for (held, more) in [(7, 0), (200, 5)] {
            let mut out = vec![held; self.body.len() + more];
            let set = ulm::set(&self.handed(order), &mut out).unwrap();
            assert_eq!(set.header, self.header, "{order:?}");
            assert!(set.body == self.body, "{order:?}: another body");
            assert_eq!(out[self.body.len()..], vec![held; more], "{order:?}");
        }
    }

    /// The frames in this order are refused, and an output with room for so many bytes stays as it was.
    fn expect_refusal(&self, order: &[usize], room: usize, refusal: Refusal) {
        let mut out = vec![7; room];
        let answer = ulm::set(&self.handed(order), &mut out).map(|set| set.header);
        assert_eq!(answer, Err(refusal), "{order:?}");
        assert!(out == vec![7; room], "{order:?}: refused, but the output changed");
    }

    /// The frames in this order give the message. They are refused as 13 where a byte of room is missing, and as 12 where
    /// a frame is, whatever the room.
    fn expect_all(&self, order: &[usize], missing: usize) {
        let length = self.body.len();
        self.expect_message(order);
        self.expect_refusal(order, length - 1, Refusal::OUTPUT_SMALL);
        let left: Vec<_> = order.iter().copied().filter(|i| *i != missing).collect();
        self.expect_refusal(&left, length, Refusal::ABSENT);
        self.expect_refusal(&left, 0, Refusal::ABSENT);
    }
}

/// Every order of the numbers below n.
fn orders(n: usize) -> Vec<Vec<usize>> {
    if n == 0 {
        return vec![vec![]];
    }
    let with_last = |order: &Vec<usize>, at: usize| [&order[..at], &[n - 1], &order[at..]].concat();
    orders(n - 1).iter().flat_map(|order| (0..n).map(move |at| with_last(order, at))).collect()
}

/// Every way in which two lines come together, each bringing its own in their order.
fn merges(a: &[usize], b: &[usize]) -> Vec<Vec<usize>> {
    let first = |taken: usize, rest: Vec<Vec<usize>>| rest.into_iter().map(move |rest| [vec![taken], rest].concat());
    match (a, b) {
        ([], _) | (_, []) => vec![[a, b].concat()],
        ([i, a_left @ ..], [k, b_left @ ..]) => {
            first(*i, merges(a_left, b)).chain(first(*k, merges(a, b_left))).collect()
        }
    }
}

/// The numbers below n as two lines bring them, which share them and come together by chance.
fn any_merge(n: usize, chance: &mut Chance) -> Vec<usize> {
    let mut lines = [VecDeque::new(), VecDeque::new()];
    (0..n).for_each(|i| lines[chance.below(2)].push_back(i));
    let mut come = vec![];
    while come.len() < n {
        come.extend(lines[chance.below(2)].pop_front());
    }
    come
}

/// The numbers below n in an order by chance.
fn any_order(n: usize, chance: &mut Chance) -> Vec<usize> {
    let mut order: Vec<_> = (0..n).collect();
    (1..n).for_each(|i| order.swap(i, chance.below(i + 1)));
    order
}

#[test]
fn every_order_of_a_small_set_gives_its_message() {
    let mut tried = 0;
    for n in 1..=5 {
        let message = relayed(2, 2400 * (n - 1) + 40);
        assert_eq!(message.frames.len(), n);
        for order in orders(n) {
            (0..n).for_each(|missing| message.expect_all(&order, missing));
            tried += 1;
        }
    }
    assert_eq!(tried, 1 + 2 + 6 + 24 + 120);
}

#[test]
fn every_order_is_another_one() {
    let mut all = orders(5);
    all.sort();
    all.dedup();
    assert_eq!(all.len(), 120);
}

#[test]
fn two_lines_bring_one_message_however_they_come_together() {
    let message = relayed(13, 2400 * 3 + 2);
    let mut tried = 0;
    for share in 0..16 {
        let (a, b): (Vec<_>, Vec<_>) = (0..4).partition(|i| share >> i & 1 == 0);
        for order in merges(&a, &b) {
            message.expect_message(&order);
            tried += 1;
        }
    }
    assert_eq!(tried, 70);
}

#[test]
fn a_frame_that_both_lines_bring_is_refused_as_already_seen() {
    let message = relayed(15, 2400 * 2 + 2);
    for order in orders(3) {
        for (twice, at) in (0..3).flat_map(|twice| (0..=3).map(move |at| (twice, at))) {
            let more = [&order[..at], &[twice], &order[at..]].concat();
            message.expect_refusal(&more, message.body.len(), Refusal::ALREADY_SEEN);
        }
    }
}

#[test]
fn a_set_of_128_in_orders_by_chance() {
    let message = relayed(18, 2400 * 128);
    let mut chance = Chance(128);
    assert_eq!((message.header.segments, message.header.sequence), (128, 200));
    for _ in 0..50 {
        for order in [any_order(128, &mut chance), any_merge(128, &mut chance)] {
            message.expect_all(&order, chance.below(128));
        }
    }
}

#[test]
fn the_empty_set_is_refused_as_absent() {
    for room in 0..3 {
        assert_eq!(ulm::set(&[], &mut vec![7; room]), Err(Refusal::ABSENT));
    }
}

#[test]
fn a_lone_segment_with_any_number_gives_its_message() {
    for message_type in [9, 31] {
        let mut message = relayed(message_type, 2);
        for number in [0, 1, 2, 7, 128, 129, 255, 256, 0x0101, 0x8000, u16::MAX] {
            message.frames[0][26..28].copy_from_slice(&number.to_be_bytes());
            message.expect_all(&[0], 0);
        }
    }
}

#[test]
fn a_long_radial_is_one_frame_and_takes_no_other_beside_it() {
    for length in [131_054, 1_048_560] {
        let mut message = relayed(31, length);
        assert_eq!((message.frames.len(), &message.frames[0][12..14]), (1, &[0xFF, 0xFF][..]));
        message.expect_all(&[0], 0);
        message.frames.extend(relayed(31, 100).frames);
        for order in [[0, 0], [0, 1], [1, 0]] {
            message.expect_refusal(&order, length, Refusal::ALREADY_SEEN);
        }
    }
}

#[test]
fn which_of_2_to_11_refuses_may_depend_on_the_order() {
    let mut message = relayed(2, 2402);
    let keep_alive = [[0, 0, 0, Kind::KeepAlive as u8], [0; 4], [0; 4]].concat();
    let mut of_another_channel = message.frames[1].clone();
    of_another_channel[14] ^= 1;
    message.frames.extend([keep_alive, of_another_channel]);
    message.expect_refusal(&[0, 2, 3], 2402, Refusal::NOT_DATA);
    message.expect_refusal(&[0, 3, 2], 2402, Refusal::DISAGREES);
    for order in orders(4) {
        let refusal = ulm::set(&message.handed(&order), &mut [7; 2402]).unwrap_err();
        assert!((2..=11).contains(&refusal.number()), "{order:?}: {refusal}");
    }
}
