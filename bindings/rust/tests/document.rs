//! The worked cases of the rules, radials in both forms of a header, recordings salvaged, two maps compared, and what the wrapper adds: parts with
//! lifetimes, refusals with words.

use ulm::{Block, Gate, Kind, Message, Name, Refusal};

const CASE_3: [u8; 30] = [
    0, 0, 0, 2, 0, 0, 0, 0, 0, 0, 0, 0x12, // the session frame
    0, 9, 0, 9, 0, 5, 0x3E, 0x80, 0, 0, 3, 0xE8, 0, 1, 0, 1, // the message header
    0, 0x81,
];

fn request() -> Message<'static> {
    Message { channel: 0, message_type: 9, sequence: 5, date: 16_000, ms: 1_000, body: &[0, 129] }
}

/// A body of zeros written as one message of type 2.
fn written(length: usize) -> Vec<u8> {
    let body = vec![0; length];
    let mut out = vec![0; length + 28 * 128];
    let message = Message { message_type: 2, body: &body, ..request() };
    ulm::write(&message, &mut out).unwrap().to_vec()
}

fn with(bytes: &[u8], at: usize, value: u8) -> Vec<u8> {
    let mut changed = bytes.to_vec();
    changed[at] = value;
    changed
}

/// Blocks at 68, 112, 124 and the moments at the places given, 8-bit gates with scale 2 and offset 66.
fn radial(length: u16, moments: &[(usize, &Name, &[u8])]) -> Vec<u8> {
    let mut body = vec![0; 300];
    body[..4].copy_from_slice(b"KTLX");
    body[18..20].copy_from_slice(&length.to_be_bytes());
    body[31] = 3 + moments.len() as u8;
    let constants: [(usize, &Name, u8); 3] = [(68, b"RVOL", 44), (112, b"RELV", 12), (124, b"RRAD", 20)];
    for (i, (at, name, size)) in constants.into_iter().enumerate() {
        body[35 + 4 * i] = at as u8;
        body[at..at + 4].copy_from_slice(name);
        body[at + 5] = size;
    }
    for (i, (at, name, gates)) in moments.iter().enumerate() {
        body[46 + 4 * i..48 + 4 * i].copy_from_slice(&(*at as u16).to_be_bytes());
        body[*at..at + 4].copy_from_slice(*name);
        body[at + 9] = gates.len() as u8;
        body[at + 19] = 8;
        body[at + 20..at + 24].copy_from_slice(&2f32.to_be_bytes());
        body[at + 24..at + 28].copy_from_slice(&66f32.to_be_bytes());
        body[at + 28..at + 28 + gates.len()].copy_from_slice(gates);
    }
    body
}

/// A map of so many elevation segments: in each the zones given for azimuth 0, one zone of code 1 for the others.
fn map(elevations: u16, zones: &[(u16, u16)]) -> Vec<u8> {
    let mut segment = vec![zones.len() as u16];
    segment.extend(zones.iter().flat_map(|(code, end)| [*code, *end]));
    segment.extend([1, 1, 511].repeat(359));
    let numbers = [vec![1, 0, elevations], segment.repeat(elevations as usize)].concat();
    numbers.into_iter().flat_map(u16::to_be_bytes).collect()
}

/// What differs between two maps: elevation segment, first and last kilometre, old and new code, all at azimuth 0.
fn differences(old: &[u8], new: &[u8]) -> Vec<(u16, u16, u16, u16, u16)> {
    let mut out = vec![7; ulm::COMPARISON_ROOM];
    let comparison = ulm::compare_maps(old, new, &mut out).unwrap();
    assert!(comparison.differences().all(|d| d.azimuth == 0));
    comparison.differences().map(|d| (d.elevation, d.first, d.last, d.old, d.new)).collect()
}

const KEEP_ALIVE: [u8; 12] = [0, 0, 0, 4, 0, 0, 0, 0, 0, 0, 0, 0];

/// What is kept of a recording, and place and length of each run.
fn salvage(recording: &[u8]) -> (Vec<u8>, Vec<(usize, usize)>) {
    let (mut out, mut runs) = (vec![7; recording.len()], vec![7; ulm::runs_room(recording.len())]);
    let salvaged = ulm::salvage(recording, &mut out, &mut runs).unwrap();
    assert_eq!(salvaged.kept, ulm::frames(salvaged.frames).map(Result::unwrap).count());
    (salvaged.frames.to_vec(), salvaged.runs().map(|run| (run.place, run.length)).collect())
}

#[test]
fn cases_1_and_2_short_buffers() {
    assert_eq!(ulm::frame(&[], 0), Ok(None));
    assert_eq!(ulm::set(&[], &mut []), Err(Refusal::ABSENT));
    assert_eq!(ulm::frame(&[0; 11], 0), Err(Refusal::FRAME_CUT_OFF));
    assert_eq!(ulm::set(&[0; 11], &mut []), Err(Refusal::FRAME_CUT_OFF));
}

#[test]
fn case_3_a_request() {
    let mut out = [7; 40];
    assert_eq!(ulm::write(&request(), &mut out), Ok(&CASE_3[..]));
    assert_eq!(out[30..], [7; 10]);
    let frame = ulm::frame(&CASE_3, 0).unwrap().unwrap();
    assert_eq!((frame.kind, frame.second, frame.start, frame.next), (Kind::Data, 0, 12, 30));
    assert_eq!(frame.body.as_ptr(), CASE_3[12..].as_ptr());
    let header = ulm::header(frame.body).unwrap();
    assert_eq!((header.size, header.message_type, header.segments, header.number), (9, 9, 1, 1));
    let mut body = [7; 4];
    let set = ulm::set(&CASE_3, &mut body).unwrap();
    assert_eq!((set.header, set.body), (header, &[0, 129][..]));
    assert_eq!(body, [0, 129, 7, 7]);
    assert_eq!(ulm::request(&[0, 129]), Ok(129));
}

#[test]
fn the_headers_size_is_the_least_that_is_read() {
    let message = &CASE_3[12..];
    assert_eq!(ulm::header(&message[..ulm::HEADER_SIZE - 1]), Err(Refusal::MESSAGE_SHORT));
    assert_eq!(ulm::header(&message[..ulm::HEADER_SIZE]), Err(Refusal::SIZE));
    assert_eq!(&message[ulm::HEADER_SIZE..], request().body);
}

#[test]
fn cases_4_and_5_headers() {
    assert_eq!(ulm::header(&with(&CASE_3, 13, 8)[12..]), Err(Refusal::SIZE));
    let case_3 = ulm::header(&CASE_3[12..]);
    for number in [0, 7, 255] {
        let case_5 = with(&CASE_3, 27, number);
        assert_eq!(ulm::header(&case_5[12..]), case_3);
        let mut body = [7; 4];
        let set = ulm::set(&case_5, &mut body).unwrap();
        assert_eq!((Ok(set.header), set.body), (case_3, &[0, 129][..]));
    }
    let of_two = with(&CASE_3, 25, 2);
    assert_eq!(ulm::header(&with(&of_two, 27, 0)[12..]), Err(Refusal::SEGMENT));
    assert_eq!(ulm::header(&with(&of_two, 27, 3)[12..]), Err(Refusal::SEGMENT));
}

#[test]
fn case_6_segments() {
    let sizes = |length| -> Vec<u32> {
        ulm::frames(&written(length)).map(|frame| ulm::header(frame.unwrap().body).unwrap().size).collect()
    };
    assert_eq!(sizes(2400), [1208]);
    assert_eq!(sizes(2402), [1208, 9]);
    assert_eq!(sizes(0), [8]);
}

#[test]
fn cases_7_and_8_sets() {
    let frames = written(2402);
    let (one, two) = frames.split_at(2428);
    let mut out = vec![0; 2402];
    let set = ulm::set(&[two, one].concat(), &mut out).unwrap();
    assert_eq!((set.header.size, set.header.number, set.body.len()), (1208, 1, 2402));
    assert_eq!(ulm::set(&[two, two].concat(), &mut out), Err(Refusal::ALREADY_SEEN));
    assert_eq!(ulm::set(two, &mut out), Err(Refusal::ABSENT));
    let mut small = vec![9; 2401];
    assert_eq!(ulm::set(&frames, &mut small), Err(Refusal::OUTPUT_SMALL));
    assert_eq!(small, vec![9; 2401]);
}

#[test]
fn recordings_salvaged() {
    let twice = CASE_3.repeat(2);
    assert_eq!(salvage(&[]), (vec![], vec![]));
    assert_eq!(salvage(&[1, 2, 3]), (vec![], vec![(0, 3)]));
    assert_eq!(salvage(&twice), (twice.clone(), vec![]));
    // Bytes inserted before, between and after; a keep alive is skipped, and runs that touch are one.
    assert_eq!(salvage(&[&[0, 0], &twice[..], &[0]].concat()), (twice.clone(), vec![(0, 2), (62, 1)]));
    assert_eq!(salvage(&[&CASE_3[..], &KEEP_ALIVE, &CASE_3].concat()), (twice.clone(), vec![(30, 12)]));
    let altered = with(&CASE_3, 13, 8);
    assert_eq!(salvage(&[&CASE_3[..], &altered, &KEEP_ALIVE, &CASE_3].concat()), (twice, vec![(30, 42)]));
    // Cut at either end.
    assert_eq!(salvage(&CASE_3[..29]), (vec![], vec![(0, 29)]));
    assert_eq!(salvage(&[&CASE_3[1..], &CASE_3].concat()), (CASE_3.to_vec(), vec![(0, 29)]));
}

#[test]
fn a_frame_inside_another_is_found_where_the_outer_one_is_not_kept() {
    let message = Message { message_type: 31, body: &[&CASE_3[..], &[0; 6]].concat(), ..request() };
    let mut out = [0; 64];
    let outer = ulm::write(&message, &mut out).unwrap().to_vec();
    assert_eq!(salvage(&outer), (outer.clone(), vec![]));
    assert_eq!(salvage(&with(&outer, 3, 4)), (CASE_3.to_vec(), vec![(0, 28), (58, 6)]));
    // Of a lone segment any number is kept as it is.
    let lone = with(&outer, 27, 200);
    assert_eq!(salvage(&lone), (lone, vec![]));
}

#[test]
fn salvages_fill_their_outputs_or_refuse() {
    let recording = [&[9][..], &CASE_3, &[9, 9], &CASE_3].concat();
    let (mut out, mut runs) = ([7; 62], [7; 6]);
    let salvaged = ulm::salvage(&recording, &mut out, &mut runs).unwrap();
    assert_eq!((salvaged.kept, salvaged.frames.len(), salvaged.runs().len()), (2, 60, 2));
    assert_eq!(salvaged.numbers, [0, 1, 31, 2]);
    assert_eq!((&out[60..], &runs[4..]), (&[7; 2][..], &[7; 2][..]));
    let (mut out, mut runs) = ([7; 60], [7; 4]);
    assert_eq!(ulm::salvage(&recording, &mut out[..59], &mut runs), Err(Refusal::OUTPUT_SMALL));
    assert_eq!(ulm::salvage(&recording, &mut out, &mut runs[..3]), Err(Refusal::OUTPUT_SMALL));
    assert_eq!((out, runs), ([7; 60], [7; 4]));
    assert!(ulm::salvage(&recording, &mut out, &mut runs).is_ok());
    assert_eq!(ulm::salvage(&[], &mut [], &mut []).unwrap().kept, 0);
}

#[test]
fn as_many_runs_as_there_can_be() {
    let frame = written(0);
    for frames in 0..4 {
        let recording = [[&[9][..], &frame].concat().repeat(frames), vec![9]].concat();
        assert_eq!(2 * salvage(&recording).1.len(), ulm::runs_room(recording.len()));
    }
}

/// A body by its last byte, written as a radial, the rest of it zeros.
fn radial_of(length: usize) -> Result<Vec<u8>, Refusal> {
    let body = with(&vec![0; length], length - 1, 9);
    let mut out = vec![7; length + 28];
    ulm::write(&Message { message_type: 31, body: &body, ..request() }, &mut out).map(<[u8]>::to_vec)
}

/// The size, and the segment fields as one number, as they stand in a frame.
fn stored(frame: &[u8]) -> (u16, u32) {
    let fields = frame[24..28].try_into().unwrap();
    (u16::from_be_bytes([frame[12], frame[13]]), u32::from_be_bytes(fields))
}

#[test]
fn radials_in_both_forms_come_back() {
    let short = |length: usize| ((length / 2 + 8) as u16, 0x1_0001);
    let long = |length: usize| (0xFFFF, length as u32 + 16);
    let lengths = [(2, short(2)), (131_052, short(131_052)), (131_054, long(131_054)), (1_048_560, long(1_048_560))];
    for (length, fields) in lengths {
        let frame = radial_of(length).unwrap();
        assert_eq!((frame.len(), stored(&frame)), (length + 28, fields));
        let read = ulm::frame(&frame, 0).unwrap().unwrap();
        assert_eq!((read.body.len(), read.next), (length + 16, frame.len()));
        let header = ulm::header(read.body).unwrap();
        assert_eq!((header.size as usize, header.segments, header.number), (length / 2 + 8, 1, 1));
        let mut out = vec![7; length];
        assert_eq!(ulm::set(&frame, &mut out[1..]), Err(Refusal::OUTPUT_SMALL));
        let set = ulm::set(&frame, &mut out).unwrap();
        assert_eq!((set.header, set.body), (header, &frame[28..]));
        assert_eq!(salvage(&frame), (frame, vec![]));
    }
    assert_eq!(radial_of(1_048_562), Err(Refusal::LONG_BODY));
}

#[test]
fn long_radials_refused() {
    let frame = radial_of(131_054).unwrap();
    let refused = |at, value| ulm::header(&with(&frame, at, value)[12..]).unwrap_err();
    // The length, odd and with other high bytes; the type, another one that is permitted and one that is not.
    assert_eq!((refused(27, 0xFD), refused(24, 1), refused(25, 2)), (Refusal::SIZE, Refusal::SIZE, Refusal::SIZE));
    assert_eq!((refused(15, 2), refused(15, 14)), (Refusal::SEGMENT, Refusal::TYPE));
    assert_eq!(ulm::header(&frame[12..131_080]), Err(Refusal::SIZE));
    assert_eq!(ulm::set(&frame.repeat(2), &mut vec![7; 300_000]), Err(Refusal::ALREADY_SEEN));
    // A frame's limit comes before its end.
    let head = |size: u32| [&[0, 0, 0, 2, 0, 0, 0, 0], &size.to_be_bytes()[..]].concat();
    assert_eq!(ulm::frame(&head(1_048_576), 0), Err(Refusal::FRAME_CUT_OFF));
    assert_eq!(ulm::frame(&head(1_048_577), 0), Err(Refusal::SESSION_BODY));
}

#[test]
fn cases_9_to_11_radials() {
    let accepted = radial(172, &[(144, b"DREF", &[])]);
    let answer = ulm::radial(&accepted).unwrap();
    assert_eq!((answer.station, answer.radial_length, answer.blocks), (*b"KTLX", 172, 4));
    assert_eq!(ulm::radial(&radial(171, &[(144, b"DREF", &[])])), Err(Refusal::POINTER));
    assert_eq!(ulm::radial(&radial(172, &[(143, b"DREF", &[])])), Err(Refusal::POINTER));
    assert!(ulm::radial(&radial(173, &[(145, b"DREF", &[])])).is_ok());
    assert_eq!(ulm::radial(&radial(200, &[(144, b"DREF", &[]), (172, b"DREF", &[])])), Err(Refusal::NAME));
}

#[test]
fn blocks_are_parts_of_the_body() {
    let body = radial(175, &[(144, b"DREF", &[66, 255, 0])]);
    let Ok(Some(Block::Constant(elv))) = ulm::block(&body, 2) else { panic!("block 2") };
    assert_eq!((elv.name, elv.start, elv.bytes.as_ptr()), (ulm::RELV, 112, body[112..].as_ptr()));
    assert_eq!(elv.bytes.len(), 12);
    let Ok(Some(Block::Moment(moment))) = ulm::block(&body, 4) else { panic!("block 4") };
    assert_eq!((moment.name, moment.gates, moment.word, moment.bytes.len()), (ulm::DREF, 3, 8, 31));
    assert_eq!(ulm::block(&body, 0), Ok(None));
    assert_eq!(ulm::block(&body, 5), Ok(None));
    assert_eq!(ulm::block(&body[..67], 5), Err(Refusal::RADIAL_SHORT));
}

#[test]
fn case_12_gates() {
    let body = radial(176, &[(144, b"DREF", &[66, 255, 0, 1])]);
    let gates = ulm::gates(&body, ulm::DREF).unwrap();
    assert_eq!((gates.count, gates.word, gates.start), (4, 8, 172));
    assert_eq!(gates.bytes.as_ptr(), body[172..].as_ptr());
    assert_eq!(gates.codes().collect::<Vec<_>>(), [66, 255, 0, 1]);
    let values = [Gate::Value(0.0), Gate::Value(94.5), Gate::BelowThreshold, Gate::RangeFolded];
    assert_eq!(gates.values().collect::<Result<Vec<_>, _>>().unwrap(), values);
    for (i, value) in values.into_iter().enumerate() {
        assert_eq!(ulm::gate(&body, ulm::DREF, i as u64), Ok(value));
    }
    assert_eq!(ulm::gate(&body, ulm::DREF, 4), Err(Refusal::ASKED_FOR));
    assert_eq!(ulm::gates(&body, ulm::DVEL), Err(Refusal::ASKED_FOR));
    assert_eq!(ulm::value(2, f32::NAN.to_bits(), 0), Err(Refusal::SCALE_OR_OFFSET));
}

#[test]
fn gates_of_16_bits() {
    let mut body = radial(176, &[(144, b"DPHI", &[1, 2, 3, 4])]);
    body[144 + 9] = 2;
    body[144 + 19] = 16;
    assert_eq!(ulm::gates(&body, ulm::DPHI).unwrap().codes().collect::<Vec<_>>(), [0x0102, 0x0304]);
}

#[test]
fn the_part_lives_as_long_as_the_body() {
    fn first(body: &[u8]) -> &[u8] {
        ulm::gates(body, ulm::DREF).unwrap().bytes
    }
    let body = radial(174, &[(144, b"DREF", &[5, 6])]);
    assert_eq!(first(&body), [5, 6]);
}

#[test]
fn cases_13_and_14_maps() {
    let accepted = map(1, &[(0, 100), (2, 511)]);
    let head = ulm::map(&accepted).unwrap();
    assert_eq!((head.date, head.minutes, head.elevations), (1, 0, 1));
    assert_eq!(ulm::map_code(&accepted, 1, 0, 100), Ok(0));
    assert_eq!(ulm::map_code(&accepted, 1, 0, 101), Ok(2));
    assert_eq!(ulm::map_code(&accepted, 2, 0, 0), Err(Refusal::ASKED_FOR));
    assert_eq!(ulm::map_code(&accepted, 1, 360, 0), Err(Refusal::ASKED_FOR));
    assert_eq!(ulm::map_code(&accepted, 1, 0, u64::MAX), Err(Refusal::ASKED_FOR));
    assert_eq!(ulm::map(&map(1, &[(0, 100), (1, 100), (2, 511)])), Err(Refusal::FIELD));
    assert_eq!(ulm::map(&map(1, &[(0, 100)])), Err(Refusal::FIELD));
    assert_eq!(ulm::map(&accepted[..accepted.len() - 1]), Err(Refusal::LENGTH));
}

#[test]
fn what_differs_between_two_maps() {
    let old = map(1, &[(0, 100), (2, 511)]);
    assert_eq!(differences(&old, &old), []);
    let (another_date, another_time) = (with(&old, 1, 9), with(&old, 3, 9));
    assert_eq!((differences(&old, &another_date), differences(&old, &another_time)), (vec![], vec![]));
    assert_eq!(differences(&old, &map(1, &[(0, 100), (2, 510), (1, 511)])), [(1, 511, 511, 2, 1)]);
    assert_eq!(differences(&old, &map(1, &[(0, 99), (2, 511)])), [(1, 100, 100, 0, 2)]);
    // An end at which neither code changes is no end of a run, in either map or in both.
    let (whole, cut) = (map(1, &[(1, 511)]), map(1, &[(2, 50), (2, 100), (2, 511)]));
    assert_eq!(differences(&whole, &cut), [(1, 0, 511, 1, 2)]);
    assert_eq!(differences(&cut, &whole), [(1, 0, 511, 2, 1)]);
    assert_eq!(differences(&map(1, &[(1, 100), (1, 511)]), &cut), [(1, 0, 511, 1, 2)]);
    assert_eq!(differences(&old, &whole), [(1, 0, 100, 0, 1), (1, 101, 511, 2, 1)]);
}

#[test]
fn maps_of_one_and_of_five_elevation_segments() {
    let (one, five) = (map(1, &[(0, 511)]), map(5, &[(2, 511)]));
    let mut out = [7; 8];
    let comparison = ulm::compare_maps(&one, &five, &mut out).unwrap();
    assert_eq!((comparison.old_elevations, comparison.new_elevations), (1, 5));
    assert_eq!(comparison.numbers, [1, 0, 0, 511, 0, 2]);
    assert_eq!(comparison.differences().len(), 1);
    assert_eq!(out[6..], [7; 2]);
    assert_eq!(differences(&five, &one), [(1, 0, 511, 2, 0)]);
    let segments: Vec<_> = (1..=5).map(|elevation| (elevation, 0, 511, 2, 1)).collect();
    assert_eq!(differences(&five, &map(5, &[(1, 511)])), segments);
    let neither = ulm::compare_maps(&five, &five, &mut []).unwrap();
    assert_eq!((neither.old_elevations, neither.new_elevations, neither.numbers), (5, 5, &[][..]));
}

#[test]
fn comparisons_refused() {
    let (old, new) = (map(1, &[(0, 511)]), map(1, &[(0, 100), (1, 511)]));
    let mut out = [7; 5];
    assert_eq!(ulm::compare_maps(&old, &new, &mut out), Err(Refusal::OUTPUT_SMALL));
    assert_eq!(out, [7; 5]);
    assert_eq!(ulm::compare_maps(&old, &new, &mut [7; 6]).unwrap().numbers, [1, 0, 101, 511, 0, 1]);
    let (short, wrong) = (&old[..old.len() - 1], map(1, &[(3, 511)]));
    assert_eq!(ulm::compare_maps(short, &wrong, &mut out), Err(Refusal::LENGTH));
    assert_eq!(ulm::compare_maps(&wrong, short, &mut out), Err(Refusal::FIELD));
    assert_eq!(ulm::compare_maps(&old, short, &mut out), Err(Refusal::LENGTH));
    assert_eq!(out, [7; 5]);
}

#[test]
fn censor_zones_and_requests() {
    let list = [2, 511, 0, 360, 0, 5, 2, 10, 20, 30, 40, 1, 0];
    let mut out = [9; 30];
    let body = ulm::write_censor(&list, &mut out).unwrap();
    assert_eq!(body.len(), 26);
    let censor = ulm::censor(body).unwrap();
    assert_eq!(censor.regions().len(), 2);
    assert_eq!(censor.regions().map(|r| (r.start_range, r.code)).collect::<Vec<_>>(), [(511, 2), (10, 0)]);
    assert_eq!(censor.numbers()[..12], list[1..]);
    assert_eq!(censor.numbers()[12..], [0; 138]);
    assert_eq!(ulm::write_censor(&[], &mut []), Err(Refusal::LENGTH));
    assert_eq!(ulm::write_censor(&[26], &mut []), Err(Refusal::FIELD));
    assert_eq!(ulm::write_request(&[144], &mut [0; 2]), Ok(&[0, 144][..]));
    assert_eq!(ulm::write_request(&[144], &mut [0; 1]), Err(Refusal::OUTPUT_SMALL));
    assert_eq!(ulm::request(&[0, 145]), Err(Refusal::FIELD));
}

#[test]
fn a_walk_ends_with_its_refusal() {
    let mut recording = CASE_3.repeat(2);
    recording.extend([0; 3]);
    let read: Vec<_> = ulm::frames(&recording).collect();
    assert_eq!(read.len(), 3);
    assert!(read[0].is_ok() && read[1].is_ok());
    assert_eq!(read[2], Err(Refusal::FRAME_CUT_OFF));
}

#[test]
fn refusals_have_numbers_and_words() {
    let numbers: Vec<_> = Refusal::ALL.iter().map(|refusal| refusal.number()).collect();
    assert_eq!(numbers, (1..=26).collect::<Vec<_>>());
    assert_eq!(Refusal::POINTER.number(), 18);
    assert_eq!(Refusal::MESSAGE_SHORT.to_string(), "refusal 4: message under 16 bytes");
    assert!(Refusal::ALL.iter().all(|refusal| refusal.words() != "a number that this crate doesn't know"));
}
