//! The sample recording, against totals that were computed apart (examples/README.md), and damaged.

use std::fs;
use ulm::{Gate, Kind, Name};

const EXAMPLES: &str = concat!(env!("CARGO_MANIFEST_DIR"), "/../../examples");

/// The totals of a moment over a recording, as the loader writes them.
fn totals(recording: &[u8], word: &str, name: Name) -> String {
    let (mut frames, mut radials, mut gates, mut below, mut folded) = (0, 0, 0, 0, 0);
    let (mut codes, mut values) = (0, 0.0);
    for frame in ulm::frames(recording).map(Result::unwrap) {
        frames += 1;
        assert_eq!(frame.kind, Kind::Data);
        assert_eq!(ulm::header(frame.body).unwrap().message_type, 31);
        radials += 1;
        let found = ulm::gates(&frame.body[ulm::HEADER_SIZE..], name).unwrap();
        for (code, value) in found.codes().zip(found.values()) {
            gates += 1;
            codes += u64::from(code);
            match value.unwrap() {
                Gate::Value(value) => values += f64::from(value),
                Gate::BelowThreshold => below += 1,
                Gate::RangeFolded => folded += 1,
            }
        }
    }
    format!(
        "{word}: {frames} frames, {radials} radials, 0 without, 0 refused\n\
         {word}: {gates} gates, {below} below threshold, {folded} range folded\n\
         {word}: codes sum to {codes}, values to {values:.6}\n"
    )
}

/// Size of each frame of the sample, in bytes.
const FRAME: usize = 2608;

fn sample() -> Vec<u8> {
    let recording = fs::read(format!("{EXAMPLES}/sample.rec")).unwrap();
    assert!(ulm::frames(&recording).enumerate().all(|(i, frame)| frame.unwrap().next == FRAME * (i + 1)));
    recording
}

#[test]
fn the_sample_is_salvaged() {
    let whole = sample();
    let (mut out, mut runs) = (vec![0; whole.len()], vec![0; ulm::runs_room(whole.len())]);
    let salvaged = ulm::salvage(&whole, &mut out, &mut runs).unwrap();
    assert_eq!((salvaged.kept, salvaged.frames, salvaged.numbers), (360, &whole[..], &[][..]));
    // Frame 1 lost ten bytes and so takes those of frame 2, which is lost; frame 7 is altered, the last one is cut off.
    let mut damaged = whole.clone();
    damaged.drain(FRAME + 2000..FRAME + 2010);
    damaged[7 * FRAME - 10] = 1;
    damaged.truncate(360 * FRAME - 20);
    let salvaged = ulm::salvage(&damaged, &mut out, &mut runs).unwrap();
    let kept = [&damaged[..2 * FRAME], &whole[3 * FRAME..7 * FRAME], &whole[8 * FRAME..359 * FRAME]].concat();
    assert_eq!((salvaged.kept, salvaged.frames), (357, &kept[..]));
    let run = |place: usize, length: usize| [place as u64, length as u64];
    let runs = [run(2 * FRAME, FRAME - 10), run(7 * FRAME - 10, FRAME), run(359 * FRAME - 10, FRAME - 10)];
    assert_eq!(salvaged.numbers, runs.concat());
}

#[test]
fn the_sample_has_its_totals() {
    let recording = sample();
    let moments = [
        ("REF", ulm::DREF),
        ("VEL", ulm::DVEL),
        ("SW", ulm::DSW),
        ("ZDR", ulm::DZDR),
        ("PHI", ulm::DPHI),
        ("RHO", ulm::DRHO),
    ];
    let found: String = moments.iter().map(|(word, name)| totals(&recording, word, *name)).collect();
    assert_eq!(found, fs::read_to_string(format!("{EXAMPLES}/sample.totals")).unwrap());
}
