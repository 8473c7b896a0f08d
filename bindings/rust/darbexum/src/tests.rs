//! Tests of an engine on the stream of examples/first, and on two streams.
use crate::{Engine, Missing, Outcome};

const CONFIG: &str = "open_at = 0\n[[stream]]\nencoding = \"L24\"\nchannels = 1\nframes = 6\npt = 96\nclock = \"media\"\nlatency = 12\nwindow = 8\n\
    [output]\nencoding = \"L24\"\nchannels = 1\nframes = 6\npt = 97\nssrc = 2\nseq = 0\nstart = 0\ngains = [[65536]]\n";
const PACKET: [u8; 30] = [0x80, 96, 0, 1, 0, 0, 0, 0, 0, 0, 0, 1, 0, 0, 1, 0, 0, 2, 0, 0, 3, 0, 0, 4, 0, 0, 5, 0, 0, 6];

/// A stream of one channel of L24 and one of two channels of L16, in blocks of 6 frames.
const TWO_STREAMS: &str = "open_at = 0\n\
    [[stream]]\nencoding = \"L24\"\nchannels = 1\nframes = 6\npt = 96\nclock = \"media\"\nlatency = 12\nwindow = 8\n\
    [[stream]]\nencoding = \"L16\"\nchannels = 2\nframes = 6\npt = 96\nclock = \"media\"\nlatency = 12\nwindow = 8\n\
    [output]\nencoding = \"L24\"\nchannels = 1\nframes = 6\npt = 97\nssrc = 2\nseq = 0\nstart = 0\n\
    gains = [[65536, 65536, 65536]]\n";

/// Returns the packet of a block, with these samples of so many octets.
fn packet(number: u8, samples: &[i32], octets: usize) -> Vec<u8> {
    let head = [0x80, 96, 0, number, 0, 0, 0, 6 * number, 0, 0, 0, 1];
    let payload = samples.iter().flat_map(|sample| sample.to_be_bytes()[4 - octets..].to_vec());
    head.into_iter().chain(payload).collect()
}

/// The samples of the two streams in a block, each another one.
const FIRST: [i32; 6] = [-1, -2, -3, -4, -5, -6];
const SECOND: [i32; 12] = [11, -21, 12, -22, 13, -23, 14, -24, 15, -25, 16, -26];

/// Returns the inputs of a block, frame by frame. The samples of the second stream are multiplied by this factor: 256,
/// since they are L16, or 0 without its packet.
fn inputs(factor: i32) -> Vec<i32> {
    (0..6).flat_map(|at| [FIRST[at], factor * SECOND[2 * at], factor * SECOND[2 * at + 1]]).collect()
}

#[test]
fn a_packet_goes_through_an_engine() {
    let mut engine = Engine::new(CONFIG).unwrap();
    assert_eq!((engine.time(), engine.streams()), (0, 1));
    assert_eq!(engine.arrive(0, 0, &PACKET), Ok(Outcome::Taken));
    // An engine may go to another thread.
    let mut engine = std::thread::spawn(move || {
        assert_eq!(engine.arrive(0, 1, &PACKET), Ok(Outcome::Double));
        engine
    })
    .join()
    .unwrap();
    assert_eq!(engine.next_deadline(), Some(12));
    let mut turn = engine.turn(12);
    assert_eq!(turn.next().unwrap().map(|datagram| datagram[12..].to_vec()), Some(PACKET[12..].to_vec()));
    assert_eq!(turn.next(), Ok(None));
    assert_eq!(engine.close().unwrap().next(), Ok(None));
    assert!(engine.settled());
    let counts = engine.counts(0).unwrap();
    assert_eq!((counts.arrived, counts.taken, counts.double, counts.taken_by), (2, 1, 1, [1, 0, 0, 0]));
    assert_eq!(engine.path_counts(0, 1).unwrap().sent, 1);
    let stream = engine.stream(0).unwrap();
    assert_eq!((stream.paths, stream.latency, stream.window, stream.clock), (2, 12, 8, 0));
    assert_eq!(engine.output().datagram_octets, 30);
    assert_eq!(engine.saturated(0), Ok(0));
}

#[test]
fn gains_move_from_their_time_on() {
    let mut engine = Engine::new(CONFIG).unwrap();
    assert_eq!(engine.arrive(0, 0, &PACKET), Ok(Outcome::Taken));
    assert_eq!(engine.next_block_start(), 0);
    assert_eq!(engine.change_gains(0, &[0, 0]).unwrap_err().code, -14);
    assert_eq!(engine.change_gains(0, &[]).unwrap_err().code, -14);
    assert_eq!(engine.change_gains(0, &[1_048_577]).unwrap_err().code, -15);
    assert_eq!(engine.change_gains(-1, &[0]).unwrap_err().code, -16);
    assert_eq!(engine.change_gains(5, &[131_072]), Ok(()));
    let mut turn = engine.turn(12);
    let datagram = turn.next().unwrap().map(|datagram| datagram[12..].to_vec());
    assert_eq!(datagram, Some([&PACKET[12..27], &[0, 0, 12]].concat()));
    assert_eq!(turn.next(), Ok(None));
    assert_eq!(engine.next_block_start(), 6);
    for at in 6..70 {
        assert_eq!(engine.change_gains(at + 1, &[0]), Ok(()));
    }
    assert_eq!(engine.change_gains(71, &[0]).unwrap_err().code, -17);
}

#[test]
fn inputs_and_missing_streams_are_those_of_the_last_datagram() {
    let mut engine = Engine::new(TWO_STREAMS).unwrap();
    let whole = Missing { streams: 0, is_empty: false };
    let part = Missing { streams: 1, is_empty: false };
    assert_eq!(engine.inputs(), [0; 18]);
    assert_eq!(engine.missing(), whole);
    // The packets of the second stream in the blocks 1 and 2 do not come.
    for number in 0..3 {
        assert_eq!(engine.arrive(0, 0, &packet(number, &FIRST, 3)), Ok(Outcome::Taken));
    }
    assert_eq!(engine.arrive(1, 0, &packet(0, &SECOND, 2)), Ok(Outcome::Taken));
    let mut turn = engine.turn(18);
    for (factor, missing) in [(256, whole), (0, part)] {
        assert!(turn.next().unwrap().is_some());
        assert_eq!(turn.engine().inputs(), inputs(factor));
        assert_eq!(turn.engine().missing(), missing);
    }
    assert_eq!(turn.next(), Ok(None));
    // Then it is the only one with a gain other than 0, and then it is muted.
    assert_eq!(engine.change_gains(12, &[0, 0, 1]), Ok(()));
    assert!(engine.turn(24).next().unwrap().is_some());
    assert_eq!(engine.inputs(), inputs(0));
    assert_eq!(engine.missing(), Missing { streams: 1, is_empty: true });
    assert_eq!(engine.turn(24).next(), Ok(None));
    assert_eq!(engine.change_gains(18, &[1, 0, 0]), Ok(()));
    assert_eq!(engine.arrive(0, 0, &packet(3, &FIRST, 3)), Ok(Outcome::Taken));
    let mut rest = engine.close().unwrap();
    assert!(rest.next().unwrap().is_some());
    assert_eq!(rest.engine().missing(), whole);
}

#[test]
fn a_failed_call_has_a_code_and_a_text() {
    assert_eq!(Engine::new("open_at = 0\n").err().map(|error| (error.code, error.text)), Some((-11, "stream: missing".into())));
    assert_eq!(Engine::new("=").err().map(|error| error.code), Some(-10));
    let mut engine = Engine::new(CONFIG).unwrap();
    assert_eq!(engine.arrive(1, 0, &PACKET).unwrap_err().to_string(), "there is no such stream");
    assert_eq!(engine.arrive(0, 2, &[]).unwrap_err().code, -4);
    assert_eq!(engine.turn(-1).next().unwrap_err().code, -6);
    assert_eq!(engine.saturated(1).unwrap_err().code, -13);
    assert_eq!(crate::version(), 0x000300);
}
