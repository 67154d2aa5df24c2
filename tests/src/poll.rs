//! Calls of the engine made by the program `poll`, each compared with what the
//! model makes of it.

use crate::digest::digest;
use crate::dump::{difference_of, dump, dump_state, framed, read_bytes, OpenedImage, DUMP_BYTES};
use crate::image::read_image;
use crate::net::Net;
use crate::notation::read_text;
use crate::program::feed;
use crate::sound::sound;
use crate::step::{pick, step, STOPPED};
use std::fmt;
use std::io::Read;

/// A byte that no answer has. Before a call it stands all over the buffer.
pub const KEPT: u8 = 0xEE;

/// What an engine is opened with.
#[derive(Clone)]
pub enum Source {
    Image(Vec<u8>),
    Text(Vec<u8>),
}

/// A list of picks, and the length of the buffer for their answers.
#[derive(Clone, Debug)]
pub struct Call {
    pub picks: Vec<u8>,
    pub length: usize,
}

/// A source, and the calls of its engine, one after another.
#[derive(Clone, Debug)]
pub struct Record {
    pub source: Source,
    pub calls: Vec<Call>,
}

/// What a call leaves: whether there was room, the whole buffer, and the
/// digest of the net.
#[derive(Clone, PartialEq, Eq, Debug)]
pub struct Called {
    pub room: bool,
    pub buffer: Vec<u8>,
    pub digest: u64,
}

/// What the model makes of a record. Number and bit are 0 where the source is
/// accepted, and the bit of a text always; the net is that at the end.
#[derive(Clone, Debug)]
pub struct Made {
    pub number: u8,
    pub bit: usize,
    pub calls: Vec<Called>,
    pub answers: Vec<u8>,
    pub net: Net,
}

/// Opens and calls engines by the program and by the model. The answer to
/// each source, the whole net that it gives, what each call leaves and the
/// whole net after the last one are compared; a difference is a failure.
pub fn poll(records: &[Record]) -> Vec<Made> {
    feed("poll", records, Record::framed, compare)
}

/// What the program writes of a record.
pub fn expected(record: &Record) -> Vec<u8> {
    let mut engine = Engine::open(&record.source);
    let mut bytes = vec![engine.number];
    bytes.extend((engine.bit as u32).to_le_bytes());
    bytes.extend(dump(&engine.net));
    for call in &record.calls {
        let called = engine.call(call);
        bytes.push(called.room.into());
        bytes.extend(called.buffer);
        bytes.extend(called.digest.to_le_bytes());
    }
    bytes.extend(dump(&engine.net));
    bytes
}

fn compare(record: &Record, output: &mut impl Read) -> Made {
    let mut engine = Engine::open(&record.source);
    let opened = OpenedImage::read(output);
    let found = (opened.number, opened.bit);
    let (number, bit) = (engine.number, engine.bit);
    assert_eq!(found, (number, bit), "program, model; {}", record.source);
    compare_whole(&opened.dump, &engine.net, record);
    let (mut calls, mut answers) = (Vec::new(), Vec::new());
    for (index, call) in record.calls.iter().enumerate() {
        let called = engine.call(call);
        let found = Called::read(output, call.length);
        if found != called {
            panic!("{}", difference(record, index, &found, &called));
        }
        if called.room {
            answers.extend(&called.buffer[..call.picks.len()]);
        }
        calls.push(called);
    }
    compare_whole(&read_bytes::<DUMP_BYTES>(output), &engine.net, record);
    Made {
        number,
        bit,
        calls,
        answers,
        net: engine.net,
    }
}

fn compare_whole(found: &[u8], net: &Net, record: &Record) {
    if let Some(difference) = difference_of(found, net) {
        panic!("{difference}; {record:?}");
    }
}

// The first call that leaves something else, and the calls before it.
fn difference(record: &Record, index: usize, found: &Called, model: &Called) -> String {
    let (source, calls) = (&record.source, &record.calls[..=index]);
    format!("call {index}: program {found:02X?}, model {model:02X?}; {source}; {calls:02X?}")
}

impl Record {
    /// The record as the program takes it: the source's kind and bytes, the
    /// number of calls, and of each the buffer's length and the picks.
    pub fn framed(&self) -> Vec<u8> {
        let (kind, source) = match &self.source {
            Source::Image(image) => (0, image),
            Source::Text(text) => (1, text),
        };
        let mut bytes = vec![kind];
        bytes.extend(framed(source));
        bytes.extend(two(self.calls.len()));
        for call in &self.calls {
            bytes.extend(two(call.length));
            bytes.extend(framed(&call.picks));
        }
        bytes
    }
}

fn two(number: usize) -> [u8; 2] {
    u16::try_from(number).expect("at most 65,535").to_le_bytes()
}

impl Called {
    fn read(output: &mut impl Read, length: usize) -> Called {
        let [room] = read_bytes(output);
        let mut buffer = vec![0; length];
        output.read_exact(&mut buffer).expect("a whole buffer");
        let digest = u64::from_le_bytes(read_bytes(output));
        let room = room != 0;
        Called {
            room,
            buffer,
            digest,
        }
    }
}

impl fmt::Display for Source {
    fn fmt(&self, formatter: &mut fmt::Formatter) -> fmt::Result {
        match self {
            Source::Image(image) => write!(formatter, "image {image:02X?}"),
            Source::Text(text) => write!(formatter, "text {:?}", String::from_utf8_lossy(text)),
        }
    }
}

impl fmt::Debug for Source {
    fn fmt(&self, formatter: &mut fmt::Formatter) -> fmt::Result {
        write!(formatter, "{self}")
    }
}

/// The engine as the model has it.
struct Engine {
    number: u8,
    bit: usize,
    net: Net,
    pick: fn(&mut Net, u8) -> u8,
    digest: u64,
}

impl Engine {
    fn open(source: &Source) -> Engine {
        let opened = match source {
            Source::Image(image) => read_image(image).map_err(|fault| (fault.number, fault.bit)),
            Source::Text(text) => read_text(text).map_err(|number| (number, 0)),
        };
        let ((number, bit), net) = match opened {
            Ok(net) => ((0, 0), net),
            Err(refused) => (refused, Net::empty()),
        };
        Engine {
            number,
            bit,
            digest: digest(&dump_state(&net)),
            // A sound net stays sound, and one that is not stays as it is.
            pick: if sound(&net) { step } else { pick },
            net,
        }
    }

    // A call without room for all answers makes no pick.
    fn call(&mut self, call: &Call) -> Called {
        let mut buffer = vec![KEPT; call.length];
        let room = call.picks.len() <= call.length;
        if room {
            let answers = call.picks.iter().zip(&mut buffer);
            answers.for_each(|(byte, answer)| *answer = (self.pick)(&mut self.net, *byte));
        }
        // Nothing else changes a net; what it is at the end is compared whole.
        if buffer.iter().any(|answer| *answer <= STOPPED) {
            self.digest = digest(&dump_state(&self.net));
        }
        let digest = self.digest;
        Called {
            room,
            buffer,
            digest,
        }
    }
}

#[cfg(test)]
mod tests {
    use super::*;
    use crate::by_hand::PAPER_IMAGE;

    fn record(source: Source, calls: &[(&[u8], usize)]) -> Record {
        let call = |(picks, length): &(&[u8], usize)| Call {
            picks: picks.to_vec(),
            length: *length,
        };
        let calls = calls.iter().map(call).collect();
        Record { source, calls }
    }

    #[test]
    fn a_record_is_its_source_and_its_calls() {
        let calls: [(&[u8], usize); 2] = [(&[], 3), (&[7; 258], 257)];
        let of_image = record(Source::Image(vec![1, 2]), &calls).framed();
        let head = [0, 2, 0, 1, 2, 2, 0, 3, 0, 0, 0, 1, 1, 2, 1, 7, 7];
        assert_eq!(of_image[..head.len()], head);
        assert_eq!(of_image.len(), head.len() - 2 + 258);
        let of_text = record(Source::Text(b"x".to_vec()), &[]).framed();
        assert_eq!(of_text, [1, 1, 0, b'x', 0, 0]);
    }

    /// The number, the bit and the net; each call's room, buffer and digest;
    /// the net again.
    #[test]
    fn what_is_written_of_a_refused_source() {
        let empty = dump(&Net::empty());
        let unchanged = digest(&dump_state(&Net::empty())).to_le_bytes();
        let calls: [(&[u8], usize); 2] = [(&[0, 4], 3), (&[0, 4], 1)];
        let written = expected(&record(Source::Image(vec![0x10, 0x80]), &calls));
        let parts = [
            &[28, 9, 0, 0, 0],
            &empty[..],
            &[1, 10, 10, KEPT],
            &unchanged,
            &[0, KEPT],
            &unchanged,
            &empty,
        ];
        assert!(written == parts.concat());
    }

    /// A call changes the digest where its picks change the net, and one
    /// without room does not.
    #[test]
    fn what_is_written_of_calls() {
        let calls: [(&[u8], usize); 3] = [(&[0], 0), (&[0], 2), (&[], 0)];
        let written = expected(&record(Source::Image(PAPER_IMAGE.to_vec()), &calls));
        let called = &written[5 + DUMP_BYTES..][..9 + 11 + 9];
        assert_eq!((called[0], called[9], called[20]), (0, 1, 1));
        assert_eq!(called[11], KEPT);
        let digests = [1, 12, 21].map(|at| &called[at..][..8]);
        assert!(digests[0] != digests[1] && digests[1] == digests[2]);
    }
}
