//! What the benchmarks measure of the host's end: a request built, or a reply judged, many times over.

use crate::exchanges::{asked, BUILT, PASSED, UNANSWERED};
use crate::noise::Noise;
use crate::packets::{self, data};
use crate::subject::{Model, Numbers, Subject, BUFFER_BYTES};

/// How often a round of an errand does it.
const TIMES: usize = 10_000;

/// A request to build, or a reply to judge.
pub struct Errand {
    pub name: String,
    numbers: Numbers,
    work: Work,
}

enum Work {
    /// The bytes lent beside the request, and its packet.
    Build { bytes: Vec<u8>, packet: Vec<u8> },
    /// The reply, and how many bytes of it come at a time.
    Judge { reply: Vec<u8>, piece: usize },
}

impl Errand {
    fn build(name: &str, numbers: Numbers, bytes: Vec<u8>) -> Errand {
        let mut packet = vec![0; BUFFER_BYTES];
        let (answer, length) = Model(None).build(&mut packet, numbers, &bytes);
        assert_eq!(answer, BUILT, "an errand can be built");
        packet.truncate(length);
        Errand {
            name: format!("{} built 10,000 times, beside copy", name),
            numbers,
            work: Work::Build { bytes, packet },
        }
    }

    fn judge(name: &str, numbers: Numbers, reply: Vec<u8>, piece: usize) -> Errand {
        Errand {
            name: format!("{} judged 10,000 times, beside a sum", name),
            numbers,
            work: Work::Judge { reply, piece },
        }
    }

    /// What is measured. How many bytes were built, or taken.
    pub fn run(&self, subject: &dyn Subject) -> usize {
        match &self.work {
            Work::Build { bytes, packet } => {
                let mut buffer = [0; BUFFER_BYTES];
                let mut count = 0;
                for _ in 0..TIMES {
                    count += subject.build(&mut buffer, self.numbers, bytes).1;
                }
                assert!(buffer.starts_with(packet), "an errand's packet");
                count
            }
            Work::Judge { reply, piece } => {
                let (mut count, mut passed) = (0, 0);
                for _ in 0..TIMES {
                    let mut judge = subject.judge(self.numbers).expect("a request");
                    let mut verdict = UNANSWERED;
                    for part in reply.chunks(*piece) {
                        let (said, taken) = judge.take(part);
                        verdict = said;
                        count += taken.count;
                    }
                    passed += usize::from(verdict == PASSED);
                }
                assert_eq!(passed, TIMES, "an errand's reply passes");
                count
            }
        }
    }

    /// That no subject is fast by doing less.
    pub fn check(&self, count: usize) {
        assert_eq!(count, TIMES * self.bytes().len(), "bytes of an errand");
    }

    /// How often a round does it.
    pub fn times(&self) -> usize {
        TIMES
    }

    /// The packet to build, or the reply to judge.
    pub fn bytes(&self) -> &[u8] {
        match &self.work {
            Work::Build { packet, .. } => packet,
            Work::Judge { reply, .. } => reply,
        }
    }

    /// Whether a packet is built, and not a reply judged.
    pub fn builds(&self) -> bool {
        matches!(self.work, Work::Build { .. })
    }
}

/// Every request, and replies short and long.
pub fn errands() -> Vec<Errand> {
    let noise = Noise::new(26).bytes(packets::MOST_DATA);
    let read = data(packets::READ, &noise);
    let whole = read.len();
    let code = packets::TOTAL_ERASE.to_vec();
    let all = asked(4, 0x4000, 0x7FFF);
    vec![
        Errand::build("inquiry", asked(1, 0, 0), vec![]),
        Errand::build("erase", asked(2, 0x4000, 0x7FFF), vec![]),
        Errand::build("write", asked(3, 0x4000, 0x7FFF), vec![]),
        Errand::build("read", all, vec![]),
        Errand::build("authenticate", asked(5, 0, 0), code),
        Errand::build("baud rate", asked(6, 2_000_000, 0), vec![]),
        Errand::build("signature", asked(7, 0, 0), vec![]),
        Errand::build("area", asked(8, 1, 0), vec![]),
        Errand::build("write data of 1,024 bytes", asked(9, 0, 0), noise),
        Errand::build("next packet of a read", asked(10, 1024, 0), vec![]),
        Errand::judge("status reply", asked(1, 0, 0), data(0x00, &[0x00]), 7),
        Errand::judge("read reply of 1,024 bytes", all, read.clone(), whole),
        Errand::judge("the same in pieces of 64", all, read, 64),
    ]
}
