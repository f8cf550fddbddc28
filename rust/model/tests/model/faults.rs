//! Each fault shows on some line, some record or some packet of the host, and
//! without one nothing changes.

use crate::bench::*;
use crate::host::{CONFIG_AREA, SIGNATURE};
use crate::record::{small_profile, some_line};
use crate::recording::{erased, record};
use indraveck_model::*;

/// All that the calls of one line give back, byte for byte.
fn trace(fault: Option<Fault>, mut bench: Bench, parts: &[Option<Vec<u8>>]) -> Vec<u8> {
    bench.fault = fault;
    let mut trace = vec![];
    let (_, state) = start_with(fault, &bench.p, &bench.image);
    if bench.state.stage == Stage::Setting(Pulse::None) {
        bench.state = state;
    }
    for part in parts {
        match part {
            None => {
                trace.push(bench.reset() as u8);
            }
            Some(bytes) => {
                let mut rest = &bytes[..];
                // A device may be wrong about what it consumed.
                for _ in 0..8 {
                    let (fed, _) = bench.feed(rest);
                    trace.push(fed.refusal as u8);
                    trace.extend((fed.consumed as u32).to_be_bytes());
                    trace.extend((fed.count as u32).to_be_bytes());
                    trace.extend(&bench.reply);
                    rest = &rest[fed.consumed..];
                    if rest.is_empty() || fed.refusal != 0 {
                        break;
                    }
                }
            }
        }
        trace.extend(state_bytes(&bench.state));
    }
    trace.extend(&bench.image);
    trace
}

fn line(parts: &[&[u8]]) -> Vec<Option<Vec<u8>>> {
    parts.iter().map(|part| Some(part.to_vec())).collect()
}

/// What a fault must show on.
enum Telling {
    Line(Bench, Vec<Option<Vec<u8>>>),
    /// Bytes to read at a place.
    Read(Vec<u8>, usize),
    /// A buffer's length, a place, a direction and how many bytes.
    Write(usize, usize, u32, usize),
    /// A recording, and how much of the image is missing.
    Replay(Vec<u8>, usize),
    /// A request, how many bytes are lent beside it and a buffer's length.
    Build(Request, usize, usize),
    /// A request, and what comes back in parts.
    Judge(Request, Vec<Vec<u8>>),
    /// SAD, EAD, WAU and how many bytes.
    Plan(u32, u32, u32, usize),
}

impl Telling {
    /// All that comes of it, as bytes.
    fn told(self, fault: Option<Fault>) -> Vec<u8> {
        match self {
            Telling::Line(bench, parts) => trace(fault, bench, &parts),
            Telling::Read(bytes, at) => {
                format!("{:?}", read_record_with(fault, &bytes, at)).into_bytes()
            }
            Telling::Write(room, at, direction, count) => {
                let mut buffer = vec![UNTOUCHED; room];
                let bytes = vec![0x33; count];
                let answer = write_record_with(fault, &mut buffer, at, direction, &bytes);
                [format!("{:?}", answer).into_bytes(), buffer].concat()
            }
            Telling::Replay(recording, missing) => {
                let p = bench_profile();
                let mut image = vec![0x5A; total(&p) as usize - missing];
                let replayed = replay_recording_with(fault, &p, &mut image, &recording);
                [format!("{:?}", replayed).into_bytes(), image].concat()
            }
            Telling::Build(request, amount, room) => {
                let mut buffer = vec![UNTOUCHED; room];
                let bytes = vec![0x33; amount];
                let answer = build_with(fault, request, &bytes, &mut buffer);
                [format!("{:?}", answer).into_bytes(), buffer].concat()
            }
            Telling::Judge(request, parts) => {
                let mut judge = Judge::start_with(fault, request);
                let mut told = format!("{:?}", judge.verdict());
                for part in parts {
                    let taken = judge.take_with(fault, &part);
                    let fields = (judge.sci_with(fault), judge.area_with(fault));
                    let verdict = judge.verdict();
                    told += &format!("{taken:?} {verdict:?} {fields:?} {:?}", judge.kept());
                }
                told.into_bytes()
            }
            Telling::Plan(sad, ead, wau, count) => {
                let mut told = String::new();
                match plan_with(fault, sad, ead, wau, count) {
                    Err(refusal) => told = format!("{refusal:?}"),
                    Ok(mut plan) => {
                        while let Some(step) = plan.next_with(fault) {
                            told += &format!("{step:?}");
                        }
                    }
                }
                told.into_bytes()
            }
        }
    }
}

fn telling(fault: Fault) -> Telling {
    match fault {
        Fault::LengthBeforeDirection => Telling::Read(hex("52 4C 49 FF FF"), 0),
        Fault::Length1031Read => Telling::Read(record(0x44, &[0; 1031]), 0),
        Fault::Length1030Unreadable => Telling::Read(record(0x44, &[0; 1030]), 0),
        Fault::EmptyHostRecordRead => Telling::Read(hex("52 4C 48 00 00"), 0),
        Fault::EmptyDeviceRecordRead => Telling::Read(hex("52 4C 44 00 00"), 0),
        Fault::ResetWithContentsRead => Telling::Read(hex("52 4C 52 00 01 00"), 0),
        Fault::LengthLowByteFirst => Telling::Read(hex("52 4C 48 00 01 00"), 0),
        Fault::HeadBeforeMark => Telling::Read(hex("52 00"), 0),
        Fault::HalfOfTheMarkRead => Telling::Read(hex("52 00 48 00 01 00"), 0),
        Fault::HalfOfTheMarkJudged => Telling::Read(hex("4C"), 0),
        Fault::HalfLengthJudged => Telling::Read(hex("52 4C 48 FF"), 0),
        Fault::ContentsBeforeLength => Telling::Read(hex("52 4C 48 FF FF"), 0),
        Fault::CutContentsRead => Telling::Read(hex("52 4C 48 00 02 01"), 0),
        Fault::BehindTheEndIsEnd => Telling::Read(vec![], 1),
        Fault::PartOfAHeadIsEnd => Telling::Read(hex("52 4C 48 00"), 0),
        Fault::UnknownDirectionSkipped => Telling::Read(hex("52 4C 00 00 01 00"), 0),
        Fault::UnreadableRecordPassed => Telling::Read(hex("00 00"), 0),
        Fault::LengthBeforeDirectionWritten => Telling::Write(9, 0, 0x49, 0),
        Fault::RoomBeforeLength => Telling::Write(0, 0, 0x48, 0),
        Fault::DirectionAbove255Written => Telling::Write(9, 0, 0x148, 1),
        Fault::Length1031Written => Telling::Write(2000, 0, 0x44, 1031),
        Fault::EmptyRecordWritten => Telling::Write(9, 0, 0x48, 0),
        Fault::ResetWithContentsWritten => Telling::Write(9, 0, 0x52, 1),
        Fault::LengthLowByteFirstWritten => Telling::Write(9, 0, 0x48, 1),
        Fault::HeadWithoutRoomWritten => Telling::Write(9, 1, 0x48, 4),
        Fault::ExactFitRefused => Telling::Write(9, 1, 0x48, 3),
        Fault::FarPlaceWraps => Telling::Write(9, usize::MAX, 0x48, 1),
        Fault::BytesBehindCleared => Telling::Write(9, 0, 0x48, 1),
        Fault::UnwrittenRecordPassed => Telling::Write(0, 0, 0x52, 0),
        Fault::ReplayAlwaysEnds => Telling::Replay(hex("52"), 0),
        Fault::RefusedReplayEnds => Telling::Replay(vec![], 1),
        Fault::ReplyBehindResetCounts => {
            let [request, reply] = erased();
            Telling::Replay([request, hex("52 4C 52 00 00"), reply].concat(), 0)
        }
        Fault::ReplayPassesUnreadable => {
            Telling::Replay([vec![0x00], erased().concat()].concat(), 0)
        }
        fault if Fault::OF_HOST.contains(&fault) => host_telling(fault),
        fault => {
            let (bench, parts) = line_telling(fault);
            Telling::Line(bench, parts)
        }
    }
}

/// What a fault of the host's end must show on.
fn host_telling(fault: Fault) -> Telling {
    use Request::*;
    let read = |sad, ead| Read { sad, ead };
    let next = |left| Next { left };
    let write = |sad, ead| Write { sad, ead };
    let judge = |request, reply: Vec<u8>| Telling::Judge(request, vec![reply]);
    match fault {
        Fault::SumWithoutHighLength => Telling::Build(WriteData, 255, 2000),
        Fault::SadAndEadSwapped => Telling::Build(write(0, 0x7F), 0, 2000),
        Fault::NextOfNothingBuilt => Telling::Build(next(0), 0, 2000),
        Fault::NextSentAsCommand => Telling::Build(next(1), 0, 2000),
        Fault::Data1025Built => Telling::Build(WriteData, 1025, 2000),
        Fault::NoDataBuilt => Telling::Build(WriteData, 0, 2000),
        Fault::ShortCodeBuilt => Telling::Build(Authenticate, 15, 2000),
        Fault::StrayBytesIgnored => Telling::Build(Inquiry, 1, 2000),
        Fault::RoomBeforeAmount => Telling::Build(WriteData, 1025, 1030),
        Fault::NothingLeftBeforeAmount => Telling::Build(next(0), 1, 2000),
        Fault::RoomBeforeNothingLeft => Telling::Build(next(0), 0, 6),
        Fault::HeadWithoutRoomBuilt => Telling::Build(Inquiry, 0, 5),
        Fault::FullBufferRefused => Telling::Build(Inquiry, 0, 6),
        Fault::BehindPacketCleared => Telling::Build(Inquiry, 0, 7),
        Fault::VerdictStartsPassed => judge(Inquiry, vec![]),
        Fault::StatusWithoutBit7Refuses => judge(Inquiry, status(0x00, 0xC1)),
        Fault::StatusZeroRefuses => judge(Inquiry, status(0x80, 0x00)),
        Fault::StatusNotLookedAt => judge(Inquiry, status(0x00, 0x01)),
        Fault::OtherResPasses => judge(Inquiry, status(0x13, 0x00)),
        Fault::TransferErrorsAlike => judge(next(1), status(0x93, 0xC1)),
        Fault::EarlyRefusalCounts => judge(Signature, status(0x80, 0xC1)),
        Fault::OtherCodesAreWrong => judge(Inquiry, status(0x80, 0x01)),
        Fault::LongErrorRefuses => judge(Inquiry, data(0x80, &[0xC1, 0])),
        Fault::LongStatusPasses => judge(Inquiry, data(0x00, &[0, 0])),
        Fault::OtherDataLengthPasses => judge(Signature, data(0x3A, &[0; 13])),
        Fault::ShortReadPacketPasses => judge(read(0, 15), data(0x15, &[0; 15])),
        Fault::LongLastPacketPasses => judge(next(1023), data(0x15, &[0; 1024])),
        Fault::OneByteReadIsStatus => judge(read(7, 7), status(0x15, 0xD0)),
        Fault::ReadSizeWraps => judge(read(0, u32::MAX), data(0x15, &[0; 1024])),
        Fault::EmptyReadPasses => judge(read(1, 0), data(0x15, &[])),
        Fault::BadSumPasses => judge(Inquiry, hex("81 00 02 00 00 FF 03")),
        Fault::BadEtxPasses => judge(Inquiry, hex("81 00 02 00 00 FE 04")),
        Fault::SumDecides => judge(Inquiry, hex("81 00 02 00 00 FE")),
        Fault::ResDecides => judge(Inquiry, hex("81 00 02 13")),
        Fault::HighLengthDecides => judge(Inquiry, hex("81 81")),
        Fault::BadLengthAwaited => judge(Inquiry, hex("81 00 00")),
        Fault::BadLengthSkipped => judge(Inquiry, hex("81 81 00 81 00 02 00 00 FE 03")),
        Fault::Length1026Awaited => judge(Inquiry, hex("81 04 02")),
        Fault::Length1025Wrong => judge(Inquiry, hex("81 04 01")),
        Fault::WrongPacketSkipped => judge(Inquiry, [hex(OK_WRITE), hex(OK_INQUIRY)].concat()),
        Fault::SecondStartCounts => judge(Inquiry, hex("81 81 00 02 00 00 FE 03")),
        Fault::CommandPacketJudged => judge(Inquiry, hex("01")),
        Fault::BytesBehindVerdictTaken => judge(Inquiry, [hex(OK_INQUIRY), vec![0]].concat()),
        Fault::VerdictIsNotFinal => Telling::Judge(Inquiry, vec![hex(OK_INQUIRY), hex(OK_WRITE)]),
        Fault::SumStartsAnewWithACall => {
            Telling::Judge(Inquiry, vec![hex("81 00 02"), hex("00 00 FE 03")])
        }
        Fault::DataFromRes | Fault::DataWithSum => judge(Inquiry, hex(OK_INQUIRY)),
        Fault::KeepsOneByteFewer | Fault::UnitsSwapped => judge(Area(1), hex(CONFIG_AREA)),
        Fault::FieldsWithoutPass => judge(Signature, hex(SIGNATURE)[..17].to_vec()),
        Fault::PartsOf1025 => Telling::Plan(0, 1024, 1, 1025),
        Fault::UnitsCut => Telling::Plan(0, 1025, 513, 1026),
        Fault::OneUnitAPart => Telling::Plan(0, 0xFF, 0x80, 0x100),
        Fault::EmptyPartPlanned => Telling::Plan(0, 0, 1, 1),
        Fault::LastPartFull => Telling::Plan(0, 0x7F, 0x80, 0x80),
        Fault::WriteNotAskedFor => Telling::Plan(0, 0, 1, 1),
        Fault::LessDataPlanned => Telling::Plan(0, 0xFF, 0x80, 0x80),
        Fault::Unit1025Planned => Telling::Plan(0, 1024, 1025, 1025),
        Fault::Unit1024Refused => Telling::Plan(0, 1023, 1024, 1024),
        Fault::UnitBeforeRange => Telling::Plan(1, 0, 0, 0),
        Fault::EndBeforeStart => Telling::Plan(1, 2, 2, 2),
        Fault::AmountBeforeAlignment => Telling::Plan(1, 2, 2, 1),
        Fault::PlanAlignsEadItself => Telling::Plan(0, 0x80, 0x80, 0x81),
        Fault::PlannedEndWraps => Telling::Plan(0, u32::MAX, 3, 1 << 32),
        _ => panic!("nothing is said to show {fault:?}"),
    }
}

/// A line that a fault of the device must show on.
fn line_telling(fault: Fault) -> (Bench, Vec<Option<Vec<u8>>>) {
    let locked = |first: u8| Bench::locked(&[first; 16]);
    let window = |low, high| {
        let mut bench = Bench::ready();
        bench.p.low = low;
        bench.p.high = high;
        bench
    };
    let inquiry = command(0x00, &[]);
    let two_packets = line(&[
        &ranged(0x13, 0, 0xFF),
        &data(0x13, &[1; 0x80]),
        &data(0x13, &[2; 0x80]),
    ]);
    match fault {
        Fault::RefusesEveryRequest | Fault::SwallowsBytes => (Bench::ready(), line(&[&inquiry])),
        Fault::SaysOkToEverything => (Bench::ready(), line(&[&ranged(0x12, 1, 0)])),
        Fault::StoresFirstPacketOnly | Fault::WriteDoesNotAdvance => (Bench::ready(), two_packets),
        Fault::EraseOneByteShort => {
            let mut bench = Bench::ready();
            bench.image.fill(0);
            (bench, line(&[&ranged(0x12, 0, 0x1FFF)]))
        }
        Fault::EraseByWriteUnit => (Bench::ready(), line(&[&ranged(0x12, 0, 0x7F)])),
        Fault::WindowHighInclusive => (window(0, 0x1FFF), line(&[&ranged(0x12, 0, 0x1FFF)])),
        Fault::EqualWindowIsClosed => (window(5, 5), line(&[&ranged(0x12, 0, 0x1FFF)])),
        Fault::WindowOnAllAreas => (
            window(0, 0x80),
            line(&[&ranged(0x13, 0x0100_0000, 0x0100_00FF)]),
        ),
        Fault::AlignsEadItself => (Bench::ready(), line(&[&ranged(0x12, 0, 0x2000)])),
        Fault::SumNotChecked => (Bench::ready(), line(&[&hex("01 00 01 00 FE 03")])),
        Fault::EtxCheckedAfterSum => (Bench::ready(), line(&[&hex("01 00 01 00 FE 04")])),
        Fault::Length257Permitted => (Bench::ready(), line(&[&hex("01 01 01")])),
        Fault::Length256Refused => (Bench::ready(), line(&[&hex("01 01 00")])),
        Fault::StageBeforeLength => (locked(0xF0), line(&[&command(0x00, &[0])])),
        Fault::Bit126Ignored => (locked(0xB0), line(&[&hex(TOTAL_ERASE)])),
        Fault::Bit127Ignored => (locked(0x70), line(&[&command(0x30, &[0x70; 16])])),
        Fault::TotalEraseSparesConfig | Fault::TotalEraseWakesUp => {
            (locked(0xF0), line(&[&hex(TOTAL_ERASE)]))
        }
        Fault::IdLatchedAtStart => {
            let mut parts = line(&[
                &ranged(0x13, 0x0100_0000, 0x0100_000F),
                &data(0x13, &[0xF0; 16]),
            ]);
            parts.push(None);
            (Bench::ready(), parts)
        }
        Fault::PulsesNotInARow => (Bench::new(), line(&[&hex("00 01 00")])),
        Fault::ResetKeepsStage => (Bench::ready(), vec![None]),
        Fault::PartialWriteOnE2 | Fault::BlankCheckMissing | Fault::ErrorKeepsWriting => {
            let mut bench = Bench::ready();
            bench.image[0x80] = 0;
            let parts = line(&[&ranged(0x13, 0, 0xFF), &data(0x13, &[1; 0x100])]);
            (bench, parts)
        }
        Fault::ReadPacketOneShort => (Bench::ready(), line(&[&ranged(0x15, 0, 0x3FF)])),
        Fault::ReadStatusIgnored => (
            Bench::ready(),
            line(&[&ranged(0x15, 0, 0x400), &data(0x15, &[1])]),
        ),
        Fault::FourPercentRefused => (
            Bench::ready(),
            line(&[&command(0x34, &3_906_250u32.to_be_bytes())]),
        ),
        Fault::RateRoundedTwice => (
            Bench::ready(),
            line(&[&command(0x34, &4034u32.to_be_bytes())]),
        ),
        Fault::RefusedRateIsSet => (
            Bench::ready(),
            line(&[&command(0x34, &3500u32.to_be_bytes())]),
        ),
        Fault::ConsumedOneTooFew | Fault::ReplyTailCleared => (Bench::ready(), line(&[&inquiry])),
        Fault::ConsumesUnreadBytes => (Bench::ready(), line(&[&[&inquiry[..], &inquiry].concat()])),
        Fault::RefusalTwoBeforeFive => {
            let mut bench = Bench::ready();
            bench.receive.truncate(1029);
            bench.state.held = 9999;
            (bench, line(&[&inquiry]))
        }
        Fault::RefusalOneBeforeFour => {
            let mut bench = Bench::ready();
            bench.p.sci = 0;
            bench.image.clear();
            (bench, line(&[&inquiry]))
        }
        Fault::RefusedStartIsFresh => {
            let mut bench = Bench::new();
            bench.p.rmb = 0;
            (bench, line(&[&inquiry]))
        }
        _ => panic!("nothing is said to show {fault:?}"),
    }
}

#[test]
fn every_fault_shows() {
    assert!(Fault::ALL.len() >= 130);
    for &fault in Fault::ALL {
        let run = |f| telling(fault).told(f);
        assert!(run(None) != run(Some(fault)), "{fault:?}");
    }
}

/// The same for records: on a plain one that is read, written and replayed
/// only those show that every record shows.
#[test]
fn most_faults_leave_a_plain_record_alone() {
    let always = [
        Fault::LengthLowByteFirst,
        Fault::LengthLowByteFirstWritten,
        Fault::BytesBehindCleared,
    ];
    let run = |fault| {
        let plain = [
            Telling::Read(hex("52 4C 48 00 03 01 02 03"), 0),
            Telling::Write(20, 1, 0x44, 7),
            Telling::Replay(erased().concat(), 0),
        ];
        plain.map(|telling| telling.told(fault))
    };
    for &fault in Fault::ALL {
        let same = run(None) == run(Some(fault));
        assert_eq!(same, !always.contains(&fault), "{fault:?}");
    }
}

/// The same for the host: an inquiry that is built and answered by OK, and a
/// write of one unit.
#[test]
fn most_faults_leave_a_plain_exchange_alone() {
    let always = [
        Fault::BehindPacketCleared,
        Fault::VerdictStartsPassed,
        Fault::SumDecides,
        Fault::DataFromRes,
        Fault::DataWithSum,
        Fault::EmptyPartPlanned,
        Fault::LastPartFull,
        Fault::WriteNotAskedFor,
        Fault::PlanAlignsEadItself,
    ];
    let run = |fault| {
        let plain = [
            Telling::Build(Request::Inquiry, 0, 7),
            Telling::Judge(Request::Inquiry, vec![hex(OK_INQUIRY)]),
            Telling::Plan(0, 0x7F, 0x80, 0x80),
        ];
        plain.map(|telling| telling.told(fault))
    };
    for &fault in Fault::ALL {
        let same = run(None) == run(Some(fault));
        assert_eq!(same, !always.contains(&fault), "{fault:?}");
    }
}

/// A fault shows on its own line, but no fault is two: on a line that has
/// nothing to do with it the device is right.
#[test]
fn most_faults_leave_an_inquiry_alone() {
    let always = [
        Fault::RefusesEveryRequest,
        Fault::SwallowsBytes,
        Fault::ConsumedOneTooFew,
        Fault::ReplyTailCleared,
    ];
    let run = |fault| trace(fault, Bench::ready(), &line(&[&command(0x00, &[])]));
    for &fault in Fault::ALL {
        let same = run(None) == run(Some(fault));
        assert_eq!(same, !always.contains(&fault), "{fault:?}");
    }
}

#[test]
fn no_fault_is_the_right_device() {
    for seed in 0..50 {
        let mut dice = Dice::new(seed);
        let id = [0xF0; 16];
        let mut image = vec![0xFF; 0x640];
        image[0x600..0x610].copy_from_slice(&id);
        let parts = some_line(&mut dice, &id);
        let p = small_profile();
        let mut bench = Bench::with(None, p.clone(), image.clone());
        let (_, mut state) = start(&p, &image);
        let mut receive = vec![0x01; BUFFER];
        for part in &parts {
            let input = match part {
                None => {
                    bench.reset();
                    state = reset(&p, &image, &state).1;
                    continue;
                }
                Some(input) => input,
            };
            let mut reply = vec![UNTOUCHED; BUFFER];
            let fed = feed(&p, &mut image, &mut state, &mut receive, &mut reply, input);
            assert_eq!(bench.feed(input).0, fed);
            assert_eq!(bench.state, state);
            assert!(bench.reply == reply && bench.image == image);
        }
    }
}
