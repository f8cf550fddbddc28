//! Deliberate errors, one each, to show that a comparison notices them.

/// Tells the core which error to make. The right device's answer is a
/// constant, so that its code holds no trace of the faults.
pub(crate) trait Faults: Copy {
    fn has(self, fault: Fault) -> bool;
}

/// The device without a fault.
#[derive(Clone, Copy)]
pub(crate) struct Right;

impl Faults for Right {
    #[inline(always)]
    fn has(self, _: Fault) -> bool {
        false
    }
}

impl Faults for Option<Fault> {
    #[inline]
    fn has(self, fault: Fault) -> bool {
        self == Some(fault)
    }
}

/// Keeps the lists of faults in step with the enum.
macro_rules! faults {
    (
        of the device { $($(#[$device_doc:meta])* $device:ident,)* }
        of recordings { $($(#[$record_doc:meta])* $record:ident,)* }
        of the host { $($(#[$host_doc:meta])* $host:ident,)* }
    ) => {
        /// One way in which a device can be wrong, what reads, writes and
        /// replays its recordings, or the host's end of its line.
        #[derive(Clone, Copy, Debug, PartialEq, Eq, Hash)]
        pub enum Fault {
            $($(#[$device_doc])* $device,)*
            $($(#[$record_doc])* $record,)*
            $($(#[$host_doc])* $host,)*
        }

        impl Fault {
            pub const OF_DEVICE: &'static [Fault] = &[$(Fault::$device,)*];
            pub const OF_RECORDINGS: &'static [Fault] = &[$(Fault::$record,)*];
            pub const OF_HOST: &'static [Fault] = &[$(Fault::$host,)*];
            pub const ALL: &'static [Fault] =
                &[$(Fault::$device,)* $(Fault::$record,)* $(Fault::$host,)*];
        }
    };
}

faults! {
    of the device {
        /// Answers every complete packet with C1h.
        RefusesEveryRequest,
        /// Answers every complete packet with OK, without any effect.
        SaysOkToEverything,
        /// Takes all input, does nothing and never replies.
        SwallowsBytes,
        /// Stores the first data packet of a write and only acknowledges the
        /// others. The state has no place for this, so that it is remembered in
        /// the top bit of ABCS while the write lasts.
        StoresFirstPacketOnly,
        /// Stores each data packet of a write at the same address.
        WriteDoesNotAdvance,
        /// Leaves the last byte of an erased range.
        EraseOneByteShort,
        /// Tests an erase by WAU instead of EAU.
        EraseByWriteUnit,
        /// Lets a range end at the window's high address.
        WindowHighInclusive,
        /// Takes low equal to high for a window that nothing passes.
        EqualWindowIsClosed,
        /// Applies the window to all kinds of areas.
        WindowOnAllAreas,
        /// Tests EAD instead of EAD + 1 for alignment.
        AlignsEadItself,
        /// Doesn't look at SUM.
        SumNotChecked,
        /// Looks at SUM before ETX.
        EtxCheckedAfterSum,
        /// Receives a command of length 257.
        Length257Permitted,
        /// Refuses a command of length 256.
        Length256Refused,
        /// Looks at the stage before the command's length.
        StageBeforeLength,
        /// Takes the total-erase code whatever latched bit 126 is.
        Bit126Ignored,
        /// Compares codes even if latched bit 127 is 0.
        Bit127Ignored,
        /// Leaves the config area in a total erase.
        TotalEraseSparesConfig,
        /// Goes to the command stage after a total erase.
        TotalEraseWakesUp,
        /// Latches the ID when it starts instead of with C3h.
        IdLatchedAtStart,
        /// Counts low pulses that are not in a row.
        PulsesNotInARow,
        /// Keeps the stage in a reset.
        ResetKeepsStage,
        /// Writes the units before the first one that isn't blank.
        PartialWriteOnE2,
        /// Doesn't look whether the target of a data packet is blank.
        BlankCheckMissing,
        /// Goes on with a write after an error.
        ErrorKeepsWriting,
        /// Sends 1,023 bytes in a full read packet.
        ReadPacketOneShort,
        /// Doesn't look at STS in the request for the next read packet.
        ReadStatusIgnored,
        /// Refuses a rate that is off by exactly 4 %.
        FourPercentRefused,
        /// Rounds the rate before it works out MDDR.
        RateRoundedTwice,
        /// Sets a refused rate's line setting all the same.
        RefusedRateIsSet,
        /// Says that one byte fewer was consumed for a reply.
        ConsumedOneTooFew,
        /// Says that the bytes behind a reply were consumed.
        ConsumesUnreadBytes,
        /// Refuses a short receive buffer before a state that doesn't fit.
        RefusalTwoBeforeFive,
        /// Refuses a wrong image before an unacceptable profile.
        RefusalOneBeforeFour,
        /// Gives a fresh state with a refused start.
        RefusedStartIsFresh,
        /// Clears the reply buffer behind the reply.
        ReplyTailCleared,
    }
    of recordings {
        /// Looks at a record's length before its direction.
        LengthBeforeDirection,
        /// Reads a record of 1,031 bytes.
        Length1031Read,
        /// Doesn't read a record of 1,030 bytes.
        Length1030Unreadable,
        /// Reads a host record without contents.
        EmptyHostRecordRead,
        /// Reads a device record without contents.
        EmptyDeviceRecordRead,
        /// Reads a reset with contents.
        ResetWithContentsRead,
        /// Takes a record's length low byte first.
        LengthLowByteFirst,
        /// Says that less than a head is cut short, whatever the mark is.
        HeadBeforeMark,
        /// Looks at the first byte of the mark alone.
        HalfOfTheMarkRead,
        /// Says that a mark is bad when its second byte isn't there yet.
        HalfOfTheMarkJudged,
        /// Says that a length is bad when its second byte isn't there yet and
        /// none could make it good.
        HalfLengthJudged,
        /// Says that a record is cut short, whatever its length is.
        ContentsBeforeLength,
        /// Takes what there is of a record's contents.
        CutContentsRead,
        /// Takes a place behind the end for the end.
        BehindTheEndIsEnd,
        /// Takes less than a head for the end.
        PartOfAHeadIsEnd,
        /// Passes over records of another direction.
        UnknownDirectionSkipped,
        /// Goes on by a byte where there is no record.
        UnreadableRecordPassed,
        /// Looks at the length of what is to be written before its direction.
        LengthBeforeDirectionWritten,
        /// Looks for room before it looks at the length.
        RoomBeforeLength,
        /// Takes the low byte of a direction above 255.
        DirectionAbove255Written,
        /// Writes a record of 1,031 bytes.
        Length1031Written,
        /// Writes a record without contents.
        EmptyRecordWritten,
        /// Writes a reset with contents.
        ResetWithContentsWritten,
        /// Writes a record's length low byte first.
        LengthLowByteFirstWritten,
        /// Leaves a head in the buffer if the contents don't fit.
        HeadWithoutRoomWritten,
        /// Refuses a record that fills the buffer up.
        ExactFitRefused,
        /// Adds up places modulo their range.
        FarPlaceWraps,
        /// Clears the buffer behind a record.
        BytesBehindCleared,
        /// Says that a record which isn't written has a head.
        UnwrittenRecordPassed,
        /// Says that every recording was replayed to its end.
        ReplayAlwaysEnds,
        /// Says that a refused replay has come to the end.
        RefusedReplayEnds,
        /// Takes a reply behind a reset for one to the request before it.
        ReplyBehindResetCounts,
        /// Goes on with a replay behind a record that is no good.
        ReplayPassesUnreadable,
    }
    of the host {
        /// Leaves the length's high byte out of SUM.
        SumWithoutHighLength,
        /// Sends EAD before SAD.
        SadAndEadSwapped,
        /// Asks for the next packet of a read that has nothing left.
        NextOfNothingBuilt,
        /// Asks for the next packet of a read with 01h.
        NextSentAsCommand,
        /// Builds a data packet with 1,025 bytes.
        Data1025Built,
        /// Builds a data packet without data.
        NoDataBuilt,
        /// Builds a code of fewer than 16 bytes.
        ShortCodeBuilt,
        /// Builds a request that has no bytes beside it, and leaves them out.
        StrayBytesIgnored,
        /// Looks for room before it looks how many bytes are lent.
        RoomBeforeAmount,
        /// Looks at what is left before it looks how many bytes are lent.
        NothingLeftBeforeAmount,
        /// Looks for room before it looks at what is left.
        RoomBeforeNothingLeft,
        /// Leaves the front of a packet in a buffer that it doesn't fit in.
        HeadWithoutRoomBuilt,
        /// Refuses a packet that fills the buffer up.
        FullBufferRefused,
        /// Clears the buffer behind a packet.
        BehindPacketCleared,
        /// Begins with the verdict that the request passed.
        VerdictStartsPassed,
        /// Takes RES without bit 7 and a status that isn't 0 for a refusal.
        StatusWithoutBit7Refuses,
        /// Takes RES with bit 7 and status 0 for a refusal.
        StatusZeroRefuses,
        /// Doesn't look at STS of an OK.
        StatusNotLookedAt,
        /// Passes another command's RES.
        OtherResPasses,
        /// Takes errors of a write for refusals of a read, and the reverse.
        TransferErrorsAlike,
        /// Takes RES 80h with C1h for a refusal of every request.
        EarlyRefusalCounts,
        /// Takes only the codes of the device's own rules for refusals.
        OtherCodesAreWrong,
        /// Takes an error reply with more behind STS for a refusal.
        LongErrorRefuses,
        /// Passes a status reply with more behind STS.
        LongStatusPasses,
        /// Passes a signature or an area message of any length.
        OtherDataLengthPasses,
        /// Passes a read packet with less data than it should have.
        ShortReadPacketPasses,
        /// Passes a read's last packet with more data than was left.
        LongLastPacketPasses,
        /// Takes the one byte of a read for a status.
        OneByteReadIsStatus,
        /// Counts the bytes of a read modulo 2 to the 32nd.
        ReadSizeWraps,
        /// Passes a data packet without data where nothing is to be read.
        EmptyReadPasses,
        /// Doesn't look at a reply's SUM.
        BadSumPasses,
        /// Doesn't look at a reply's ETX.
        BadEtxPasses,
        /// Decides with SUM and takes ETX for granted.
        SumDecides,
        /// Decides on a RES that isn't the request's before the packet is whole.
        ResDecides,
        /// Decides with the first length byte where no second one could help.
        HighLengthDecides,
        /// Decides on a length that no packet has only when all of it has come.
        BadLengthAwaited,
        /// Looks for another packet behind a length that no packet has.
        BadLengthSkipped,
        /// Takes a reply of length 1,026.
        Length1026Awaited,
        /// Takes length 1,025 for one that no packet has.
        Length1025Wrong,
        /// Looks for another packet behind one that is a wrong reply.
        WrongPacketSkipped,
        /// Begins the packet anew at 81h in the place of a length byte.
        SecondStartCounts,
        /// Takes 01h for the beginning of a wrong reply.
        CommandPacketJudged,
        /// Takes all bytes, also those behind the one that decides.
        BytesBehindVerdictTaken,
        /// Judges anew when bytes come after a verdict.
        VerdictIsNotFinal,
        /// Adds up only what comes in one call.
        SumStartsAnewWithACall,
        /// Takes RES for data.
        DataFromRes,
        /// Takes SUM for data.
        DataWithSum,
        /// Keeps 16 bytes of data.
        KeepsOneByteFewer,
        /// Says the fields of a message that didn't pass.
        FieldsWithoutPass,
        /// Says EAU for WAU, and the reverse.
        UnitsSwapped,
        /// Plans data packets of up to 1,025 bytes.
        PartsOf1025,
        /// Plans data packets that end inside of a unit.
        UnitsCut,
        /// Plans a data packet for each unit.
        OneUnitAPart,
        /// Plans a last data packet without data.
        EmptyPartPlanned,
        /// Plans a last data packet that is as long as the others.
        LastPartFull,
        /// Plans data packets without the command before them.
        WriteNotAskedFor,
        /// Plans a write of fewer bytes than the range has.
        LessDataPlanned,
        /// Plans with a WAU of 1,025.
        Unit1025Planned,
        /// Refuses a WAU of 1,024.
        Unit1024Refused,
        /// Looks at WAU before it looks at the order of SAD and EAD.
        UnitBeforeRange,
        /// Looks at EAD before it looks at SAD for alignment.
        EndBeforeStart,
        /// Looks at the amount of data before it looks at alignment.
        AmountBeforeAlignment,
        /// Tests EAD instead of EAD + 1 for alignment in a plan.
        PlanAlignsEadItself,
        /// Takes EAD + 1 modulo 2 to the 32nd for alignment.
        PlannedEndWraps,
    }
}
