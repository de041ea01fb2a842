//! Deliberate errors of the model. A comparison that is worth its name catches each of them.

use std::cell::Cell;

/// An error that the model makes on demand.
#[derive(Clone, Copy, Debug, PartialEq, Eq)]
pub enum Breakage {
    /// The current-while timer is started by the partner's Timeout bit instead of ours.
    PartnersTimeout,
    /// `update_Selected` compares after `recordPDU`, and so sees no change.
    ComparesAfterRecording,
    /// EXPIRED records the default block.
    ExpiredRecordsDefault,
    /// DEFAULTED forces the partner's Synchronization.
    DefaultedForcesSynchronization,
    /// `update_NTT` compares the whole state octet.
    NttByWholeState,
    /// PORT_DISABLED clears Expired.
    PortDisabledClearsExpired,
    /// Displaced ports are found by the system address alone.
    DisplacedBySystemAlone,
    /// A changed partner Timeout is taken before a timer that ran out.
    TimeoutBeforeTimer,
    /// A record that rests in INITIALIZE or PERIODIC_TX takes the actions of that state once more before it goes on.
    RestingStatesAct,
    /// A timer above 0 does not fall at a tick in a state that does not use it.
    UnusedTimersStand,
    /// A waiting port attaches on its own timer, whatever the others of its aggregator do.
    OwnTimerForReady,
    /// Ports that hold another aggregator than the rule gives stay there.
    BystandersForgotten,
    /// A port takes its new aggregator without going down first.
    SelectsBeforeDetaching,
    /// DISTRIBUTING sets NTT.
    DistributingSetsNtt,
    /// A port whose own or whose partner's Aggregation is clear joins a group all the same.
    IndividualsAbsorbed,
    /// A port whose partner is this system joins a group.
    LoopbackForgotten,
    /// NTT is not cleared where both ends are passive.
    PassiveKeepsNtt,
    /// A send is forgotten when its age would reach 10, as before request M-101.
    AgeForgottenAtTen,
    /// A stored age of 11 is in range.
    AgeOfElevenAccepted,
    /// Answer 3 comes after the tests of the frame.
    BufferTestedAfterFrame,
    /// New settings record their default block at once.
    DefaultAppliedAtOnce,
    /// A Marker Response repeats the octets of the Marker from 30 on.
    ResponseRepeatsPadding,
    /// Link and duplex are two calls, as before request M-103, the duplex first: from up and full to down and half the partner is
    /// forgotten on the way.
    LineAsTwoCalls,
    /// The same with the link first: from down and half to up and full the partner is forgotten on the way.
    LinkBeforeDuplex,
    /// A port without a link is among those that have something to send.
    DueWithoutLink,
    /// So is a port at half duplex.
    DueAtHalfDuplex,
    /// So is a port that three sends bar.
    DueBeyondThreeSends,
    /// The octets lent behind a record are filled with zeros.
    ZerosBehindRecord,
    /// Memory that is too short for a whole record is left as it is.
    ShortRecordUnwritten,
    /// A port at half duplex is disabled to the Churn Detection machines.
    HalfDuplexDisables,
    /// A change of duplex on an up port is seen as a link that falls, and restarts the Churn Detection machines.
    DuplexRestartsMonitors,
    /// A port without a link that is in sync has no churn instead of being in MONITOR.
    SynchronizationBeforeDisabled,
    /// A churn timer runs while the link is down.
    MonitorRunsWhileDown,
    /// A link that falls takes the churn counts with it.
    LinkFallForgetsCount,
    /// So does a displaced port that begins anew.
    DisplacementForgetsCount,
    /// A start keeps the churn counts of the table that was in its memory.
    StartKeepsCounts,
    /// A churn timer that ran out is taken before Synchronization.
    ExpiryBeforeSynchronization,
    /// NO_CHURN leaves the churn timer running.
    MonitorTimerLeftRunning,
    /// A Churn Detection machine that stays in NO_CHURN or CHURN clears its timer.
    IdleMonitorClearsTimer,
    /// Churn is told after Short_Timeout_Time, as the text of 43.4.17 has it.
    ChurnAfterShortTimeout,
    /// CHURN is counted by every run of its machine, and not only where it is entered.
    ChurnCountedAtEveryRun,
    /// A churn count stays at its highest value.
    ChurnCountSaturates,
    /// A churn count wraps at 16 bits.
    ChurnCountOfSixteenBits,
    /// The partner's Churn Detection machine looks at our Synchronization.
    PartnerMonitorSeesOurs,
    /// The Churn Detection machines run on what stands before step 3.
    MonitorsBeforeStepThree,
    /// They run in a tick alone.
    MonitorsRunAtTicksAlone,
    /// A call on one port runs those of that port alone.
    MonitorsOfNamedPortAlone,
    /// The churn timers fall when a tick has done all else.
    ChurnTimersFallLast,
    /// Link and duplex as they were run the Churn Detection machines.
    RepeatedLineRunsMonitors,
    /// Settings as they were run them.
    RepeatedSettingsRunMonitors,
    /// A stored churn state of 3 is in range, and taken for CHURN.
    ChurnStateOf3Accepted,
    /// A stored churn timer of 601 is in range.
    ChurnTimerOf601Accepted,
    /// A table that goes forward takes over the churn counts that the target held.
    ForwardKeepsTargetsCounts,
    /// Its Churn Detection machines begin and do not run.
    ForwardRunsNoMonitors,
    /// The fields that the old form has not are filled with zeros: NO_CHURN everywhere.
    ForwardFillsZeros,
    /// The churn timers begin run out.
    ForwardTimersAtZero,
    /// A table that goes forward forgets the sends that it remembered.
    ForwardForgetsSends,
    /// It has an LACPDU due on every port.
    ForwardSetsNtt,
    /// Steps 3 to 6 come before the Churn Detection machines in a move too.
    ForwardSettles,
    /// The churn of each port is put behind its record.
    ForwardInterleavesChurn,
    /// Forward takes a table of the new form: it goes by the count alone.
    ForwardTakesTheNewForm,
    /// Forward takes records that are out of range.
    ForwardSkipsRecords,
    /// Back takes a table of the old form and gives it as it is.
    BackTakesTheOldForm,
    /// Back takes churn that is out of range, for it is dropped.
    BackSkipsMonitors,
    /// Back takes records that are out of range.
    BackSkipsRecords,
    /// Back drops octets behind each record, as if the churn of its port stood there.
    BackDropsInterleavedChurn,
    /// A move takes a target that is too long, and writes the beginning of it.
    LongTargetAccepted,
    /// A move takes a target that is too short, and writes as much as fits.
    ShortTargetAccepted,
    /// A refused move fills the target with zeros.
    RefusedMoveWritesTarget,
    /// There is an old size for a count outside 1 to 32.
    OldSizeOfAnyCount,
    /// A Marker Response (answer 12) counts as a Marker.
    ResponseCountedAsMarker,
    /// A Marker on a port that does not collect (9) counts nowhere.
    RefusedMarkerUncounted,
    /// An LACPDU while LACP is off (5) counts nowhere.
    RefusedLacpduUncounted,
    /// A frame that is not for this part (6) counts as unknown.
    ForeignCountedAsUnknown,
    /// An unknown frame (7) counts as illegal.
    UnknownCountedAsIllegal,
    /// An illegal frame (8) counts as unknown.
    IllegalCountedAsUnknown,
    /// A frame for whose answer the buffer is too short (3) counts.
    ShortBufferCounted,
    /// A frame counts where the memory is no table (1).
    NoTableCounted,
    /// A frame counts where there is no such port (2).
    NoPortCounted,
    /// The Response to a Marker is not counted as sent.
    SentResponseUncounted,
    /// A Marker that is refused counts as answered too.
    UnsentResponseCounted,
    /// A refused fetch counts as an LACPDU sent.
    RefusedFetchCounted,
    /// A counter stays at its highest value.
    CounterSaturates,
    /// A counter wraps at 16 bits.
    CounterOfSixteenBits,
    /// A counter that wraps carries into the next of the record.
    CounterCarries,
    /// A Response is accepted whatever port it names.
    ResponsePortUncompared,
    /// A Response is accepted whatever system it names.
    ResponseSystemUncompared,
    /// A Response is accepted whatever transaction it names.
    ResponseTransactionUncompared,
    /// Only the low 16 bits of the transaction are compared.
    ResponseTransactionOfSixteenBits,
    /// A Response that a port awaits is accepted on any other.
    ResponseAcceptedOnAnyPort,
    /// A Response that is awaited is refused on a port that does not distribute.
    ResponseRefusedUnlessDistributing,
    /// So long as no other Marker is asked for, each copy of its Response is accepted.
    SecondCopyAccepted,
    /// A Response is accepted after the waiting time.
    LateResponseAccepted,
    /// A Response is accepted after its link fell.
    ResponseAcceptedAfterFall,
    /// An accepted Response counts nowhere.
    AcceptedResponseUncounted,
    /// An accepted Response is answered.
    AcceptedResponseSends,
    /// An accepted Response runs the machines.
    AcceptedResponseRunsMachines,
    /// An ask runs the machines.
    AskRunsMachines,
    /// An ask uses no number.
    NumberStands,
    /// The number of the next transaction stays at its highest value.
    NumberSaturates,
    /// The number of the next transaction wraps at 16 bits.
    NumberOfSixteenBits,
    /// A refused ask uses a number.
    RefusedAskTakesNumber,
    /// A port that only collects is asked for a Marker.
    AskedWhileCollecting,
    /// A port that awaits a Response is asked for another Marker.
    AskedWhileAwaiting,
    /// Answer 14 comes before 13.
    AwaitingTestedFirst,
    /// Answer 4 comes before 3.
    WaitTestedBeforeBuffer,
    /// Answer 4 comes after 13 and 14.
    WaitTestedLast,
    /// A waiting time of 0 is accepted.
    WaitOfZeroAccepted,
    /// A waiting time of 601 is accepted.
    WaitOf601Accepted,
    /// Only the low 16 bits of a waiting time are looked at.
    WaitOfSixteenBits,
    /// A Marker times out one tick after its waiting time.
    WaitEndsATickLate,
    /// The timer runs on when a Marker has ended.
    EndLeavesTimer,
    /// A change of duplex on an up port cancels no Marker.
    DuplexCancelsNothing,
    /// A change of link or duplex on a down port cancels one.
    DownPortCancels,
    /// Link and duplex as they were cancel one.
    RepeatedLineCancels,
    /// A link that falls cancels what has ended too.
    LinkFallForgetsOutcome,
    /// A port that leaves DISTRIBUTING cancels its Marker.
    LeavingDistributingCancels,
    /// Other settings cancel one.
    SettingsCancel,
    /// The source of a Marker is the system address.
    MarkerFromSystemAddress,
    /// A Marker names the transaction after its own.
    MarkerNamesNextTransaction,
    /// A Marker names the partner's system.
    MarkerNamesPartnersSystem,
    /// A start keeps the numbers of the table that was in its memory.
    StartKeepsNumbers,
    /// A start keeps what became of its Markers.
    StartKeepsOutcome,
    /// A table that goes forward forgets its Markers.
    ForwardForgetsAsks,
    /// So does a table that goes back.
    BackForgetsAsks,
    /// Forward takes Markers that are out of range.
    ForwardSkipsAsks,
    /// So does back.
    BackSkipsAsks,
    /// A stored outcome of 5 is in range, and taken for cancelled.
    OutcomeOf5Accepted,
    /// A stored waiting time of 601 is in range.
    WaitTimerOf601Accepted,
    /// A Marker that is awaited with its timer at 0 is out of range.
    AwaitingAtZeroRefused,
    /// The cause that the link is down is tried before those of a port that distributes.
    LinkDownBeforeCarries,
    /// Half duplex is tried before whether the port distributes on its settings alone.
    HalfDuplexBeforeCarriesByDefault,
    /// Half duplex is tried before the link.
    HalfDuplexBeforeLinkDown,
    /// DEFAULTED is tried before half duplex.
    DefaultedBeforeHalfDuplex,
    /// A wait timer that runs is tried before DEFAULTED.
    WaitsBeforeDefaulted,
    /// It is tried before EXPIRED.
    WaitsBeforeExpired,
    /// Whether another port holds back is tried before the port's own wait.
    HeldBackBeforeWaits,
    /// The partner's Synchronization is tried before whether another port holds back.
    OutOfSyncBeforeHeldBack,
    /// The partner's Collecting is tried before its Synchronization.
    NotCollectingBeforeOutOfSync,
    /// A port that distributes by the default block in DEFAULTED is said to do so by its partner's word.
    DefaultTakenForPartner,
    /// A port that distributes with LACP off is said to.
    LacpOffTakenForPartner,
    /// Whether a port distributes on its settings alone is read from its bit Defaulted: another answer only in memory that no run makes.
    SettingsAloneByBit,
    /// That no partner is heard is read from the port's bit Defaulted, which is set while a link that has just come up waits to hear one.
    DefaultedByBit,
    /// A port is said to wait by its timer, whatever its Mux state.
    WaitsByItsTimerAlone,
    /// A port is said to wait by its Mux state, whatever its timer.
    WaitsByItsStateAlone,
    /// A port is said to be held back whatever its Mux state.
    HeldBackInAnyState,
    /// Out of sync is said by our own Synchronization.
    OwnSynchronizationForPartners,
    /// Not collecting is said by the partner's Distributing.
    DistributingForCollecting,
    /// A port that waits for another aggregator holds back.
    HolderOfAnyAggregator,
    /// A port whose wait timer runs outside WAITING holds back.
    HolderInAnyState,
    /// The lowest port that holds back is named, not the one with the most ticks left.
    HolderIsTheFirst,
    /// The highest of several with the most ticks left is named.
    HolderIsTheHighest,
    /// The port that holds back is not named.
    HolderUnnamed,
    /// A port that is held back is given the ticks of its own timer.
    HeldBackWithOwnTicks,
    /// A port that holds back is named beside other causes too.
    HolderBesideAnyCause,
    /// The ticks of the port's own timer stand beside other causes too.
    TicksBesideAnyCause,
    /// A refused why writes no number.
    RefusedWhyUnwritten,
    /// A why of a port that no table has is answered 2 before the table is looked at.
    PortTestedBeforeTable,
    /// The bit of own keys is that of the partners' keys, and the other way round.
    KeysExchanged,
    /// What the first port is individual for is said of the second, and the other way round.
    FirstAndSecondExchanged,
    /// Where the first port is individual, nothing is said of the second.
    OneIndividualIsEnough,
    /// Where a port is individual, nothing is compared.
    IndividualHidesTheRest,
    /// An individual port is apart from itself.
    PortApartFromItself,
    /// The partners' system priorities and addresses are compared as one.
    PriorityAndAddressAsOne,
    /// A partner with our address is taken for us, whatever its system priority.
    LoopedByAddressAlone,
    /// A partner with our system priority is taken for us, whatever its address.
    LoopedByPriorityAlone,
    /// The partner's Aggregation is read from our own state.
    OwnAggregationForPartners,
    /// The default blocks are compared, not the partners in force.
    DefaultsCompared,
    /// Of a port without link the default block is compared.
    DownPortByDefault,
    /// Port priorities are compared with the keys.
    PortPrioritiesCompared,
    /// A refused apart writes no set.
    RefusedApartUnwritten,
    /// A first port that there is not is answered 0.
    FirstPortUntested,
    /// A second port that there is not is answered 0.
    SecondPortUntested,
}

impl Breakage {
    /// Every breakage, with the name by which it is asked for.
    pub const ALL: [(&'static str, Breakage); 173] = [
        ("partners-timeout", Breakage::PartnersTimeout),
        ("compares-after-recording", Breakage::ComparesAfterRecording),
        ("expired-records-default", Breakage::ExpiredRecordsDefault),
        ("defaulted-forces-synchronization", Breakage::DefaultedForcesSynchronization),
        ("ntt-by-whole-state", Breakage::NttByWholeState),
        ("port-disabled-clears-expired", Breakage::PortDisabledClearsExpired),
        ("displaced-by-system-alone", Breakage::DisplacedBySystemAlone),
        ("timeout-before-timer", Breakage::TimeoutBeforeTimer),
        ("resting-states-act", Breakage::RestingStatesAct),
        ("unused-timers-stand", Breakage::UnusedTimersStand),
        ("own-timer-for-ready", Breakage::OwnTimerForReady),
        ("bystanders-forgotten", Breakage::BystandersForgotten),
        ("selects-before-detaching", Breakage::SelectsBeforeDetaching),
        ("distributing-sets-ntt", Breakage::DistributingSetsNtt),
        ("individuals-absorbed", Breakage::IndividualsAbsorbed),
        ("loopback-forgotten", Breakage::LoopbackForgotten),
        ("passive-keeps-ntt", Breakage::PassiveKeepsNtt),
        ("age-forgotten-at-ten", Breakage::AgeForgottenAtTen),
        ("age-of-eleven-accepted", Breakage::AgeOfElevenAccepted),
        ("buffer-tested-after-frame", Breakage::BufferTestedAfterFrame),
        ("default-applied-at-once", Breakage::DefaultAppliedAtOnce),
        ("response-repeats-padding", Breakage::ResponseRepeatsPadding),
        ("line-as-two-calls", Breakage::LineAsTwoCalls),
        ("link-before-duplex", Breakage::LinkBeforeDuplex),
        ("due-without-link", Breakage::DueWithoutLink),
        ("due-at-half-duplex", Breakage::DueAtHalfDuplex),
        ("due-beyond-three-sends", Breakage::DueBeyondThreeSends),
        ("zeros-behind-record", Breakage::ZerosBehindRecord),
        ("short-record-unwritten", Breakage::ShortRecordUnwritten),
        ("half-duplex-disables", Breakage::HalfDuplexDisables),
        ("duplex-restarts-monitors", Breakage::DuplexRestartsMonitors),
        ("synchronization-before-disabled", Breakage::SynchronizationBeforeDisabled),
        ("monitor-runs-while-down", Breakage::MonitorRunsWhileDown),
        ("link-fall-forgets-count", Breakage::LinkFallForgetsCount),
        ("displacement-forgets-count", Breakage::DisplacementForgetsCount),
        ("start-keeps-counts", Breakage::StartKeepsCounts),
        ("expiry-before-synchronization", Breakage::ExpiryBeforeSynchronization),
        ("monitor-timer-left-running", Breakage::MonitorTimerLeftRunning),
        ("idle-monitor-clears-timer", Breakage::IdleMonitorClearsTimer),
        ("churn-after-short-timeout", Breakage::ChurnAfterShortTimeout),
        ("churn-counted-at-every-run", Breakage::ChurnCountedAtEveryRun),
        ("churn-count-saturates", Breakage::ChurnCountSaturates),
        ("churn-count-of-sixteen-bits", Breakage::ChurnCountOfSixteenBits),
        ("partner-monitor-sees-ours", Breakage::PartnerMonitorSeesOurs),
        ("monitors-before-step-three", Breakage::MonitorsBeforeStepThree),
        ("monitors-run-at-ticks-alone", Breakage::MonitorsRunAtTicksAlone),
        ("monitors-of-named-port-alone", Breakage::MonitorsOfNamedPortAlone),
        ("churn-timers-fall-last", Breakage::ChurnTimersFallLast),
        ("repeated-line-runs-monitors", Breakage::RepeatedLineRunsMonitors),
        ("repeated-settings-run-monitors", Breakage::RepeatedSettingsRunMonitors),
        ("churn-state-of-3-accepted", Breakage::ChurnStateOf3Accepted),
        ("churn-timer-of-601-accepted", Breakage::ChurnTimerOf601Accepted),
        ("forward-keeps-targets-counts", Breakage::ForwardKeepsTargetsCounts),
        ("forward-runs-no-monitors", Breakage::ForwardRunsNoMonitors),
        ("forward-fills-zeros", Breakage::ForwardFillsZeros),
        ("forward-timers-at-zero", Breakage::ForwardTimersAtZero),
        ("forward-forgets-sends", Breakage::ForwardForgetsSends),
        ("forward-sets-ntt", Breakage::ForwardSetsNtt),
        ("forward-settles", Breakage::ForwardSettles),
        ("forward-interleaves-churn", Breakage::ForwardInterleavesChurn),
        ("forward-takes-the-new-form", Breakage::ForwardTakesTheNewForm),
        ("forward-skips-records", Breakage::ForwardSkipsRecords),
        ("back-takes-the-old-form", Breakage::BackTakesTheOldForm),
        ("back-skips-monitors", Breakage::BackSkipsMonitors),
        ("back-skips-records", Breakage::BackSkipsRecords),
        ("back-drops-interleaved-churn", Breakage::BackDropsInterleavedChurn),
        ("long-target-accepted", Breakage::LongTargetAccepted),
        ("short-target-accepted", Breakage::ShortTargetAccepted),
        ("refused-move-writes-target", Breakage::RefusedMoveWritesTarget),
        ("old-size-of-any-count", Breakage::OldSizeOfAnyCount),
        ("response-counted-as-marker", Breakage::ResponseCountedAsMarker),
        ("refused-marker-uncounted", Breakage::RefusedMarkerUncounted),
        ("refused-lacpdu-uncounted", Breakage::RefusedLacpduUncounted),
        ("foreign-counted-as-unknown", Breakage::ForeignCountedAsUnknown),
        ("unknown-counted-as-illegal", Breakage::UnknownCountedAsIllegal),
        ("illegal-counted-as-unknown", Breakage::IllegalCountedAsUnknown),
        ("short-buffer-counted", Breakage::ShortBufferCounted),
        ("no-table-counted", Breakage::NoTableCounted),
        ("no-port-counted", Breakage::NoPortCounted),
        ("sent-response-uncounted", Breakage::SentResponseUncounted),
        ("unsent-response-counted", Breakage::UnsentResponseCounted),
        ("refused-fetch-counted", Breakage::RefusedFetchCounted),
        ("counter-saturates", Breakage::CounterSaturates),
        ("counter-of-sixteen-bits", Breakage::CounterOfSixteenBits),
        ("counter-carries", Breakage::CounterCarries),
        ("response-port-uncompared", Breakage::ResponsePortUncompared),
        ("response-system-uncompared", Breakage::ResponseSystemUncompared),
        ("response-transaction-uncompared", Breakage::ResponseTransactionUncompared),
        ("response-transaction-of-sixteen-bits", Breakage::ResponseTransactionOfSixteenBits),
        ("response-accepted-on-any-port", Breakage::ResponseAcceptedOnAnyPort),
        ("response-refused-unless-distributing", Breakage::ResponseRefusedUnlessDistributing),
        ("second-copy-accepted", Breakage::SecondCopyAccepted),
        ("late-response-accepted", Breakage::LateResponseAccepted),
        ("response-accepted-after-fall", Breakage::ResponseAcceptedAfterFall),
        ("accepted-response-uncounted", Breakage::AcceptedResponseUncounted),
        ("accepted-response-sends", Breakage::AcceptedResponseSends),
        ("accepted-response-runs-machines", Breakage::AcceptedResponseRunsMachines),
        ("ask-runs-machines", Breakage::AskRunsMachines),
        ("number-stands", Breakage::NumberStands),
        ("number-saturates", Breakage::NumberSaturates),
        ("number-of-sixteen-bits", Breakage::NumberOfSixteenBits),
        ("refused-ask-takes-number", Breakage::RefusedAskTakesNumber),
        ("asked-while-collecting", Breakage::AskedWhileCollecting),
        ("asked-while-awaiting", Breakage::AskedWhileAwaiting),
        ("awaiting-tested-first", Breakage::AwaitingTestedFirst),
        ("wait-tested-before-buffer", Breakage::WaitTestedBeforeBuffer),
        ("wait-tested-last", Breakage::WaitTestedLast),
        ("wait-of-zero-accepted", Breakage::WaitOfZeroAccepted),
        ("wait-of-601-accepted", Breakage::WaitOf601Accepted),
        ("wait-of-sixteen-bits", Breakage::WaitOfSixteenBits),
        ("wait-ends-a-tick-late", Breakage::WaitEndsATickLate),
        ("end-leaves-timer", Breakage::EndLeavesTimer),
        ("duplex-cancels-nothing", Breakage::DuplexCancelsNothing),
        ("down-port-cancels", Breakage::DownPortCancels),
        ("repeated-line-cancels", Breakage::RepeatedLineCancels),
        ("link-fall-forgets-outcome", Breakage::LinkFallForgetsOutcome),
        ("leaving-distributing-cancels", Breakage::LeavingDistributingCancels),
        ("settings-cancel", Breakage::SettingsCancel),
        ("marker-from-system-address", Breakage::MarkerFromSystemAddress),
        ("marker-names-next-transaction", Breakage::MarkerNamesNextTransaction),
        ("marker-names-partners-system", Breakage::MarkerNamesPartnersSystem),
        ("start-keeps-numbers", Breakage::StartKeepsNumbers),
        ("start-keeps-outcome", Breakage::StartKeepsOutcome),
        ("forward-forgets-asks", Breakage::ForwardForgetsAsks),
        ("back-forgets-asks", Breakage::BackForgetsAsks),
        ("forward-skips-asks", Breakage::ForwardSkipsAsks),
        ("back-skips-asks", Breakage::BackSkipsAsks),
        ("outcome-of-5-accepted", Breakage::OutcomeOf5Accepted),
        ("wait-timer-of-601-accepted", Breakage::WaitTimerOf601Accepted),
        ("awaiting-at-zero-refused", Breakage::AwaitingAtZeroRefused),
        ("link-down-before-carries", Breakage::LinkDownBeforeCarries),
        ("half-duplex-before-carries-by-default", Breakage::HalfDuplexBeforeCarriesByDefault),
        ("half-duplex-before-link-down", Breakage::HalfDuplexBeforeLinkDown),
        ("defaulted-before-half-duplex", Breakage::DefaultedBeforeHalfDuplex),
        ("waits-before-defaulted", Breakage::WaitsBeforeDefaulted),
        ("waits-before-expired", Breakage::WaitsBeforeExpired),
        ("held-back-before-waits", Breakage::HeldBackBeforeWaits),
        ("out-of-sync-before-held-back", Breakage::OutOfSyncBeforeHeldBack),
        ("not-collecting-before-out-of-sync", Breakage::NotCollectingBeforeOutOfSync),
        ("default-taken-for-partner", Breakage::DefaultTakenForPartner),
        ("lacp-off-taken-for-partner", Breakage::LacpOffTakenForPartner),
        ("settings-alone-by-bit", Breakage::SettingsAloneByBit),
        ("defaulted-by-bit", Breakage::DefaultedByBit),
        ("waits-by-its-timer-alone", Breakage::WaitsByItsTimerAlone),
        ("waits-by-its-state-alone", Breakage::WaitsByItsStateAlone),
        ("held-back-in-any-state", Breakage::HeldBackInAnyState),
        ("own-synchronization-for-partners", Breakage::OwnSynchronizationForPartners),
        ("distributing-for-collecting", Breakage::DistributingForCollecting),
        ("holder-of-any-aggregator", Breakage::HolderOfAnyAggregator),
        ("holder-in-any-state", Breakage::HolderInAnyState),
        ("holder-is-the-first", Breakage::HolderIsTheFirst),
        ("holder-is-the-highest", Breakage::HolderIsTheHighest),
        ("holder-unnamed", Breakage::HolderUnnamed),
        ("held-back-with-own-ticks", Breakage::HeldBackWithOwnTicks),
        ("holder-beside-any-cause", Breakage::HolderBesideAnyCause),
        ("ticks-beside-any-cause", Breakage::TicksBesideAnyCause),
        ("refused-why-unwritten", Breakage::RefusedWhyUnwritten),
        ("port-tested-before-table", Breakage::PortTestedBeforeTable),
        ("keys-exchanged", Breakage::KeysExchanged),
        ("first-and-second-exchanged", Breakage::FirstAndSecondExchanged),
        ("one-individual-is-enough", Breakage::OneIndividualIsEnough),
        ("individual-hides-the-rest", Breakage::IndividualHidesTheRest),
        ("port-apart-from-itself", Breakage::PortApartFromItself),
        ("priority-and-address-as-one", Breakage::PriorityAndAddressAsOne),
        ("looped-by-address-alone", Breakage::LoopedByAddressAlone),
        ("looped-by-priority-alone", Breakage::LoopedByPriorityAlone),
        ("own-aggregation-for-partners", Breakage::OwnAggregationForPartners),
        ("defaults-compared", Breakage::DefaultsCompared),
        ("down-port-by-default", Breakage::DownPortByDefault),
        ("port-priorities-compared", Breakage::PortPrioritiesCompared),
        ("refused-apart-unwritten", Breakage::RefusedApartUnwritten),
        ("first-port-untested", Breakage::FirstPortUntested),
        ("second-port-untested", Breakage::SecondPortUntested),
    ];

    /// The breakage of that name.
    pub fn named(name: &str) -> Option<Breakage> {
        Breakage::ALL.iter().find(|(n, _)| *n == name).map(|(_, breakage)| *breakage)
    }
}

thread_local! {
    static IN_FORCE: Cell<Option<Breakage>> = const { Cell::new(None) };
}

/// From now on this thread's model makes that error, or none.
pub fn set(breakage: Option<Breakage>) {
    IN_FORCE.set(breakage);
}

/// The error that the model is to make.
pub(crate) fn in_force() -> Option<Breakage> {
    if cfg!(feature = "breakages") {
        IN_FORCE.get()
    } else {
        None
    }
}

/// Whether the model is to make that error.
pub(crate) fn is(breakage: Breakage) -> bool {
    in_force() == Some(breakage)
}
