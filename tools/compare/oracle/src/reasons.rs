//! The reason texts of `session.rs`, numbered from 1 in source order, equal texts once.

/// The highest number.
pub const LAST: usize = 41;

/// Text number n stands at place n - 1.
const TEXTS: [&str; LAST] = [
    "it arrived after the counterparty's Terminate",
    "Context for another session: multiplexed transports are not supported",
    "UnsequencedHeartbeat on a sequenced flow",
    "NotApplied for a flow that is not Idempotent",
    "Topic is a multicast message",
    "FinishedReceiving without a FinishedSending",
    "retransmitted sequence numbers overflow",
    "application message after FinishedSending",
    "application message on a None flow",
    "application message after a retransmission without a Sequence",
    "application message before any Sequence",
    "inbound sequence numbers exhausted",
    "Sequence or Context on an unsequenced flow",
    "NextSeqNo of zero",
    "NextSeqNo past the LastSeqNo of FinishedSending",
    "sequence gap larger than max_gap_len",
    "NextSeqNo lower than expected",
    "too many unrecovered sequence gaps",
    "sequence gap too large for a NotApplied",
    "session clock out of range",
    "Retransmission on a flow that is not Recoverable",
    "Retransmission for another session",
    "Retransmission without a RetransmitRequest",
    "Retransmission answers another request",
    "Retransmission outside the requested range",
    "it answers no outstanding RetransmitRequest",
    "this side has sent its Terminate",
    "RetransmitRequest to a flow that is not Recoverable",
    "unknown session",
    "RetransmitRequest while a retransmission is in progress",
    "empty range",
    "count exceeds the retransmission limit",
    "range not yet sent",
    "Terminate for another session",
    "FinishedSending for another session",
    "FinishedSending without LastSeqNo on a sequenced flow",
    "LastSeqNo out of range",
    "LastSeqNo below the messages already received",
    "outbound sequence numbers exhausted",
    "keepalive interval lapsed",
    "retransmission stalled",
];

/// The number of a text. A text in no row means that the source has changed.
pub fn number(text: &str) -> u8 {
    let place = TEXTS
        .iter()
        .position(|row| *row == text)
        .unwrap_or_else(|| panic!("{text:?} is in no row of the reason table"));
    u8::try_from(place + 1).expect("there are 41 rows")
}

/// The text with this number.
pub fn text(number: usize) -> &'static str {
    TEXTS[number - 1]
}
