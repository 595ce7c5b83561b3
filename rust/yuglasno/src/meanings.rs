//! The meanings of the answers' numbers, in a line each: one table, for whoever shows it.

/// Every number that an answer has, with its meaning: 0 to 17 and 21 of a session, 18 of the reader of
/// requests, 19 of an index, 20 of the writer of replies, 22 and 23 of a table of ids, 24 of hours, 25 of a session that has some.
///
/// ```
/// let (number, text) = yuglasno::MEANINGS[12];
/// assert_eq!((number, text), (12, "the channel is closed"));
/// ```
pub const MEANINGS: [(u32, &str); 26] = [
    (0, "done"),
    (1, "the receive buffer is under 8 bytes"),
    (2, "the message buffer is shorter than the receive buffer"),
    (3, "a buffer, or a pending call's path or data, has another length than before"),
    (4, "a call while another one is pending"),
    (5, "a report that is not awaited"),
    (6, "a call or a report after quit"),
    (7, "a path over 1,024 bytes"),
    (8, "a NUL in the path"),
    (9, "flags that no transfer of this kind takes"),
    (10, "the panel lacks the feature that the call needs; the feature's number comes along"),
    (11, "a read of no bytes, or of more than was asked for; the session still waits"),
    (12, "the channel is closed"),
    (13, "the channel failed; the system's code for it comes along (110: no answer in time)"),
    (14, "the panel refused, with a text of its own"),
    (15, "the panel sent a message that does not belong there; its id comes along"),
    (16, "the panel could not look at the file; its errno comes along (2: no such file or folder)"),
    (17, "a reply is larger than the receive buffer"),
    (18, "the bytes are no request of a host"),
    (19, "the index has no room for an entry; it is as it was before that entry"),
    (20, "the reply does not fit: the buffer can't hold it, its data is over 65,536 bytes, or its name or text has 2^32 bytes or more; nothing is written"),
    (21, "a read or a write would take a total of bytes, or a call's reads, past 2^64 - 1; it is not counted, and the session still waits"),
    (22, "a file, or the settings of an opening, is no table of ids; the old table stays"),
    (23, "two ids of the table are equal; the old table stays"),
    (24, "bad hours, in a file or in the settings of an opening; the old hours stay"),
    (25, "a push outside the hours in which one may start; nothing is written"),
];

/// The meaning of an answer's number; `None` for a number that no answer has.
///
/// ```
/// assert_eq!(yuglasno::meaning(8), Some("a NUL in the path"));
/// assert_eq!(yuglasno::meaning(26), None);
/// ```
pub fn meaning(number: u32) -> Option<&'static str> {
    MEANINGS.iter().find(|(each, _)| *each == number).map(|(_, text)| *text)
}
