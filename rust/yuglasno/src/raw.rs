//! The static library's seventeen functions, and safe ones of the same shape over them. The only file with `unsafe`.
//!
//! A slice crosses as its address and its length. The library keeps no pointer: it reads and writes within the
//! slices that a call lends it, and only until the call returns. Each function answers every input.
use crate::totals::Totals;

#[allow(unsafe_code)]
mod linked {
    extern "C" {
        pub fn yuglasno_settings(settings: *mut u8, settings_len: usize) -> u32;
        pub fn yuglasno_ids(settings: *mut u8, settings_len: usize, file: *const u8, file_len: usize) -> u32;
        pub fn yuglasno_hours(settings: *mut u8, settings_len: usize, file: *const u8, file_len: usize) -> u32;
        pub fn yuglasno_may_push(settings: *const u8, settings_len: usize, moment: u32) -> u32;
        pub fn yuglasno_date(moment: u32, out: *mut u8, out_len: usize) -> u32;
        pub fn yuglasno_open(
            rec: *mut u8, rec_len: usize, settings: *const u8, settings_len: usize, banner: *const u8, banner_len: usize,
            rx: usize, msg: usize,
        ) -> u32;
        pub fn yuglasno_start(
            rec: *mut u8, rec_len: usize, rx: *mut u8, rx_len: usize, msg: *mut u8, msg_len: usize,
            lent: *const u8, lent_len: usize, call: u32, a: u32, b: u32, moment: u32, out: *mut u8, out_len: usize,
        ) -> u32;
        pub fn yuglasno_read(
            rec: *mut u8, rec_len: usize, rx: *mut u8, rx_len: usize, msg: *mut u8, msg_len: usize,
            lent: *const u8, lent_len: usize, count: usize, out: *mut u8, out_len: usize,
        ) -> u32;
        pub fn yuglasno_wrote(
            rec: *mut u8, rec_len: usize, rx: *mut u8, rx_len: usize, msg: *mut u8, msg_len: usize,
            lent: *const u8, lent_len: usize, out: *mut u8, out_len: usize,
        ) -> u32;
        pub fn yuglasno_fault(
            rec: *mut u8, rec_len: usize, rx: *mut u8, rx_len: usize, msg: *mut u8, msg_len: usize,
            lent: *const u8, lent_len: usize, kind: u32, code: u32, out: *mut u8, out_len: usize,
        ) -> u32;
        pub fn yuglasno_index_open(slots: *mut u8, slots_len: usize, area: usize) -> u32;
        pub fn yuglasno_index_add(
            slots: *mut u8, slots_len: usize, area: *mut u8, area_len: usize, told: u32, reply: *const u8, reply_len: usize,
            rx: *const u8, rx_len: usize,
        ) -> u32;
        pub fn yuglasno_index_between(
            slots: *const u8, slots_len: usize, area: usize, from: i64, to: i64, out: *mut u8, out_len: usize,
        ) -> u32;
        pub fn yuglasno_index_latest(
            slots: *const u8, slots_len: usize, area: usize, time: i64, out: *mut u8, out_len: usize,
        ) -> u32;
        pub fn yuglasno_index_entry(
            slots: *const u8, slots_len: usize, area: usize, rank: usize, out: *mut u8, out_len: usize,
        ) -> u32;
        pub fn yuglasno_speak(
            settings: *const u8, settings_len: usize, kind: u32, numbers: *const u8, numbers_len: usize,
            lent: *const u8, lent_len: usize, out: *mut u8, out_len: usize, told: *mut u8, told_len: usize,
        ) -> u32;
        pub fn yuglasno_heard(
            settings: *const u8, settings_len: usize, bytes: *const u8, bytes_len: usize, out: *mut u8, out_len: usize,
        ) -> u32;
    }
}

/// The length of a record.
pub const RECORD: usize = 328;
/// The length of settings.
pub const SETTINGS: usize = 128;
/// The length of a slice that takes any reply.
pub const REPLY: usize = 120;
/// The length of an index's slots.
pub const SLOTS: usize = 65568;
/// The length of hours, as they stand in settings and in a record.
pub const HOURS_SIZE: usize = 32;
/// Where settings have their hours.
pub const HOURS_IN_SETTINGS: usize = 60;
/// Where a record has its session's.
pub const HOURS_IN_RECORD: usize = 296;

/// How many bytes the read that is asked for still wants: the record's number 9, where tail meets the need, less number 3,
/// the tail. 0 where no read is asked for.
#[inline]
pub fn wanted(rec: &[u8; RECORD]) -> usize {
    let number = |i: usize| number(rec, i);
    number(9).saturating_sub(number(3)) as usize
}

/// The totals of the session in a record, which a host may read between any two calls: the record's numbers 32 to 34.
pub fn totals(rec: &[u8; RECORD]) -> Totals {
    Totals { received: number(rec, 32), consumed: number(rec, 33), written: number(rec, 34) }
}

/// How many reads were accepted in the call that is pending, or in the one that was over last: the record's number 36.
pub fn reads(rec: &[u8; RECORD]) -> u64 {
    number(rec, 36)
}

/// How many reads the answer in a reply tells: those of the call that is over, 0 of a refusal. The reply's number 14.
pub fn told_reads(out: &[u8; REPLY]) -> u64 {
    number(out, 14)
}

/// The `i`-th number of a record or a reply.
#[inline]
fn number(bytes: &[u8], i: usize) -> u64 {
    u64::from_le_bytes(bytes[8 * i..8 * i + 8].try_into().expect("eight bytes"))
}

/// Makes `settings` the published ones: 0, or 3 for another length than [`SETTINGS`].
pub fn settings(settings: &mut [u8]) -> u32 {
    unsafe { linked::yuglasno_settings(settings.as_mut_ptr(), settings.len()) }
}

/// Puts the ids of a file into `settings`: 0; or, with `settings` left alone, 3 for settings of another length, 22 for a file of another
/// form, 23 for one with two equal ids.
pub fn ids(settings: &mut [u8], file: &[u8]) -> u32 {
    unsafe { linked::yuglasno_ids(settings.as_mut_ptr(), settings.len(), file.as_ptr(), file.len()) }
}

/// Puts the hours of a file into `settings`: 0; or, with `settings` left alone, 3 for settings of another length, 24 for a file of another
/// form.
pub fn hours(settings: &mut [u8], file: &[u8]) -> u32 {
    unsafe { linked::yuglasno_hours(settings.as_mut_ptr(), settings.len(), file.as_ptr(), file.len()) }
}

/// Whether the hours in `settings` let a push start at this moment: 0, or 25; 3 for settings of another length, 24 for settings whose hours no
/// file could have brought there.
pub fn may_push(settings: &[u8], moment: u32) -> u32 {
    unsafe { linked::yuglasno_may_push(settings.as_ptr(), settings.len(), moment) }
}

/// Writes the date of a moment, in UTC: year, month, day, weekday from Monday's 0 on, minute of the day. 0, or 3 for too short a reply.
pub fn date(moment: u32, out: &mut [u8]) -> u32 {
    unsafe { linked::yuglasno_date(moment, out.as_mut_ptr(), out.len()) }
}

/// Opens a session in `rec`, for buffers of these lengths: 0, or the answer 1 or 2, or 3 for a record or settings of another length, or 22
/// or 23 for settings whose ids no file could have brought there, then 24 for such hours.
pub fn open(rec: &mut [u8], settings: &[u8], banner: &[u8], rx: usize, msg: usize) -> u32 {
    unsafe {
        linked::yuglasno_open(
            rec.as_mut_ptr(), rec.len(), settings.as_ptr(), settings.len(), banner.as_ptr(), banner.len(), rx, msg,
        )
    }
}

/// Starts call number `call`; `a` is a push's mode or send_done's time, `b` the flags, `moment` when a push starts.
#[allow(clippy::too_many_arguments)]
pub fn start(
    rec: &mut [u8], rx: &mut [u8], msg: &mut [u8], lent: &[u8], call: u32, a: u32, b: u32, moment: u32, out: &mut [u8],
) -> u32 {
    unsafe {
        linked::yuglasno_start(
            rec.as_mut_ptr(), rec.len(), rx.as_mut_ptr(), rx.len(), msg.as_mut_ptr(), msg.len(),
            lent.as_ptr(), lent.len(), call, a, b, moment, out.as_mut_ptr(), out.len(),
        )
    }
}

/// Reports that `count` bytes were read into the window.
pub fn read(rec: &mut [u8], rx: &mut [u8], msg: &mut [u8], lent: &[u8], count: usize, out: &mut [u8]) -> u32 {
    unsafe {
        linked::yuglasno_read(
            rec.as_mut_ptr(), rec.len(), rx.as_mut_ptr(), rx.len(), msg.as_mut_ptr(), msg.len(),
            lent.as_ptr(), lent.len(), count, out.as_mut_ptr(), out.len(),
        )
    }
}

/// Reports that the write or the close was accepted.
pub fn wrote(rec: &mut [u8], rx: &mut [u8], msg: &mut [u8], lent: &[u8], out: &mut [u8]) -> u32 {
    unsafe {
        linked::yuglasno_wrote(
            rec.as_mut_ptr(), rec.len(), rx.as_mut_ptr(), rx.len(), msg.as_mut_ptr(), msg.len(),
            lent.as_ptr(), lent.len(), out.as_mut_ptr(), out.len(),
        )
    }
}

/// Reports a fault of what was asked for: kind 0 closed, any other an error with its code.
#[allow(clippy::too_many_arguments)]
pub fn fault(rec: &mut [u8], rx: &mut [u8], msg: &mut [u8], lent: &[u8], kind: u32, code: u32, out: &mut [u8]) -> u32 {
    unsafe {
        linked::yuglasno_fault(
            rec.as_mut_ptr(), rec.len(), rx.as_mut_ptr(), rx.len(), msg.as_mut_ptr(), msg.len(),
            lent.as_ptr(), lent.len(), kind, code, out.as_mut_ptr(), out.len(),
        )
    }
}

/// Makes `slots` an index that holds nothing, for an area of this length: 0, or 3 for another length than [`SLOTS`].
pub fn index_open(slots: &mut [u8], area: usize) -> u32 {
    unsafe { linked::yuglasno_index_open(slots.as_mut_ptr(), slots.len(), area) }
}

/// Adds the entry that a reply carries, with its name from `rx`: `told` is what a start or a report returned, `reply` what it wrote. 0, also
/// where it carries none; or, with nothing changed, 3 for slots that are no index of an area of this length or a reply that no session
/// wrote, 19 where slots or name bytes run out.
pub fn index_add(slots: &mut [u8], area: &mut [u8], told: u32, reply: &[u8], rx: &[u8]) -> u32 {
    unsafe {
        linked::yuglasno_index_add(
            slots.as_mut_ptr(), slots.len(), area.as_mut_ptr(), area.len(), told, reply.as_ptr(), reply.len(),
            rx.as_ptr(), rx.len(),
        )
    }
}

/// Writes how many entries have a time from `from` to `to`, and the rank of the first: 0, or 3 for no index or too short a reply.
pub fn index_between(slots: &[u8], area: usize, from: i64, to: i64, out: &mut [u8]) -> u32 {
    unsafe {
        linked::yuglasno_index_between(slots.as_ptr(), slots.len(), area, from, to, out.as_mut_ptr(), out.len())
    }
}

/// Writes whether there is an entry at or before `time`, and the rank of the latest: 0, or 3 as before.
pub fn index_latest(slots: &[u8], area: usize, time: i64, out: &mut [u8]) -> u32 {
    unsafe { linked::yuglasno_index_latest(slots.as_ptr(), slots.len(), area, time, out.as_mut_ptr(), out.len()) }
}

/// Writes the entry of this rank in time order: whether there is one, where its name starts in the area and how long it is, its number in
/// listing order, its time. 0, or 3 as before, or for a name outside those that the area holds.
pub fn index_entry(slots: &[u8], area: usize, rank: usize, out: &mut [u8]) -> u32 {
    unsafe { linked::yuglasno_index_entry(slots.as_ptr(), slots.len(), area, rank, out.as_mut_ptr(), out.len()) }
}

/// Writes one reply of a panel to the front of `out`, under the ids in `settings`, and its length to `told`. `numbers` are those of a stat or
/// an entry, eight bytes each; `lent` is a name, data or a text. 0; or, with nothing written, 3 for a slice that is too short, a kind that is
/// none or a number that its field has no room for, 22 or 23 for settings whose ids no file could have brought there, 20 where the
/// reply does not fit.
pub fn speak(settings: &[u8], kind: u32, numbers: &[u8], lent: &[u8], out: &mut [u8], told: &mut [u8]) -> u32 {
    unsafe {
        linked::yuglasno_speak(
            settings.as_ptr(), settings.len(), kind, numbers.as_ptr(), numbers.len(), lent.as_ptr(), lent.len(),
            out.as_mut_ptr(), out.len(), told.as_mut_ptr(), told.len(),
        )
    }
}

/// Reads the request at the front of `bytes`: its call's number, or 0 where more bytes are wanted; where its path or data starts and how long
/// it is; its mode or time; its flags; its length. 0; or, with nothing written, 3, 22 or 23 as before, 18 for bytes that are no request.
pub fn heard(settings: &[u8], bytes: &[u8], out: &mut [u8]) -> u32 {
    unsafe {
        linked::yuglasno_heard(
            settings.as_ptr(), settings.len(), bytes.as_ptr(), bytes.len(), out.as_mut_ptr(), out.len(),
        )
    }
}
