//! Cases of the journal: check and count, record n, add; the limit of 1,024 records.

use crate::cases::Cases;
use reference::builders::*;

/// A journal with bytes from `at` replaced.
fn with(journal: &[u8], at: usize, bytes: &[u8]) -> Vec<u8> {
    let mut damaged = journal.to_vec();
    damaged[at..at + bytes.len()].copy_from_slice(bytes);
    damaged
}

/// A journal with room for more bytes.
fn room(journal: &[u8], bytes: usize) -> Vec<u8> {
    [journal, &vec![0x5A; bytes]].concat()
}

pub fn add(cases: &mut Cases) {
    let c = cases;
    let k = station_k().bytes();
    let empty = journal(&[]);
    let three = journal(&journal_k()[..3]);
    let good = recorder(1).to_bytes();

    // Check and count.
    c.journal(0, &empty); // no record
    c.journal(0, &three); // three records
    c.journal(0, &room(&three, 1)); // one byte more
    c.journal(0, &room(&three, 100)); // a hundred bytes more
    c.journal(30, &[]); // no byte
    c.journal(30, &empty[..15]); // 15 bytes
    c.journal(30, &three[..16]); // header alone, count 3
    c.journal(30, &three[..16 + 95]); // one byte short
    c.journal(30, &three[..16 + 64]); // one record short
    c.journal(30, &with(&three, 0, b"w")); // mark, first letter
    c.journal(30, &with(&three, 1, b"J")); // second letter
    c.journal(30, &with(&three, 2, b"K")); // third letter
    c.journal(30, &with(&three, 4, &[0])); // version 0
    c.journal(30, &with(&three, 4, &[2])); // version 2
    c.journal(30, &with(&three, 3, &[1])); // version 257
    c.journal(30, &with(&three, 7, &[4, 1])); // count 1,025
    c.journal(30, &with(&three, 5, &[1])); // count 2^24 + 3
    c.journal(30, &with(&three, 5, &[255, 255, 255, 255])); // the largest count
    c.journal(30, &with(&three, 9, &[1])); // the first of the seven zeros
    c.journal(30, &with(&three, 12, &[255])); // one between
    c.journal(30, &with(&three, 15, &[128])); // the last
    c.journal(0, &with(&three, 8, &[2])); // count 2 of three records
    c.journal(0, &with(&three, 16, &[0; 32])); // a stored record that does not read is no 30

    // Record n.
    for n in 0..3 {
        c.journal_record(0, &room(&three, 7), n); // each of three
    }
    c.journal_record(32, &three, 3); // n equal to the count
    c.journal_record(32, &room(&three, 64), 3); // not below the count, though bytes are there
    c.journal_record(32, &empty, 0); // none
    c.journal_record(32, &three, u32::MAX); // the largest n
    c.journal_record(32, &three, 1 << 27); // n whose place wraps in 32 bits
    c.journal_record(30, &three[..111], 0); // short journal
    c.journal_record(30, &with(&three, 15, &[1]), 3); // 30 before 32
    c.journal_record(0, &with(&three, 48, &[255; 32]), 1); // a part that does not read

    // Add.
    c.journal_add(0, &room(&empty, 32), &good); // the first
    c.journal_add(0, &room(&three, 32), &good); // the fourth
    c.journal_add(0, &room(&three, 70), &good); // bytes after it stay
    c.journal_add(0, &with(&three, 8, &[1]), &good); // over bytes past the count
    c.journal_add(0, &room(&empty, 32), &cleared(9, [63, 9, 1, 2, 2]).at(u32::MAX).in_zone(255).to_bytes()); // no 12
    c.journal_add(31, &three, &good); // no room
    c.journal_add(31, &room(&three, 31), &good); // one byte short
    c.journal_add(31, &empty, &good); // header alone
    c.journal_add(30, &three[..111], &good); // short journal
    c.journal_add(30, &with(&room(&three, 32), 2, b"X"), &good); // mark
    c.journal_add(30, &with(&room(&three, 32), 9, &[1]), &good); // zeros
    c.journal_add(30, &with(&room(&three, 32), 7, &[4, 1]), &good); // count 1,025 is 30, not 31
    c.journal_add(30, &[], &good); // no journal
    c.journal_add(10, &room(&three, 32), &good[..31]); // record of 31 bytes
    c.journal_add(10, &room(&three, 32), &[&good[..], &[0]].concat()); // record of 33 bytes
    c.journal_add(10, &[], &[]); // 10 before 30
    c.journal_add(11, &room(&three, 32), &[0; 32]); // kind 0
    c.journal_add(11, &three[..20], &[14; 32]); // 11 before 30
    c.journal_add(13, &room(&three, 32), &recorder(2).to_bytes()); // bad field
    c.journal_add(13, &[], &recorder(2).to_bytes()); // 13 before 30
    c.journal_add(13, &three, &agreed(0).to_bytes()); // 13 before 31
    c.journal_add(11, &three, &message(14, 0).to_bytes()); // 11 before 31

    // The largest journal: record 1,024 fits, the next does not.
    let many: Vec<_> = (0..1024).map(|n| recorder((n % 2) as u8).at(n * 3)).collect();
    let full = room(&journal(&many), 32);
    let one_less = with(&full, 5, &1023u32.to_be_bytes());
    c.journal_add(0, &one_less, &good); // record 1,024
    c.journal_add(31, &full, &good); // the next
    c.replay(0, &k, &full[..16 + 32 * 1024]); // all 1,024 heard

    // Refused sheet, else refused journal.
    c.refused_replay(30, &k, &three[..111]); // short journal
    c.refused_replay(30, &k, &[]); // no journal
    c.refused_replay(1, &k[..49], &three); // short sheet
    c.refused_replay(2, &[0; 8], &[]); // the sheet's number where both are bad
    c.refused_replay(5, &with(&k, 14, &[1]), &with(&three, 0, b"X")); // bad turnout and bad mark
    c.movement([30, 0, 255, 0], &k, &three[..111], 9, 1); // 30 before 12
    c.movement([1, 0, 255, 0], &k[..49], &three[..111], 9, 1); // the sheet's number before 30
    c.movement([6, 0, 255, 0], &with(&k, 17, &[1]), &three, 0, 7); // bad route
    c.work([30, 0], &k, &three[..111], 3); // 30 before 13
    c.work([4, 0], &with(&k, 5, &[0]), &three, 3); // the sheet's number before 13
    c.work([1, 0], &[], &[], 0); // nothing at all
    c.replay(0, &k, &empty); // no record
    c.replay(0, &k, &room(&three, 40)); // bytes past the last record are not looked at
}
