//! Separation, APART-2: two lists alike in the messages of one zone give that zone the same codes, minutes and question
//! answers; APART-3: so does the list of its messages alone. Checked on the library's own answers, as a journal and
//! record by record over a unit's bytes, and on this implementation's. The lists stand in `separation_lists`, the
//! counts in `separation_counts`.

use crate::compare::{trains, Comparison, Files};
use crate::separation_lists::{List, Pair};
use crate::Difference;
use harness::library;
use reference::drafts::journal_of;
use reference::message::RECORD;
use reference::replay::ANSWER;
use reference::separation::{alike, given, kept, Given, Heard, HeardHere, Numbers, Place};
use reference::unit::{self, DESK};
use std::collections::BTreeSet;

/// One pair in so many rounds.
const ROUNDS: u64 = 5;

/// The two lists of a pair, and the zone's messages alone.
type Lists<'p> = [Vec<&'p [u8]>; 3];
const NAMES: [&str; 3] = ["first list", "second list", "its messages alone"];

/// A journal replayed by the library.
struct ByJournal<'p> {
    sheet: &'p [u8],
    journal: Vec<u8>,
    answers: Vec<Numbers>,
}

/// The bytes of a unit that heard the list by the library.
struct ByUnit<'p> {
    sheet: &'p [u8],
    desk: [u8; DESK],
    answers: Vec<Numbers>,
}

impl<'p> ByJournal<'p> {
    /// All records are of 32 bytes.
    fn of(sheet: &'p [u8], list: &[&[u8]]) -> Self {
        let journal = journal(list);
        let mut buffer = vec![0; ANSWER * list.len()];
        assert_eq!(library::replay(sheet, &journal, &mut buffer), 0, "a good sheet and a good journal");
        let numbers = |part: &[u8]| (part[0], part[1..].iter().fold(0, |word, &byte| word << 8 | u32::from(byte)));
        let answers = buffer.chunks_exact(ANSWER).map(numbers).collect();
        ByJournal { sheet, journal, answers }
    }
}

impl<'p> ByUnit<'p> {
    fn of(sheet: &'p [u8], list: &[&[u8]]) -> Self {
        let mut desk = [0; DESK];
        assert_eq!(library::unit_fresh(&mut desk), 0, "520 bytes");
        let mut hear = |record: &&[u8]| {
            let [code, minutes @ .., 0, 0, 0] = library::unit_apply(sheet, &mut desk, record).to_le_bytes() else {
                panic!("a code and minutes of 32 bits");
            };
            (code, u32::from_le_bytes(minutes))
        };
        let answers = list.iter().map(&mut hear).collect();
        ByUnit { sheet, desk, answers }
    }
}

impl Heard for ByJournal<'_> {
    fn answers(&self) -> &[Numbers] {
        &self.answers
    }

    fn movement(&self, zone: u8, train: u32) -> [u8; 4] {
        packed(library::movement(self.sheet, &self.journal, zone, train))
    }

    fn work(&self, turnout: u8) -> [u8; 2] {
        packed(library::work(self.sheet, &self.journal, turnout).into())
    }
}

impl Heard for ByUnit<'_> {
    fn answers(&self) -> &[Numbers] {
        &self.answers
    }

    fn movement(&self, zone: u8, train: u32) -> [u8; 4] {
        packed(library::unit_movement(self.sheet, &self.desk, zone, train))
    }

    fn work(&self, turnout: u8) -> [u8; 2] {
        packed(library::unit_work(self.sheet, &self.desk, turnout).into())
    }
}

/// The numbers that an answer packs, a byte each, the lowest first; above them is nothing.
fn packed<const N: usize>(answer: u64) -> [u8; N] {
    let bytes = answer.to_le_bytes();
    assert!(bytes[N..].iter().all(|&byte| byte == 0), "an answer of {N} bytes");
    std::array::from_fn(|n| bytes[n])
}

/// A pair, its three lists, and the trains that the movement question is put with: all that they name, and one that
/// they do not.
struct Trial<'p> {
    pair: &'p Pair,
    lists: Lists<'p>,
    trains: BTreeSet<u32>,
}

impl<'p> Trial<'p> {
    fn new(pair: &'p Pair) -> Self {
        let [one, other] = &pair.lists;
        let place = Place { zone: pair.zone, zones: pair.station.zones };
        assert!(alike(one, other, place), "the generator makes lists alike in the zone");
        let records = |list: &'p List| list.iter().map(Vec::as_slice).collect();
        Trial { pair, lists: [records(one), records(other), kept(one, place)], trains: trains(&pair.lists.concat()) }
    }

    /// The same, without the records that no journal can hold.
    fn in_journals(self) -> Self {
        let lists = self.lists.map(|list| list.into_iter().filter(|record| record.len() == RECORD).collect());
        Trial { lists, ..self }
    }

    fn heard_by<H>(&self, hear: impl Fn(&[&'p [u8]]) -> H) -> [H; 3] {
        self.lists.each_ref().map(|list| hear(list))
    }

    fn files(&self) -> Files<'p> {
        Files { sheet: &self.pair.sheet, journal: &[] }
    }

    /// What each list gave the zone: the same, by this way of hearing alone.
    fn given(&self, by: &str, heard: &[impl Heard; 3]) -> Result<[Given; 3], Difference> {
        let (station, zone) = (&self.pair.station, self.pair.zone);
        let of = |n: usize| given(&heard[n], &self.lists[n], station, zone, self.trains.iter().copied());
        let all = [of(0), of(1), of(2)];
        for (name, other) in NAMES.iter().zip(&all).skip(1) {
            let call = |what: &str| format!("separation, {by}: {what} of zone {zone}");
            self.same_given(call, &all[0], other).map_err(|difference| between([NAMES[0], name], difference))?;
        }
        Ok(all)
    }

    fn same_given(&self, call: impl Fn(&str) -> String, one: &Given, other: &Given) -> Result<(), Difference> {
        self.files().same(|| call("codes and minutes"), &one.answers, &other.answers)?;
        self.files().same(|| call("movement questions (train, answer)"), &one.movements, &other.movements)?;
        self.files().same(|| call("work questions (turnout, answer)"), &one.works, &other.works)
    }

    /// The library's way of hearing on its own, this implementation on its own, then one against the other: all
    /// records, and what the zone was given.
    fn check(&self, by: &str, library: &[impl Heard; 3], here: &[HeardHere; 3]) -> Result<Given, Difference> {
        let by_library = self.given(by, library)?;
        let by_reference = self.given("this implementation", here)?;
        for (n, name) in NAMES.iter().enumerate() {
            let call = |what: &str| format!("separation, {by}: {what}, {name}");
            self.files().same(|| call("codes and minutes"), library[n].answers(), here[n].answers())?;
            self.files().same(|| call("questions of the zone"), &by_library[n], &by_reference[n])?;
        }
        let [given, ..] = by_reference;
        Ok(given)
    }
}

impl Comparison {
    /// A pair of lists after every few rounds, beside the inputs.
    pub fn separation(&mut self) -> Result<(), Difference> {
        if !self.tally.lists.is_multiple_of(ROUNDS) {
            return Ok(());
        }
        let pair = Pair::random(&mut self.rng);
        self.pair(&pair).map_err(|difference| with_journals(&pair, difference))
    }

    fn pair(&mut self, pair: &Pair) -> Result<(), Difference> {
        let trial = Trial::new(pair);
        let here = trial.heard_by(|list| HeardHere::of(&pair.station, list));
        let units = trial.heard_by(|list| ByUnit::of(&pair.sheet, list));
        let given = trial.check("unit_apply", &units, &here)?;
        for ((unit, here), name) in units.iter().zip(&here).zip(NAMES) {
            let call = || format!("separation, unit_apply: the desk, {name}");
            trial.files().same(call, &unit.desk[..], &unit::encode(&here.desk)[..])?;
        }
        units.iter().flat_map(Heard::answers).for_each(|(code, _)| self.tally.unit(*code));
        given.movements.iter().for_each(|(_, answer)| self.tally.movement(*answer));
        given.works.iter().for_each(|(_, [code, _])| self.tally.work(*code));
        let [one, other, _] = &here;
        self.tally.separation.pair(pair, [one, other], &given);

        let trial = trial.in_journals();
        let here = trial.heard_by(|list| HeardHere::of(&pair.station, list));
        let journals = trial.heard_by(|list| ByJournal::of(&pair.sheet, list));
        trial.check("desk_replay", &journals, &here).map(|_| ())
    }
}

/// The difference with its answers under the names of these lists.
fn between(lists: [&'static str; 2], difference: Difference) -> Difference {
    let answers = difference.answers.into_iter().map(|(_, answer)| answer);
    Difference { answers: lists.into_iter().zip(answers).collect(), ..difference }
}

/// The records of 32 bytes as a journal.
fn journal<R: AsRef<[u8]>>(list: &[R]) -> Vec<u8> {
    let records: Vec<[u8; RECORD]> = list.iter().filter_map(|record| record.as_ref().try_into().ok()).collect();
    journal_of(&records)
}

/// The difference with both lists as journals; what no journal can hold stands in its words.
fn with_journals(pair: &Pair, difference: Difference) -> Difference {
    let [one, other] = &pair.lists;
    let of_other_lengths = |list: &List| -> Vec<(usize, Vec<u8>)> {
        (1..).zip(list.iter().cloned()).filter(|(_, record)| record.len() != RECORD).collect()
    };
    let left_out = (of_other_lengths(one), of_other_lengths(other));
    let call = format!("{}; of other lengths, by place (from 1) in each list: {left_out:?}", difference.call);
    Difference { call, journals: vec![journal(one), journal(other)], ..difference }
}
