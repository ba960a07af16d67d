//! What was tried: calls, images and entries by kind and by refusal number, late
//! charges, bills of zero days served, entries at a half, entries at the end of a
//! period, and years by what they have.

use crate::call::{Answer, Call, Request, KINDS};
use crate::entries::{is_for_no_day, is_late_charge, names_one};
use crate::expected::Expected;
use crate::periods::{self, Period};
use crate::{halves, images, years};
use contribution_book::plain::{
    parse_record, Raw, ADDED_CUSTOMER, ENTRIES, LAST_KIND, LAST_POSTED_KIND, RECORD,
};
use std::fmt;

/// How often each refusal number that can be given has to be met, each kind of
/// entry accepted, late charges in images, the others also at a half and at the
/// end of a period, and each of `years::PARTS` met.
const LEAST: u64 = 100;
/// How many calls have to be compared.
const LEAST_CALLS: u64 = 100_000;

/// Refusal numbers that calls give are below this; 0 is for accepted.
const NUMBERS: u8 = 31;

/// Whether a refusal number can be met.
type Possible = fn(u8) -> bool;

const OF_ENTRIES: Possible = |number| matches!(number, 0..=16 | 24..=26 | 30);
/// By an image. 7 can't: 17 comes before it. 30 can't: it stops no record.
const OF_IMAGES: Possible = |number| matches!(number, 0..=6 | 8..=20 | 24..=26);
/// By each kind of call on an accepted image.
const OF_CALLS: [Possible; KINDS.len()] = [
    |number| number == 0,
    |number| OF_ENTRIES(number) || matches!(number, 17 | 21),
    |number| matches!(number, 0 | 17 | 21 | 22),
    |number| matches!(number, 0 | 3),
    |number| matches!(number, 0 | 2 | 3 | 8),
    |number| number == 0,
    |number| matches!(number, 0 | 3 | 23),
];

const ENTRY_KINDS: [&str; LAST_KIND as usize + 1] = [
    "unknown",
    "contribution",
    "added customer",
    "bill",
    "payment",
    "deposit",
    "deposit return",
    "expiry",
    "correction",
    "guarantee",
    "reduction",
    "retention",
    "late charge",
];

/// Accepted images by their number of entries.
const SIZES: [&str; 4] = ["0", "1 to 99", "100 to 1,023", "1,024"];

/// How often each refusal number was met.
#[derive(Clone, Copy)]
struct Met {
    possible: Possible,
    counts: [u64; NUMBERS as usize],
}

impl Met {
    fn none(possible: Possible) -> Met {
        Met {
            possible,
            counts: [0; NUMBERS as usize],
        }
    }

    fn add(&mut self, refusal: u8) {
        self.counts[usize::from(refusal)] += 1;
    }

    fn total(&self) -> u64 {
        self.counts.iter().sum()
    }

    /// The numbers that can be met, and how often each was.
    fn possible(&self) -> impl Iterator<Item = (u8, u64)> + '_ {
        (0..NUMBERS)
            .filter(|&number| (self.possible)(number))
            .map(|number| (number, self.counts[usize::from(number)]))
    }

    fn cell(&self, number: u8) -> String {
        match self.counts[usize::from(number)] {
            0 if !(self.possible)(number) => "-".into(),
            count => count.to_string(),
        }
    }
}

/// Entries that are judged by how they come in.
const SORTS: [&str; 2] = ["late charge", "bill for no day"];

/// The entries of one of `SORTS`, and entries that name one of their account.
struct Sort {
    is_one: fn(&Raw) -> bool,
    entries: Met,
    naming: Met,
}

impl Sort {
    fn none(is_one: fn(&Raw) -> bool, of_entries: Possible, of_naming: Possible) -> Sort {
        Sort {
            is_one,
            entries: Met::none(of_entries),
            naming: Met::none(of_naming),
        }
    }

    /// Of each sort, as `Tally::offered` has them.
    fn offered() -> [Sort; SORTS.len()] {
        [
            Sort::none(is_late_charge, |number| number == 1, |number| number == 8),
            Sort::none(
                is_for_no_day,
                |number| number == 30,
                |number| matches!(number, 0 | 16),
            ),
        ]
    }

    /// Of each sort, as `Tally::in_images` has them.
    fn in_images() -> [Sort; SORTS.len()] {
        // 7 can't, as in `OF_IMAGES`.
        let of_records = |number| matches!(number, 0 | 2..=6 | 20);
        [
            Sort::none(is_late_charge, of_records, |number| number == 8),
            Sort::none(is_for_no_day, of_records, |number| number == 0),
        ]
    }

    /// Counts an accepted image with these entries.
    fn add_image(&mut self, entries: &[Raw]) {
        let is_one = self.is_one;
        if entries.iter().any(is_one) {
            self.entries.add(0);
        }
        if entries.iter().any(|raw| names_one(raw, entries, is_one)) {
            self.naming.add(0);
        }
    }

    /// Counts an entry that comes after these.
    fn add(&mut self, raw: &Raw, before: &[Raw], refusal: u8) {
        if (self.is_one)(raw) {
            self.entries.add(refusal);
        }
        if names_one(raw, before, self.is_one) {
            self.naming.add(refusal);
        }
    }
}

/// How often something was accepted, and how often refused.
type Judged = [u64; 2];
const JUDGED: [&str; 2] = ["accepted", "refused"];

/// How often entries at the end of a period were accepted, were refused for
/// their day, and made an image refused for it.
type AtEnd = [u64; 3];
const AT_END: [&str; 3] = ["accepted", "refused", "in image"];
const IN_IMAGE: usize = 2;

pub struct Tally {
    /// The images of each kind of call.
    images: [Met; KINDS.len()],
    /// The calls of each kind on accepted images.
    calls: [Met; KINDS.len()],
    /// Entries carried over.
    carried: Met,
    /// The images of each of `images::Kind::ALL`.
    image_kinds: [Judged; images::Kind::ALL.len()],
    sizes: [u64; SIZES.len()],
    /// Entries of each kind, posted or carried over.
    entry_kinds: [Judged; ENTRY_KINDS.len()],
    /// Of these, the accepted ones at a half, by whole cents before it: even, odd.
    halves: [[u64; 2]; ENTRY_KINDS.len()],
    /// Entries at the end of each of `Period::ALL`, by `periods::KINDS`.
    ends: [[AtEnd; periods::KINDS.len()]; Period::ALL.len()],
    /// Each sort, posted or carried over.
    offered: [Sort; SORTS.len()],
    /// Each sort in accepted images, which are counted, and as records at fault.
    in_images: [Sort; SORTS.len()],
    /// Queries of a year that met each of `years::PARTS`.
    years: [u64; years::PARTS.len()],
}

impl Tally {
    pub fn new() -> Tally {
        Tally {
            images: [Met::none(OF_IMAGES); KINDS.len()],
            calls: OF_CALLS.map(Met::none),
            carried: Met::none(OF_ENTRIES),
            image_kinds: [[0; 2]; images::Kind::ALL.len()],
            sizes: [0; SIZES.len()],
            entry_kinds: [[0; 2]; ENTRY_KINDS.len()],
            halves: [[0; 2]; ENTRY_KINDS.len()],
            ends: [[[0; 3]; periods::KINDS.len()]; Period::ALL.len()],
            offered: Sort::offered(),
            in_images: Sort::in_images(),
            years: [0; years::PARTS.len()],
        }
    }

    /// How many calls were compared.
    pub fn total(&self) -> u64 {
        self.images.iter().map(Met::total).sum()
    }

    pub fn count(&mut self, expected: &Expected) {
        let call = &expected.after;
        let kind = call.request.kind();
        self.image_kinds[call.image_kind as usize][usize::from(expected.image_refused)] += 1;
        if expected.image_refused {
            self.images[kind].add(expected.refusal);
            self.count_fault(call.image.bytes(), expected);
            return;
        }
        self.images[kind].add(0);
        self.sizes[size(call.image.bytes().len() / RECORD - 1)] += 1;
        self.calls[kind].add(expected.refusal);
        self.count_entries(call, expected.refusal);
        self.count_year(call, &expected.answer);
    }

    /// Counts the record at fault in a refused image.
    fn count_fault(&mut self, image: &[u8], expected: &Expected) {
        if let Some(place) = usize::from(expected.record).checked_sub(1) {
            let entries = images::entries_of(image);
            let (before, from) = entries.split_at(place);
            for sort in &mut self.in_images {
                sort.add(&from[0], before, expected.refusal);
            }
            self.count_end(&from[0], before, expected.refusal, IN_IMAGE);
        }
    }

    /// Counts the entries that an accepted image has and was offered.
    fn count_entries(&mut self, call: &Call, refusal: u8) {
        let mut before = images::entries_of(call.image.bytes());
        for sort in &mut self.in_images {
            sort.add_image(&before);
        }
        match &call.request {
            Request::Post { entry, .. } if OF_ENTRIES(refusal) => {
                self.count_entry(&mut before, entry.bytes(), refusal);
            }
            Request::CarryOver {
                entries, results, ..
            } if refusal == 0 => {
                for (record, &refusal) in entries.bytes().chunks_exact(RECORD).zip(results.bytes())
                {
                    self.carried.add(refusal);
                    self.count_entry(&mut before, record, refusal);
                }
            }
            _ => {}
        }
    }

    /// Counts an entry that is offered after these, and joins them unless it is
    /// refused.
    fn count_entry(&mut self, before: &mut Vec<Raw>, record: &[u8], refusal: u8) {
        let raw = parse_record(record).0;
        let kind = usize::from(raw.kind);
        let row = if kind < ENTRY_KINDS.len() { kind } else { 0 };
        let judged = usize::from(refusal != 0);
        self.entry_kinds[row][judged] += 1;
        for sort in &mut self.offered {
            sort.add(&raw, before, refusal);
        }
        self.count_end(&raw, before, refusal, judged);
        if refusal != 0 {
            return;
        }
        if let Some(whole) = halves::of_entry(&raw, before) {
            self.halves[row][(whole % 2) as usize] += 1;
        }
        before.push(raw);
    }

    /// Counts an entry that is accepted or refused for its day at the end of a
    /// period.
    fn count_end(&mut self, raw: &Raw, before: &[Raw], refusal: u8, column: usize) {
        let decides = |&(kind, number)| raw.kind == kind && [0, number].contains(&refusal);
        let Some(row) = periods::KINDS.iter().position(decides) else {
            return;
        };
        if let Some(period) = periods::ending_at(raw, before) {
            self.ends[period as usize][row][column] += 1;
        }
    }

    /// Counts a query of a year of an accepted image.
    fn count_year(&mut self, call: &Call, answer: &Answer) {
        let (Request::Year { year }, Answer::Year(given)) = (&call.request, answer) else {
            return;
        };
        let taken = years::taken(&images::entries_of(call.image.bytes()));
        for ((_, meets), count) in years::PARTS.iter().zip(&mut self.years) {
            *count += u64::from(meets(given, *year, &taken));
        }
    }

    /// What was not tried often enough, a line for each.
    pub fn shortages(&self) -> Vec<String> {
        let mut shortages = Vec::new();
        if self.total() < LEAST_CALLS {
            shortages.push(format!("fewer than {LEAST_CALLS} calls"));
        }
        let tried = self.tried();
        let rare = tried.iter().filter(|(_, times)| *times < LEAST);
        shortages.extend(rare.map(|(what, _)| format!("{what} fewer than {LEAST} times")));
        shortages
    }

    /// What was tried least of all that has to be tried, and how often.
    pub fn least(&self) -> (String, u64) {
        let tried = self.tried().into_iter();
        let least = tried.min_by_key(|(_, times)| *times);
        least.expect("the kinds of entry are among them")
    }

    /// What has to be tried `LEAST` times, and how often it was.
    fn tried(&self) -> Vec<(String, u64)> {
        let mut tried = Vec::new();
        let mut add = |met: &Met, what: &str| {
            let name = |number| format!("{what}: refusal number {number}");
            tried.extend(met.possible().map(|(number, times)| (name(number), times)));
        };
        for ((name, images), calls) in KINDS.iter().zip(&self.images).zip(&self.calls) {
            add(images, &format!("image of {name}"));
            add(calls, name);
        }
        add(&self.carried, "entry carried");
        for (name, columns) in self.sorts() {
            let ways = ["offered", "named", "in an image", "named in an image"];
            for (way, met) in ways.iter().zip(&columns) {
                add(met, &format!("{name} {way}"));
            }
        }
        let kinds = ENTRY_KINDS.iter().zip(self.entry_kinds);
        let kinds = kinds.take(LAST_POSTED_KIND as usize + 1).skip(1);
        tried.extend(kinds.map(|(name, [accepted, _])| (format!("{name}: accepted"), accepted)));
        for row in halves::KINDS.map(usize::from) {
            let name = |cents| format!("{} at a half, {cents} cents: accepted", ENTRY_KINDS[row]);
            let [even, odd] = self.halves[row];
            tried.extend([(name("even"), even), (name("odd"), odd)]);
        }
        for (period, rows) in Period::ALL.into_iter().zip(&self.ends) {
            tried.extend(tried_at_end(period, rows));
        }
        let parts = years::PARTS.iter().zip(self.years);
        tried.extend(parts.map(|((name, _), met)| (name.to_string(), met)));
        tried
    }

    /// The name of each sort, and what was met: its entries and those that name
    /// one, offered and in images.
    fn sorts(&self) -> impl Iterator<Item = (&'static str, [Met; 4])> + '_ {
        let both = self.offered.iter().zip(&self.in_images);
        SORTS
            .into_iter()
            .zip(both)
            .map(|(name, (offered, in_images))| {
                let columns = [
                    offered.entries,
                    offered.naming,
                    in_images.entries,
                    in_images.naming,
                ];
                (name, columns)
            })
    }

    /// A table for each sort.
    fn write_sorts(&self, out: &mut fmt::Formatter) -> fmt::Result {
        let names = ["one", "naming", "image: one", "image: naming"];
        for (name, columns) in self.sorts() {
            writeln!(
                out,
                "\nEntries that are a {name}, or name one of their account,"
            )?;
            writeln!(
                out,
                "posted or carried over and in images, by refusal number"
            )?;
            write_met(out, &names, &columns)?;
        }
        Ok(())
    }
}

/// What has to be tried at the end of a period. One that doesn't end refuses no
/// added customer and accepts neither expiries nor retentions.
fn tried_at_end(period: Period, rows: &[AtEnd]) -> Vec<(String, u64)> {
    let mut tried = Vec::new();
    for (&(kind, number), &[accepted, refused, in_image]) in periods::KINDS.iter().zip(rows) {
        let kind_name = ENTRY_KINDS[usize::from(kind)];
        let what = format!("{kind_name} {}", period.at_end());
        if period != Period::NoEnd || kind == ADDED_CUSTOMER {
            tried.push((format!("{what}: accepted"), accepted));
        }
        if period != Period::NoEnd || kind != ADDED_CUSTOMER {
            let number = format!("refusal number {number}");
            tried.push((format!("{what}: {number}"), refused));
            tried.push((format!("{what}, in an image: {number}"), in_image));
        }
    }
    tried
}

fn size(entries: usize) -> usize {
    match entries {
        0 => 0,
        1..=99 => 1,
        ENTRIES => 3,
        _ => 2,
    }
}

impl fmt::Display for Tally {
    fn fmt(&self, out: &mut fmt::Formatter) -> fmt::Result {
        writeln!(out, "Images by refusal number (0: accepted)")?;
        write_met(out, &KINDS, &self.images)?;
        writeln!(out, "\nCalls on accepted images by refusal number")?;
        let mut names = KINDS.to_vec();
        let mut columns = self.calls.to_vec();
        names.push("entry carried");
        columns.push(self.carried);
        write_met(out, &names, &columns)?;
        writeln!(out, "\nImages by kind")?;
        let image_kinds = images::Kind::ALL.map(|kind| format!("{kind:?}"));
        write_counts(out, JUDGED, &image_kinds, &self.image_kinds)?;
        writeln!(out, "\nAccepted images by number of entries")?;
        for (name, count) in SIZES.iter().zip(self.sizes) {
            writeln!(out, "{name:>16} {count:>10}")?;
        }
        writeln!(out, "\nEntries posted or carried over by kind")?;
        writeln!(out, "(a late charge is accepted in images alone)")?;
        let entry_kinds = ENTRY_KINDS.map(String::from);
        write_counts(out, JUDGED, &entry_kinds, &self.entry_kinds)?;
        writeln!(out, "\nOf these, accepted at a half by whole cents")?;
        let rows = halves::KINDS.map(usize::from);
        let names = rows.map(|row| ENTRY_KINDS[row].to_string());
        let halves = rows.map(|row| self.halves[row]);
        write_counts(out, ["even", "odd"], &names, &halves)?;
        let kinds = periods::KINDS.map(|(kind, _)| ENTRY_KINDS[usize::from(kind)].to_string());
        for (period, rows) in Period::ALL.into_iter().zip(&self.ends) {
            writeln!(out, "\nEntries {}", period.at_end())?;
            write_counts(out, AT_END, &kinds, rows)?;
        }
        writeln!(out, "\nYears of accepted images")?;
        for ((name, _), met) in years::PARTS.iter().zip(self.years) {
            writeln!(out, "{name:>41} {met:>10}")?;
        }
        self.write_sorts(out)
    }
}

/// A column for each, a row for each refusal number.
fn write_met(out: &mut fmt::Formatter, names: &[&str], columns: &[Met]) -> fmt::Result {
    write_row(out, "refusal", names.iter().map(|name| name.to_string()))?;
    for number in 0..NUMBERS {
        let cells = columns.iter().map(|met| met.cell(number));
        write_row(out, &number.to_string(), cells)?;
    }
    let totals = columns.iter().map(|met| met.total().to_string());
    write_row(out, "all", totals)
}

fn write_row(
    out: &mut fmt::Formatter,
    name: &str,
    cells: impl Iterator<Item = String>,
) -> fmt::Result {
    write!(out, "{name:>8}")?;
    for cell in cells {
        write!(out, " {cell:>13}")?;
    }
    writeln!(out)
}

/// A column for each head, a row for each name.
fn write_counts<const COLUMNS: usize>(
    out: &mut fmt::Formatter,
    heads: [&str; COLUMNS],
    names: &[String],
    rows: &[[u64; COLUMNS]],
) -> fmt::Result {
    write!(out, "{:>16}", "kind")?;
    for head in heads {
        write!(out, " {head:>10}")?;
    }
    writeln!(out)?;
    for (name, counts) in names.iter().zip(rows) {
        write!(out, "{name:>16}")?;
        for count in counts {
            write!(out, " {count:>10}")?;
        }
        writeln!(out)?;
    }
    Ok(())
}
