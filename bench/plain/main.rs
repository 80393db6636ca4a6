//! A plain program of the rules of docs/formats.md and docs/device.md, to be measured beside dcdsim (bench/beside). Nothing of it is proved.
//!
//! It reads a script from standard input, or makes the one of `--gen N`, runs its lines one after another, and then prints the journal and the
//! state that is left, or the state alone. A refusal is a return code: which rule was broken shows in no text, only which comes first.

use std::collections::{HashMap, VecDeque};
use std::convert::TryInto;
use std::env;
use std::fs::File;
use std::hash::{BuildHasherDefault, Hasher};
use std::io::{self, Read, Write};
use std::mem;
use std::ops::Range;
use std::os::fd::AsFd;
use std::process;
use std::slice::ChunksExact;

const MOST_HOSTS: usize = 16;
const MOST_REGIONS: usize = 8;
const MOST_LANES: u8 = 4;
const MOST_GRANULES: usize = 4096;
/// The extents of a host, accepted and offered, and those of one list.
const MOST_EXTENTS: usize = 64;
const MOST_TAGS: usize = 32;
const MOST_LINES: u32 = 65_536;
const MOST_BYTES: usize = 16_777_216;

/// The places of a log.
const HOST_LOG: usize = 64;
const MANAGER_LOG: usize = 128;

/// How many members a reply has at most.
const RECORDS_SHOWN: usize = 15;
const EXTENTS_SHOWN: usize = 50;
const TAGS_SHOWN: usize = 84;

/// Regions are decoded in units of 256 MiB, below the end of the addresses.
const DECODE_BITS: u32 = 28;
const ADDRESSES_END: u64 = 1 << 52;

/// The byte that names the Fabric Manager in a script.
const MANAGER: u8 = 0xFE;

// Numbers in bytes

fn u16_at(bytes: &[u8], at: usize) -> u16 {
    u16::from_le_bytes(bytes[at..at + 2].try_into().unwrap())
}

fn u32_at(bytes: &[u8], at: usize) -> u32 {
    u32::from_le_bytes(bytes[at..at + 4].try_into().unwrap())
}

fn u64_at(bytes: &[u8], at: usize) -> u64 {
    u64::from_le_bytes(bytes[at..at + 8].try_into().unwrap())
}

fn push_u32s(bytes: &mut Vec<u8>, numbers: &[u32]) {
    for number in numbers {
        bytes.extend_from_slice(&number.to_le_bytes());
    }
}

// Return codes, and what many commands try

/// Why a command is refused.
#[derive(Clone, Copy)]
#[repr(u16)]
enum Code {
    InvalidInput = 0x02,
    Unsupported = 0x03,
    RetryRequired = 0x05,
    InvalidHandle = 0x0E,
    InvalidPhysicalAddress = 0x0F,
    InvalidPayloadLength = 0x16,
    ResourcesExhausted = 0x1D,
    InvalidExtentList = 0x1E,
}

/// A rule that has to hold, and the code of a command that breaks it.
fn ensure(holds: bool, code: Code) -> Result<(), Code> {
    holds.then_some(()).ok_or(code)
}

/// A payload that has to have one length.
fn exactly<const N: usize>(payload: &[u8]) -> Result<&[u8; N], Code> {
    payload.try_into().map_err(|_| Code::InvalidPayloadLength)
}

/// The items behind the first part of a payload, in which their number stands.
fn items(payload: &[u8], head: usize, count: impl Fn(&[u8]) -> usize, size: usize) -> Result<ChunksExact<'_, u8>, Code> {
    let fits = payload.len() >= head && payload.len() - head == count(payload) * size;
    ensure(fits, Code::InvalidPayloadLength)?;
    Ok(payload[head..].chunks_exact(size))
}

/// The indexes that a reply shows of a list: from the first one asked for on, as many as asked for, and at most so many.
fn page(first: u32, count: u32, total: usize, most: usize) -> Result<Range<usize>, Code> {
    let first = first as usize;
    ensure(first <= total, Code::InvalidInput)?;
    Ok(first..first + (count as usize).min(total - first).min(most))
}

// Extents

/// A start and a length in the addresses of one host.
#[derive(Clone, Copy, PartialEq)]
struct Span {
    start: u64,
    length: u64,
}

impl Span {
    fn read(bytes: &[u8]) -> Span {
        Span { start: u64_at(bytes, 0), length: u64_at(bytes, 8) }
    }

    fn end(&self) -> u64 {
        self.start + self.length
    }

    fn encloses(&self, other: &Span) -> bool {
        self.start <= other.start && other.end() <= self.end()
    }

    fn overlaps(&self, other: &Span) -> bool {
        self.start < other.end() && other.start < self.end()
    }
}

#[derive(Clone, Copy)]
struct Extent {
    span: Span,
    tag: u128,
    sequence: u16,
}

impl Extent {
    /// What stands in a record that tells of no extent.
    const ZERO: Extent = Extent { span: Span { start: 0, length: 0 }, tag: 0, sequence: 0 };

    fn bytes(&self) -> [u8; 40] {
        let mut bytes = [0; 40];
        bytes[..8].copy_from_slice(&self.span.start.to_le_bytes());
        bytes[8..16].copy_from_slice(&self.span.length.to_le_bytes());
        bytes[16..32].copy_from_slice(&self.tag.to_le_bytes());
        bytes[32..34].copy_from_slice(&self.sequence.to_le_bytes());
        bytes
    }
}

/// Whether a span of a list overlaps an earlier one, for which it has to lie within the reach of all those.
fn overlaps_earlier(list: &[Span], index: usize, reach: &mut Range<u64>) -> bool {
    let span = list[index];
    let within = span.start < reach.end && reach.start < span.end();
    *reach = reach.start.min(span.start)..reach.end.max(span.end());
    within && list[..index].iter().any(|earlier| earlier.overlaps(&span))
}

// The configuration

struct Region {
    decode_units: u64,
    length: u64,
    block: u64,
    /// Bit n says that blocks of 2^n bytes are supported; the smallest one is the granule.
    sizes: u64,
    handle: u32,
    sanitizes: bool,
    shareable: bool,
    /// The number of its first granule.
    first: usize,
}

impl Region {
    fn read(bytes: &[u8]) -> Region {
        Region {
            decode_units: u64_at(bytes, 0),
            length: u64_at(bytes, 8),
            block: u64_at(bytes, 16),
            sizes: u64_at(bytes, 24),
            handle: u32_at(bytes, 32),
            sanitizes: bytes[36] & 1 != 0,
            shareable: bytes[36] & 2 != 0,
            first: 0,
        }
    }

    fn decode_length(&self) -> u64 {
        self.decode_units << DECODE_BITS
    }

    /// A granule has 2 to the power of this bytes.
    fn granule_bits(&self) -> u32 {
        self.sizes.trailing_zeros()
    }

    fn supports(&self, size: u64) -> bool {
        size.is_power_of_two() && self.sizes & size != 0
    }

    fn is_sound(&self) -> bool {
        self.sizes != 0
            && (6..=40).contains(&self.granule_bits())
            && self.sizes.ilog2() <= 40
            && self.supports(self.block)
            && self.decode_units <= ADDRESSES_END >> DECODE_BITS
            && self.length != 0
            && self.length <= self.decode_length()
            && self.length % (1 << self.sizes.ilog2()) == 0
    }

    /// The granules of a part of the region.
    fn run(&self, offset: u64, length: u64) -> Range<usize> {
        let first = self.first + (offset >> self.granule_bits()) as usize;
        first..first + (length >> self.granule_bits()) as usize
    }

    fn granules(&self) -> Range<usize> {
        self.run(0, self.length)
    }

    fn granules_of_block(&self) -> usize {
        (self.block >> self.granule_bits()) as usize
    }
}

struct Config {
    hosts: usize,
    regions: Vec<Region>,
    /// Host by host, within a host region by region.
    bases: Vec<u64>,
}

impl Config {
    /// Numbers the granules, where the configuration has no fault.
    fn new(hosts: usize, mut regions: Vec<Region>, bases: Vec<u64>) -> Option<Config> {
        if !regions.iter().all(Region::is_sound) {
            return None;
        }
        let mut granules = 0;
        for region in &mut regions {
            region.first = granules;
            granules = region.granules().end;
        }
        let config = Config { hosts, regions, bases };
        let is_sound = granules <= MOST_GRANULES && (0..hosts).all(|host| config.has_sound_bases(host));
        is_sound.then_some(config)
    }

    /// Whether a host's regions lie apart by rising address.
    fn has_sound_bases(&self, host: usize) -> bool {
        let mut end = 0;
        self.regions.iter().enumerate().all(|(number, region)| {
            let base = self.base(host, number);
            let fits = base % (1 << DECODE_BITS) == 0 && end <= base && base <= ADDRESSES_END - region.decode_length();
            end = base.saturating_add(region.decode_length());
            fits
        })
    }

    fn base(&self, host: usize, region: usize) -> u64 {
        self.bases[host * self.regions.len() + region]
    }

    /// The offset of a host's address in a region that has it.
    fn offset(&self, host: usize, region: usize, address: u64) -> Option<u64> {
        let offset = address.wrapping_sub(self.base(host, region));
        (offset < self.regions[region].length).then_some(offset)
    }

    /// The region that has a host's address, and the offset there.
    fn find(&self, host: usize, address: u64) -> Option<(usize, u64)> {
        (0..self.regions.len()).find_map(|region| Some((region, self.offset(host, region, address)?)))
    }

    /// The granules of a host's span that lies in a region.
    fn run(&self, host: usize, region: usize, span: Span) -> Range<usize> {
        self.regions[region].run(span.start - self.base(host, region), span.length)
    }

    /// A host's span of some granules of a region.
    fn span(&self, host: usize, region: usize, run: &Range<usize>) -> Span {
        let bits = self.regions[region].granule_bits();
        let offset = ((run.start - self.regions[region].first) as u64) << bits;
        Span { start: self.base(host, region) + offset, length: (run.len() as u64) << bits }
    }

    /// Where a listed span lies, by the rules on that: it has a length, lies in one region, the named one if there is one, and has whole blocks.
    fn place(&self, host: usize, named: Option<usize>, span: Span) -> Result<(usize, Range<usize>), Code> {
        ensure(span.length > 0, Code::InvalidExtentList)?;
        let found = match named {
            Some(region) => self.offset(host, region, span.start).map(|offset| (region, offset)),
            None => self.find(host, span.start),
        };
        let (number, offset) = found.ok_or(Code::InvalidPhysicalAddress)?;
        let region = &self.regions[number];
        ensure(span.length <= region.length - offset, Code::InvalidPhysicalAddress)?;
        ensure((offset | span.length) & (region.block - 1) == 0, Code::InvalidExtentList)?;
        Ok((number, region.run(offset, span.length)))
    }
}

// Granules and words

/// The words that were stored in a granule since it was last zeroed, by their numbers in it.
type Words = HashMap<u64, u64, BuildHasherDefault<WordHasher>>;

/// Spreads the numbers of words, which nobody chooses to collide.
#[derive(Default)]
struct WordHasher(u64);

impl Hasher for WordHasher {
    fn write(&mut self, _: &[u8]) {
        unreachable!("a word has a number")
    }

    fn write_u64(&mut self, number: u64) {
        let product = number.wrapping_mul(0x9E37_79B9_7F4A_7C15);
        self.0 = product ^ product >> 32;
    }

    fn finish(&self) -> u64 {
        self.0
    }
}

/// The state of a granule: bits that say that it has to be zeroed before it is free again, and that it is offered, held or tagged.
const FREE: u8 = 0;
const DIRTY: u8 = 1;
const IN_USE: u8 = 2;

struct Media {
    states: Vec<u8>,
    /// A bit for each host.
    holders: Vec<u16>,
    words: Vec<Words>,
    free: usize,
    dirty: usize,
    /// No granule below this one is free.
    lowest: usize,
}

impl Media {
    fn new(granules: usize) -> Media {
        let words = vec![Words::default(); granules];
        Media { states: vec![FREE; granules], holders: vec![0; granules], words, free: granules, dirty: 0, lowest: 0 }
    }

    fn is_free(&self, run: Range<usize>) -> bool {
        self.states[run].iter().all(|&state| state == FREE)
    }

    /// Free granules are offered, held or tagged from now on.
    fn occupy(&mut self, run: Range<usize>) {
        self.free -= run.len();
        if run.contains(&self.lowest) {
            self.lowest = run.end;
        }
        self.states[run].fill(IN_USE);
    }

    /// They are so no longer.
    fn vacate(&mut self, run: Range<usize>) {
        let (count, mut dirty) = (run.len(), 0);
        self.lowest = self.lowest.min(run.start);
        for state in &mut self.states[run] {
            *state &= !IN_USE;
            dirty += usize::from(*state);
        }
        self.dirty += dirty;
        self.free += count - dirty;
    }

    /// Granules in use have to be zeroed once they are not.
    fn soil(&mut self, run: Range<usize>) {
        self.states[run].iter_mut().for_each(|state| *state |= DIRTY);
    }

    fn grant(&mut self, run: Range<usize>, host: usize) {
        self.holders[run].iter_mut().for_each(|holders| *holders |= 1 << host);
    }

    fn revoke(&mut self, run: Range<usize>, host: usize) {
        self.holders[run].iter_mut().for_each(|holders| *holders &= !(1 << host));
    }

    /// Zeroes the lowest dirty granules, at most so many, and answers how many.
    fn scrub(&mut self, most: u16) -> usize {
        let count = self.dirty.min(usize::from(most));
        let dirty = (0..self.states.len()).filter(|&granule| self.states[granule] == DIRTY).take(count);
        for granule in dirty.collect::<Vec<_>>() {
            self.states[granule] = FREE;
            self.words[granule].clear();
            self.lowest = self.lowest.min(granule);
        }
        self.dirty -= count;
        self.free += count;
        count
    }
}

// Event logs

#[derive(Clone, Copy)]
enum Kind {
    Add,
    Release,
    ForcedRelease,
    RegionUpdated,
    AddResponse,
    Released,
}

type Record = [u8; 128];

const IDENTIFIER: [u8; 16] = 0xca95afa7_f183_4018_8c2f_95268e101a2a_u128.to_be_bytes();

fn record(kind: Kind, host: usize, extent: &Extent, more: bool, available: [u32; 2]) -> Record {
    let mut record = [0; 128];
    record[..16].copy_from_slice(&IDENTIFIER);
    record[16] = 128;
    record[48] = kind as u8;
    record[49] = 3;
    record[50] = host as u8;
    record[53] = u8::from(more);
    record[56..96].copy_from_slice(&extent.bytes());
    record[120..124].copy_from_slice(&available[0].to_le_bytes());
    record[124..].copy_from_slice(&available[1].to_le_bytes());
    record
}

#[derive(Default)]
struct Log {
    records: VecDeque<Record>,
    places: usize,
    next_handle: u16,
    missed: u16,
}

impl Log {
    fn new(places: usize) -> Log {
        Log { places, next_handle: 1, ..Log::default() }
    }

    fn room(&self) -> usize {
        self.places - self.records.len()
    }

    /// Gives a record the next handle, or counts it as missed.
    fn put(&mut self, mut record: Record) {
        if self.room() == 0 {
            self.missed = self.missed.saturating_add(1);
            return;
        }
        record[20..22].copy_from_slice(&self.next_handle.to_le_bytes());
        self.next_handle = self.next_handle.checked_add(1).unwrap_or(1);
        self.records.push_back(record);
    }

    /// Puts a record for each extent.
    fn tell(&mut self, kind: Kind, host: usize, extents: &[Extent], available: [u32; 2]) {
        for (index, extent) in extents.iter().enumerate() {
            self.put(record(kind, host, extent, index + 1 < extents.len(), available));
        }
    }

    /// Get Event Records.
    fn get(&self, payload: &[u8], reply: &mut Vec<u8>) -> Result<(), Code> {
        let [log] = *exactly(payload)?;
        ensure(log <= 4, Code::InvalidInput)?;
        let (count, missed) = if log == 4 { (self.records.len(), self.missed) } else { (0, 0) };
        let shown = count.min(RECORDS_SHOWN);
        let mut head = [0; 32];
        head[0] = u8::from(missed > 0) | u8::from(count > shown) << 1;
        head[2..4].copy_from_slice(&missed.to_le_bytes());
        head[20] = shown as u8;
        reply.extend_from_slice(&head);
        for record in self.records.iter().take(shown) {
            reply.extend_from_slice(record);
        }
        Ok(())
    }

    /// Clear Event Records.
    fn clear(&mut self, payload: &[u8]) -> Result<(), Code> {
        let mut handles = items(payload, 6, |head| usize::from(head[2]), 2)?;
        let (log, all) = (payload[0], payload[1] & 1 != 0);
        ensure(log <= 4, Code::InvalidInput)?;
        if all {
            ensure(log == 4 && self.missed > 0, Code::InvalidInput)?;
            self.records.clear();
            self.missed = 0;
            return Ok(());
        }
        let (count, present) = (handles.len(), if log == 4 { self.records.len() } else { 0 });
        let agree = count <= present && self.records.iter().zip(&mut handles).all(|(record, handle)| record[20..22] == *handle);
        ensure(agree, Code::InvalidHandle)?;
        self.records.drain(..count);
        Ok(())
    }
}

// Hosts and shared tags

struct Offer {
    region: usize,
    extents: Vec<Extent>,
}

#[derive(Default)]
struct Host {
    accepted: Vec<Extent>,
    /// How often the accepted extents changed.
    generation: u32,
    /// The oldest first.
    offers: VecDeque<Offer>,
    /// What was listed with More in responses and in releases.
    held_answers: Vec<Span>,
    held_releases: Vec<Span>,
    log: Log,
    /// How many extents are accepted and offered, and their distinct tags.
    extents: usize,
    tags: Vec<u128>,
}

impl Host {
    fn new() -> Host {
        Host { log: Log::new(HOST_LOG), ..Host::default() }
    }

    /// Counts extents and tags anew.
    fn recount(&mut self) {
        self.extents = 0;
        self.tags.clear();
        for extent in self.accepted.iter().chain(self.offers.iter().flat_map(|offer| &offer.extents)) {
            self.extents += 1;
            if extent.tag != 0 && self.tags.last() != Some(&extent.tag) && !self.tags.contains(&extent.tag) {
                self.tags.push(extent.tag);
            }
        }
    }

    /// The extents of the oldest offer.
    fn offered(&self) -> &[Extent] {
        self.offers.front().map_or(&[], |offer| &offer.extents[..])
    }

    /// How many more extents and tags the host may have.
    fn available(&self) -> [u32; 2] {
        [(MOST_EXTENTS - self.extents) as u32, (MOST_TAGS - self.tags.len()) as u32]
    }
}

/// A live tag of a shareable region, with a bit for each host that holds it or is offered it.
struct SharedTag {
    tag: u128,
    region: usize,
    runs: Vec<Range<usize>>,
    holders: u16,
    offered: u16,
    referenced: bool,
}

/// Adds the spans of a message to those that are held, and hands out all of them where no more are to come.
fn hold(held: &mut Vec<Span>, payload: &[u8]) -> Result<Option<Vec<Span>>, Code> {
    let listed = items(payload, 8, |head| u32_at(head, 0) as usize, 24)?;
    ensure(held.len() + listed.len() <= MOST_EXTENTS, Code::ResourcesExhausted)?;
    held.extend(listed.map(Span::read));
    let more = payload[4] & 1 != 0;
    Ok(if more { None } else { Some(mem::take(held)) })
}

/// A listed span, the index of the extent in which it lies, and its granules.
struct Part {
    span: Span,
    owner: usize,
    region: usize,
    run: Range<usize>,
}

/// Parts as extents, with the tags and the sequences of those in which they lie.
fn named_as(owners: &[Extent], parts: &[Part]) -> Vec<Extent> {
    parts.iter().map(|part| Extent { span: part.span, ..owners[part.owner] }).collect()
}

/// What remains of a list of extents without some parts: the pieces of an extent stand in its place, the lower first.
fn without(extents: &[Extent], parts: &[Part]) -> Vec<Extent> {
    let mut gone: Vec<(usize, Span)> = parts.iter().map(|part| (part.owner, part.span)).collect();
    gone.sort_unstable_by_key(|&(owner, span)| (owner, span.start));
    let mut gone = gone.iter().peekable();
    let mut left = Vec::with_capacity(extents.len() + parts.len());
    for (index, extent) in extents.iter().enumerate() {
        let mut push = |start: u64, end: u64| {
            if start < end {
                left.push(Extent { span: Span { start, length: end - start }, ..*extent });
            }
        };
        let mut start = extent.span.start;
        while let Some((_, span)) = gone.next_if(|(owner, _)| *owner == index) {
            push(start, span.start);
            start = span.end();
        }
        push(start, extent.span.end());
    }
    left
}

/// The payload of Initiate Dynamic Capacity Add and of Initiate Dynamic Capacity Release.
struct Initiate<'a> {
    host: u16,
    /// The policy of an add, the flags of a release.
    how: u8,
    region: u8,
    length: u64,
    tag: u128,
    extents: ChunksExact<'a, u8>,
}

impl<'a> Initiate<'a> {
    fn read(payload: &'a [u8]) -> Result<Initiate<'a>, Code> {
        let extents = items(payload, 32, |head| u32_at(head, 28) as usize, 40)?;
        let tag = u128::from_le_bytes(payload[12..28].try_into().unwrap());
        Ok(Initiate { host: u16_at(payload, 0), how: payload[2], region: payload[3], length: u64_at(payload, 4), tag, extents })
    }

    /// The spans that are listed, at least one and not too many.
    fn list(&self) -> Result<Vec<Span>, Code> {
        ensure(self.extents.len() > 0, Code::InvalidInput)?;
        ensure(self.extents.len() <= MOST_EXTENTS, Code::ResourcesExhausted)?;
        Ok(self.extents.clone().map(Span::read).collect())
    }
}

// The device

struct Device {
    config: Config,
    media: Media,
    hosts: Vec<Host>,
    /// The Fabric Manager's.
    log: Log,
    /// In the order in which they were opened.
    tags: Vec<SharedTag>,
}

/// Why a load or a store is refused.
#[derive(Clone, Copy)]
enum AccessFault {
    Misaligned = 1,
    OutsideRegions = 2,
    NotGranted = 3,
}

impl Device {
    fn new(config: Config) -> Device {
        let granules = config.regions.iter().map(|region| region.granules().len()).sum();
        let hosts = (0..config.hosts).map(|_| Host::new()).collect();
        Device { config, media: Media::new(granules), hosts, log: Log::new(MANAGER_LOG), tags: Vec::new() }
    }

    /// The granule and the number of the word at an address, where the host may use it.
    fn locate(&self, host: usize, address: u64) -> Result<(usize, u64), AccessFault> {
        if address % 8 != 0 {
            return Err(AccessFault::Misaligned);
        }
        let (region, offset) = self.config.find(host, address).ok_or(AccessFault::OutsideRegions)?;
        let region = &self.config.regions[region];
        let granule = region.first + (offset >> region.granule_bits()) as usize;
        if self.media.holders[granule] & 1 << host == 0 {
            return Err(AccessFault::NotGranted);
        }
        Ok((granule, (offset & ((1 << region.granule_bits()) - 1)) / 8))
    }

    fn load(&self, host: usize, address: u64) -> Result<u64, AccessFault> {
        let (granule, word) = self.locate(host, address)?;
        Ok(self.media.words[granule].get(&word).copied().unwrap_or(0))
    }

    fn store(&mut self, host: usize, address: u64, value: u64) -> Result<(), AccessFault> {
        let (granule, word) = self.locate(host, address)?;
        self.media.words[granule].insert(word, value);
        Ok(())
    }

    /// A number of a region that there is.
    fn region(&self, number: u8) -> Result<usize, Code> {
        ensure(usize::from(number) < self.config.regions.len(), Code::InvalidInput)?;
        Ok(usize::from(number))
    }

    /// A number of a host that there is.
    fn host(&self, number: u16) -> Result<usize, Code> {
        ensure(usize::from(number) < self.config.hosts, Code::InvalidInput)?;
        Ok(usize::from(number))
    }

    fn is_shareable(&self, region: usize) -> bool {
        self.config.regions[region].shareable
    }

    /// The place of a live tag of a shareable region.
    fn shared(&self, tag: u128) -> Option<usize> {
        self.tags.iter().position(|it| it.tag == tag)
    }

    /// Whether a tag names something anywhere in the device.
    fn is_live(&self, tag: u128) -> bool {
        self.shared(tag).is_some() || self.hosts.iter().any(|host| host.tags.contains(&tag))
    }

    /// Ends a shared tag that nobody uses any more.
    fn end_if_unused(&mut self, index: usize) {
        let tag = &self.tags[index];
        if tag.holders == 0 && tag.offered == 0 && !tag.referenced {
            for run in self.tags.remove(index).runs {
                self.media.vacate(run);
            }
        }
    }

    // What both roles read

    /// The regions from the first one asked for on.
    fn regions_shown(&self, count: u8, first: u8) -> Result<Range<usize>, Code> {
        let first = self.region(first)?;
        Ok(first..first + usize::from(count).min(self.config.regions.len() - first))
    }

    fn write_regions(&self, host: usize, shown: Range<usize>, known_flags: u8, reply: &mut Vec<u8>) {
        for number in shown {
            let region = &self.config.regions[number];
            let flags = u8::from(region.sanitizes) | u8::from(region.shareable) << 1;
            for field in &[self.config.base(host, number), region.decode_units, region.length, region.block] {
                reply.extend_from_slice(&field.to_le_bytes());
            }
            push_u32s(reply, &[region.handle, u32::from(flags & known_flags)]);
        }
        let [extents, tags] = self.hosts[host].available();
        push_u32s(reply, &[MOST_EXTENTS as u32, extents, MOST_TAGS as u32, tags]);
    }

    fn write_extents(&self, host: usize, shown: Range<usize>, reply: &mut Vec<u8>) {
        let it = &self.hosts[host];
        push_u32s(reply, &[shown.len() as u32, it.accepted.len() as u32, it.generation, 0]);
        for extent in &it.accepted[shown] {
            reply.extend_from_slice(&extent.bytes());
        }
    }

    // Commands of a host

    fn host_command(&mut self, host: usize, opcode: u16, payload: &[u8], reply: &mut Vec<u8>) -> Result<(), Code> {
        match opcode {
            0x0100 => self.hosts[host].log.get(payload, reply),
            0x0101 => self.hosts[host].log.clear(payload),
            0x4800 => self.get_configuration(host, payload, reply),
            0x4801 => self.get_extents(host, payload, reply),
            0x4802 => self.respond(host, payload).inspect_err(|_| self.hosts[host].held_answers.clear()),
            0x4803 => self.give_back(host, payload).inspect_err(|_| self.hosts[host].held_releases.clear()),
            _ => Err(Code::Unsupported),
        }
    }

    /// Get Dynamic Capacity Configuration.
    fn get_configuration(&self, host: usize, payload: &[u8], reply: &mut Vec<u8>) -> Result<(), Code> {
        let [count, first] = *exactly(payload)?;
        let shown = self.regions_shown(count, first)?;
        reply.extend_from_slice(&[self.config.regions.len() as u8, shown.len() as u8, 0, 0, 0, 0, 0, 0]);
        self.write_regions(host, shown, 1, reply);
        Ok(())
    }

    /// Get Dynamic Capacity Extent List.
    fn get_extents(&self, host: usize, payload: &[u8], reply: &mut Vec<u8>) -> Result<(), Code> {
        let payload = exactly::<8>(payload)?;
        let shown = page(u32_at(payload, 4), u32_at(payload, 0), self.hosts[host].accepted.len(), EXTENTS_SHOWN)?;
        self.write_extents(host, shown, reply);
        Ok(())
    }

    /// Each listed span with the extent of `owners` in which it lies. The spans are tried one after another, each by all rules.
    fn parts(&self, host: usize, named: Option<usize>, list: &[Span], owners: &[Extent]) -> Result<Vec<Part>, Code> {
        let mut parts = Vec::with_capacity(list.len());
        let mut reach = u64::MAX..0;
        for (index, &span) in list.iter().enumerate() {
            let (region, run) = self.config.place(host, named, span)?;
            let owner = owners.iter().position(|it| it.span.encloses(&span)).ok_or(Code::InvalidPhysicalAddress)?;
            ensure(!overlaps_earlier(list, index, &mut reach), Code::InvalidExtentList)?;
            ensure(!self.is_shareable(region) || owners[owner].span == span, Code::InvalidExtentList)?;
            parts.push(Part { span, owner, region, run });
        }
        Ok(parts)
    }

    /// Add Dynamic Capacity Response.
    fn respond(&mut self, host: usize, payload: &[u8]) -> Result<(), Code> {
        let Some(list) = hold(&mut self.hosts[host].held_answers, payload)? else { return Ok(()) };
        let parts = self.answer(host, &list)?;
        let it = &mut self.hosts[host];
        let Some(offer) = it.offers.pop_front() else { return Ok(()) };
        let accepted = named_as(&offer.extents, &parts);
        it.accepted.extend_from_slice(&accepted);
        it.generation = it.generation.wrapping_add(u32::from(!accepted.is_empty()));
        it.recount();
        let told = if accepted.is_empty() { vec![Extent::ZERO] } else { accepted };
        self.log.tell(Kind::AddResponse, host, &told, it.available());
        self.settle(host, &offer, parts);
        Ok(())
    }

    /// The parts of the oldest offer that are accepted.
    fn answer(&self, host: usize, list: &[Span]) -> Result<Vec<Part>, Code> {
        let it = &self.hosts[host];
        let offered = it.offered();
        let parts = self.parts(host, None, list, offered)?;
        let shares = parts.first().is_some_and(|part| self.is_shareable(part.region));
        ensure(!shares || parts.len() == offered.len(), Code::InvalidExtentList)?;
        ensure(it.extents - offered.len() + parts.len() <= MOST_EXTENTS, Code::ResourcesExhausted)?;
        Ok(parts)
    }

    /// The host holds what it accepted of an offer, and the rest is given up.
    fn settle(&mut self, host: usize, offer: &Offer, parts: Vec<Part>) {
        let (accepts, region) = (!parts.is_empty(), &self.config.regions[offer.region]);
        let (shareable, sanitizes) = (region.shareable, region.sanitizes);
        if !shareable {
            for extent in &offer.extents {
                self.media.vacate(self.config.run(host, offer.region, extent.span));
            }
        }
        for part in parts {
            if !shareable {
                self.media.occupy(part.run.clone());
            }
            if sanitizes {
                self.media.soil(part.run.clone());
            }
            self.media.grant(part.run, host);
        }
        if shareable {
            let index = self.shared(offer.extents[0].tag).expect("a tag that is offered is live");
            self.tags[index].offered &= !(1 << host);
            self.tags[index].holders |= u16::from(accepts) << host;
            self.end_if_unused(index);
        }
    }

    /// Release Dynamic Capacity.
    fn give_back(&mut self, host: usize, payload: &[u8]) -> Result<(), Code> {
        let Some(list) = hold(&mut self.hosts[host].held_releases, payload)? else { return Ok(()) };
        if list.is_empty() {
            return Ok(());
        }
        let parts = self.parts(host, None, &list, &self.hosts[host].accepted)?;
        self.try_complete(host, &parts)?;
        let left = self.left(host, &parts)?;
        let gone = named_as(&self.hosts[host].accepted, &parts);
        self.lose(host, parts, left, false);
        self.log.tell(Kind::Released, host, &gone, self.hosts[host].available());
        Ok(())
    }

    /// Tries that of each shared tag among the parts all accepted extents are there.
    fn try_complete(&self, host: usize, parts: &[Part]) -> Result<(), Code> {
        let accepted = &self.hosts[host].accepted;
        let mut tried = 0;
        for part in parts.iter().filter(|part| self.is_shareable(part.region)) {
            let tag = accepted[part.owner].tag;
            if tag != tried {
                let listed = parts.iter().filter(|it| accepted[it.owner].tag == tag).count();
                ensure(listed == accepted.iter().filter(|it| it.tag == tag).count(), Code::InvalidExtentList)?;
                tried = tag;
            }
        }
        Ok(())
    }

    /// The accepted extents without some parts, where they are not too many then.
    fn left(&self, host: usize, parts: &[Part]) -> Result<Vec<Extent>, Code> {
        let it = &self.hosts[host];
        let left = without(&it.accepted, parts);
        ensure(it.extents - it.accepted.len() + left.len() <= MOST_EXTENTS, Code::ResourcesExhausted)?;
        Ok(left)
    }

    /// Takes parts of its accepted extents from a host.
    fn lose(&mut self, host: usize, parts: Vec<Part>, left: Vec<Extent>, clean: bool) {
        let it = &mut self.hosts[host];
        let before = mem::replace(&mut it.accepted, left);
        it.generation = it.generation.wrapping_add(1);
        it.recount();
        for part in &parts {
            self.media.revoke(part.run.clone(), host);
            if clean {
                self.media.soil(part.run.clone());
            }
            if !self.is_shareable(part.region) {
                self.media.vacate(part.run.clone());
            }
        }
        for part in &parts {
            let shared = if self.is_shareable(part.region) { self.shared(before[part.owner].tag) } else { None };
            if let Some(index) = shared {
                self.tags[index].holders &= !(1 << host);
                self.end_if_unused(index);
            }
        }
    }

    // Commands of the Fabric Manager

    fn manager_command(&mut self, opcode: u16, payload: &[u8], reply: &mut Vec<u8>) -> Result<(), Code> {
        match opcode {
            0x0100 => self.log.get(payload, reply),
            0x0101 => self.log.clear(payload),
            0x5600 => self.get_info(payload, reply),
            0x5601 => self.get_host_regions(payload, reply),
            0x5602 => self.set_region(payload),
            0x5603 => self.get_host_extents(payload, reply),
            0x5604 => self.add(payload),
            0x5605 => self.release(payload),
            0x5606 => self.add_reference(payload),
            0x5607 => self.remove_reference(payload),
            0x5608 => self.list_tags(payload, reply),
            _ => Err(Code::Unsupported),
        }
    }

    /// Get DCD Info.
    fn get_info(&self, payload: &[u8], reply: &mut Vec<u8>) -> Result<(), Code> {
        exactly::<0>(payload)?;
        let regions = &self.config.regions;
        reply.extend_from_slice(&[self.config.hosts as u8, regions.len() as u8, 0x0F, 0, 0x03, 0, 0, 0]);
        push_u32s(reply, &[self.media.states.len() as u32, self.media.free as u32, self.media.dirty as u32, 0]);
        for region in regions {
            reply.extend_from_slice(&region.sizes.to_le_bytes());
        }
        Ok(())
    }

    /// Get Host DC Region Configuration.
    fn get_host_regions(&self, payload: &[u8], reply: &mut Vec<u8>) -> Result<(), Code> {
        let [low, high, count, first] = *exactly(payload)?;
        let host = self.host(u16::from_le_bytes([low, high]))?;
        let shown = self.regions_shown(count, first)?;
        reply.extend_from_slice(&[low, high, self.config.regions.len() as u8, shown.len() as u8, 0, 0, 0, 0]);
        self.write_regions(host, shown, 3, reply);
        Ok(())
    }

    /// Set DC Region Configuration.
    fn set_region(&mut self, payload: &[u8]) -> Result<(), Code> {
        let payload = exactly::<16>(payload)?;
        let (number, block, sanitizes) = (self.region(payload[0])?, u64_at(payload, 4), payload[12] & 1 != 0);
        let region = &mut self.config.regions[number];
        ensure(region.supports(block), Code::InvalidInput)?;
        ensure(region.sanitizes == sanitizes, Code::Unsupported)?;
        ensure(self.media.is_free(region.granules()), Code::RetryRequired)?;
        ensure(self.hosts.iter().all(|host| host.log.room() > 0), Code::RetryRequired)?;
        region.block = block;
        for (host, it) in self.hosts.iter_mut().enumerate() {
            let mut record = record(Kind::RegionUpdated, host, &Extent::ZERO, false, it.available());
            record[52] = number as u8;
            it.log.put(record);
        }
        Ok(())
    }

    /// Get DC Region Extent Lists.
    fn get_host_extents(&self, payload: &[u8], reply: &mut Vec<u8>) -> Result<(), Code> {
        let payload = exactly::<12>(payload)?;
        let host = self.host(u16_at(payload, 0))?;
        let first = u32_at(payload, 8);
        let shown = page(first, u32_at(payload, 4), self.hosts[host].accepted.len(), EXTENTS_SHOWN)?;
        push_u32s(reply, &[host as u32, first]);
        self.write_extents(host, shown, reply);
        Ok(())
    }

    /// Initiate Dynamic Capacity Add.
    fn add(&mut self, payload: &[u8]) -> Result<(), Code> {
        let asked = Initiate::read(payload)?;
        let host = self.host(asked.host)?;
        let (policy, tag) = (asked.how, asked.tag);
        ensure(policy <= 3, Code::InvalidInput)?;
        let region = self.region(asked.region)?;
        ensure(policy != 3 || self.is_shareable(region), Code::InvalidInput)?;
        ensure(tag != 0 || !self.is_shareable(region), Code::InvalidInput)?;
        ensure(tag == 0 || policy == 3 || !self.is_live(tag), Code::InvalidInput)?;
        let runs = match policy {
            0 => self.free_runs(region, asked.length)?,
            1 => self.contiguous_run(region, asked.length)?,
            2 => self.prescribed_runs(host, region, &asked.list()?)?,
            _ => self.shared_runs(host, region, tag)?,
        };
        let it = &self.hosts[host];
        ensure(it.extents + runs.len() <= MOST_EXTENTS, Code::ResourcesExhausted)?;
        ensure(tag == 0 || it.tags.len() < MOST_TAGS, Code::ResourcesExhausted)?;
        ensure(runs.len() <= it.log.room(), Code::RetryRequired)?;
        self.offer(host, region, tag, runs);
        Ok(())
    }

    /// How many granules a length has, which is made of blocks.
    fn granules_asked(&self, region: usize, length: u64) -> Result<usize, Code> {
        let region = &self.config.regions[region];
        ensure(length > 0 && length & (region.block - 1) == 0, Code::InvalidInput)?;
        Ok((length >> region.granule_bits()) as usize)
    }

    /// The runs of free blocks of a region, from the lowest on.
    fn runs_of_free_blocks(&self, region: usize) -> impl Iterator<Item = Range<usize>> + '_ {
        let size = self.config.regions[region].granules_of_block();
        let Range { start, end } = self.config.regions[region].granules();
        let mut next = start + (self.media.lowest.clamp(start, end) - start) / size * size;
        std::iter::from_fn(move || {
            while next < end && !self.media.is_free(next..next + size) {
                next += size;
            }
            let start = next;
            while next < end && self.media.is_free(next..next + size) {
                next += size;
            }
            (start < next).then_some(start..next)
        })
    }

    /// The lowest free blocks, wherever they lie.
    fn free_runs(&self, region: usize, length: u64) -> Result<Vec<Range<usize>>, Code> {
        let mut left = self.granules_asked(region, length)?;
        let mut runs = Vec::new();
        for run in self.runs_of_free_blocks(region) {
            let count = left.min(run.len());
            runs.push(run.start..run.start + count);
            left -= count;
            if left == 0 {
                break;
            }
        }
        ensure(left == 0, Code::ResourcesExhausted)?;
        Ok(runs)
    }

    /// The lowest free blocks that lie together.
    fn contiguous_run(&self, region: usize, length: u64) -> Result<Vec<Range<usize>>, Code> {
        let count = self.granules_asked(region, length)?;
        let mut runs = self.runs_of_free_blocks(region);
        let run = runs.find(|run| count <= run.len()).ok_or(Code::ResourcesExhausted)?;
        Ok(vec![run.start..run.start + count])
    }

    /// The listed blocks of a region.
    fn prescribed_runs(&self, host: usize, region: usize, list: &[Span]) -> Result<Vec<Range<usize>>, Code> {
        let mut runs = Vec::with_capacity(list.len());
        let mut reach = u64::MAX..0;
        for (index, &span) in list.iter().enumerate() {
            let (_, run) = self.config.place(host, Some(region), span)?;
            ensure(self.media.is_free(run.clone()), Code::InvalidExtentList)?;
            ensure(!overlaps_earlier(list, index, &mut reach), Code::InvalidExtentList)?;
            runs.push(run);
        }
        Ok(runs)
    }

    /// The granules of a shared tag that the host has nothing of.
    fn shared_runs(&self, host: usize, region: usize, tag: u128) -> Result<Vec<Range<usize>>, Code> {
        let tag = &self.tags[self.shared(tag).ok_or(Code::InvalidInput)?];
        ensure(tag.region == region, Code::InvalidInput)?;
        ensure((tag.holders | tag.offered) & 1 << host == 0, Code::InvalidInput)?;
        Ok(tag.runs.clone())
    }

    /// Offers runs of a region to a host, and tells it.
    fn offer(&mut self, host: usize, region: usize, tag: u128, runs: Vec<Range<usize>>) {
        let shareable = self.is_shareable(region);
        let extent = |(index, run): (usize, &Range<usize>)| {
            let sequence = if shareable { index as u16 + 1 } else { 0 };
            Extent { span: self.config.span(host, region, run), tag, sequence }
        };
        let extents = runs.iter().enumerate().map(extent).collect();
        match self.shared(tag) {
            Some(index) => self.tags[index].offered |= 1 << host,
            None => {
                runs.iter().for_each(|run| self.media.occupy(run.clone()));
                if shareable {
                    self.tags.push(SharedTag { tag, region, runs, holders: 0, offered: 1 << host, referenced: false });
                }
            }
        }
        let it = &mut self.hosts[host];
        it.offers.push_back(Offer { region, extents });
        it.recount();
        let available = it.available();
        it.log.tell(Kind::Add, host, &it.offers[it.offers.len() - 1].extents, available);
    }

    /// Initiate Dynamic Capacity Release.
    fn release(&mut self, payload: &[u8]) -> Result<(), Code> {
        let asked = Initiate::read(payload)?;
        let host = self.host(asked.host)?;
        let (policy, forced, clean) = (asked.how & 0x0F, asked.how & 0x10 != 0, asked.how & 0x20 != 0);
        ensure(forced || !clean, Code::Unsupported)?;
        let parts = match policy {
            0 => self.parts_of_tag(host, asked.tag)?,
            1 => self.prescribed_parts(host, &asked)?,
            _ => return Err(Code::InvalidInput),
        };
        let left = if forced { Some(self.left(host, &parts)?) } else { None };
        ensure(parts.len() <= self.hosts[host].log.room(), Code::RetryRequired)?;
        let meant = named_as(&self.hosts[host].accepted, &parts);
        if let Some(left) = left {
            self.lose(host, parts, left, clean);
        }
        let it = &mut self.hosts[host];
        let available = it.available();
        it.log.tell(if forced { Kind::ForcedRelease } else { Kind::Release }, host, &meant, available);
        Ok(())
    }

    /// The accepted extents of a host that have a tag.
    fn parts_of_tag(&self, host: usize, tag: u128) -> Result<Vec<Part>, Code> {
        ensure(tag != 0, Code::InvalidInput)?;
        let mut parts = Vec::new();
        for (owner, extent) in self.hosts[host].accepted.iter().enumerate().filter(|(_, it)| it.tag == tag) {
            let (region, _) = self.config.find(host, extent.span.start).expect("an accepted extent lies in a region");
            parts.push(Part { span: extent.span, owner, region, run: self.config.run(host, region, extent.span) });
        }
        ensure(!parts.is_empty(), Code::InvalidInput)?;
        Ok(parts)
    }

    /// The listed parts of a host's accepted extents in one region.
    fn prescribed_parts(&self, host: usize, asked: &Initiate) -> Result<Vec<Part>, Code> {
        let region = self.region(asked.region)?;
        let parts = self.parts(host, Some(region), &asked.list()?, &self.hosts[host].accepted)?;
        self.try_complete(host, &parts)?;
        Ok(parts)
    }

    fn add_reference(&mut self, payload: &[u8]) -> Result<(), Code> {
        let tag = u128::from_le_bytes(*exactly(payload)?);
        let index = self.shared(tag).ok_or(Code::InvalidInput)?;
        self.tags[index].referenced = true;
        Ok(())
    }

    fn remove_reference(&mut self, payload: &[u8]) -> Result<(), Code> {
        let tag = u128::from_le_bytes(*exactly(payload)?);
        let index = self.shared(tag).ok_or(Code::InvalidInput)?;
        ensure(self.tags[index].referenced, Code::InvalidInput)?;
        self.tags[index].referenced = false;
        self.end_if_unused(index);
        Ok(())
    }

    fn list_tags(&self, payload: &[u8], reply: &mut Vec<u8>) -> Result<(), Code> {
        let payload = exactly::<8>(payload)?;
        let first = u32_at(payload, 0);
        let shown = page(first, u32_at(payload, 4), self.tags.len(), TAGS_SHOWN)?;
        push_u32s(reply, &[first, shown.len() as u32, self.tags.len() as u32, 0]);
        for tag in &self.tags[shown] {
            reply.extend_from_slice(&tag.tag.to_le_bytes());
            let hosts = u32::from(tag.holders) | u32::from(tag.offered) << 16;
            push_u32s(reply, &[hosts, u32::from(tag.referenced)]);
        }
        Ok(())
    }
}

// The journal

#[derive(Clone, Copy)]
enum Actor {
    Host(u8),
    Manager,
    Sanitizer,
}

enum Answer {
    /// The next one of the responses.
    Response,
    Word(u64),
    Stored,
    LoadRefused(AccessFault),
    StoreRefused(AccessFault),
    Scrubbed(usize),
}

struct Entry {
    line: u32,
    actor: Actor,
    answer: Answer,
}

#[derive(Default)]
struct Journal {
    entries: Vec<Entry>,
    /// All responses, one behind the other.
    responses: Vec<u8>,
}

const HEADER: usize = 12;

/// The length of the payload, as the header of a message has it.
fn payload_length(message: &[u8]) -> usize {
    (u32_at(message, 4) >> 8 & 0x1F_FFFF) as usize
}

/// Whether bytes are a request.
fn is_request(message: &[u8]) -> bool {
    message.len() >= HEADER && message[0] & 0x0F == 0 && payload_length(message) == message.len() - HEADER
}

impl Journal {
    fn enter(&mut self, line: u32, actor: Actor, answer: Answer) {
        self.entries.push(Entry { line, actor, answer });
    }

    /// Has the device answer a request, and keeps the response.
    fn command(&mut self, line: u32, actor: Actor, request: &[u8], device: &mut Device) {
        let start = self.responses.len();
        let (opcode, payload) = (u16_at(request, 3), &request[HEADER..]);
        self.responses.extend_from_slice(&[1, request[1], 0, request[3], request[4], 0, 0, 0, 0, 0, 0, 0]);
        let done = match actor {
            Actor::Host(host) => device.host_command(usize::from(host), opcode, payload, &mut self.responses),
            _ => device.manager_command(opcode, payload, &mut self.responses),
        };
        let length = (self.responses.len() - start - HEADER) as u32;
        match done {
            Ok(()) => self.responses[start + 5..start + 8].copy_from_slice(&length.to_le_bytes()[..3]),
            Err(code) => self.responses[start + 8..start + 10].copy_from_slice(&(code as u16).to_le_bytes()),
        }
        self.enter(line, actor, Answer::Response);
    }
}

// Scripts

/// Why a script is refused: the number of the fault, and the bytes before it.
struct Fault {
    number: u8,
    place: usize,
}

struct Reader<'a> {
    bytes: &'a [u8],
    place: usize,
}

impl<'a> Reader<'a> {
    fn fault<T>(&self, number: u8, place: usize) -> Result<T, Fault> {
        Err(Fault { number, place })
    }

    fn take(&mut self, count: usize) -> Result<&'a [u8], Fault> {
        let Some(found) = self.bytes.get(self.place..self.place + count) else { return self.fault(4, self.bytes.len()) };
        self.place += count;
        Ok(found)
    }

    fn u8(&mut self) -> Result<u8, Fault> {
        Ok(self.take(1)?[0])
    }

    fn u64(&mut self) -> Result<u64, Fault> {
        Ok(u64_at(self.take(8)?, 0))
    }

    /// The configuration and the number of lanes.
    fn head(&mut self) -> Result<(Config, u8), Fault> {
        if self.take(4)? != b"DCDS" {
            return self.fault(1, 0);
        }
        let version = u16_at(self.take(2)?, 0);
        if version != 1 && version != 2 {
            return self.fault(2, 4);
        }
        self.take(2)?;
        let (hosts, regions) = (usize::from(self.u8()?), usize::from(self.u8()?));
        if !(1..=MOST_HOSTS).contains(&hosts) || !(1..=MOST_REGIONS).contains(&regions) {
            return self.fault(3, 8);
        }
        let lanes = match (version, self.u8()?) {
            (1, _) => 1,
            (_, lanes @ 1..=MOST_LANES) => lanes,
            _ => return self.fault(12, 10),
        };
        self.take(5)?;
        let regions: Vec<Region> = (0..regions).map(|_| Ok(Region::read(self.take(40)?))).collect::<Result<_, Fault>>()?;
        let bases = (0..hosts * regions.len()).map(|_| self.u64()).collect::<Result<_, Fault>>()?;
        match Config::new(hosts, regions, bases) {
            Some(config) => Ok((config, lanes)),
            None => self.fault(3, 8),
        }
    }

    /// A host in one of its lanes.
    fn host(&mut self, hosts: usize, lanes: u8) -> Result<u8, Fault> {
        match self.u8()? {
            byte if usize::from(byte % 16) < hosts && byte / 16 < lanes => Ok(byte % 16),
            _ => self.fault(6, self.place - 1),
        }
    }

    fn host_or_manager(&mut self, hosts: usize, lanes: u8) -> Result<Actor, Fault> {
        if self.bytes.get(self.place) == Some(&MANAGER) {
            self.place += 1;
            return Ok(Actor::Manager);
        }
        Ok(Actor::Host(self.host(hosts, lanes)?))
    }

    fn request(&mut self) -> Result<&'a [u8], Fault> {
        let length = usize::from(u16_at(self.take(2)?, 0));
        let message = self.take(length)?;
        is_request(message).then_some(message).ok_or(Fault { number: 7, place: self.place - length })
    }
}

/// Runs a script to its end.
fn run(script: &[u8]) -> Result<(Device, Journal), Fault> {
    if script.len() > MOST_BYTES {
        return Err(Fault { number: 8, place: MOST_BYTES });
    }
    let mut reader = Reader { bytes: script, place: 0 };
    let (config, lanes) = reader.head()?;
    let (mut device, mut journal, mut line) = (Device::new(config), Journal::default(), 0);
    loop {
        let kind = reader.u8()?;
        match kind {
            0 => break,
            6..=255 => return reader.fault(5, reader.place - 1),
            _ if line == MOST_LINES => return reader.fault(10, reader.place - 1),
            _ => line += 1,
        }
        run_line(kind, line, lanes, &mut reader, &mut device, &mut journal)?;
    }
    if reader.place < script.len() {
        return reader.fault(9, reader.place);
    }
    Ok((device, journal))
}

/// Reads what follows a kind byte, and does it.
fn run_line(kind: u8, line: u32, lanes: u8, reader: &mut Reader, device: &mut Device, journal: &mut Journal) -> Result<(), Fault> {
    let hosts = device.config.hosts;
    match kind {
        1 => {
            let actor = reader.host_or_manager(hosts, lanes)?;
            journal.command(line, actor, reader.request()?, device);
        }
        2 => {
            let host = reader.host(hosts, lanes)?;
            let loaded = device.load(usize::from(host), reader.u64()?);
            journal.enter(line, Actor::Host(host), loaded.map_or_else(Answer::LoadRefused, Answer::Word));
        }
        3 => {
            let host = reader.host(hosts, lanes)?;
            let stored = device.store(usize::from(host), reader.u64()?, reader.u64()?);
            journal.enter(line, Actor::Host(host), stored.map_or_else(Answer::StoreRefused, |()| Answer::Stored));
        }
        4 => {
            let count = device.media.scrub(u16_at(reader.take(2)?, 0));
            journal.enter(line, Actor::Sanitizer, Answer::Scrubbed(count));
        }
        _ => {}
    }
    Ok(())
}

// The generated script

const GENERATED_HOSTS: u8 = 4;
const GENERATED_ROUNDS: u16 = 256;
const GENERATED_BLOCK: u64 = 1 << 28;

/// Adds a line with a command whose payload has these pieces.
fn push_command(script: &mut Vec<u8>, actor: u8, opcode: u16, pieces: &[&[u8]]) {
    let (payload, [low, high]) = (pieces.concat(), opcode.to_le_bytes());
    script.extend_from_slice(&[1, actor, (HEADER + payload.len()) as u8, 0]);
    script.extend_from_slice(&[0, 0, 0, low, high, payload.len() as u8, 0, 0, 0, 0, 0, 0]);
    script.extend_from_slice(&payload);
}

/// Adds a store of a drawn value at a drawn word of a span, and a load there.
fn push_accesses(script: &mut Vec<u8>, host: u8, span: Span, draw: &mut impl FnMut() -> u64) {
    let address = (span.start + 8 * (draw() % (1 << 28))).to_le_bytes();
    script.extend_from_slice(&[3, host]);
    script.extend_from_slice(&address);
    script.extend_from_slice(&draw().to_le_bytes());
    script.extend_from_slice(&[2, host]);
    script.extend_from_slice(&address);
}

/// The script of a seed.
fn generated(seed: u64) -> Vec<u8> {
    let mut state = seed;
    let mut draw = || {
        state = state.wrapping_mul(6364136223846793005).wrapping_add(1442695040888963407);
        state
    };
    let mut script = b"DCDS\x01\0\0\0\x04\x01\0\0\0\0\0\0".to_vec();
    for field in &[256, 256 * GENERATED_BLOCK, GENERATED_BLOCK, GENERATED_BLOCK, 1 << 32, 0, 0, 0, 0] {
        script.extend_from_slice(&field.to_le_bytes());
    }
    for round in 0..GENERATED_ROUNDS {
        let start = |host: u8| (64 * u64::from(host) + 8 * u64::from(round % 8)) * GENERATED_BLOCK;
        let extent = |host: u8| Extent { span: Span { start: start(host), length: 8 * GENERATED_BLOCK }, ..Extent::ZERO };
        let listed = [1, 0, 0, 0, 0, 0, 0, 0];
        for host in 0..GENERATED_HOSTS {
            push_command(&mut script, MANAGER, 0x5604, &[&[host, 0, 2, 0], &[0; 24], &[1, 0, 0, 0], &extent(host).bytes()]);
        }
        script.push(5);
        for host in 0..GENERATED_HOSTS {
            push_command(&mut script, host, 0x4802, &[&listed, &extent(host).bytes()[..24]]);
            push_command(&mut script, host, 0x0101, &[&[4, 0, 1, 0, 0, 0], &(round + 1).to_le_bytes()]);
            for _ in 0..16 {
                push_accesses(&mut script, host, extent(host).span, &mut draw);
            }
        }
        script.push(5);
        if round + 1 < GENERATED_ROUNDS {
            for host in 0..GENERATED_HOSTS {
                push_command(&mut script, host, 0x4803, &[&listed, &extent(host).bytes()[..24]]);
            }
            script.extend_from_slice(&[5, 4, 32, 0, 5]);
        }
    }
    script.push(0);
    script
}

// The printed text

/// How many bytes are written at a time, and how many a line has at most beyond them.
const PIECE: usize = 1 << 16;
const LONGEST_LINE: usize = 1 << 13;

struct Printer {
    text: Vec<u8>,
    output: File,
}

impl Printer {
    fn new() -> io::Result<Printer> {
        let output = File::from(io::stdout().as_fd().try_clone_to_owned()?);
        Ok(Printer { text: Vec::with_capacity(PIECE + LONGEST_LINE), output })
    }

    fn flush(&mut self) -> io::Result<()> {
        self.output.write_all(&self.text)?;
        self.text.clear();
        Ok(())
    }

    fn end_line(&mut self) -> io::Result<()> {
        self.text.push(b'\n');
        if self.text.len() >= PIECE {
            self.flush()?;
        }
        Ok(())
    }

    fn word(&mut self, word: &str) {
        self.text.extend_from_slice(word.as_bytes());
    }

    /// A word and a number behind it.
    fn field(&mut self, word: &str, mut number: u64) {
        self.word(word);
        let mut digits = [0; 20];
        let mut at = digits.len();
        loop {
            at -= 1;
            digits[at] = b'0' + (number % 10) as u8;
            number /= 10;
            if number == 0 {
                break;
            }
        }
        self.text.extend_from_slice(&digits[at..]);
    }

    fn digits(&mut self, bytes: &[u8]) {
        let digit = |n: u8| n + if n < 10 { b'0' } else { b'a' - 10 };
        let start = self.text.len();
        self.text.resize(start + 2 * bytes.len(), 0);
        for (pair, byte) in self.text[start..].chunks_exact_mut(2).zip(bytes) {
            pair[0] = digit(byte >> 4);
            pair[1] = digit(byte & 15);
        }
    }

    fn actor(&mut self, actor: Actor) {
        match actor {
            Actor::Host(host) => self.field("h", u64::from(host)),
            Actor::Manager => self.word("fm"),
            Actor::Sanitizer => self.word("sz"),
        }
    }

    fn journal(&mut self, journal: &Journal) -> io::Result<()> {
        let mut responses = &journal.responses[..];
        for (index, entry) in journal.entries.iter().enumerate() {
            self.field("", index as u64 + 1);
            self.field(" ", u64::from(entry.line));
            self.word(" ");
            self.actor(entry.actor);
            match entry.answer {
                Answer::Response => {
                    let (response, rest) = responses.split_at(HEADER + payload_length(responses));
                    self.word(" cmd ");
                    self.digits(response);
                    responses = rest;
                }
                Answer::Word(word) => {
                    self.word(" ld ");
                    self.digits(&word.to_be_bytes());
                }
                Answer::Stored => self.word(" st ok"),
                Answer::LoadRefused(fault) => self.field(" ld refused ", fault as u64),
                Answer::StoreRefused(fault) => self.field(" st refused ", fault as u64),
                Answer::Scrubbed(count) => self.field(" sc ", count as u64),
            }
            self.end_line()?;
        }
        Ok(())
    }

    fn records(&mut self, actor: Actor, log: &Log) -> io::Result<()> {
        for record in &log.records {
            self.word("rec ");
            self.actor(actor);
            self.word(" ");
            self.digits(record);
            self.end_line()?;
        }
        Ok(())
    }

    fn state(&mut self, device: &Device, entries: usize) -> io::Result<()> {
        for (number, host) in device.hosts.iter().enumerate() {
            let granules: usize = host.accepted.iter().map(|extent| granules_of(device, number, extent)).sum();
            let (extents, log) = (host.accepted.len(), host.log.records.len());
            writeln!(self.text, "host h{number} extents {extents} granules {granules} log {log}")?;
        }
        writeln!(self.text, "fm log {} missed {}", device.log.records.len(), device.log.missed)?;
        writeln!(self.text, "granules free {} dirty {}", device.media.free, device.media.dirty)?;
        writeln!(self.text, "end {entries}")?;
        self.flush()
    }

    /// What a run left: the journal and the logs, where they are wanted, and the state.
    fn run(&mut self, device: &Device, journal: &Journal, whole: bool) -> io::Result<()> {
        self.word("dcd 1\n");
        if whole {
            self.journal(journal)?;
            for (number, host) in device.hosts.iter().enumerate() {
                self.records(Actor::Host(number as u8), &host.log)?;
            }
            self.records(Actor::Manager, &device.log)?;
        }
        self.state(device, journal.entries.len())
    }

    /// A line that stands alone.
    fn line(&mut self, line: &str) -> io::Result<()> {
        self.word(line);
        self.word("\n");
        self.flush()
    }
}

/// How many granules an accepted extent of a host has.
fn granules_of(device: &Device, host: usize, extent: &Extent) -> usize {
    let (region, _) = device.config.find(host, extent.span.start).expect("an accepted extent lies in a region");
    device.config.run(host, region, extent.span).len()
}

// The program

/// The seed that words of the command line name.
fn seed(words: &[String]) -> Option<u64> {
    let digits = match words {
        [word, digits] if word == "--gen" => digits,
        [word] => word.strip_prefix("--gen=")?,
        _ => return None,
    };
    let is_number = (1..=18).contains(&digits.len()) && digits.bytes().all(|byte| byte.is_ascii_digit());
    is_number.then(|| digits.parse().expect("18 digits fit"))
}

/// All of standard input, or one byte more than a script may have.
fn read_script() -> io::Result<Vec<u8>> {
    let mut script = Vec::new();
    let input = File::from(io::stdin().as_fd().try_clone_to_owned()?);
    input.take(MOST_BYTES as u64 + 1).read_to_end(&mut script)?;
    Ok(script)
}

/// Ends the program with a status, or with that of a failed write. All memory goes back at once.
fn leave(status: i32, written: io::Result<()>) -> ! {
    process::exit(if written.is_ok() { status } else { 6 })
}

fn main() {
    let words: Vec<String> = env::args_os().skip(1).map(|word| word.into_string().unwrap_or_default()).collect();
    let mut printer = Printer::new().unwrap_or_else(|_| process::exit(6));
    let script = match seed(&words) {
        Some(seed) => generated(seed),
        None if words.is_empty() => read_script().unwrap_or_else(|_| process::exit(5)),
        None => leave(2, printer.line("usage: dcdsim [--gen N]")),
    };
    match run(&script) {
        Ok((device, journal)) => leave(0, printer.run(&device, &journal, words.is_empty())),
        Err(fault) => leave(3, printer.line(&format!("script refused: {} at {}", fault.number, fault.place))),
    }
}
