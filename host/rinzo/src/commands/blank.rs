//! `rinzo blank`: makes a file without scans.

use crate::file::device::Device;
use crate::file::lent::{cannot_be_read, read_back};
use crate::file::open::{sync_folder_of, to_make};
use crate::file::sector;
use crate::say::failure::Failure;
use crate::say::json::Json;
use crate::say::out::Out;
use crate::say::refused::Refused;
use crate::say::shown;
use crate::words::args::Args;
use std::io;
use std::path::Path;

/// What a blank file is to be.
pub struct Wanted {
    pub n: u64,
    pub l: u64,
    pub m: u64,
    pub room: u64,
    pub force: bool,
    /// The device's sector, where it is known.
    pub sector: Option<u64>,
}

/// How many slots a file has if nothing else is said.
const SLOTS: u64 = 1_024;
/// The most slots that a file has.
const MOST_SLOTS: u64 = 4_096;
/// The most records that a file has.
const MOST_ROOM: u64 = 1_000_000;
/// The records that are tried as long as a sector, the smallest and the largest that a file can have.
const SHORTEST: u64 = 512;
const LONGEST: u64 = 4_096;

impl Wanted {
    fn from(args: &Args) -> Result<Wanted, Failure> {
        let sector = args.count("sector")?.or_else(|| sector::of(args.path(0)));
        let (n, m) = (args.count("n")?, args.count("m")?.unwrap_or(64));
        let can_be_long = n.is_none_or(|n| n.saturating_sub(1).saturating_mul(LONGEST) <= MOST_SLOTS.saturating_mul(m));
        let chosen = if sector == Some(LONGEST) && can_be_long { LONGEST } else { SHORTEST };
        let l = args.count("l")?.unwrap_or(chosen);
        let n = n.unwrap_or_else(|| index_records(l, m));
        let room = args.count("room")?.unwrap_or(8_192);
        if room > MOST_ROOM {
            return args.wrong(&format!("--room is at most {MOST_ROOM} records, and {room} is more"));
        }
        Ok(Wanted { n, l, m, room, force: args.has("force"), sector })
    }

    /// The device's sectors, in words.
    fn sectors(&self) -> String {
        match self.sector {
            Some(sector) => format!("sectors of {sector} bytes"),
            None => "a sector that is not known".to_string(),
        }
    }

    /// Whether a record shares a sector with its neighbours. A sector has 512 bytes at least.
    fn shares_sectors(&self) -> bool {
        !self.l.is_multiple_of(self.sector.unwrap_or(SHORTEST))
    }
}

/// N for the usual number of slots.
fn index_records(l: u64, m: u64) -> u64 {
    1 + SLOTS.saturating_mul(m).div_ceil(l.max(1)).max(1)
}

pub fn run(args: &Args, out: &Out) -> Result<(), Failure> {
    let wanted = Wanted::from(args)?;
    blank(args.path(0), &wanted, out)?;
    if wanted.shares_sectors() {
        let longer = wanted.sector.filter(|sector| *sector <= LONGEST).unwrap_or(LONGEST);
        out.remark(&format!(
            "records of {} bytes on a device with {} share a sector with their neighbours, and a power cut can take a neighbour with it: give --l {longer} and no --n",
            wanted.l,
            wanted.sectors()
        ));
    }
    Ok(())
}

/// Makes a blank file, durably, and says so once it was read back.
pub fn blank(path: &Path, wanted: &Wanted, out: &Out) -> Result<(), Failure> {
    // refused before a file is made or touched
    let records = blank_records(path, wanted)?;
    let (device, is_new) = to_make(path)?;
    let len = device.len().map_err(|error| cannot_be_read(&device, &error))?;
    if len > 0 && !wanted.force {
        let name = shown::name(path);
        return Err(Failure::Exists(format!(
            "{name} has {len} bytes: give another name, or --force to lose what it holds"
        )));
    }
    if let Err((what, error)) = make(&device, len, wanted, &records) {
        return Err(not_made(&device, is_new, len, what, &error));
    }
    sync_folder_of(path)?;
    told(&device, wanted, out)
}

/// Gives the file its room and its records.
fn make(device: &Device, len: u64, wanted: &Wanted, records: &[u8]) -> Result<(), (&'static str, io::Error)> {
    let room = wanted.room.saturating_mul(wanted.l);
    if len < room {
        device.grow(room).map_err(|error| ("it could not be given that room", error))?;
    }
    write_records(device, records, wanted.l as usize).map_err(|error| ("it could not be blanked", error))
}

/// A file that is not whole does not stay, but for what it held before.
fn not_made(device: &Device, is_new: bool, len: u64, what: &str, error: &io::Error) -> Failure {
    let left = match (is_new, len) {
        (true, _) => std::fs::remove_file(device.path()).map(|()| "it was removed"),
        (false, 0) => device.file().set_len(0).map(|()| "it is empty as before"),
        (false, _) => Ok("do it again with --force once there is room"),
    };
    let left = left.unwrap_or("and it could not be removed");
    Failure::Io(format!("{}: {what}: {error}; {left}", shown::name(device.path())))
}

/// The answer, on what was read back.
fn told(device: &Device, wanted: &Wanted, out: &Out) -> Result<(), Failure> {
    let (window, way) = read_back(device, out)?;
    let sizes = sdd::open(window.bytes()).map_err(|why| Refused::of(device.path(), why))?;
    let (slots, room, l) = (sizes.capacity, sizes.room, sizes.l);
    let sectors = wanted.sectors();
    out.answer(
        || {
            format!(
                "blanked: {slots} slots, {room} records of {l} bytes on a device with {sectors}, {}",
                way.sentence()
            )
        },
        || {
            Json::Object(vec![
                ("event", Json::text("blanked")),
                ("file", Json::path(device.path())),
                ("slots", Json::number(slots)),
                ("room", Json::number(room)),
                ("l", Json::number(l)),
                ("sector", wanted.sector.map_or(Json::Plain("null".to_string()), Json::number)),
                ("shares-sectors", Json::Plain(wanted.shares_sectors().to_string())),
                ("read-back", Json::text(way.name())),
            ])
        },
    )
}

/// The N records of a blank file, made in memory: refused 16 where there are none.
fn blank_records(path: &Path, wanted: &Wanted) -> Result<Vec<u8>, Failure> {
    // larger sizes are refused whatever is lent, so nothing is
    let lent = if wanted.n <= 513 && wanted.l <= LONGEST { wanted.n.min(wanted.room) * wanted.l } else { 0 };
    let mut records = vec![0; lent as usize];
    sdd::blank(&mut records, wanted.n, wanted.l, wanted.m).map_err(|why| Refused::of(path, why))?;
    Ok(records)
}

/// The index first and record 1 last: until then a new file is no SDD file.
fn write_records(device: &Device, records: &[u8], l: usize) -> io::Result<()> {
    for (record, bytes) in (1..).zip(records.chunks(l)).skip(1) {
        device.write((record - 1) * l as u64, bytes)?;
    }
    device.flush_with_length()?;
    device.write(0, &records[..l])?;
    device.flush_with_length()
}
