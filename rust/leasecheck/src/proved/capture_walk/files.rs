// Made by tools/plain_rust from crates/capture_walk/src/files.rt. Changes belong there.

use std::prelude::Vec;

use smblease::proved::lease_state::{Bytes, Memory};
use std::alloc::Global;
use std::collections::BTreeMap;

/// Where a file is.
#[derive(Clone, Copy, Debug)]
pub struct Place<'a> {
    /// The number of the server's address and port.
    pub server: u64,
    /// The share's path, as it stands in the TREE_CONNECT request.
    pub path: &'a [u8],
    /// The name below the share, as it stands in the CREATE request.
    pub name: &'a [u8],
    /// When the file was made.
    pub creation_time: u64,
}

// A place, with memory of its own.
#[derive(Debug)]
pub(crate) struct OwnPlace {
    server: u64,
    path: Bytes,
    name: Bytes,
    creation_time: u64,
}

impl OwnPlace {
    fn new(alloc: Global, place: Place<'_>) -> Result<OwnPlace, Memory> {
        Ok(OwnPlace {
            server: place.server,
            path: Bytes::new(Vec::from_slice(alloc, place.path)?),
            name: Bytes::new(Vec::from_slice(alloc, place.name)?),
            creation_time: place.creation_time,
        })
    }

    fn place(&self) -> Place<'_> {
        Place { server: self.server, path: self.path.as_slice(), name: self.name.as_slice(), creation_time: self.creation_time }
    }
}

/// What tells files of one name on one share apart.
#[derive(Clone, Copy, Debug, PartialEq, Eq, PartialOrd, Ord)]
pub(crate) struct Spot {
    server: u64,
    creation_time: u64,
}

// Files on a share, by their names.
type Names = BTreeMap<Vec<u8>, BTreeMap<Spot, u64>>;

/// A file on a disk of a server.
#[derive(Clone, Copy, Debug, PartialEq, Eq, PartialOrd, Ord)]
pub(crate) struct Identity {
    pub(crate) server: u64,
    // DiskFileId and VolumeId
    pub(crate) file: u64,
    pub(crate) volume: u64,
    // A server may give an id again once a file is gone.
    pub(crate) creation_time: u64,
}

/// What a CREATE response's file is known by.
#[derive(Clone, Copy, Debug)]
pub(crate) struct Naming<'a> {
    /// Its place, where the name is sure to lead to it.
    pub(crate) place: Option<Place<'a>>,
    pub(crate) identity: Option<Identity>,
    /// The file of the lease that its client holds under the key of the one that is granted.
    pub(crate) under: Option<u64>,
}

/// The files that are known, with the numbers of the messages with which their lives began.
#[derive(Debug)]
pub(crate) struct Files {
    alloc: Global,
    // Those that are known by their names, by what names their shares.
    named: BTreeMap<Vec<u8>, Names>,
    // Those of which it is known what they are on a disk.
    identified: BTreeMap<Identity, u64>,
    // The places at which all began, by their numbers.
    begun: BTreeMap<u64, OwnPlace>,
}

// What stands behind a unit, where that is a backslash, else what stands behind the last one before it.
fn behind_unit<'a>(low: u8, high: u8, behind: &'a [u8], share: &'a [u8]) -> &'a [u8] {
    if low == b'\\' && high == 0 { behind } else { share }
}

// What names a share in its path.
fn share_of(path: &[u8]) -> &[u8] {
    let mut share = path;
    let mut rest = path;
    while let [low, high, behind @ ..] = rest {
        share = behind_unit(*low, *high, behind, share);
        rest = behind;
    }
    share
}

fn spot_of(place: Place<'_>) -> Spot {
    Spot { server: place.server, creation_time: place.creation_time }
}

fn find_spot(spots: &BTreeMap<Spot, u64>, place: Place<'_>) -> Option<u64> {
    match spots.get(&spot_of(place)) {
        Some(file) => Some(*file),
        None => None,
    }
}

// The file at a place, by the names on its share.
fn find_name(names: &Names, place: Place<'_>) -> Option<u64> {
    match names.get(place.name) {
        Some(spots) => find_spot(spots, place),
        None => None,
    }
}

// From here on a place leads to a file, by the names on its share.
fn put_name(alloc: Global, names: &mut Names, place: Place<'_>, file: u64) -> Result<(), Memory> {
    let spot = spot_of(place);
    match names.get_mut(place.name) {
        Some(spots) => {
            spots.insert(spot, file)?;
        }
        None => {
            let mut spots = BTreeMap::new(alloc);
            spots.insert(spot, file)?;
            names.insert(Vec::from_slice(alloc, place.name)?, spots)?;
        }
    }
    Ok(())
}

impl Files {
    /// None. Allocates nothing.
    pub(crate) fn new(alloc: Global) -> Files {
        Files { alloc, named: BTreeMap::new(alloc), identified: BTreeMap::new(alloc), begun: BTreeMap::new(alloc) }
    }

    /// The file at a place.
    pub(crate) fn find(&self, place: Place<'_>) -> Option<u64> {
        match self.named.get(share_of(place.path)) {
            Some(names) => find_name(names, place),
            None => None,
        }
    }

    fn find_at(&self, place: Option<Place<'_>>) -> Option<u64> {
        self.find(place?)
    }

    fn find_as(&self, identity: Option<Identity>) -> Option<u64> {
        match self.identified.get(&identity?) {
            Some(file) => Some(*file),
            None => None,
        }
    }

    // The file that is known by this.
    fn find_by(&self, naming: Naming<'_>) -> Option<u64> {
        if let Some(file) = self.find_as(naming.identity) {
            return Some(file);
        }
        match self.find_at(naming.place) {
            Some(file) => Some(file),
            None => naming.under,
        }
    }

    fn begin(&mut self, place: Place<'_>, file: u64) -> Result<(), Memory> {
        let own = OwnPlace::new(self.alloc, place)?;
        self.begun.insert(file, own)?;
        Ok(())
    }

    // From here on the place leads to the file.
    fn place(&mut self, place: Place<'_>, file: u64) -> Result<(), Memory> {
        let alloc = self.alloc;
        let share = share_of(place.path);
        match self.named.get_mut(share) {
            Some(names) => put_name(alloc, names, place, file)?,
            None => {
                let mut names = BTreeMap::new(alloc);
                put_name(alloc, &mut names, place, file)?;
                self.named.insert(Vec::from_slice(alloc, share)?, names)?;
            }
        }
        Ok(())
    }

    // From here on the identity is the file's.
    fn identify(&mut self, identity: Identity, file: u64) -> Result<(), Memory> {
        self.identified.insert(identity, file)?;
        Ok(())
    }

    // The life that begins with a message, if one does.
    fn begin_life(&mut self, place: Option<Place<'_>>, is_new: bool, number: u64, found: Option<u64>) -> Result<(), Memory> {
        match place {
            Some(place) if is_new || found.is_none() => self.begin(place, number),
            _ => Ok(()),
        }
    }

    // What leads to the file from here on.
    fn lead_to(&mut self, naming: Naming<'_>, file: Option<u64>) -> Result<(), Memory> {
        let Some(file) = file else {
            return Ok(());
        };
        if let Some(place) = naming.place {
            self.place(place, file)?;
        }
        if let Some(identity) = naming.identity {
            self.identify(identity, file)?;
        }
        Ok(())
    }

    /// The file that a CREATE opens, by what it is known by; its life begins with the response, a message with this number,
    /// where it is new or wasn't known.
    pub(crate) fn open(&mut self, naming: Naming<'_>, is_new: bool, number: u64) -> Result<Option<u64>, Memory> {
        let found = self.find_by(naming);
        let file = match naming.place {
            Some(_) if is_new => Some(number),
            Some(_) => Some(found.unwrap_or(number)),
            None => found,
        };
        self.begin_life(naming.place, is_new, number, found)?;
        self.lead_to(naming, file)?;
        Ok(file)
    }

    /// Takes note of a message that is no CREATE response, and after which names may lead to other files or not.
    pub(crate) fn note_change(&mut self, is_change: bool) {
        if is_change {
            self.named.clear();
        }
    }

    /// Where a file is that began, by its number.
    pub(crate) fn place_of(&self, file: u64) -> Option<Place<'_>> {
        match self.begun.get(&file) {
            Some(one) => Some(one.place()),
            None => None,
        }
    }
}
