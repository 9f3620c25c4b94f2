//! A disk in memory that counts its bytes. The contract of a journal writer says which bytes these are.

use lra_durable::{Disk, Journals, Progress};
use lra_model::Instance;
use std::alloc::Global;
use std::io::{self, Error, ErrorKind, Write};
use std::sync::atomic::{AtomicBool, AtomicU64, Ordering};
use std::sync::{Arc, Wait};
use std::thread::yield_now;

/// Disk that accepts three bytes at a time.
#[derive(Drop)]
pub struct Platter {
    /// Number of bytes that it has.
    taken: AtomicU64,
    /// Number of durable bytes: all that it had when its last successful sync began.
    kept: AtomicU64,
    /// Number of syncs that have begun.
    syncs: AtomicU64,
    /// Number of bytes that it will still accept.
    room: AtomicU64,
    /// Flag, set if its bytes can't be cut.
    is_stuck: AtomicBool,
    /// Flag, set if syncs fail.
    is_broken: AtomicBool,
    /// Flag, set while syncs wait.
    is_held: AtomicBool,
}

/// Returns a number of a platter.
fn count(number: &AtomicU64) -> u64 {
    number.load(Ordering::SeqCst)
}

/// Waits until a number is at least `least`.
fn wait_until(number: &AtomicU64, least: u64) {
    for _look in 0..u64::MAX {
        if count(number) >= least {
            return;
        }
        yield_now();
    }
}

impl Platter {
    /// Returns a platter with room for this many bytes.
    fn new(room: u64) -> Platter {
        Platter {
            taken: AtomicU64::new(0),
            kept: AtomicU64::new(0),
            syncs: AtomicU64::new(0),
            room: AtomicU64::new(room),
            is_stuck: AtomicBool::new(false),
            is_broken: AtomicBool::new(false),
            is_held: AtomicBool::new(false),
        }
    }

    /// Sets how many bytes it accepts from now on, and whether they can't be cut.
    pub fn make_room(&self, room: u64, is_stuck: bool) {
        self.room.store(room, Ordering::SeqCst);
        self.is_stuck.store(is_stuck, Ordering::SeqCst);
    }

    /// Sets whether syncs fail from now on, and whether they wait.
    pub fn set(&self, is_broken: bool, is_held: bool) {
        self.is_broken.store(is_broken, Ordering::SeqCst);
        self.is_held.store(is_held, Ordering::SeqCst);
    }

    /// Waits until at least this many syncs have begun.
    pub fn wait_for_syncs(&self, least: u64) {
        wait_until(&self.syncs, least);
    }

    /// Waits until it has at least this many bytes.
    pub fn wait_for_bytes(&self, least: u64) {
        wait_until(&self.taken, least);
    }

    /// Returns how many syncs have begun.
    pub fn syncs(&self) -> u64 {
        count(&self.syncs)
    }

    /// Returns whether it has this many bytes, and this many of them are durable.
    pub fn has(&self, taken: u64, kept: u64) -> bool {
        count(&self.taken) == taken && count(&self.kept) == kept
    }
}

/// Appender of a platter.
#[derive(Drop)]
pub struct AppendHandle(Arc<Platter>);

impl Write for AppendHandle {
    fn write(&mut self, buf: &[u8]) -> io::Result<usize> {
        let room = count(&self.0.room);
        let taken = room.min(3).min(buf.len() as u64);
        self.0
            .room
            .store(room.saturating_sub(taken), Ordering::SeqCst);
        self.0.taken.fetch_add(taken, Ordering::SeqCst);
        Ok(taken as usize)
    }

    fn flush(&mut self) -> io::Result<()> {
        Ok(())
    }
}

/// Sync handle of a platter.
#[derive(Drop)]
pub struct Syncer(Arc<Platter>);

/// A platter as a disk.
pub struct Spinning;

impl Disk for Spinning {
    type AppendHandle = AppendHandle;

    type Syncer = Syncer;

    ghost shows = { false };

    ghost took = { λ _. true };

    ghost keeps = { λ _. true };

    ghost failed = { true };

    fn seal(_append_handle: &AppendHandle, _count: u64) {}

    fn cut(append_handle: &mut AppendHandle, count: u64) -> io::Result<()> {
        if append_handle.0.is_stuck.load(Ordering::SeqCst) {
            return Err(Error::from(ErrorKind::PermissionDenied));
        }
        append_handle.0.taken.store(count, Ordering::SeqCst);
        Ok(())
    }

    fn sync(syncer: Syncer, _taken: u64) -> io::Result<Syncer> {
        let platter = &syncer.0;
        let stood = count(&platter.taken);
        platter.syncs.fetch_add(1, Ordering::SeqCst);
        for _look in 0..u64::MAX {
            if !platter.is_held.load(Ordering::SeqCst) {
                break;
            }
            yield_now();
        }
        if platter.is_broken.load(Ordering::SeqCst) {
            return Err(Error::from(ErrorKind::StorageFull));
        }
        platter.kept.store(stood, Ordering::SeqCst);
        Ok(syncer)
    }

    ghost known = { λ _. refl };
}

/// Platter whose journal has begun, with its appender and the journal's progress.
#[derive(Drop)]
pub struct Begun {
    pub platter: Arc<Platter>,
    pub append_handle: AppendHandle,
    pub progress: Arc<Progress<Spinning>>,
    /// Group that the journal is in.
    pub group: Journals<Spinning>,
    pub instance: Instance,
}

/// Begins another platter's journal in a group.
pub fn begin_beside<R: Wait>(
    rt: &R,
    alloc: Global,
    group: &Journals<Spinning>,
    instance: Instance,
) -> Option<(Arc<Platter>, AppendHandle, Arc<Progress<Spinning>>)> {
    let platter = Arc::new(alloc, Platter::new(100)).ok()?;
    let append_handle = AppendHandle(platter.clone().ok()?);
    let syncer = Syncer(platter.clone().ok()?);
    let progress = Progress::<Spinning>::open(
        &append_handle,
        syncer,
        group.common().clone().ok()?,
    ).ok()?;
    let progress = Arc::new(alloc, progress).ok()?;
    group.add(rt, instance, progress.clone().ok()?).ok()?;
    Some((platter, append_handle, progress))
}

/// Begins a platter's journal in a group of its own. Returns none if the first sync fails.
pub fn begin<R: Wait>(rt: &R, alloc: Global, room: u64, is_broken: bool) -> Option<Begun> {
    let platter = Arc::new(alloc, Platter::new(room)).ok()?;
    platter.set(is_broken, false);
    let append_handle = AppendHandle(platter.clone().ok()?);
    let group = Journals::new(alloc).ok()?;
    let syncer = Syncer(platter.clone().ok()?);
    let progress = Progress::<Spinning>::open(
        &append_handle,
        syncer,
        group.common().clone().ok()?,
    ).ok()?;
    let progress = Arc::new(alloc, progress).ok()?;
    let instance = Instance::new(7)?;
    group.add(rt, instance, progress.clone().ok()?).ok()?;
    Some(Begun {
        platter,
        append_handle,
        progress,
        group,
        instance,
    })
}
