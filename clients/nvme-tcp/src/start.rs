//! Starts a target: takes what its options name, in an order by which a start that fails leaves nothing, and serves.

use crate::admin::identity::Identity;
use crate::authentication::keys::Keys;
use crate::authentication::libcrypto;
use crate::authentication::proving::Prover;
use crate::commands::{judge, ANY_BLOCKS};
use crate::configuration::{self, Configuration};
use crate::control;
use crate::control::log::{self, warn, Form};
use crate::exit::{Exit, BAD_COMMAND_LINE, FAILED, REFUSED};
use crate::files::locking::{self, Lock};
use crate::files::outputs;
use crate::journal::record::Event;
use crate::journal::state::{self, Folder};
use crate::journal::{self, Found, Journal};
use crate::memory;
use crate::nvme::BLOCK;
use crate::options::Options;
use crate::recording::run::Run;
use crate::recording::{self, script};
use crate::server::Server;
use crate::storage::{self, Disk, Image, Storage};
use crate::system;
use crate::target::machine::Machine;
use crate::target::Target;
use crate::transport::listening::plain;
use crate::volume::{self, Owned, Volume, VolumeDisk};
use nvmesim::fabrics::Fabrics;
use nvmesim::Subsystem;
use std::ffi::OsString;
use std::io::{self, Write};
use std::net::{SocketAddr, TcpListener};
use std::path::Path;
use std::sync::Arc;

/// Offset of the blocks in their memory. They are not aligned to pages as the memory of hosts is: if both are aligned
/// alike, the C library copies from the end, which is slower.
const BLOCKS_AT: usize = 2048;

/// Serves until something ends it.
pub fn serve(words: Vec<OsString>) -> Result<(), Exit> {
    let mut options = Options::read(words.into_iter()).map_err(Exit::usage)?;
    if options.settings.log == Form::Json {
        log::begin(Form::Json);
    }
    let keys = read_keys(&options)?;
    let is_volume = volume::is_volume(&options.config);
    options.check_source(is_volume).map_err(Exit::usage)?;
    if is_volume {
        let volume = Volume::open(&options.config, options.waits, &mut options.storage);
        let volume = volume.map_err(|refusal| refusal.exit(&options.config))?;
        let configuration = volume.configuration.clone();
        check_options(&options, &configuration)?;
        return serve_over(options, configuration, Source::Volume(Box::new(volume)), keys);
    }
    let config = options.config.as_path();
    let text = configuration::text_of(config).map_err(Exit::about(FAILED, config.display()))?;
    let configuration = judge(config, &text, ANY_BLOCKS)?;
    check_options(&options, &configuration)?;
    options.settings.is_read_only |= tells_read_only(&options);
    // Locks and port come first: what is read afterwards stays as it is.
    let image = open_image(&options, &text)?;
    let folder = optional(options.state.as_deref(), |path| state::open(path, options.waits))?;
    serve_over(options, configuration, Source::Files { image, folder }, keys)
}

/// Refuses options that don't fit the configuration or each other.
fn check_options(options: &Options, configuration: &Configuration) -> Result<(), Exit> {
    let bad = |error| Exit::new(BAD_COMMAND_LINE, error);
    options.settings.admission.check(&configuration.hosts(), &options.listen).map_err(bad)?;
    outputs::check(options).map_err(|error| Exit::new(FAILED, error))
}

/// Reads the keys, if the options name a file. From here on no other process can read the memory of this one.
fn read_keys(options: &Options) -> Result<Option<Keys>, Exit> {
    let path = match &options.keys {
        Some(path) => path,
        None => return Ok(None),
    };
    libcrypto::AVAILABLE.map_err(Exit::about(BAD_COMMAND_LINE, "--keys"))?;
    system::hide_memory().map_err(Exit::about(FAILED, "the system can't keep the keys secret"))?;
    Keys::read(path).map(Some).map_err(|error| Exit::new(REFUSED, error))
}

/// What is served: a volume, or an image and a state folder, of which each may be missing.
enum Source {
    Volume(Box<Volume>),
    Files { image: Option<Image>, folder: Option<Folder> },
}

impl Source {
    /// How many blocks its disk has, if there is one.
    fn blocks(&self) -> Option<u64> {
        match self {
            Source::Volume(volume) => Some(volume.blocks()),
            Source::Files { image, .. } => image.as_ref().map(Image::blocks),
        }
    }
}

/// What a target has of its source.
#[derive(Default)]
struct Taken {
    journal: Option<(Journal, Vec<Event>)>,
    disk: Option<(String, Arc<dyn Disk>)>,
    identity: Option<Identity>,
}

/// Serves a subsystem until something ends it.
fn serve_over(options: Options, configuration: Configuration, source: Source, keys: Option<Keys>) -> Result<(), Exit> {
    let listeners = listen(&options)?;
    let mut bytes = if source.blocks().is_none() { zeros(&configuration)? } else { Vec::new() };
    let subsystem = match source.blocks() {
        Some(blocks) => Subsystem::open_brought(&configuration.config, blocks),
        None => Subsystem::open_lent(&configuration.config, &mut bytes[BLOCKS_AT..]),
    };
    let subsystem = subsystem.map_err(Exit::about(REFUSED, options.config.display()))?;
    // Memory is all that it costs if this fails.
    let _ = source.blocks().map(|_| memory::give_back_zeros());
    let control = optional(options.control.as_deref(), |path| {
        locking::bind(path.display(), options.waits, || control::listen(path))
    })?;
    let Taken { journal, disk, identity } = take(source, &options, &configuration)?;
    let identity = identity.map_or_else(Identity::random, Ok).map_err(Exit::about(FAILED, "the identity"))?;
    // It comes last, so that a start that fails leaves none.
    let run = keep_run(&options, &configuration)?;
    let storage = disk.map(|it| start_disk(it, &options, run.is_some())).transpose()?;
    let machine = Machine::new(subsystem, run);
    let fabrics = Fabrics::new(&configuration.hosts(), options.settings.admission.has_keys);
    let fabrics = fabrics.map_err(Exit::about(REFUSED, options.config.display()))?;
    let mut target = Target::new(machine, fabrics, configuration, options.settings, identity, storage);
    begin(&mut target, journal)?;
    target.begin_counting();
    system::note_signals();
    if let (Some(path), Some(keys)) = (&options.keys, keys) {
        system::note_hang_up();
        let (name, controllers) = (&target.settings.name, target.controllers.len());
        let prover = Prover::start(path, keys, options.choice.unwrap_or_default(), name, controllers);
        target.prover = Some(prover.map_err(Exit::about(FAILED, "the system"))?);
    }
    log::begin(target.settings.log);
    announce(&mut target, &listeners);
    let server = Server::new(target, listeners, control).map_err(Exit::about(FAILED, "the system"))?;
    server.run().map_err(|fault| Exit::new(FAILED, fault))
}

/// Begins to use a source: opens its journal, and its disk.
fn take(source: Source, options: &Options, configuration: &Configuration) -> Result<Taken, Exit> {
    let (image, folder) = match source {
        Source::Files { image, folder } => (image, folder),
        Source::Volume(volume) => return take_volume(*volume, options),
    };
    let journal = folder.map(|it| open_journal(it, configuration)).transpose()?;
    let mut taken = Taken { journal, ..Taken::default() };
    if let Some(image) = image {
        let name = image.path.display().to_string();
        let identity = image.file.metadata().map(|it| Identity::of_file(&it));
        taken.identity = Some(identity.map_err(Exit::about(FAILED, "the identity"))?);
        let disk = image.disk(&options.storage).map_err(Exit::about(FAILED, &name))?;
        taken.disk = Some((name, Arc::new(disk)));
    }
    Ok(taken)
}

fn take_volume(mut volume: Volume, options: &Options) -> Result<Taken, Exit> {
    let Owned { journal, found, lease } = volume.take().map_err(|refusal| refusal.exit(&options.config))?;
    let name = options.config.display().to_string();
    let events = told(&name, found);
    let disk = volume.image.disk(&options.storage).map_err(Exit::about(FAILED, &name))?;
    Ok(Taken {
        journal: Some((journal, events)),
        disk: Some((name, Arc::new(VolumeDisk::new(disk, lease)))),
        identity: None,
    })
}

/// Begins to keep the run as a script or as a recording, if an option asks for it.
fn keep_run(options: &Options, configuration: &Configuration) -> Result<Option<Run>, Exit> {
    let script = optional(options.script.as_deref(), |path| {
        outputs::create_script(path, options).and_then(|files| script::keep(files, configuration))
    })?;
    let recording = optional(options.recording.as_deref(), |path| {
        let file = outputs::create(path, options.replaces, options.waits)?;
        recording::keep(file, configuration)
    })?;
    Ok(script.or(recording))
}

/// Memory for all blocks, filled with zeros.
fn zeros(configuration: &Configuration) -> Result<Vec<u8>, Exit> {
    let blocks = configuration.total_blocks();
    let bytes = blocks.checked_mul(BLOCK).and_then(|it| usize::try_from(it).ok());
    let size = bytes.and_then(|it| it.checked_add(BLOCKS_AT));
    // `vec!` would end the process if there is no memory, so ask for it first.
    match size.filter(|it| Vec::<u8>::new().try_reserve_exact(*it).is_ok()) {
        Some(size) => Ok(vec![0; size]),
        None => Err(Exit::new(FAILED, format_args!("there is no memory for {blocks} blocks"))),
    }
}

/// Opens the image, which is locked then, and judges whether the configuration fits it. One of another size than wanted
/// is not created.
fn open_image(options: &Options, text: &[u8]) -> Result<Option<Image>, Exit> {
    if let Some(size) = options.storage.size {
        judge(&options.config, text, size / BLOCK)?;
    }
    let lock = if options.settings.is_read_only { Lock::shared } else { Lock::exclusive };
    let image = optional(options.image.as_deref(), |path| Image::open(path, lock(options.waits), &options.storage))?;
    if let Some(image) = &image {
        judge(&options.config, text, image.blocks())?;
    }
    Ok(image)
}

/// Starts the threads that read and write a disk.
fn start_disk((name, disk): (String, Arc<dyn Disk>), options: &Options, keeps_run: bool) -> Result<Storage, Exit> {
    if options.storage.writes_through {
        // A target that was killed may have written blocks and synced none. A power loss must not take back what hosts
        // read from now on.
        disk.sync().map_err(Exit::about(FAILED, &name))?;
    }
    Storage::start(name.clone(), disk, options.storage, keeps_run).map_err(Exit::about(FAILED, name))
}

/// Whether the image can't be written; warns about that unless `--read-only` was given.
fn tells_read_only(options: &Options) -> bool {
    match &options.image {
        Some(path) if !options.settings.is_read_only && storage::is_read_only(path) => {
            warn(format_args!("{} can't be written: it is served read-only", path.display()));
            true
        }
        _ => false,
    }
}

/// Opens what an option names, if it is given.
fn optional<T>(path: Option<&Path>, open: impl FnOnce(&Path) -> io::Result<T>) -> Result<Option<T>, Exit> {
    path.map(|path| open(path).map_err(Exit::about(FAILED, path.display()))).transpose()
}

/// Prepares a target as its options say: write protected, and with what persists.
fn begin(target: &mut Target<'_>, journal: Option<(Journal, Vec<Event>)>) -> Result<(), Exit> {
    if target.settings.is_read_only {
        if !target.protect().map_err(Exit::about(FAILED, "write protection"))? {
            return Err(Exit::new(FAILED, "the namespaces can't be write protected"));
        }
        target.power_cycle().map_err(Exit::about(FAILED, "write protection"))?;
    }
    journal.map_or(Ok(()), |(journal, events)| restore(target, journal, &events))
}

/// Opens the journal of a folder; the events that count.
fn open_journal(folder: Folder, configuration: &Configuration) -> Result<(Journal, Vec<Event>), Exit> {
    let name = folder.path.display().to_string();
    let (journal, found) = journal::folder::open(folder, configuration).map_err(Exit::about(FAILED, &name))?;
    Ok((journal, told(&name, found)))
}

/// The events of a journal that count; reports which others there are.
fn told(name: &str, Found { current, torn }: Found) -> Vec<Event> {
    if torn != 0 {
        warn(format_args!("{name}: dropped the last {torn} bytes, incomplete records that were never answered"));
    }
    if current.stale != 0 {
        let why = "of an older epoch than those before them: their target had continued after another took over";
        warn(format_args!("{name}: {} records are ignored, since they are {why}", current.stale));
    }
    current.events
}

/// Has a target begin with what persists of those that kept their state in its journal before.
fn restore(target: &mut Target<'_>, journal: Journal, events: &[Event]) -> Result<(), Exit> {
    if let Some(number) = target.restore(events).map_err(Exit::about(FAILED, "the journal"))? {
        return Err(Exit::new(FAILED, format_args!("the journal: record {number} does not succeed again")));
    }
    target.identity = journal.identity;
    target.journal = Some(journal);
    Ok(())
}

/// Listens at all addresses.
fn listen(options: &Options) -> Result<Vec<TcpListener>, Exit> {
    let bound = options.listen.iter().map(|address| {
        let listener = locking::bind(address, options.waits, || TcpListener::bind(address));
        let listener = listener.map_err(Exit::about(FAILED, address))?;
        listener.set_nonblocking(true).map_err(Exit::about(FAILED, address))?;
        Ok(listener)
    });
    bound.collect()
}

/// Prints that the target accepts hosts, and which ones.
fn announce(target: &mut Target<'_>, listeners: &[TcpListener]) {
    let addresses: Vec<SocketAddr> = listeners.iter().filter_map(|it| it.local_addr().ok()).collect();
    target.log_start(&addresses);
    for host in target.hosts_without_key() {
        warn(format_args!("host {host} has no line in the file of keys, and can't connect"));
    }
    for address in addresses {
        let _ = writeln!(io::stdout(), "nvmetcp: {} at {address}", target.settings.name);
        if target.settings.admission.trusts_network && !plain(address).ip().is_loopback() {
            warn(format_args!("any machine that reaches {address} is trusted: --trust-network"));
        }
    }
}
