//! `link HOUSE`: runs houses as processes, and plays the script of standard input on them.
use carrier::network::Network;
use carrier::options::{self, Options};
use carrier::player::Player;
use carrier::process::{Event, MOST_EVENTS};
use std::env::{args, temp_dir};
use std::fs::{create_dir, create_dir_all, remove_dir_all};
use std::io::{self, stdin, stdout};
use std::path::{Path, PathBuf};
use std::process::{ExitCode, id};
use std::sync::mpsc::{SyncSender, sync_channel};
use std::thread::spawn;
use std::time::UNIX_EPOCH;

fn main() -> ExitCode {
    let Some(options) = options::parse(args().skip(1)) else {
        eprintln!("{}", options::USAGE);
        return ExitCode::from(2);
    };
    match run(options) {
        Ok(true) => ExitCode::SUCCESS,
        Ok(false) => ExitCode::FAILURE,
        Err(error) => {
            eprintln!("link: {error}");
            ExitCode::from(2)
        }
    }
}

fn run(mut options: Options) -> io::Result<bool> {
    // a house runs in a folder of its own
    options.program = options.program.canonicalize().map_err(|error| io::Error::other(format!("{}: {error}", options.program.display())))?;
    let folder = Folder::new(options.folder.take())?;
    let (events, heard) = sync_channel(MOST_EVENTS);
    let tick = options.tick;
    let network = Network::new(options, folder.path().to_path_buf(), events.clone())?;
    spawn(move || read_script(&events));
    let mut player = Player::new(network, tick, stdout())?;
    player.play(&heard)
}

fn read_script(events: &SyncSender<Event>) {
    let lines = stdin().lines().map_while(Result::ok).map(Some);
    for line in lines.chain([None]) {
        if events.send(Event::Script(line)).is_err() {
            return;
        }
    }
}

/// Where the houses' folders lie.
enum Folder {
    Given(PathBuf),
    /// removed at the end
    Temporary(PathBuf),
}

impl Folder {
    fn new(given: Option<PathBuf>) -> io::Result<Folder> {
        match given {
            Some(path) => create_dir_all(&path).map(|()| Folder::Given(path)),
            None => {
                let now = UNIX_EPOCH.elapsed().map_err(io::Error::other)?;
                let path = temp_dir().join(format!("link-{}-{}", id(), now.as_nanos()));
                create_dir(&path).map(|()| Folder::Temporary(path))
            }
        }
    }

    fn path(&self) -> &Path {
        let (Folder::Given(path) | Folder::Temporary(path)) = self;
        path
    }
}

impl Drop for Folder {
    fn drop(&mut self) {
        if let Folder::Temporary(path) = self
            && let Err(error) = remove_dir_all(&*path)
        {
            eprintln!("link: {}: {error}", path.display());
        }
    }
}
