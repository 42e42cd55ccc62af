//! `houses-bench HOUSE [SECONDS [FOLDER]]`: writes of one sector answered by three houses, beside bare syncs and puts at three nodes of etcd.
mod bare;
mod caller;
mod carrier;
mod etcd;
mod gateway;
mod grpc;
mod houses;
mod inlet;
mod process;

use etcd::Etcd;
use houses::{Houses, Measured};
use std::env::{args, temp_dir};
use std::fs::{create_dir, read_to_string, remove_dir_all};
use std::io;
use std::path::{Path, PathBuf};
use std::process::{ExitCode, id};
use std::time::Duration;

const USAGE: &str = "usage: houses-bench HOUSE [SECONDS [FOLDER]]";

/// How many calls wait at once.
const WAITING: [usize; 3] = [1, 8, 24];

/// A sector, and a value of etcd.
const SECTOR: usize = 512;

/// How many sectors or keys are written, at random.
const SECTORS: usize = 8192;

/// How many houses or nodes there are.
const HOUSES: usize = 3;

fn main() -> ExitCode {
    let words: Vec<String> = args().skip(1).collect();
    let seconds = words.get(1).map_or(Ok(5), |word| word.parse());
    let (Some(house), Ok(seconds @ 1..), true) = (words.first(), seconds, words.len() <= 3) else {
        eprintln!("{USAGE}");
        return ExitCode::from(2);
    };
    match run(house.as_ref(), Duration::from_secs(seconds), words.get(2).map_or(temp_dir(), PathBuf::from)) {
        Ok(()) => ExitCode::SUCCESS,
        Err(error) => {
            eprintln!("houses-bench: {error}");
            ExitCode::FAILURE
        }
    }
}

fn run(house: &Path, time: Duration, folder: PathBuf) -> io::Result<()> {
    let house = house.canonicalize()?;
    let folder = Folder::new(&folder)?;
    println!("load {}", read_to_string("/proc/loadavg")?.trim_end());
    let ours = measure_houses(&house, &folder.0, time)?;
    let etcd = Etcd::start(&folder.0).and_then(|etcd| measure_etcd(&etcd, time));
    println!("load {}", read_to_string("/proc/loadavg")?.trim_end());
    if let Err(error) = &etcd {
        println!("etcd was not measured: {error}");
    }
    show(&ours, etcd.as_deref().unwrap_or_default());
    show_usage(&ours);
    Ok(())
}

/// Houses on new devices for each number, and bare syncs per second, from before and after.
fn measure_houses(house: &Path, folder: &Path, time: Duration) -> io::Result<Vec<(Measured, f64)>> {
    let mut before = bare::rate(folder, time)?;
    let mut all = Vec::new();
    for waiting in WAITING {
        let folder = folder.join(format!("waiting-{waiting}"));
        create_dir(&folder)?;
        let ours = Houses::start(house, &folder)?.measure(waiting, time)?;
        let after = bare::rate(&folder, time)?;
        all.push((ours, (before + after) / 2.0));
        before = after;
    }
    Ok(all)
}

/// Puts per second, by gRPC and by the gateway.
fn measure_etcd(etcd: &Etcd, time: Duration) -> io::Result<Vec<[f64; 2]>> {
    let both = |waiting| Ok([caller::rate(waiting, time, || etcd.grpc())?, caller::rate(waiting, time, || etcd.gateway())?]);
    WAITING.into_iter().map(both).collect()
}

fn show(ours: &[(Measured, f64)], etcd: &[[f64; 2]]) {
    println!("waiting   bare/s   ours/s  etcd gRPC/s  etcd gateway/s  ours/bare  ours/etcd  ours, median us");
    for (at, (waiting, (ours, bare))) in WAITING.iter().zip(ours).enumerate() {
        let [grpc, gateway] = etcd.get(at).copied().unwrap_or([f64::NAN; 2]);
        let (rate, median) = (ours.rate, ours.median);
        let ratios = format!("{:>10.3} {:>10.2}", rate / bare, rate / grpc.max(gateway));
        println!("{waiting:>7} {bare:>8.0} {rate:>8.0} {grpc:>12.0} {gateway:>15.0} {ratios} {median:>16.0}");
    }
}

fn show_usage(ours: &[(Measured, f64)]) {
    println!("For each call of ours, at each house:");
    println!("waiting  house  us in the program  us in the kernel  writes to device or pipe  bytes written");
    for (waiting, (ours, _)) in WAITING.iter().zip(ours) {
        for (house, usage) in ours.usage.iter().enumerate() {
            let [user, system, writes, bytes] = usage.each(ours.calls);
            println!("{waiting:>7} {house:>6} {user:>18.0} {system:>17.0} {writes:>25.1} {bytes:>14.0}");
        }
    }
    println!("waiting  packets for each call  bytes in them  packets lost in all, before a house that was behind");
    for (waiting, (ours, _)) in WAITING.iter().zip(ours) {
        let [packets, bytes] = [ours.carried.packets, ours.carried.bytes].map(|all| all as f64 / ours.calls as f64);
        println!("{waiting:>7} {packets:>22.1} {bytes:>14.0} {:>51}", ours.carried.lost);
    }
}

/// A folder that is removed at the end.
struct Folder(PathBuf);

impl Folder {
    fn new(within: &Path) -> io::Result<Folder> {
        let path = within.canonicalize()?.join(format!("houses-bench-{}", id()));
        create_dir(&path).map(|()| Folder(path))
    }
}

impl Drop for Folder {
    fn drop(&mut self) {
        if let Err(error) = remove_dir_all(&self.0) {
            eprintln!("houses-bench: {}: {error}", self.0.display());
        }
    }
}
