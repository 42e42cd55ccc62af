//! Three nodes of etcd on this machine, each with a folder of its own.
use crate::HOUSES;
use crate::gateway::Gateway;
use crate::grpc::Grpc;
use crate::process::Process;
use std::fs::File;
use std::io;
use std::net::TcpListener;
use std::path::Path;
use std::process::Command;
use std::thread::sleep;
use std::time::{Duration, Instant};

/// How long they have to agree on a leader.
const LIMIT: Duration = Duration::from_secs(20);

pub struct Etcd {
    _processes: Vec<Process>,
    /// where the leader takes calls
    port: u16,
}

impl Etcd {
    /// Starts them, and waits for a leader.
    pub fn start(folder: &Path) -> io::Result<Etcd> {
        let ports = free_ports(2 * HOUSES)?;
        let (clients, peers) = ports.split_at(HOUSES);
        let cluster: Vec<_> = peers.iter().enumerate().map(|(node, port)| format!("node-{node}=http://127.0.0.1:{port}")).collect();
        let mut processes = Vec::new();
        for (node, (client, peer)) in clients.iter().zip(peers).enumerate() {
            let log = File::create(folder.join(format!("node-{node}.log")))?;
            let [client, peer] = [client, peer].map(|port| format!("http://127.0.0.1:{port}"));
            let name = format!("node-{node}");
            let mut command = Command::new("etcd");
            command.args(["--name", &name, "--data-dir"]).arg(folder.join(&name));
            command.args(["--listen-client-urls", &client, "--advertise-client-urls", &client]);
            command.args(["--listen-peer-urls", &peer, "--initial-advertise-peer-urls", &peer]);
            command.args(["--initial-cluster", &cluster.join(","), "--initial-cluster-state", "new", "--logger", "zap", "--log-level", "error"]);
            processes.push(Process::spawn(command.stdout(log.try_clone()?).stderr(log))?);
        }
        let end = Instant::now() + LIMIT;
        while Instant::now() < end {
            if let Some(port) = clients.iter().find(|port| leads(**port).unwrap_or(false)) {
                return Ok(Etcd { _processes: processes, port: *port });
            }
            sleep(Duration::from_millis(100));
        }
        Err(io::Error::other("its nodes have no leader"))
    }

    pub fn grpc(&self) -> io::Result<Grpc> {
        Grpc::connect(self.port)
    }

    pub fn gateway(&self) -> io::Result<Gateway> {
        Gateway::connect(self.port)
    }
}

/// So many ports that nobody uses.
fn free_ports(count: usize) -> io::Result<Vec<u16>> {
    let listeners = (0..count).map(|_| TcpListener::bind("127.0.0.1:0")).collect::<io::Result<Vec<_>>>()?;
    listeners.iter().map(|listener| Ok(listener.local_addr()?.port())).collect()
}

/// Whether the node that takes calls there is the leader.
fn leads(port: u16) -> io::Result<bool> {
    let mut gateway = Gateway::connect(port)?;
    let status = String::from_utf8_lossy(gateway.post("/v3/maintenance/status", b"{}")?).into_owned();
    let member = |name: &str| status.split_once(&format!("\"{name}\":\"")).map(|(_, rest)| rest.split('"').next());
    Ok(member("leader").is_some() && member("leader") == member("member_id"))
}
