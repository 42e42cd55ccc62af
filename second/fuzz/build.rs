fn main() {
    link::link("exports", &["disks", "octets", "wire"]);
}
