fn main() {
    link::link("place_exports", &["disks", "octets", "wire", "volumes", "place"]);
}
