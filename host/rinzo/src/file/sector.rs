//! What the device writes whole: its sector.

use std::fs;
use std::os::unix::fs::MetadataExt;
use std::path::Path;

/// The sector of the device that a file of this name is on, or will be; none where the system does not say.
pub fn of(path: &Path) -> Option<u64> {
    let folder = path.parent().filter(|folder| !folder.as_os_str().is_empty()).unwrap_or(Path::new("."));
    let about = fs::metadata(path).or_else(|_| fs::metadata(folder)).ok()?;
    in_list(Path::new("/sys/dev/block"), &numbers(about.dev()))
}

/// A device's two numbers, as Linux packs them into one.
fn numbers(device: u64) -> String {
    let major = (device >> 8 & 0xfff) | (device >> 32 & 0xffff_f000);
    let minor = (device & 0xff) | (device >> 12 & 0xffff_ff00);
    format!("{major}:{minor}")
}

/// The sector by the system's list of devices. A partition has its disk's, in the folder above its own.
fn in_list(list: &Path, device: &str) -> Option<u64> {
    let folder = list.join(device).canonicalize().ok()?;
    let told = |folder: &Path| fs::read_to_string(folder.join("queue/physical_block_size")).ok();
    let sector = told(&folder).or_else(|| told(folder.parent()?))?;
    sector.trim().parse().ok().filter(|sector| *sector > 0)
}

#[cfg(test)]
mod tests {
    use super::{in_list, numbers};
    use std::fs;
    use std::os::unix::fs::symlink;

    #[test]
    fn a_device_has_two_numbers() {
        assert_eq!(numbers(0x0801), "8:1");
        assert_eq!(numbers(0x0000_1000_0231_0f05), "4367:8965");
    }

    #[test]
    fn a_disk_and_its_partition_have_the_same_sector() {
        let folder = std::env::temp_dir().join(format!("rinzo-sector-{}", std::process::id()));
        let disk = folder.join("devices/disk");
        fs::create_dir_all(disk.join("queue")).unwrap();
        fs::create_dir_all(disk.join("disk1")).unwrap();
        fs::create_dir_all(folder.join("block")).unwrap();
        fs::write(disk.join("queue/physical_block_size"), "4096\n").unwrap();
        symlink(&disk, folder.join("block/8:0")).unwrap();
        symlink(disk.join("disk1"), folder.join("block/8:1")).unwrap();
        let sectors = ["8:0", "8:1", "8:2"].map(|device| in_list(&folder.join("block"), device));
        fs::remove_dir_all(&folder).unwrap();
        assert_eq!(sectors, [Some(4_096), Some(4_096), None]);
    }
}
