//! What recovery is measured beside: copying the same bytes and summing them with the machine's crc32 instruction, and
//! SQLite on a database and a log of the same sizes.

use std::path::Path;
use std::process::Command;

use bench::machine;

use bench::workload::Size;

/// Copies the bytes to the front of a buffer and sums the copy.
pub fn copy_and_sum(from: &[u8], to: &mut [u8]) -> u32 {
    let to = &mut to[..from.len()];
    to.copy_from_slice(from);
    machine(to)
}

/// SQLite's time for open, checkpoint and integrity_check, and what it was measured on.
pub struct Sqlite {
    pub seconds: f64,
    pub about: String,
}

/// Runs sqlite.sh, which stands beside this package's manifest.
pub fn sqlite(size: Size) -> Result<Sqlite, String> {
    let script = Path::new(env!("CARGO_MANIFEST_DIR")).join("sqlite.sh");
    let done = Command::new("sh")
        .arg(&script)
        .args([size.pages().to_string(), size.log_bytes().to_string()])
        .output()
        .map_err(|error| error.to_string())?;
    if !done.status.success() {
        return Err(String::from_utf8_lossy(&done.stderr).trim().to_string());
    }
    let text = String::from_utf8_lossy(&done.stdout);
    let (seconds, about) = text.trim().split_once(' ').ok_or("no answer")?;
    Ok(Sqlite {
        seconds: seconds.parse().map_err(|_| format!("answer {text}"))?,
        about: about.to_string(),
    })
}
