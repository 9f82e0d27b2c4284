// Writes what a commit of one column writes, with no store around it: the other gate and a sync, the column's block and the directory in pieces
// of 4,096 bytes and the body of a mark, a sync, the gate, a sync. `raw FILE PLACE BYTES` writes over a file that is there, and prints the seconds.

use std::env::args;
use std::fs::OpenOptions;
use std::io::Result;
use std::os::unix::fs::FileExt;
use std::time::Instant;

const PIECE: usize = 4096;

fn main() -> Result<()> {
    let words: Vec<String> = args().collect();
    let (mut place, mut left): (u64, usize) = (words[2].parse().unwrap(), words[3].parse().unwrap());
    let file = OpenOptions::new().read(true).write(true).open(&words[1])?;
    let piece = [7; PIECE];
    let begun = Instant::now();
    file.write_all_at(&[0], 64)?;
    file.sync_all()?;
    while left > 0 {
        let count = left.min(PIECE);
        file.write_all_at(&piece[..count], place)?;
        place += count as u64;
        left -= count;
    }
    file.write_all_at(&piece[..63], 65)?;
    file.sync_all()?;
    file.write_all_at(&[0xa5], 64)?;
    file.sync_all()?;
    println!("{}", begun.elapsed().as_secs_f64());
    Ok(())
}
