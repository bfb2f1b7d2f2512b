//! Reads a file on standard input and prints the result's line.

use std::io::{self, Read, Write};

use second::limits::FILE_BYTES;

fn main() -> io::Result<()> {
    // One byte more than the longest good file shows that a file is too long.
    let mut file = Vec::with_capacity(FILE_BYTES + 1);
    let read = io::stdin().lock().take(FILE_BYTES as u64 + 1).read_to_end(&mut file);
    if read.is_err() {
        // No good file is empty, so that a failed read is a bad file.
        file.clear();
    }
    io::stdout().lock().write_all(&second::plan_apply(&file))
}
