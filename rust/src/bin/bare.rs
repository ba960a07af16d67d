//! The statement printers' process without a book: reads the image and writes
//! nothing.

use contribution_book::printer::read_image;
use std::io;

fn main() -> io::Result<()> {
    read_image().map(drop)
}
