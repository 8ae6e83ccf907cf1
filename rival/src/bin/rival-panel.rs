//! The panel: reads records from standard input for a fresh board of the size given as argument and
//! prints after every record its answer and all that can be known about every place. It has the input
//! and output of the product's `panel`, so that the two texts can be compared byte by byte.

use std::io::{self, BufWriter, Read, Write};
use std::process::ExitCode;

use rival::{driven, fresh, step, Board};

const COLUMNS: &str =
    "columns place mode ready out input lines strobe vector select mask and high asked \
                       live waiting service awaiting matched levels driven";

fn main() -> ExitCode {
    let size = std::env::args()
        .nth(1)
        .and_then(|size| size.parse().ok())
        .unwrap_or(0);
    let (code, mut board) = fresh(size);
    if code != 0 {
        eprintln!("usage: rival-panel SIZE < records, with a size of 1 to 4");
        return ExitCode::from(2);
    }
    let mut records = Vec::new();
    if let Err(error) = io::stdin().lock().read_to_end(&mut records) {
        eprintln!("rival-panel: {error}");
        return ExitCode::FAILURE;
    }
    match print(&mut board, &records) {
        Ok(()) => ExitCode::SUCCESS,
        Err(error) => {
            eprintln!("rival-panel: {error}");
            ExitCode::FAILURE
        }
    }
}

fn print(board: &mut Board, records: &[u8]) -> io::Result<()> {
    let mut text = BufWriter::new(io::stdout().lock());
    writeln!(text, "{COLUMNS}")?;
    let whole = records.chunks_exact(4);
    let tail = whole.remainder().len();
    for (number, event) in whole.enumerate() {
        let [code, place, value, request] = step(board, event);
        writeln!(text, "{} {code} {place} {value} {request}", number + 1)?;
        for place in 0..board.places() {
            print_place(&mut text, board, place)?;
        }
    }
    if tail > 0 {
        writeln!(text, "tail {tail}")?;
    }
    text.flush()
}

fn print_place(text: &mut impl Write, board: &Board, place: usize) -> io::Result<()> {
    let port = &board.ports[place];
    let (_, levels, mask) = driven(board, place);
    let columns = [
        place as u8,
        port.mode,
        port.ready as u8,
        port.out,
        port.input,
        port.lines,
        port.strobe as u8,
        port.vector,
        port.select,
        port.mask,
        port.all as u8,
        port.high as u8,
        port.asked as u8,
        port.live as u8,
        port.waiting as u8,
        port.service as u8,
        port.awaiting,
        port.matched as u8,
        levels,
        mask,
    ];
    let words: Vec<String> = columns.iter().map(u8::to_string).collect();
    writeln!(text, "{}", words.join(" "))
}
