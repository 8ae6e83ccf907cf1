//! Links libpio.a, runs the worked session of document 01 on a fresh board of four and prints its answers: number, code, place,
//! value, request. Before that it reads a fresh and a programmed board back field by field and tries the refusals; after it the session is
//! exported as a recording.

mod pio;

use pio::{Board, Chip, Decoder, Port};

const SESSION: [[u8; 4]; 11] = [
    [3, 0, 32, 0],
    [3, 0, 15, 0],
    [3, 0, 131, 0],
    [1, 0, 0, 0],
    [4, 0, 65, 0],
    [6, 0, 0, 0],
    [6, 0, 1, 0],
    [2, 0, 0, 0],
    [1, 0, 0xED, 0],
    [1, 0, 0x4D, 0],
    [2, 0, 0, 0],
];

fn fresh_port() -> Port {
    Port {
        mode: 1,
        strobe: true,
        mask: 255,
        ..Port::default()
    }
}

fn fresh_board(size: u8) -> Board {
    let chip = Chip {
        a: fresh_port(),
        b: fresh_port(),
    };
    Board {
        size,
        chips: [chip; 4],
        decoder: Decoder { prefix: 0 },
    }
}

fn fresh(size: usize) -> Board {
    let mut board = Board::default();
    assert_eq!(pio::fresh(&mut board, size), 0);
    board
}

/// The four bytes of an event's answer.
fn does(board: &mut Board, kind: u8, place: u8, value: u8) -> [u8; 4] {
    let mut answer = [9; 4];
    let code = pio::step(board, &[kind, place, value, 0], &mut answer);
    assert_eq!(code, answer[0]);
    answer
}

fn fresh_boards() {
    for size in 1..=4 {
        assert_eq!(fresh(size.into()), fresh_board(size));
    }
    for size in [0, 5, 256, 257, 260, usize::MAX] {
        let mut board = fresh(4);
        assert_eq!(pio::fresh(&mut board, size), 33);
        assert_eq!(board, fresh_board(0));
    }
}

/// A port in mode 3 on chip 1, one in mode 2 on chip 2, an ED remembered; everything else fresh.
fn programmed_board() {
    let mut board = fresh(4);
    for value in [0x42, 0xCF, 0xF0, 0xB7, 0xEF] {
        assert_eq!(does(&mut board, 3, 3, value), [0, 3, value, 0]);
    }
    assert_eq!(does(&mut board, 4, 3, 0x0C), [0, 3, 0x0C, 0]);
    assert_eq!(does(&mut board, 1, 0, 0), [0, 0, 0, 0]);
    // From here on the request names place 3 by one more than its number, in a refusal too.
    assert_eq!(does(&mut board, 7, 3, 0x10), [0, 3, 0x10, 4]);
    assert_eq!(does(&mut board, 3, 1, 0x8F), [20, 1, 0x8F, 4]);
    for value in [0x8F, 0x47] {
        assert_eq!(does(&mut board, 3, 4, value), [0, 4, value, 4]);
    }
    assert_eq!(does(&mut board, 7, 4, 0x77), [0, 4, 0x77, 4]);
    assert_eq!(does(&mut board, 6, 5, 0), [0, 5, 0, 4]);
    assert_eq!(does(&mut board, 1, 0, 0xED), [0, 0, 0xED, 4]);

    let mut expected = fresh_board(4);
    expected.chips[1].b = Port {
        mode: 3,
        out: 0x0C,
        input: 0,
        lines: 0x10,
        strobe: true,
        ready: false,
        vector: 0x42,
        select: 0xF0,
        mask: 0xEF,
        all: false,
        high: true,
        asked: true,
        live: true,
        waiting: true,
        service: false,
        awaiting: 0,
        matched: true,
    };
    expected.chips[2].a = Port {
        mode: 2,
        input: 0x77,
        lines: 0x77,
        all: true,
        ..fresh_port()
    };
    expected.chips[2].b.strobe = false;
    expected.decoder.prefix = 1;
    assert_eq!(board, expected);

    let mut lines = [9; 3];
    assert_eq!(pio::lines(&board, 3, &mut lines), 0);
    assert_eq!(lines, [0x0C, 0x0F, 9]);

    assert_eq!(does(&mut board, 2, 0, 0), [2, 3, 0x42, 0]);
    assert!(board.chips[1].b.service && !board.chips[1].b.waiting);
    assert_eq!(board.decoder.prefix, 0);
}

fn refusals() {
    let mut board = fresh(2);
    let mut unsound = board;
    unsound.chips[0].a.vector = 1;
    let (sound_before, unsound_before) = (board, unsound);

    // 34 goes before all, 32 before 35, and 35 before what is wrong with the event.
    let event = [3, 0, 15, 0, 0];
    for length in 0..=5 {
        for room in 0..4 {
            let mut answer = [9; 4];
            for lent in [&mut board, &mut unsound] {
                let code = pio::step(lent, &event[..length], &mut answer[..room]);
                assert_eq!((code, answer), (34, [9; 4]));
            }
        }
        if length != 4 {
            for lent in [&mut board, &mut unsound] {
                let mut answer = [9; 6];
                assert_eq!(pio::step(lent, &event[..length], &mut answer), 32);
                assert_eq!(answer, [32, 0, 0, 0, 9, 9]);
            }
        }
    }
    let mut answer = [9; 6];
    assert_eq!(pio::step(&mut unsound, &[99, 200, 7, 5], &mut answer), 35);
    assert_eq!(answer, [35, 200, 7, 0, 9, 9]);
    for (event, code) in [
        ([8, 200, 7, 5], 16),
        ([1, 1, 7, 5], 17),
        ([4, 4, 0, 1], 17),
        ([0, 0, 1, 0], 18),
        ([6, 3, 2, 0], 18),
        ([3, 0, 9, 0], 19),
        ([3, 1, 143, 0], 20),
    ] {
        let mut answer = [9; 4];
        assert_eq!(pio::step(&mut board, &event, &mut answer), code);
        assert_eq!(answer, [code, event[1], event[2], 0]);
    }

    // The driven lines: 34, 35, 17.
    let mut lines = [9; 2];
    assert_eq!(pio::lines(&unsound, 256, &mut lines[..1]), 34);
    assert_eq!(lines, [9, 9]);
    assert_eq!(pio::lines(&unsound, 256, &mut lines), 35);
    assert_eq!(lines, [0, 0]);
    for place in [4, 255, 256, 257, usize::MAX] {
        let mut lines = [9; 2];
        assert_eq!((pio::lines(&board, place, &mut lines), lines), (17, [0, 0]));
    }

    // The run: 35, 32, 34.
    let events = SESSION.concat();
    let mut answers = [9; 50];
    assert_eq!(
        pio::run(&mut unsound, &events[1..], &mut answers, 9),
        (35, 0)
    );
    assert_eq!(pio::run(&mut board, &events[1..], &mut answers, 9), (32, 0));
    for start in [2, 12, usize::MAX / 4, usize::MAX] {
        assert_eq!(pio::run(&mut board, &events, &mut answers, start), (34, 0));
    }
    assert_eq!(pio::run(&mut board, &[], &mut answers, 13), (34, 0));
    assert_eq!(pio::run(&mut board, &[], &mut answers, 12), (0, 0));
    assert_eq!(answers, [9; 50]);

    // The export: 35, 32, 36, 41, 40.
    let stamps = [0; 22];
    let many = vec![0; 4 * 16_385];
    let mut text = [9; 256];
    let (short, odd) = (&events[1..], &stamps[1..]);
    assert_eq!(pio::wave(&mut unsound, short, odd, &mut text), (35, 0));
    for (events, stamps, code) in [
        (short, odd, 32),
        (&many, odd, 36),
        (&events, odd, 41),
        (&events, &stamps, 40),
    ] {
        assert_eq!(pio::wave(&mut board, events, stamps, &mut text), (code, 0));
    }
    assert_eq!(text, [9; 256]);

    assert_eq!((board, unsound), (sound_before, unsound_before));
}

/// The session as a recording, a record each microsecond, and the board as a run leaves it. The write raises the Ready of place 0, the
/// strobe's rise lowers it and makes place 0 ask, and the acknowledge ends the asking.
fn recording(ran: &Board) {
    let events = SESSION.concat();
    let stamps: Vec<u8> = (0..11).flat_map(|time: u16| time.to_le_bytes()).collect();
    let mut board = fresh(4);
    let mut text = [9; 257 + 39 * 11];
    let (code, length) = pio::wave(&mut board, &events, &stamps, &mut text);
    assert_eq!((code, board), (0, *ran));
    assert!(text.starts_with(b"$timescale 1 us $end\n"));
    let shown = b"#0\n0!\n0\"\n0#\n0$\n0%\n0&\n0'\n0(\n0)\n#4\n1\"\n#6\n1!\n0\"\n#7\n0!\n";
    assert_eq!(&text[257..length], shown);
    assert!(text[length..].iter().all(|byte| *byte == 9));
}

fn main() {
    fresh_boards();
    programmed_board();
    refusals();

    // The session as a run, into the middle of a buffer, and step by step: the same answers, the same board.
    let (mut ran, mut stepped) = (fresh(4), fresh(4));
    let mut answers = [9; 4 * 13];
    assert_eq!(
        pio::run(&mut ran, &SESSION.concat(), &mut answers, 1),
        (0, 11)
    );
    assert_eq!((&answers[..4], &answers[48..]), (&[9; 4][..], &[9; 4][..]));
    for (i, event) in SESSION.iter().enumerate() {
        let mut answer = [9; 4];
        assert_eq!(pio::step(&mut stepped, event, &mut answer), answer[0]);
        assert_eq!(answer, answers[4 * (i + 1)..4 * (i + 2)]);
        let [code, place, value, request] = answer;
        println!("{} {code} {place} {value} {request}", i + 1);
    }
    assert_eq!(stepped, ran);
    recording(&ran);
}
