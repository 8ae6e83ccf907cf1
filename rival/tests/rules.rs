//! The refusals of the run, of the step's length and of the driven lines, and the list of soundness,
//! line by line.

use rival::{driven, fresh, run, step, Board};

fn board(size: usize) -> Board {
    fresh(size).1
}

fn with(size: usize, change: fn(&mut Board)) -> Board {
    let mut changed = board(size);
    change(&mut changed);
    changed
}

#[test]
fn every_line_of_soundness() {
    for size in 1..=4 {
        assert!(board(size).sound());
    }
    let unsound: [fn(&mut Board); 12] = [
        |board| board.size = 0,
        |board| board.size = 5,
        |board| board.ports[2].mode = 4,
        |board| board.ports[3].mode = 2,
        |board| board.ports[3].vector = 7,
        |board| board.ports[0].live = true,
        |board| board.ports[1].awaiting = 3,
        |board| board.ports[1].awaiting = 1,
        |board| {
            board.ports[1].awaiting = 2;
            board.ports[1].asked = true;
            board.ports[1].live = true;
        },
        |board| board.ports[0].matched = true,
        |board| {
            board.ports[2].strobe = false;
            board.ports[2].lines = 1;
        },
        |board| {
            board.ports[2].mode = 2;
            board.ports[3].strobe = false;
            board.ports[2].lines = 1;
        },
    ];
    for (number, change) in unsound.into_iter().enumerate() {
        let mut changed = with(2, change);
        assert!(!changed.sound(), "change {number}");
        let before = changed;
        assert_eq!(step(&mut changed, &[9, 9, 9, 9]), [35, 9, 9, 0]);
        assert_eq!(driven(&changed, 99), (35, 0, 0));
        assert_eq!(changed, before);
    }
}

#[test]
fn sound_although_no_session_reaches_it() {
    let sound: [fn(&mut Board); 5] = [
        |board| board.ports[0].awaiting = 2,
        |board| {
            board.ports[0].mode = 3;
            board.ports[0].ready = true;
        },
        |board| board.ports[0].service = true,
        // B's register is frozen while A is in mode 2.
        |board| {
            board.ports[0].mode = 2;
            board.ports[0].input = 5;
            board.ports[0].lines = 5;
            board.ports[1].strobe = false;
            board.ports[1].lines = 1;
        },
        // Places beyond the size are not looked at.
        |board| board.ports[2].mode = 77,
    ];
    for (number, change) in sound.into_iter().enumerate() {
        assert!(with(1, change).sound(), "change {number}");
    }
}

#[test]
fn other_lengths_than_four() {
    for length in [0, 1, 2, 3, 5, 8] {
        for size in [0, 1] {
            let mut changed = board(size);
            assert_eq!(step(&mut changed, &vec![9; length]), [32, 0, 0, 0]);
            assert_eq!(changed, board(size));
        }
    }
}

#[test]
fn driven_lines_of_places() {
    assert_eq!(driven(&board(2), 3), (0, 0, 0));
    assert_eq!(driven(&board(2), 4), (17, 0, 0));
    assert_eq!(driven(&board(2), 256), (17, 0, 0));
    assert_eq!(driven(&board(0), 0), (35, 0, 0));
}

#[test]
fn refused_runs() {
    let events = [7, 0, 5, 0, 7, 1, 6, 0];
    for (size, length, room, start, code) in [
        (0, 7, 0, 9, 35),
        (1, 7, 0, 9, 32),
        (1, 8, 7, 0, 34),
        (1, 8, 11, 1, 34),
        (1, 8, 12, 2, 34),
        (1, 8, 12, usize::MAX, 34),
        (1, 0, 12, 4, 34),
    ] {
        let mut changed = board(size);
        let mut answers = vec![77; room];
        let refused = run(&mut changed, &events[..length], &mut answers, start);
        assert_eq!(
            refused,
            (code, 0),
            "size {size}, length {length}, room {room}, start {start}"
        );
        assert_eq!(changed, board(size));
        assert_eq!(answers, vec![77; room]);
    }
}

#[test]
fn accepted_runs() {
    let events = [7, 0, 5, 0, 9, 1, 6, 0];
    let mut changed = board(1);
    let mut answers = [77; 15];
    assert_eq!(run(&mut changed, &events, &mut answers, 1), (0, 2));
    assert_eq!(
        answers,
        [77, 77, 77, 77, 0, 0, 5, 0, 16, 1, 6, 0, 77, 77, 77]
    );
    assert_eq!(changed.ports[0].lines, 5);
    assert_eq!(run(&mut changed, &[], &mut answers, 3), (0, 0));
}
