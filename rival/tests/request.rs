//! The fourth byte of an answer (document 02, ask 2): 0 when nobody asks, otherwise the nearest asking
//! place + 1.

use rival::{fresh, run, step, Board};

/// A board of four with these places live, waiting and under service.
fn board(live: &[usize], waiting: &[usize], service: &[usize]) -> Board {
    let mut board = fresh(4).1;
    for (place, port) in board.ports.iter_mut().enumerate() {
        port.asked = live.contains(&place);
        port.live = port.asked;
        port.waiting = waiting.contains(&place);
        port.service = service.contains(&place);
    }
    board
}

/// The byte in the answer to an event that changes nothing, by a step and by a run.
fn request(board: &Board) -> u8 {
    let event = [7, 7, 0, 0];
    let mut after = *board;
    let answer = step(&mut after, &event);
    assert_eq!((answer[0], after), (0, *board));
    let mut answers = [9; 4];
    assert_eq!(run(&mut after, &event, &mut answers, 0), (0, 1));
    assert_eq!(answers, answer);
    answer[3]
}

#[test]
fn who_is_asking() {
    let none = &[][..];
    for (live, waiting, service, wanted) in [
        (none, none, none, 0),
        (&[5, 6], &[5, 6], none, 6),
        // Only live or only waiting is not asking, and keeps nobody back.
        (&[2], &[4], none, 0),
        (&[4], &[2, 4], none, 5),
        (&[2, 4], &[4], none, 5),
        // A service keeps its own place and all farther ones back, live or not.
        (&[5, 6], &[5, 6], &[2], 0),
        (&[5, 6], &[6], &[5], 0),
        (&[5, 6], &[5, 6], &[5], 0),
        (&[5], &[5], &[5], 0),
        (&[3], &[3], &[1, 5], 0),
        // It keeps no nearer one back.
        (&[3, 5], &[3, 5], &[5], 4),
        (&[0, 6], &[0, 6], &[1, 5], 1),
    ] {
        let board = board(live, waiting, service);
        let what = format!("live {live:?}, waiting {waiting:?}, service {service:?}");
        assert_eq!(request(&board), wanted, "{what}");
    }
}

#[test]
fn every_place_has_its_number() {
    for place in 0..8 {
        let all: Vec<usize> = (place..8).collect();
        assert_eq!(request(&board(&all, &all, &[])), place as u8 + 1);
        assert_eq!(request(&board(&all, &[place], &[])), place as u8 + 1);
    }
}

#[test]
fn a_place_beyond_the_size_does_not_ask() {
    let mut two = board(&[4], &[4], &[]);
    two.size = 2;
    assert_eq!(step(&mut two, &[7, 3, 0, 0]), [0, 3, 0, 0]);
}

#[test]
fn after_every_kind_of_event() {
    for (event, answer) in [
        ([0, 0, 0, 0], [0, 0, 0, 0]),
        ([1, 0, 77, 0], [0, 0, 77, 6]),
        ([2, 0, 0, 0], [2, 5, 0, 0]),
        ([3, 5, 3, 0], [0, 5, 3, 7]),
        ([4, 5, 9, 0], [0, 5, 9, 6]),
        ([5, 5, 0, 0], [1, 5, 0, 6]),
        ([6, 0, 1, 0], [0, 0, 1, 6]),
        ([7, 0, 9, 0], [0, 0, 9, 6]),
    ] {
        let mut asking = board(&[5, 6], &[5, 6], &[]);
        assert_eq!(step(&mut asking, &event), answer, "{event:?}");
    }
}

#[test]
fn a_refusal_names_the_place_too() {
    for (event, code) in [
        ([8, 9, 9, 9], 16),
        ([7, 8, 9, 9], 17),
        ([2, 6, 9, 9], 17),
        ([6, 6, 2, 0], 18),
        ([7, 6, 9, 1], 18),
        ([3, 6, 9, 0], 19),
        ([3, 7, 143, 0], 20),
    ] {
        let mut asking = board(&[6], &[6], &[]);
        let answer = step(&mut asking, &event);
        assert_eq!(answer, [code, event[1], event[2], 7], "{event:?}");
        assert_eq!(asking, board(&[6], &[6], &[]));
    }
}

#[test]
fn other_lengths_and_unsound_boards_name_nobody() {
    let asking = board(&[6], &[6], &[]);
    assert_eq!(step(&mut asking.clone(), &[7, 6, 9]), [32, 0, 0, 0]);
    let unsound: [fn(&mut Board); 3] = [
        |board| board.size = 0,
        |board| board.ports[0].vector = 1,
        |board| board.ports[6].asked = false,
    ];
    for change in unsound {
        let mut changed = asking;
        change(&mut changed);
        assert_eq!(step(&mut changed, &[7, 6, 9, 0]), [35, 6, 9, 0]);
    }
}
