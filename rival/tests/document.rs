//! The sessions that document 01 itself gives: the listing and P1 to P12.

use rival::{fresh, step, Board};

fn board(size: usize) -> Board {
    let (code, board) = fresh(size);
    assert_eq!(code, 0);
    board
}

/// Sends the events, of which none may be refused.
fn send(board: &mut Board, events: &[[u8; 3]]) {
    for [kind, place, value] in events {
        let answer = step(board, &[*kind, *place, *value, 0]);
        assert!(answer[0] < 16, "{kind},{place},{value} gave {answer:?}");
    }
}

#[test]
fn listing() {
    let events: [[u8; 4]; 11] = [
        [3, 0, 32, 0],
        [3, 0, 15, 0],
        [3, 0, 131, 0],
        [1, 0, 0, 0],
        [4, 0, 65, 0],
        [6, 0, 0, 0],
        [6, 0, 1, 0],
        [2, 0, 0, 0],
        [1, 0, 237, 0],
        [1, 0, 77, 0],
        [2, 0, 0, 0],
    ];
    let wanted =
        "1 0 0 32 0\n2 0 0 15 0\n3 0 0 131 0\n4 0 0 0 0\n5 0 0 65 0\n6 0 0 0 0\n7 0 0 1 1\n\
                  8 2 0 32 0\n9 0 0 237 0\n10 0 0 77 0\n11 3 0 255 0\n";
    let mut four = board(4);
    let mut text = String::new();
    for (number, event) in events.iter().enumerate() {
        let [code, place, value, request] = step(&mut four, event);
        text += &format!("{} {code} {place} {value} {request}\n", number + 1);
    }
    assert_eq!(text, wanted);
}

#[test]
fn p1_size_0() {
    let (code, board) = fresh(0);
    assert_eq!((code, board.size), (33, 0));
}

#[test]
fn p2_size_5() {
    let (code, refused) = fresh(5);
    assert_eq!((code, refused.size), (33, 0));
    assert_eq!(refused.ports, board(4).ports);
}

#[test]
fn p3_kind_8() {
    assert_eq!(step(&mut board(1), &[8, 0, 0, 0]), [16, 0, 0, 0]);
}

#[test]
fn p4_places_of_two_devices() {
    let mut two = board(2);
    assert_eq!(step(&mut two, &[7, 4, 9, 0]), [17, 4, 9, 0]);
    assert_eq!(step(&mut two, &[7, 3, 9, 0]), [0, 3, 9, 0]);
}

#[test]
fn p5_strobe_value_2() {
    assert_eq!(step(&mut board(1), &[6, 0, 2, 0]), [18, 0, 2, 0]);
}

#[test]
fn p6_control_9() {
    assert_eq!(step(&mut board(1), &[3, 0, 9, 0]), [19, 0, 9, 0]);
}

#[test]
fn p7_mode_2_word() {
    let mut one = board(1);
    assert_eq!(step(&mut one, &[3, 1, 143, 0]), [20, 1, 143, 0]);
    assert_eq!(step(&mut one, &[3, 0, 143, 0]), [0, 0, 143, 0]);
    assert_eq!(one.ports[0].mode, 2);
}

#[test]
fn p8_select_word() {
    let mut one = board(1);
    send(&mut one, &[[3, 1, 207], [3, 1, 143]]);
    assert_eq!((one.ports[1].select, one.ports[1].mode), (143, 3));
}

#[test]
fn p9_fresh_acknowledge() {
    assert_eq!(step(&mut board(1), &[2, 0, 0, 0]), [3, 0, 255, 0]);
}

#[test]
fn p10_nested_service() {
    let mut two = board(2);
    send(
        &mut two,
        &[
            [3, 2, 131],
            [3, 0, 131],
            [1, 0, 0],
            [6, 2, 0],
            [6, 2, 1],
            [2, 0, 0],
        ],
    );
    send(&mut two, &[[6, 0, 0], [6, 0, 1]]);
    assert!(two.ports[2].service && two.asking() == Some(0));
    send(&mut two, &[[1, 0, 237], [1, 0, 77]]);
    assert!(!two.ports[2].service && two.ports[0].waiting);
}

#[test]
fn p11_ed_0_4d() {
    let mut one = board(1);
    send(
        &mut one,
        &[[3, 0, 131], [1, 0, 0], [6, 0, 0], [6, 0, 1], [2, 0, 0]],
    );
    let before = one;
    send(&mut one, &[[1, 0, 237], [1, 0, 0], [1, 0, 77]]);
    assert_eq!(one, before);
}

#[test]
fn p12_and_over_no_lines() {
    let mut one = board(1);
    send(
        &mut one,
        &[
            [3, 0, 207],
            [3, 0, 255],
            [3, 0, 247],
            [3, 0, 255],
            [7, 0, 255],
        ],
    );
    assert!(!one.ports[0].matched && !one.ports[0].waiting);
}
