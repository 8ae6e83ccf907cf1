//! What a comparison is worth hangs on what its sessions reach; these tests hold the generator to it.

use std::collections::BTreeSet;

use rival::generator::{sound_board, unsound_board, Generator};
use rival::random::Random;
use rival::{fresh, step};

fn session(seed: u64, size: usize, count: usize) -> Vec<[u8; 4]> {
    let mut generator = Generator::new(seed, 3);
    let mut board = fresh(size).1;
    let mut events = Vec::new();
    for _ in 0..count {
        let event = generator.next(&board);
        step(&mut board, &event);
        events.push(event);
    }
    events
}

#[test]
fn same_seed_same_session() {
    assert_eq!(session(7, 2, 500), session(7, 2, 500));
    assert_ne!(session(7, 2, 500), session(8, 2, 500));
}

#[test]
fn sessions_reach_what_they_should() {
    let mut codes = BTreeSet::new();
    let mut requests = BTreeSet::new();
    let mut beside_mode_2 = BTreeSet::new();
    let mut nesting = 0;
    let mut releases = 0;
    let mut matches = 0;
    let mut refused = 0;
    let mut farther = 0;
    for seed in 0..200 {
        let mut board = fresh(1 + seed as usize % 4).1;
        for event in session(seed, 1 + seed as usize % 4, 400) {
            let before = board;
            let answer = step(&mut board, &event);
            codes.insert(answer[0]);
            requests.insert(answer[3]);
            refused += usize::from(answer[0] >= 16);
            farther += usize::from(answer[0] >= 16 && answer[3] > 1);
            let services = board.ports.iter().filter(|port| port.service).count();
            nesting = nesting.max(services);
            for place in 0..board.places() {
                let (old, new) = (&before.ports[place], &board.ports[place]);
                releases += usize::from(event[0] == 1 && old.service && !new.service);
                matches += usize::from(!old.matched && new.matched);
                if board.serves_a(place) {
                    beside_mode_2.insert(new.mode);
                }
            }
            assert!(board.sound());
        }
    }
    assert_eq!(codes, BTreeSet::from([0, 1, 2, 3, 16, 17, 18, 19, 20]));
    assert_eq!(requests, (0..=8).collect());
    assert_eq!(beside_mode_2, BTreeSet::from([0, 1, 3]));
    assert!(nesting >= 5, "at most {nesting} services at one time");
    assert!(releases > 800, "{releases} releases by RETI");
    assert!(matches > 800, "{matches} matches");
    assert!(
        (1600..4800).contains(&refused),
        "{refused} refused of 80000"
    );
    assert!(
        farther > 400,
        "{farther} refused while a farther place asks"
    );
}

#[test]
fn boards_are_what_they_are_called() {
    let mut random = Random::new(3);
    for _ in 0..2000 {
        assert!(sound_board(&mut random).sound());
        assert!(!unsound_board(&mut random).sound());
    }
}
