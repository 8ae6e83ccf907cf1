//! The export of a recording (document 02, ask 1): small recordings with their whole texts, the refusals
//! and their order.

use rival::cases::record;
use rival::wave::{longest, MOST_RECORDS};
use rival::{fresh, run, wave, Board};

const HEADER: &str = "$timescale 1 us $end
$var wire 1 ! int $end
$var wire 1 \" rdy0 $end
$var wire 1 # rdy1 $end
$var wire 1 $ rdy2 $end
$var wire 1 % rdy3 $end
$var wire 1 & rdy4 $end
$var wire 1 ' rdy5 $end
$var wire 1 ( rdy6 $end
$var wire 1 ) rdy7 $end
$enddefinitions $end
";

/// Name, size, room: the records as event@stamp => the code, the length (? is any) and the lines after
/// the header.
const CASES: &str = r##"
D1 1 999: 3,0,15@7 4,0,1@7 6,0,0@9 => 0 ? #0 0! 1" 0# 0$ 0% 0& 0' 0( 0)
D2 1 999: 3,0,15@0 4,0,1@5 6,0,0@5 6,0,1@5 4,0,2@6 => 0 ? #0 0! 0" 0# 0$ 0% 0& 0' 0( 0) #6 1"
D3 1 999: 3,0,15@65535 4,0,1@1 6,0,0@0 6,0,1@0 => 0 ? #0 0! 0" 0# 0$ 0% 0& 0' 0( 0) #2 1" #65537 0"
D4.1 1 999: 9,9,9@0 3,0,131@1 1,0,0@2 6,0,0@3 6,0,1@4 99,0,0@5 2,0,0@6 => 0 ? #0 0! 0" 0# 0$ 0% 0& 0' 0( 0) #4 1! #6 0!
D4.2 2 999: 3,3,131@0 1,0,0@1 6,3,0@2 6,3,1@3 => 0 ? #0 0! 0" 0# 0$ 0% 0& 0' 0( 0) #3 1!
int 2 999: 3,3,131@0 3,1,131@1 1,0,0@2 6,3,0@3 6,3,1@4 6,1,0@5 6,1,1@6 2,0,0@7 1,0,237@8 1,0,77@9 => 0 ? #0 0! 0" 0# 0$ 0% 0& 0' 0( 0) #4 1! #7 0! #9 1!
D5.1 1 257: => 0 257
D5.2 1 256: => 40 0
D5.3 0 999: 0,0,0@0 => 35 0
"##;

fn board(size: usize) -> Board {
    fresh(size).1
}

/// Exports, and holds the board to it: as a run leaves it, or unchanged when refused.
fn export(start: &Board, events: &[u8], stamps: &[u8], room: usize) -> Result<String, u8> {
    let mut exported = *start;
    let outcome = wave(&mut exported, events, stamps, room);
    let mut wanted = *start;
    if outcome.is_ok() {
        run(&mut wanted, events, &mut vec![0; events.len()], 0);
    }
    assert_eq!(exported, wanted);
    outcome
}

fn bytes_of(words: &str) -> (Vec<u8>, Vec<u8>) {
    let mut events = Vec::new();
    let mut stamps = Vec::new();
    for word in words.split_whitespace() {
        let (event, stamp) = word.split_once('@').expect(word);
        events.extend(record(event));
        stamps.extend(stamp.parse::<u16>().expect(word).to_le_bytes());
    }
    (events, stamps)
}

#[test]
fn every_case() {
    let mut cases = 0;
    for line in CASES.lines().filter(|line| !line.is_empty()) {
        let (head, rest) = line.split_once(':').expect(line);
        let (words, wanted) = rest.split_once("=>").expect(line);
        let head: Vec<&str> = head.split(' ').collect();
        let (size, room) = (head[1].parse().expect(line), head[2].parse().expect(line));
        let mut wanted = wanted.split_whitespace();
        let code: u8 = wanted.next().expect(line).parse().expect(line);
        let length = wanted.next().expect(line);
        let lines: String = wanted.map(|line| format!("{line}\n")).collect();

        let (events, stamps) = bytes_of(words);
        let outcome = export(&board(size), &events, &stamps, room);
        if code == 0 {
            assert_eq!(outcome, Ok(format!("{HEADER}{lines}")), "{line}");
        } else {
            assert_eq!(outcome, Err(code), "{line}");
        }
        let given = outcome.map_or(0, |text| text.len()).to_string();
        assert!(length == "?" || length == given, "{line}: {given}");
        cases += 1;
    }
    assert_eq!(cases, 9);
}

#[test]
fn places_beyond_the_size_show_0() {
    let mut one = board(1);
    for port in &mut one.ports {
        port.ready = true;
    }
    let text = export(&one, &[1, 0, 0, 0], &[9, 9], 999).expect("accepted");
    assert_eq!(
        text,
        format!("{HEADER}#0\n0!\n1\"\n1#\n0$\n0%\n0&\n0'\n0(\n0)\n")
    );
}

/// Nothing after time 0 but one change at the very end, each record nearly a whole round after the last.
#[test]
fn the_longest_time() {
    let mut events = [1, 0, 0, 0].repeat(MOST_RECORDS - 1);
    events.extend([5, 1, 0, 0]);
    let stamps: Vec<u8> = (0..MOST_RECORDS as u16)
        .flat_map(|record| 70u16.wrapping_sub(record).to_le_bytes())
        .collect();
    let text = export(&board(4), &events, &stamps, 999).expect("accepted");
    let values = "#0\n0!\n0\"\n0#\n0$\n0%\n0&\n0'\n0(\n0)\n";
    assert_eq!(text, format!("{HEADER}{values}#1073659905\n1#\n"));
}

#[test]
fn the_text_must_fit() {
    let (events, stamps) = bytes_of("3,0,15@7 4,0,1@9");
    let length = HEADER.len() + "#0\n".len() + 9 * "0!\n".len() + "#2\n1\"\n".len();
    assert!(length <= longest(2));
    for (room, fits) in [
        (0, false),
        (256, false),
        (257, false),
        (length - 1, false),
        (length, true),
        (length + 1, true),
        (usize::MAX, true),
    ] {
        let outcome = export(&board(1), &events, &stamps, room);
        let given = outcome.map(|text| text.len());
        assert_eq!(
            given,
            if fits { Ok(length) } else { Err(40) },
            "room {room}"
        );
    }
}

#[test]
fn refusals_in_their_order() {
    let most = MOST_RECORDS;
    for (size, events, stamps, room, code) in [
        // All are true, then one fewer each time.
        (0, 4 * most + 7, 1, 0, 35),
        (1, 4 * most + 7, 1, 0, 32),
        (1, 4 * most + 4, 1, 0, 36),
        (1, 4 * most, 1, 0, 41),
        (1, 4 * most, 2 * most, 0, 40),
        // Each by itself.
        (0, 4, 2, 999, 35),
        (1, 5, 2, 999, 32),
        (1, 3, 0, 999, 32),
        (1, 4 * most + 4, 2 * most + 2, usize::MAX, 36),
        (1, 4, 1, 999, 41),
        (1, 4, 3, 999, 41),
        (1, 4, 0, 999, 41),
        (1, 4, 4, 999, 41),
        (1, 8, 2, 999, 41),
        (1, 0, 1, 999, 41),
        (1, 0, 2, 999, 41),
        (1, 4, 2, 286, 40),
    ] {
        let outcome = export(&board(size), &vec![0; events], &vec![0; stamps], room);
        let what = format!("size {size}, {events} events, {stamps} stamps, room {room}");
        assert_eq!(outcome, Err(code), "{what}");
    }
    assert!(export(&board(1), &vec![0; 4 * most], &vec![0; 2 * most], 287).is_ok());
}
