//! Mount sheets: which one is found, what is refused and in which order, what adding writes, and the sign. What is due is
//! written down from document 02's R-9.

use hromulice::{add_mount, ask_mount, mount_vector, Mount, Reason, Refusal, Side, SHEET_BYTES};

/// "boat (4), edition (4), side (1: 0 starboard, 1 port), seven zero bytes"
fn sheet(boat: u32, edition: u32, side: u8) -> [u8; SHEET_BYTES] {
    let mut bytes = [0; SHEET_BYTES];
    bytes[..4].copy_from_slice(&boat.to_le_bytes());
    bytes[4..8].copy_from_slice(&edition.to_le_bytes());
    bytes[8] = side;
    bytes
}

fn book(sheets: &[(u32, u32, u8)]) -> Vec<u8> {
    sheets.iter().flat_map(|&(boat, edition, side)| sheet(boat, edition, side)).collect()
}

/// Two boats, mixed, one with a number of four different bytes.
const BOAT: u32 = 0x0403_0201;
const MIXED: [(u32, u32, u8); 5] = [(BOAT, 1, 1), (30, 1, 0), (BOAT, 2, 0), (BOAT, 3, 1), (30, 2, 1)];

fn refused<T>(reason: Reason, place: u64) -> Result<T, Refusal> {
    Err(Refusal { reason, place })
}

fn is(edition: u32, side: Side) -> Result<Mount, Refusal> {
    Ok(Mount { edition, side })
}

/// An adding that is refused: so with every byte of the sheets as it was.
fn not_added(sheets: &[u8], count: u64, (boat, edition, side): (u32, u32, u32), reason: Reason, place: u64) {
    let mut after = sheets.to_vec();
    let answer = add_mount(&mut after, count, boat, edition, side);
    assert_eq!(answer, refused(reason, place), "{count} sheets, boat {boat}, edition {edition}, side {side}");
    assert_eq!(after, sheets, "{count} sheets, boat {boat}, edition {edition}, side {side}");
}

/// 20 at this place, by whoever asks or adds, whatever is asked for or added: it comes before all other numbers.
fn damaged(sheets: &[u8], count: u64, place: u64) {
    for boat in [BOAT, 30, 7] {
        for edition in [0, 1, 2, 4, u32::MAX] {
            assert_eq!(ask_mount(sheets, count, boat, edition), refused(Reason::SheetsDamaged, place), "{count}: {sheets:?}");
            for side in [0, 1, 2] {
                not_added(sheets, count, (boat, edition, side), Reason::SheetsDamaged, place);
            }
        }
    }
}

/// "that boat's newest sheet not above it, or 19 if none"
#[test]
fn asked() {
    let sheets = book(&MIXED);
    let due = [
        (BOAT, [is(1, Side::Port), is(2, Side::Starboard), is(3, Side::Port), is(3, Side::Port)]),
        (30, [is(1, Side::Starboard), is(2, Side::Port), is(2, Side::Port), is(2, Side::Port)]),
    ];
    for (boat, editions) in due {
        assert_eq!(ask_mount(&sheets, 5, boat, 0), refused(Reason::NoSheet, 0));
        for (edition, due) in [1, 2, 3, u32::MAX].into_iter().zip(editions) {
            assert_eq!(ask_mount(&sheets, 5, boat, edition), due, "boat {boat}, edition {edition}");
        }
    }
    for boat in [0, 1, BOAT ^ 0x0100_0000, BOAT - 1, u32::MAX] {
        assert_eq!(ask_mount(&sheets, 5, boat, u32::MAX), refused(Reason::NoSheet, 0));
    }
}

/// Only the counted sheets are there; what follows is neither read nor judged, whole sheets or not.
#[test]
fn counted() {
    let sheets = book(&MIXED);
    assert_eq!(ask_mount(&sheets, 0, BOAT, u32::MAX), refused(Reason::NoSheet, 0));
    assert_eq!(ask_mount(&sheets, 1, 30, u32::MAX), refused(Reason::NoSheet, 0));
    for (count, due) in [(1, is(1, Side::Port)), (2, is(1, Side::Port)), (3, is(2, Side::Starboard)), (5, is(3, Side::Port))] {
        assert_eq!(ask_mount(&sheets, count, BOAT, u32::MAX), due, "{count}");
        for more in 0..40 {
            let mut longer = sheets[..16 * count as usize].to_vec();
            longer.resize(longer.len() + more, 0xff);
            assert_eq!(ask_mount(&longer, count, BOAT, u32::MAX), due, "{count} and {more} bytes");
        }
    }
}

/// Every boat may be one, 0 and the greatest number too.
#[test]
fn boats() {
    let mut sheets = [0xee; 4 * SHEET_BYTES];
    let mut count = 0;
    for (boat, side) in [(0, Side::Port), (u32::MAX, Side::Starboard), (0x8000_0000, Side::Port), (1, Side::Starboard)] {
        count = add_mount(&mut sheets, count, boat, 1, side.into()).unwrap();
    }
    assert_eq!(sheets[..], book(&[(0, 1, 1), (u32::MAX, 1, 0), (0x8000_0000, 1, 1), (1, 1, 0)]));
    assert_eq!(ask_mount(&sheets, count, 0, 1), is(1, Side::Port));
    assert_eq!(ask_mount(&sheets, count, u32::MAX, 1), is(1, Side::Starboard));
}

/// "A number of records that the bytes can't hold gives 20 with the number they can": before any sheet is looked at, and also
/// where 16 times the number has more than 64 bits.
#[test]
fn too_many_counted() {
    for bytes in 0..=64 {
        let sheets = vec![0xff; bytes];
        let hold = bytes as u64 / 16;
        for count in [hold + 1, hold + 2, 100, 1 << 32, (1 << 32) + hold, 1 << 60, (1 << 60) + hold, 1 << 63, u64::MAX] {
            damaged(&sheets, count, hold);
        }
    }
}

/// "the first bad stored record (side above 1, non-zero filler, or not its boat's next edition) gives 20 with its number"
#[test]
fn bad_sheets() {
    for place in 0..5 {
        let with = |byte: usize, value: u8| {
            let mut sheets = book(&MIXED);
            sheets[16 * place + byte] = value;
            sheets
        };
        for side in 2..=255 {
            assert_eq!(ask_mount(&with(8, side), 5, 30, 1), refused(Reason::SheetsDamaged, place as u64), "side {side}");
        }
        for (byte, bit) in (9..16).flat_map(|byte| (0..8).map(move |bit| (byte, bit))) {
            damaged(&with(byte, 1 << bit), 5, place as u64);
        }
        for edition in [0, 1, 2, 3, 4, 0x0100_0000, u32::MAX].into_iter().filter(|edition| *edition != MIXED[place].1) {
            let mut sheets = MIXED;
            sheets[place].1 = edition;
            damaged(&book(&sheets), 5, place as u64);
        }
        for value in [2, 255] {
            damaged(&with(8, value), 5, place as u64);
            // Behind the counted ones it is not judged.
            assert!(place == 0 || ask_mount(&with(8, value), place as u64, BOAT, 1) == is(1, Side::Port));
        }
    }
}

/// A sheet under another boat's number: it is bad, or the boat lacks it.
#[test]
fn other_boats() {
    for (place, boat, bad) in [(0, 7, 2), (0, 30, 1), (1, BOAT, 1), (1, 7, 4), (2, 30, 3), (3, 7, 3), (4, BOAT, 4)] {
        let mut sheets = MIXED;
        sheets[place].0 = boat;
        damaged(&book(&sheets), 5, bad);
    }
}

/// Of two bad sheets the first one is the place, whatever is wrong with each.
#[test]
fn first_bad_sheet() {
    let wrong: [fn(&mut [u8]); 3] = [|sheet| sheet[8] = 2, |sheet| sheet[15] = 1, |sheet| sheet[4] = 9];
    for (first, second) in (0..5).flat_map(|first| (first + 1..5).map(move |second| (first, second))) {
        for (one, other) in wrong.iter().flat_map(|one| wrong.iter().map(move |other| (one, other))) {
            let mut sheets = book(&MIXED);
            one(&mut sheets[16 * first..16 * first + 16]);
            other(&mut sheets[16 * second..16 * second + 16]);
            damaged(&sheets, 5, first as u64);
        }
    }
}

/// A bad count and a bad sheet: the count is judged first.
#[test]
fn count_before_sheets() {
    let mut sheets = book(&MIXED);
    sheets[8] = 7;
    damaged(&sheets, 6, 5);
    damaged(&sheets, 5, 0);
}

/// "adding writes behind the last": 16 bytes, and none before or after them.
#[test]
fn added() {
    for room in 16..50 {
        let mut sheets = [&book(&MIXED)[..], &vec![0xee; room]].concat();
        let mut due = sheets.clone();
        due[80..96].copy_from_slice(&sheet(BOAT, 4, 0));
        assert_eq!(add_mount(&mut sheets, 5, BOAT, 4, 0), Ok(6), "{room}");
        assert_eq!(sheets, due, "{room}");
    }
    // Behind the last counted one, over what stands there.
    let mut sheets = book(&MIXED);
    assert_eq!(add_mount(&mut sheets, 1, 7, 1, 1), Ok(2));
    assert_eq!(sheets, book(&[MIXED[0], (7, 1, 1), MIXED[2], MIXED[3], MIXED[4]]));
    // With every byte of an edition's and a boat's number.
    let mut sheets = [0xee; 20];
    assert_eq!(add_mount(&mut sheets, 0, 0xfedc_ba98, 1, 1), Ok(1));
    assert_eq!(sheets, [0x98, 0xba, 0xdc, 0xfe, 1, 0, 0, 0, 1, 0, 0, 0, 0, 0, 0, 0, 0xee, 0xee, 0xee, 0xee]);
}

/// "adding another edition than the next .. gives 21, a side above 1 gives 22, no room gives 14, here at 0 .. 20, 19, 22, 21, 14"
#[test]
fn not_added_and_why() {
    let good = book(&MIXED);
    for room in 0..40 {
        let sheets = [&good[..], &vec![0xee; room]].concat();
        for (boat, next) in [(BOAT, 4), (30, 3), (7, 1)] {
            for edition in [0, 1, 2, 3, 4, 5, 0x0100_0000 + next, u32::MAX] {
                // A number of more than 8 bits is no side either, whatever its lower bits are.
                for side in [2, 255, 256, 257, 0x0001_0000, 0x8000_0001, u32::MAX] {
                    not_added(&sheets, 5, (boat, edition, side), Reason::SideNotPermitted, 0);
                }
                for side in [0, 1] {
                    if edition != next {
                        not_added(&sheets, 5, (boat, edition, side), Reason::NotNextEdition, 0);
                    } else if room < 16 {
                        not_added(&sheets, 5, (boat, edition, side), Reason::RoomTooSmall, 0);
                    }
                }
            }
        }
    }
}

#[test]
fn no_bytes() {
    assert_eq!(ask_mount(&[], 0, 7, u32::MAX), refused(Reason::NoSheet, 0));
    assert_eq!(add_mount(&mut [], 0, 7, 1, 0), refused(Reason::RoomTooSmall, 0));
    damaged(&[], 1, 0);
}

/// "no later adding, with bytes and number handed on as returned, changes the answer for an edition the boat already has": sheets
/// of five boats, mixed, with refused addings between; after each adding every edition that is there is asked for again.
#[test]
fn answers_stay() {
    let mut sheets = vec![0xee; 60 * SHEET_BYTES];
    let mut count = 0;
    let mut newest = [0_u32; 5];
    let mut given: Vec<(u32, Mount)> = Vec::new();
    let mut random = 1_u32;
    while count < 60 {
        random = random.wrapping_mul(1_664_525).wrapping_add(1_013_904_223);
        let (boat, side) = (random >> 16 & 7, Side::ALL[(random >> 24 & 1) as usize]);
        let boat = boat % 5;
        let next = newest[boat as usize] + 1;
        not_added(&sheets, count, (boat, next + 1, side.into()), Reason::NotNextEdition, 0);
        not_added(&sheets, count, (boat, next, 2), Reason::SideNotPermitted, 0);
        count = add_mount(&mut sheets, count, boat, next, side.into()).unwrap();
        newest[boat as usize] = next;
        given.push((boat, Mount { edition: next, side }));
        for &(boat, mount) in &given {
            assert_eq!(ask_mount(&sheets, count, boat, mount.edition), Ok(mount));
        }
        assert_eq!(ask_mount(&sheets, count, boat, u32::MAX), is(next, side));
    }
    assert!(newest.iter().all(|edition| *edition > 2), "{newest:?}");
    not_added(&sheets, count, (0, newest[0] + 1, 0), Reason::RoomTooSmall, 0);
}

/// "A measured shift (x, y) gives vector (x, y) on starboard and (−x, y) on port; x = −32768 on port gives 23": every x, beside
/// some y.
#[test]
fn vectors() {
    for x in i16::MIN..=i16::MAX {
        for y in [i16::MIN, -1, 0, 1, x, i16::MAX] {
            assert_eq!(mount_vector(0, x, y), Ok((x, y)));
            let turned = x.checked_neg().map(|x| (x, y)).ok_or(Refusal { reason: Reason::ShiftNotTurned, place: 0 });
            assert_eq!(mount_vector(1, x, y), turned, "({x}, {y})");
        }
    }
    assert_eq!(mount_vector(1, i16::MIN, 5), refused(Reason::ShiftNotTurned, 0));
}

/// "y is never touched": every y, on both sides.
#[test]
fn y_stays() {
    for y in i16::MIN..=i16::MAX {
        assert_eq!((mount_vector(0, 3, y), mount_vector(1, 3, y)), (Ok((3, y)), Ok((-3, y))));
    }
}

/// "a side above 1 gives 22 first", also where its lower bits are a side.
#[test]
fn no_sides() {
    for side in (2..300).chain([0x0001_0000, 0x0001_0001, 0x8000_0001, u32::MAX]) {
        for x in [i16::MIN, 0, 7] {
            assert_eq!(mount_vector(side, x, -7), refused(Reason::SideNotPermitted, 0), "{side}");
        }
    }
}

#[test]
fn sides() {
    for (number, side) in (0..).zip(Side::ALL) {
        assert_eq!((side.number(), u32::from(side)), (number, number.into()));
    }
    assert_eq!(Side::ALL.map(|side| side.to_string()), ["starboard", "port"]);
}

#[test]
fn shown() {
    let shown = |reason, place| Refusal { reason, place }.to_string();
    assert_eq!(shown(Reason::NoSheet, 0), "refused 19: the boat has no sheet of that edition or an earlier one");
    let damaged = "the stored sheets are damaged, or fewer than were counted";
    assert_eq!(shown(Reason::SheetsDamaged, 3), format!("refused 20 at sheet 3: {damaged}"));
    assert_eq!(shown(Reason::NotNextEdition, 0), "refused 21: not the boat's next edition");
    assert_eq!(shown(Reason::SideNotPermitted, 0), "refused 22: a side is neither starboard (0) nor port (1)");
    assert_eq!(shown(Reason::ShiftNotTurned, 0), "refused 23: a shift of -32768 cannot be turned for port");
    assert_eq!(shown(Reason::RoomTooSmall, 0), "refused 14: the lent room is too small");
    assert_eq!(shown(Reason::RoomTooSmall, 24), "refused 14, 24 needed: the lent room is too small");
}
