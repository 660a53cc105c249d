//! How much room a plan needs: for every demand beforehand, in each edition, and for one demand asked.

use chordvenus::{second, Code, MOST_LINE};

fn main() -> Result<(), chordvenus::Refused> {
    let rooms = [
        ("exact", chordvenus::exact_room(64, MOST_LINE), 64, MOST_LINE),
        ("exact", chordvenus::exact_room(64, 100), 64, 100),
        ("doubled", chordvenus::doubled_room(64, 100), 64, 100),
        ("quick", chordvenus::quick_room(64, 100), 64, 100),
        ("second edition, exact", second::exact_room(128, MOST_LINE), 128, MOST_LINE),
        ("second edition, doubled", second::doubled_room(128, 100), 128, 100),
        ("second edition, quick", second::quick_room(128, 100), 128, 100),
    ];
    for (name, room, n, longest) in rooms {
        println!("{name}, {n} ports, lines of up to {longest}: {} records", room.done()?.records);
    }
    let answer = chordvenus::exact(2, &[3, 1, 0, 2], &mut []);
    assert_eq!(answer.code(), Code::Room);
    println!("the exact plan of this demand has {}", answer.place);
    Ok(())
}
