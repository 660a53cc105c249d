//! From wishes to a demand: one wish by itself, one that is refused, and a list of two.

fn main() -> Result<(), chordvenus::Refused> {
    let slots = chordvenus::wish(2.25f32.to_bits()).done()?.total;
    println!("a wish of 2.25 is {slots} slots");

    let answer = chordvenus::wish((-1.0f32).to_bits());
    println!("a wish of -1 is refused, code {}: {}", answer.code, answer.code());

    // Input 0 wishes 1.5 slots of output 1, and input 1 wishes 4 of output 0.
    let mut list = Vec::new();
    for (input, output, wish) in [(0, 1, 1.5f32), (1, 0, 4.0)] {
        list.extend([input, output, 0, 0]);
        list.extend(wish.to_bits().to_le_bytes());
    }
    let mut cells = [0; 2 * 2];
    let answer = chordvenus::wishes(2, &list, &mut cells).done()?;
    println!("{} wishes are the demand", answer.records);
    println!("{} {}\n{} {}", cells[0], cells[1], cells[2], cells[3]);
    assert_eq!(chordvenus::owned::wishes(2, &list)?, cells);
    Ok(())
}
