//! Crate and archive have one version, and every code has its sentence.

use chordvenus::Code;

fn main() {
    assert_eq!(chordvenus::version(), chordvenus::sys::VERSION);
    for &code in Code::ALL {
        println!("{} {code}", code as u64);
    }
    println!("else {}", Code::of(u64::MAX));
}
