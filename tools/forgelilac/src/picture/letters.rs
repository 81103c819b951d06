//! How wide words are: the letters of DejaVu Sans, the widest of the drawings' fonts, so that by the others they are narrower.

/// Of the letters from the space to the tilde in bold, in thousandths of the type's size.
#[rustfmt::skip]
const BOLD: [u32; 95] = [
    348, 456, 521, 838, 696, 1002, 872, 306, 457, 457, 523, 838, 380, 415, 380, 365, 696, 696, 696, 696, 696, 696,
    696, 696, 696, 696, 400, 400, 838, 838, 838, 580, 1000, 774, 762, 734, 830, 683, 683, 821, 837, 372, 372, 775,
    637, 995, 837, 850, 733, 850, 770, 720, 682, 812, 774, 1103, 771, 724, 725, 457, 365, 457, 838, 500, 500, 675,
    716, 593, 716, 678, 435, 716, 712, 343, 343, 665, 343, 1042, 712, 687, 716, 716, 493, 595, 478, 712, 652, 924,
    645, 652, 582, 712, 365, 712, 838,
];
/// Any other letter.
const OTHER: u32 = 1_000;

/// The width of words in bold, in pixels.
pub fn wide(words: &str, size: f64) -> f64 {
    let letter = |letter: char| match letter {
        ' '..='~' => BOLD[letter as usize - 32],
        _ => OTHER,
    };
    size / 1_000.0 * f64::from(words.chars().map(letter).sum::<u32>())
}
