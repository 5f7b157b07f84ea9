//! How wide a text is, so that nothing is drawn over it. The measure is that of
//! DejaVu Sans, one of the widest of the letters that a viewer may take.

use crate::svg::Px;

/// The letters that a viewer is asked for, the widest first.
pub const FAMILY: &str = "DejaVu Sans, Verdana, Geneva, Arial, sans-serif";

/// Size and weight of a text.
#[derive(Clone, Copy, Debug, PartialEq, Eq)]
pub struct Face {
    /// In pixels.
    pub size: Px,
    /// Whether it is bold.
    pub bold: bool,
}

/// Most of the text.
pub const PLAIN: Face = Face { size: 11, bold: false };
/// What should be seen first.
pub const BOLD: Face = Face { size: 11, bold: true };
/// Beside a line or a mark.
pub const SMALL: Face = Face { size: 9, bold: false };
/// A scene's head.
pub const HEAD: Face = Face { size: 16, bold: true };

/// From one line of text to the next.
pub const LINE: Px = 14;

/// The advance of the letters from blank to tilde, in thousandths of the size.
const ADVANCE: [Px; 95] = [
    318, 401, 460, 838, 636, 950, 780, 275, 390, 390, 500, 838, 318, 361, 318, 337, 636, 636, 636, 636, 636,
    636, 636, 636, 636, 636, 337, 337, 838, 838, 838, 531, 1000, 684, 686, 698, 770, 632, 575, 775, 752, 295,
    295, 656, 557, 863, 748, 787, 603, 787, 695, 635, 611, 732, 684, 989, 685, 611, 685, 390, 337, 390, 838,
    500, 500, 613, 635, 550, 635, 615, 352, 635, 634, 278, 278, 579, 278, 974, 634, 612, 635, 635, 411, 521,
    392, 634, 592, 818, 592, 592, 525, 636, 337, 636, 838,
];

/// Any other letter counts as a wide one.
const WIDEST: Px = 1000;

/// Bold letters are wider by up to a fifth in words.
const BOLD_PERCENT: Px = 120;

/// The width of a text, rounded up.
pub fn width(text: &str, face: Face) -> Px {
    let advance = |letter: char| {
        let place = (letter as usize).checked_sub(' ' as usize);
        place.and_then(|place| ADVANCE.get(place)).copied().unwrap_or(WIDEST)
    };
    let plain: Px = text.chars().map(advance).sum();
    let percent = if face.bold { BOLD_PERCENT } else { 100 };
    (plain * face.size * percent).div_euclid(100_000) + 1
}

/// The widest of some lines.
pub fn widest<'a>(lines: impl IntoIterator<Item = &'a String>, face: Face) -> Px {
    lines.into_iter().map(|line| width(line, face)).max().unwrap_or(0)
}

/// The text in lines that are no wider, broken at blanks. A single word that is
/// wider has a line of its own.
pub fn wrapped(text: &str, face: Face, wide: Px) -> Vec<String> {
    let mut lines: Vec<String> = Vec::new();
    for word in text.split_whitespace() {
        match lines.last_mut() {
            Some(line) if width(&format!("{line} {word}"), face) <= wide => {
                line.push(' ');
                line.push_str(word);
            }
            _ => lines.push(word.to_string()),
        }
    }
    lines
}

/// A number with commas, for counts that people read.
pub fn counted(number: u64) -> String {
    let digits = number.to_string();
    let mut out = String::new();
    for (place, digit) in digits.chars().enumerate() {
        if place > 0 && (digits.len() - place) % 3 == 0 {
            out.push(',');
        }
        out.push(digit);
    }
    out
}

#[cfg(test)]
mod tests {
    use super::{counted, width, wrapped, BOLD, PLAIN};

    #[test]
    fn wider_letters_are_wider() {
        assert_eq!(width("", PLAIN), 1);
        assert_eq!(width("000", PLAIN), 636 * 3 * 11 / 1000 + 1);
        assert!(width("www", PLAIN) > width("iii", PLAIN));
        assert!(width("gate", BOLD) > width("gate", PLAIN));
        assert_eq!(width("\u{2192}", PLAIN), 12);
    }

    #[test]
    fn lines_are_broken_at_blanks() {
        let lines = wrapped("a gate move may come at any moment", PLAIN, 80);
        assert_eq!(lines.join(" "), "a gate move may come at any moment");
        assert!(lines.len() > 1 && lines.iter().all(|line| width(line, PLAIN) <= 80), "{lines:?}");
        assert_eq!(wrapped("unbreakable", PLAIN, 5), ["unbreakable"]);
        assert!(wrapped("  ", PLAIN, 5).is_empty());
    }

    #[test]
    fn counts_have_commas() {
        assert_eq!([0, 999, 1000, 1234567].map(counted), ["0", "999", "1,000", "1,234,567"]);
    }
}
