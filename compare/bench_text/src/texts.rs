//! The texts that are timed.

/// The longest: about what a batch of one text holds.
const LONGEST: usize = 4_058;

/// What a text is, and the text.
pub type Row = (&'static str, String);

pub fn all() -> Vec<Row> {
    ascii().chain(names()).chain(scripts()).collect()
}

fn ascii() -> impl Iterator<Item = Row> {
    let letters = "the gondola goes up to the summit ";
    [0, 4, 7, 8, 12, 16, 24, 32, 64, 128, 256, 1_024, LONGEST]
        .into_iter()
        .map(move |length| ("ASCII", text(letters, length)))
}

/// Of 6, 9, 12, 20 and 40 bytes.
const NAMES: [&str; 5] = [
    "Süd 1",
    "Télé 12",
    "Télécabine",
    "Gondel 7 – Südost",
    "Télécabine du Mont-Gelé, gare d'été",
];

fn names() -> impl Iterator<Item = Row> {
    NAMES
        .into_iter()
        .map(|name| ("name with accents", name.to_string()))
}

const SCRIPTS: [(&str, &str); 8] = [
    (
        "German",
        "Über die Brücke fährt die Gondel täglich bis zur höchsten Station. ",
    ),
    (
        "French",
        "La télécabine a été révisée à l'été, près de la gare supérieure. ",
    ),
    (
        "Polish and Czech",
        "Zażółć gęślą jaźń. Příliš žluťoučký kůň úpěl ďábelské ódy. ",
    ),
    (
        "Russian",
        "Канатная дорога поднимается на вершину горы каждый день. ",
    ),
    (
        "Chinese and Japanese",
        "缆车每天早上八点开始运行。ロープウェイは山頂まで行きます。",
    ),
    ("Thai", "กระเช้าไฟฟ้าขึ้นสู่ยอดเขาทุกวันตั้งแต่เช้า "),
    ("emoji", "🚡🚠🏔🎿🏂🌨🎫🧤"),
    (
        "mixed scripts",
        "Zürich–Łódź, 北京 → Αθήνα; цена 5 € 😀, plain words between, ",
    ),
];

fn scripts() -> impl Iterator<Item = Row> {
    SCRIPTS.into_iter().flat_map(|(script, piece)| {
        [64, 256, 1_024, LONGEST].map(|length| (script, text(piece, length)))
    })
}

/// As many characters of the piece over and over as so many bytes hold.
fn text(piece: &str, most: usize) -> String {
    let mut text = String::new();
    for character in piece.chars().cycle() {
        if text.len() + character.len_utf8() > most {
            break;
        }
        text.push(character);
    }
    text
}

#[cfg(test)]
mod tests {
    use super::*;

    #[test]
    fn they_have_their_lengths() {
        assert_eq!(NAMES.map(str::len), [6, 9, 12, 20, 40]);
        let lengths = [64, 256, 1_024, LONGEST].into_iter().cycle();
        for ((_, text), length) in scripts().zip(lengths) {
            assert!((length - 3..=length).contains(&text.len()), "{text}");
        }
    }

    /// Else one of them would be timed twice under two names.
    #[test]
    fn scripts_have_characters_of_their_own_lengths() {
        let bytes = |piece: &str| piece.len() as f64 / piece.chars().count() as f64;
        let [german, french, polish, russian, chinese, thai, emoji, mixed] =
            SCRIPTS.map(|(_, piece)| bytes(piece));
        assert!(german < 1.2 && french < 1.2);
        assert!((1.2..1.6).contains(&polish) && (1.2..1.6).contains(&mixed));
        assert!((1.7..2.0).contains(&russian));
        assert!((2.8..=3.0).contains(&chinese) && (2.8..3.0).contains(&thai));
        assert_eq!(emoji, 4.0);
    }
}
