//! Samples that others have published, and texts in several scripts.

use crate::cases::Cases;
use crate::hex;

pub fn published(cases: &mut Cases) {
    for sample in [KUHN, UNICODE_STANDARD, RFC_3629].concat() {
        cases.add(hex::bytes(sample));
    }
    for sample in kuhn_series() {
        cases.add(sample);
    }
}

/// Markus Kuhn, "UTF-8 decoder capability and stress test", by section.
const KUHN: &[&str] = &[
    // 1: correct text, the Greek word "kosme"
    "CE BA E1 BD B9 CF 83 CE BC CE B5",
    // 2.1: first possible sequence of each length
    "00",
    "C2 80",
    "E0 A0 80",
    "F0 90 80 80",
    "F8 88 80 80 80",
    "FC 84 80 80 80 80",
    // 2.2: last possible sequence of each length
    "7F",
    "DF BF",
    "EF BF BF",
    "F7 BF BF BF",
    "FB BF BF BF BF",
    "FD BF BF BF BF BF",
    // 2.3: other boundary conditions
    "ED 9F BF",
    "EE 80 80",
    "EF BF BD",
    "F4 8F BF BF",
    "F4 90 80 80",
    // 3.1: unexpected continuation bytes
    "80",
    "BF",
    "80 BF",
    "80 BF 80",
    "80 BF 80 BF",
    "80 BF 80 BF 80",
    "80 BF 80 BF 80 BF",
    "80 BF 80 BF 80 BF 80",
    // 3.3: sequences with the last continuation byte missing
    "C0",
    "E0 80",
    "F0 80 80",
    "F8 80 80 80",
    "FC 80 80 80 80",
    "DF",
    "EF BF",
    "F7 BF BF",
    "FB BF BF BF",
    "FD BF BF BF BF",
    // 3.4: all ten of 3.3 in a row
    "C0 E0 80 F0 80 80 F8 80 80 80 FC 80 80 80 80 \
     DF EF BF F7 BF BF FB BF BF BF FD BF BF BF BF",
    // 3.5: impossible bytes
    "FE",
    "FF",
    "FE FE FF FF",
    // 4.1: overlong forms of the slash
    "C0 AF",
    "E0 80 AF",
    "F0 80 80 AF",
    "F8 80 80 80 AF",
    "FC 80 80 80 80 AF",
    // 4.2: maximum overlong sequences
    "C1 BF",
    "E0 9F BF",
    "F0 8F BF BF",
    "F8 87 BF BF BF",
    "FC 83 BF BF BF BF",
    // 4.3: overlong forms of NUL
    "C0 80",
    "E0 80 80",
    "F0 80 80 80",
    "F8 80 80 80 80",
    "FC 80 80 80 80 80",
    // 5.1: single UTF-16 surrogates
    "ED A0 80",
    "ED AD BF",
    "ED AE 80",
    "ED AF BF",
    "ED B0 80",
    "ED BE 80",
    "ED BF BF",
    // 5.2: paired UTF-16 surrogates
    "ED A0 80 ED B0 80",
    "ED A0 80 ED BF BF",
    "ED AD BF ED B0 80",
    "ED AD BF ED BF BF",
    "ED AE 80 ED B0 80",
    "ED AE 80 ED BF BF",
    "ED AF BF ED B0 80",
    "ED AF BF ED BF BF",
    // 5.3: noncharacters, which are good text
    "EF BF BE",
    "EF BF BF",
];

/// Those of Kuhn's samples that are whole series of bytes.
fn kuhn_series() -> Vec<Vec<u8>> {
    let lonely = |starts: std::ops::RangeInclusive<u8>| {
        starts.flat_map(|start| [start, b' ']).collect::<Vec<u8>>()
    };
    let chars = |numbers: &mut dyn Iterator<Item = u32>| {
        let text: String = numbers.filter_map(char::from_u32).collect();
        text.into_bytes()
    };
    vec![
        // 3.1.9: all 64 continuation bytes
        (0x80..=0xbf).collect(),
        // 3.2: all first bytes, each before a space
        lonely(0xc0..=0xdf),
        lonely(0xe0..=0xef),
        lonely(0xf0..=0xf7),
        lonely(0xf8..=0xfb),
        lonely(0xfc..=0xfd),
        // 5.3.3 and 5.3.4: the other noncharacters
        chars(&mut (0xfdd0..=0xfdef)),
        chars(&mut (1..=16).flat_map(|plane| [plane << 16 | 0xfffe, plane << 16 | 0xffff])),
    ]
}

/// The Unicode Standard, chapter 3: conformance clauses and section 3.9.
const UNICODE_STANDARD: &[&str] = &[
    // table 3-4 and D92: a text with a sequence of each length
    "4D D0 B0 E4 BA 8C F0 90 8C 82",
    // D84 to D86: ill-formed, and the same without the offending byte
    "41 C2 C3 B1 42",
    "41 C3 B1 42",
    // D92: two sequences that no row of table 3-7 has, and one that one has
    "C0 AF",
    "E0 9F 80",
    "F4 80 83 92",
    // conversion processes, also in earlier editions
    "C2 41 42",
    "F0 80 80 41",
    "41 C0 AF 41 F4 80 80 41",
    "61 F1 80 80 E1 80 C2 62 80 63 80 BF 64",
    // tables 3-8 to 3-11: overlong, surrogate, other ill-formed, truncated
    "C0 AF E0 80 BF F0 81 82 41",
    "ED A0 80 ED BF BF ED AF 41",
    "F4 91 92 93 FF 41 80 BF 42",
    "E1 80 E2 F0 91 92 F1 BF 41",
];

/// RFC 3629: the examples of section 7, the byte order mark of section 6 and
/// the attacks of section 10.
const RFC_3629: &[&str] = &[
    "41 E2 89 A2 CE 91 2E",
    "ED 95 9C EA B5 AD EC 96 B4",
    "E6 97 A5 E6 9C AC E8 AA 9E",
    "EF BB BF F0 A3 8E B4",
    "EF BB BF",
    "C0 80",
    "2F C0 AE 2E 2F",
];

/// Good text, and the same without its last byte.
pub fn scripts(cases: &mut Cases) {
    for text in SCRIPTS {
        cases.add(*text);
        cases.add(&text.as_bytes()[..text.len() - 1]);
    }
}

pub fn unlike_signs(cases: &mut Cases) {
    for text in UNLIKE_SIGNS {
        cases.add(*text);
    }
    for count in [1, 7, 8, 9, 17] {
        cases.add(vec![0; count]);
    }
}

/// Texts of which a panel shows other signs than they have characters, and
/// names of cabins.
const UNLIKE_SIGNS: &[&str] = &[
    // byte order marks
    "\u{feff}",
    "\u{feff}\u{feff}a",
    // noncharacters
    "\u{fdd0}",
    "\u{fdef}",
    "\u{fffe}",
    "\u{ffff}",
    "\u{1fffe}",
    "\u{1ffff}",
    "\u{10fffe}",
    "\u{10ffff}",
    // combining marks: alone, behind a letter, many behind one
    "\u{301}",
    "e\u{301}",
    "é",
    "a\u{300}\u{301}\u{302}\u{303}\u{304}\u{305}\u{306}\u{307}\u{308}\u{309}",
    "क्षि",
    // emoji joined, and with a skin's colour
    "👩\u{200d}👩\u{200d}👧\u{200d}👦",
    "🧑🏽\u{200d}🚒",
    "👍🏽",
    // flags: by letters and by tags
    "🇨🇭",
    "🇨🇭🇦🇹🇮🇹",
    "🏴\u{e0067}\u{e0062}\u{e0073}\u{e0063}\u{e0074}\u{e007f}",
    // Hangul: three jamo, and their syllable
    "\u{1112}\u{1161}\u{11ab}",
    "한",
    // variation selectors
    "☎\u{fe0e}",
    "☎\u{fe0f}",
    "葛\u{e0100}",
    // what takes no place, or a line's end
    "\r\n",
    "\u{ad}",
    "\u{200b}\u{200d}\u{2060}",
    // cabins
    "Süd",
    "Gondel 7 – Süd",
    "Télécabine",
    "Łomnica 12",
    "Kabína č. 3",
    "Καμπίνα 4",
    "кабина",
    "缆车 8",
    "🚡 1",
];

pub const SCRIPTS: &[&str] = &[
    "The quick brown fox jumps over the lazy dog.",
    "Façade, naïveté, œuvre, señor, Straße, Łódź, Ærøskøbing",
    "e\u{301} and é, a\u{30a} and å",
    "Tiếng Việt có dấu thanh",
    "Ξεσκεπάζω τὴν ψυχοφθόρα βδελυγμία.",
    "Съешь же ещё этих мягких французских булок",
    "Գեղեցիկ լեռներ",
    "דג סקרן שט בים מאוכזב",
    "نص حكيم له سر قاطع",
    "अनुच्छेद एक: सभी मनुष्य",
    "বাংলা লিপি ও தமிழ் எழுத்து",
    "เป็นมนุษย์สุดประเสริฐ",
    "ქართული დამწერლობა",
    "አማርኛ ፊደል",
    "ᠮᠣᠩᠭᠣᠯ ᠪᠢᠴᠢᠭ᠌",
    "いろはにほへと ちりぬるを カタカナ",
    "天地玄黃，宇宙洪荒。",
    "키스의 고유조건은 입술끼리",
    "𐌲𐌿𐍄𐌹𐍃𐌺 𐎠𐎼𐎹 𒀀𒁀",
    "𝔘𝔫𝔦𝔠𝔬𝔡𝔢 ∀x∈ℝ: ⌈x⌉ = −⌊−x⌋, 𝄞",
    "👩‍👩‍👧‍👦 🏳️‍🌈 👍🏽 🇨🇭",
    "𠀀𠮷𪚥 and 𰀀",
    "\0\u{1}\u{7f}\u{80}\u{7ff}\u{800}\u{d7ff}\u{e000}\u{ffff}\u{10000}\u{10ffff}",
    "\u{feff}with a byte order mark\r\n\ttab",
    "\u{200b}\u{200e}\u{200f}\u{2028}\u{2029}\u{2060}\u{fffd}",
];
