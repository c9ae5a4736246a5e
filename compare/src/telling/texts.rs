//! Texts shaped by hand for `test_spelling`, each group with the wrong reading that it tells apart.

/// The texts that are short enough to be written down.
const SHORT: &[&str] = &[
    // An empty text, or one of blanks alone, taken as a word.
    "",
    " ",
    "\n",
    "\r",
    "\t",
    "\r\n",
    "  \t\r\n \n",
    // The sample; with and without a blank at either end, a last word without one lost.
    "7 4 6 1 4 0",
    "7 4 6 1 4 0\n",
    " 7 4 6 1 4 0",
    "\n\n7\n4\n6\n1\n4\n0\n\n",
    // Each blank taken as none, or as a part of the word.
    "1 2",
    "1\t2",
    "1\n2",
    "1\r2",
    "1\r\n2\r\n3\r\n",
    "1 \t\n\r 2",
    // Other blanks of other systems: vertical tab, form feed, the separators 28 to 31, no-break space.
    "1\u{b}2",
    "1\u{c}2",
    "\u{b}",
    "\u{c}7",
    "1\u{1c}2",
    "1\u{1f}2",
    "1\u{a0}2",
    "\u{85}",
    "1\u{2003}2",
    // The ends of the range.
    "0",
    "1",
    "65534",
    "65535",
    "65536",
    "65537",
    "65535 65536",
    "65539",
    "65540",
    "65600",
    "66000",
    "70000",
    "99999",
    // Numbers cut to 16, 32 or 64 bits, or whose sum passes these on the way.
    "65536 1",
    "131071",
    "131072",
    "655350",
    "655360",
    "4294967295",
    "4294967296",
    "4294967301",
    "42949672960",
    "18446744073709551615",
    "18446744073709551616",
    "18446744073709551621",
    "184467440737095516160",
    "340282366920938463463374607431768211456",
    // Leading zeros as octal, refused, or counted as too many digits.
    "00",
    "010",
    "017",
    "08",
    "09",
    "0000065535",
    "0000065536",
    "000000000000000000000000000000000000000000000042",
    // Signs, other bases, points, separators.
    "+5",
    "-1",
    "-0",
    "+",
    "-",
    "0x10",
    "0b1",
    "0o7",
    "1,2",
    "1.0",
    "1e3",
    "1_000",
    "1'000",
    "12a",
    "a12",
    "1;",
    "#1",
    "\"1\"",
    // The bytes right below and above the digits, and a zero byte.
    "1/2",
    "1:2",
    "1\0",
];

/// Texts that are no UTF-8, or not written down easily.
fn odd() -> Vec<Vec<u8>> {
    let mut texts: Vec<Vec<u8>> = Vec::new();
    // Bytes above 127: taken modulo 128 they would be digits or blanks.
    for byte in [0xb0, 0xb5, 0xb9, 0xa0, 0x89, 0x8d, 0x80, 0xff] {
        texts.push(vec![b'1', b' ', byte]);
        texts.push(vec![b'1', byte, b'2', b' ', b'3']);
    }
    // A zero byte that ends the text, before a word and between words.
    texts.push(b"\x001 2".to_vec());
    texts.push(b"1 2\x00 3".to_vec());
    texts.push(b"1 \x00 3".to_vec());
    texts.push(b"1 2 3\x00".to_vec());
    // The first word that is no number, not the last; counted from 1; counted in words, not in blanks.
    for text in [
        "x 1 y",
        "1 x y",
        "1 2 3 x",
        "1 \n\n\n 2\r\n\r\n x",
        "  x",
        "1 2 -3 65536 5",
        "65536 x",
    ] {
        texts.push(text.as_bytes().to_vec());
    }
    // A number cut anywhere by the end of a part: the parts grow, and the words stand at all distances.
    for blanks in 0..12 {
        let mut text = vec![b' '; blanks];
        text.extend(b"12345 54321 65535 10000 9 0 99 65535\n".repeat(3));
        texts.push(text);
    }
    texts
}

/// So many words, each of the same text.
fn many(count: usize, word: &str) -> Vec<u8> {
    word.as_bytes().repeat(count)
}

/// Numbers of words around the room of 2,784: words that do not fit are counted, and are still looked at.
fn long() -> Vec<Vec<u8>> {
    let mut texts: Vec<Vec<u8>> = [2_782, 2_783, 2_784, 2_785, 2_786, 3_000]
        .iter()
        .map(|&count| many(count, "7 "))
        .collect();
    // The last word that fits and the first that does not tell themselves apart.
    for (count, last) in [
        (2_783, "9"),
        (2_784, "9"),
        (2_784, "x"),
        (2_783, "65536"),
        (2_900, "\n-"),
    ] {
        let mut text = many(count, "7\n");
        text.extend(last.as_bytes());
        texts.push(text);
    }
    let counted: Vec<String> = (1..=2_784).map(|word| word.to_string()).collect();
    texts.push(counted.join(" ").into_bytes());
    // Blanks and zeros without an end, longer than any buffer.
    texts.push([vec![b' '; 9_000], b"5".to_vec(), vec![b'\n'; 9_000]].concat());
    texts.push([vec![b'0'; 9_000], b"5".to_vec()].concat());
    texts
}

/// All of them.
pub fn texts() -> Vec<Vec<u8>> {
    let mut texts: Vec<Vec<u8>> = SHORT.iter().map(|text| text.as_bytes().to_vec()).collect();
    texts.extend(odd());
    texts.extend(long());
    texts
}
