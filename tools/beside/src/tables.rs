//! The two tables of document 01, with what document 02 adds.

/// Hanifi Rohingya, which document 02 adds to the tags without letter spacing.
pub const ROHINGYA: &[u8; 4] = b"Rohg";

/// Tags without letter spacing.
pub const LISTED: &[&[u8; 4]] = &[
    b"Arab", b"Syrc", b"Nkoo", b"Mani", b"Phlp", b"Mand", b"Mong", b"Phag", b"Deva", b"Beng",
    b"Guru", b"Modi", b"Shrd", b"Sylo", b"Tirh", b"Ogam", ROHINGYA,
];

/// Characters with word spacing after them.
pub const WORD_SEPARATORS: &[char] = &[
    ' ',
    '\u{a0}',
    '\u{1361}',
    '\u{10100}',
    '\u{10101}',
    '\u{1039f}',
    '\u{1091f}',
];
