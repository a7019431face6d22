//! Notes that are strings over a small alphabet of pieces.

use super::chance::Chance;

/// Pieces that a note is strung from, and how many at most.
pub struct Alphabet {
    pub name: &'static str,
    pieces: &'static [&'static [u8]],
    most: usize,
}

/// Definitions that half of the notes start with.
const DEFINITIONS: &[u8] = b"[a]: /1 \"t\"\n[b]: <2>\n[A b]: a(b)c 'u'\n\n";

/// `![` as often as it fits.
const IMAGE_OPENINGS: [u8; 256] = {
    let mut openings = [b'['; 256];
    let mut place = 0;
    while place < openings.len() {
        openings[place] = b'!';
        place += 2;
    }
    openings
};

impl Alphabet {
    /// A note by chance.
    pub fn note(&self, chance: &mut Chance) -> Vec<u8> {
        let mut note = Vec::new();
        if chance.once_in(2) {
            note.extend_from_slice(DEFINITIONS);
        }
        // Most notes are short: there the second reader is fast and a difference is plain to see.
        let most = if chance.once_in(50) {
            8 * self.most
        } else {
            self.most
        };
        for _ in 0..chance.between(1, most) {
            note.extend_from_slice(chance.one_of(self.pieces));
        }
        note
    }
}

/// The alphabets, from brackets alone to every byte that has a meaning.
pub const ALPHABETS: &[Alphabet] = &[
    Alphabet {
        name: "brackets",
        pieces: &[b"[", b"]", b"[", b"]", b"(", b")", b"a", b"b", b"!", b"\\"],
        most: 24,
    },
    Alphabet {
        name: "references",
        pieces: &[
            b"[", b"]", b"[a]", b"[b]", b"[]", b"[A", b"b]", b" ", b"\n", b"\t", b"`", b"(", b")",
            b"[c]", b"\\]", b"][", b"!", b"![",
        ],
        most: 16,
    },
    Alphabet {
        name: "images",
        pieces: &[
            b"![",
            b"![",
            b"[",
            b"]",
            b"](b)",
            b"](c 't')",
            b"]()",
            b"![a]",
            b"[a]",
            b"[]",
            b"!",
            b"\\",
            b"`",
            b"\n",
            b"&",
            b"<",
            b"\"",
            b"x",
            b" ",
        ],
        most: 20,
    },
    Alphabet {
        name: "inline tails",
        pieces: &[
            b"[a](", b"](", b"(", b")", b")", b"<", b">", b"\"", b"'", b" ", b"\n", b"\t", b"\\",
            b"b", b"c", b"[", b"]", b"&", b"\x7f", b"\x01", b"!", b"![a](",
        ],
        most: 20,
    },
    Alphabet {
        name: "code spans",
        pieces: &[
            b"`", b"`", b"``", b"```", b"\\", b" ", b"\n", b"a", b"[", b"]", b"](b)", b"\n\n",
            b"!", b"![",
        ],
        most: 24,
    },
    Alphabet {
        name: "definitions",
        pieces: &[
            b"[", b"]", b"]:", b"[a]: ", b"[A b]:", b"[\\]]: ", b"/u", b"<v>", b"<>", b" \"t\"",
            b" 'u'", b" (w)", b"\"", b"'", b"(", b")", b"\n", b"\n", b"\n\n", b" ", b"   ", b"\t",
            b"\\", b"a", b":", b"!",
        ],
        most: 20,
    },
    Alphabet {
        name: "labels",
        pieces: &[
            b"[",
            b"]",
            b"]: x\n",
            b"]:",
            b" ",
            b"\t",
            b"\n",
            b"a",
            b"A",
            b"b",
            b"Z",
            b"z",
            b"\\",
            b"\xc3\xa9",
            b"\xc3\x89",
            b"[a]",
            b"@",
            b"`",
            b"{",
            b"!",
        ],
        most: 20,
    },
    Alphabet {
        name: "letters",
        pieces: &[
            b"[",
            b"]",
            b"]: x\n",
            b"]: y\n",
            b"][",
            b" ",
            b"\n",
            b"\n\n",
            b"s",
            b"S",
            b"\xc3\x9f",
            b"\xc5\xbf",
            b"\xe1\xba\x9e",
            b"i",
            b"I",
            b"\xc4\xb0",
            b"\xcc\x87",
            b"\xcf\x82",
            b"\xcf\x83",
            b"\xce\xa3",
            b"\xd0\x96",
            b"\xd0\xb6",
            b"\xd0\xa0",
            b"\xd1\x80",
            b"\xc2\xb5",
            b"\xce\xbc",
            b"\xce\x90",
            b"\xce\xb9\xcc\x88\xcc\x81",
            b"\xc8\xba",
            b"\xe2\xb1\xa5",
            b"\xe2\x84\xaa",
            b"k",
            b"[\xc3\x9f]: z\n",
            b"[Ss]",
            b"[\xd0\x96]",
            b"[\xd0\xb6]: w\n",
            b"!",
        ],
        most: 16,
    },
    Alphabet {
        name: "spaces",
        pieces: &[
            b" ",
            b"\t",
            b"\n",
            b"\x0b",
            b"\x0c",
            b"\x1f",
            b"\xc2\xa0",
            b"\xc2\x85",
            b"\xe2\x80\x83",
            b"[a]",
            b"](",
            b")",
            b"[",
            b"]",
            b"[a]:",
            b"b",
            b"\"",
            b"`",
            b"!",
        ],
        most: 16,
    },
    Alphabet {
        name: "lines",
        pieces: &[
            b"\n", b"\n", b"\n", b"\n\n", b" \n", b"\t", b"[", b"[", b"]", b"](c)", b"](\n)",
            b"[a]", b"[a\n]", b"[\nb]", b"[]", b"`", b"`", b"``", b"d", b"\n[e\n", b"\n[e\n",
            b"]:\nf\n", b"]:\nf\n", b"'g\n'", b"\\", b"!", b"![",
        ],
        most: 24,
    },
    Alphabet {
        name: "page",
        pieces: &[
            b"&",
            b"<",
            b">",
            b"\"",
            b"'",
            b"%",
            b"\\",
            b"/",
            b"`",
            b"[a](",
            b"\xc3\xa9",
            b"\x7f",
            b"\x01",
            b"^",
            b"{",
            b"~",
            b"]",
            b")",
            b" \"",
            b"\")",
            b"\n",
            b"\n\n",
            b"a",
            b"Z",
            b"0",
            b"_",
            b"!",
            b"![a](",
        ],
        most: 24,
    },
    Alphabet {
        name: "deep brackets",
        pieces: &[
            &[b'['; 256],
            &[b'['; 256],
            &IMAGE_OPENINGS,
            b"![",
            b"!",
            b"![a](b)",
            &[b'['; 128],
            b"[",
            b"]",
            b"]]]]",
            &[b']'; 64],
            b"](b)",
            b"a",
            b"\\[",
            b"`",
            b"\n\n",
            b"[a]",
            b"[b][a]",
        ],
        most: 14,
    },
    Alphabet {
        name: "characters",
        pieces: &[
            b"\xc2\x80",
            b"\xdf\xbf",
            b"\xe0\xa0\x80",
            b"\xed\x9f\xbf",
            b"\xef\xbf\xbf",
            b"\xf0\x90\x80\x80",
            b"\xf4\x8f\xbf\xbf",
            b"[",
            b"]",
            b"](",
            b")",
            b"`",
            b" ",
            b"\n",
            b"\\",
            b"a",
            b"[a]",
            b"]: ",
            b"<",
            b">",
            b"\"",
            b"!",
        ],
        most: 16,
    },
    Alphabet {
        name: "ill-formed",
        pieces: &[
            b"a",
            b"b",
            b" ",
            b"\n",
            b"[a]",
            b"[a](b)",
            b"`c`",
            b"\xc3\xa9",
            b"\xe2\x82\xac",
            b"\xf0\x9f\x98\x80",
            b"\x80",
            b"\xc0\x80",
            b"\xc3",
            b"\xe0\x9f\xbf",
            b"\xe2\x82",
            b"\xed\xa0\x80",
            b"\xf0\x8f\xbf\xbf",
            b"\xf0\x9f\x98",
            b"\xf4\x90\x80\x80",
            b"\xf5\x80\x80\x80",
            b"\xff",
            b"\0",
            b"\r",
            b"!",
        ],
        most: 8,
    },
    Alphabet {
        name: "all marks",
        pieces: &[
            b"!", b"\"", b"#", b"$", b"%", b"&", b"'", b"(", b")", b"*", b"+", b",", b"-", b".",
            b"/", b":", b";", b"<", b"=", b">", b"?", b"@", b"[", b"\\", b"]", b"^", b"_", b"`",
            b"{", b"|", b"}", b"~", b" ", b"\n", b"[", b"]", b"](", b"[a]", b"\\", b"`",
        ],
        most: 30,
    },
];
