//! All words over an alphabet, shorter ones first.

pub struct Patterns {
    alphabet: &'static [u8],
    longest: usize,
    /// The next word, as places in the alphabet.
    places: Vec<usize>,
}

impl Patterns {
    pub fn new(alphabet: &'static [u8], longest: usize) -> Patterns {
        Patterns {
            alphabet,
            longest,
            places: vec![0],
        }
    }

    /// Goes to the next word: counts up, the last place first, and then to longer words.
    fn count_up(&mut self) {
        for place in self.places.iter_mut().rev() {
            *place += 1;
            if *place < self.alphabet.len() {
                return;
            }
            *place = 0;
        }
        self.places.push(0);
    }
}

impl Iterator for Patterns {
    type Item = Vec<u8>;

    /// A word that is a shorter one repeated is left out: it makes the same note.
    fn next(&mut self) -> Option<Vec<u8>> {
        while self.places.len() <= self.longest {
            let word: Vec<u8> = self
                .places
                .iter()
                .map(|&place| self.alphabet[place])
                .collect();
            self.count_up();
            if !repeats(&word) {
                return Some(word);
            }
        }
        None
    }
}

/// All pairs of words.
pub fn pairs(alphabet: &'static [u8], longest: usize) -> impl Iterator<Item = (Vec<u8>, Vec<u8>)> {
    Patterns::new(alphabet, longest).flat_map(move |first| {
        Patterns::new(alphabet, longest).map(move |second| (first.clone(), second))
    })
}

fn repeats(word: &[u8]) -> bool {
    let parts = (1..word.len()).filter(|size| word.len() % size == 0);
    parts
        .into_iter()
        .any(|size| word.chunks(size).all(|part| part == &word[..size]))
}
