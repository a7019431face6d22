//! Memory lent to a call, between guards.

/// How many guards stand on each side of a lent part.
const GUARDS: usize = 16;

/// What stands around a text, so many bytes as there are guards.
const BEFORE_TEXT: &[u8; GUARDS] = b"[a]: b\n\n[x](y)[!";
const AFTER_TEXT: &[u8; GUARDS] = b"](y \"t\")]`: /u\n\n";
/// After a text that ends with `!`.
const AFTER_BANG: &[u8; GUARDS] = b"[y](z \"t\")`: /u\n";

/// A lent part in the middle of a larger vector.
pub struct Lent<T> {
    whole: Vec<T>,
    before: Vec<T>,
}

impl<T: Copy + PartialEq + std::fmt::Debug> Lent<T> {
    /// So many lent, each, and each guard, with the value that its place in the vector gives.
    pub fn of(length: usize, value: fn(usize) -> T) -> Lent<T> {
        Lent::around((0..length + 2 * GUARDS).map(value).collect())
    }

    fn around(whole: Vec<T>) -> Lent<T> {
        let before = whole.clone();
        Lent { whole, before }
    }

    /// The part that is lent.
    pub fn part(&mut self) -> &mut [T] {
        let end = self.whole.len() - GUARDS;
        &mut self.whole[GUARDS..end]
    }

    /// What the lent part held before the call.
    pub fn before(&self) -> &[T] {
        &self.before[GUARDS..self.before.len() - GUARDS]
    }

    /// Whether the vector, guards and all, is what it was with `part` in the lent part's place; if
    /// not, where it differs.
    pub fn same(&self, name: &str, part: &[T]) -> Result<(), String> {
        let end = self.before.len() - GUARDS;
        let wanted = [&self.before[..GUARDS], part, &self.before[end..]].concat();
        if self.whole == wanted {
            return Ok(());
        }
        let place = (0..wanted.len())
            .find(|place| self.whole.get(*place) != wanted.get(*place))
            .unwrap_or(wanted.len());
        let from_start = place as isize - GUARDS as isize;
        let around = |list: &[T]| format!("{:?}", &list[place..list.len().min(place + 12)]);
        Err(format!(
            "{name} of {}, from place {from_start} on:\n  given  {}\n  wanted {}",
            part.len(),
            around(&self.whole),
            around(&wanted)
        ))
    }
}

impl Lent<u8> {
    /// Bytes to be read, between bytes that would change what they mean.
    pub fn bytes(bytes: &[u8]) -> Lent<u8> {
        let after = if bytes.ends_with(b"!") {
            AFTER_BANG
        } else {
            AFTER_TEXT
        };
        Lent::around([BEFORE_TEXT, bytes, after].concat())
    }
}

/// Numbers that no table holds.
pub fn number_guard(place: usize) -> u32 {
    0xa5a5_0000 + place as u32
}

/// Bytes that are no text.
pub fn byte_guard(place: usize) -> u8 {
    0xf5 + (place % 11) as u8
}
