//! The page: the HTML of each paragraph.

use std::collections::BTreeMap;

use super::marking::{Marking, Piece, PieceKind, Sort, Tailed};
use super::rows::Target;
use super::text::{Part, Text};
use super::wrong::{Held, Written};
use super::{Reader, Wrong};

/// A part of a paragraph's content: as it stands on the page, and "the .. page content without tags, an inner
/// image giving its own A" (document 02, request 5).
#[derive(Default)]
pub(super) struct Content {
    pub page: String,
    pub plain: String,
}

impl Content {
    /// With another part after it.
    fn push(&mut self, next: Content) {
        self.page += &next.page;
        self.plain += &next.plain;
    }
}

/// The links and images of a paragraph, by opening piece.
type Spans<'m> = BTreeMap<usize, (Sort, &'m Tailed<'m>)>;

impl Marking<'_> {
    /// "Each paragraph: `<p>`, content, `</p>`, LF."
    pub fn html(&self) -> String {
        let links = self.links.iter().map(|link| (Sort::Link, link));
        let images = self.images.iter().map(|image| (Sort::Image, image));
        let spans = links.chain(images);
        let spans: Spans = spans.map(|span| (span.1.pair.opening, span)).collect();
        let content = self.content(&spans, 0, self.pieces.len()).page;
        if self.text.reader.misreads(Wrong::NoLineFeedAfterParagraph) {
            format!("<p>{content}</p>")
        } else {
            format!("<p>{content}</p>\n")
        }
    }

    /// The content of the pieces from one index to another.
    fn content(&self, spans: &Spans, from: usize, to: usize) -> Content {
        let mut content = Content::default();
        let mut index = from;
        while index < to {
            if let Some((sort, span)) = spans.get(&index) {
                content.push(self.span(spans, *sort, span));
                // On past the closing bracket and its tail.
                index = span.pair.closing + 2;
            } else {
                content.push(self.piece(self.pieces[index]));
                index += 1;
            }
        }
        content
    }

    /// A link or an image, by what stands between its two brackets.
    fn span(&self, spans: &Spans, sort: Sort, span: &Tailed) -> Content {
        let reader = self.text.reader;
        let mut inside = self.content(spans, span.pair.opening + 1, span.pair.closing);
        let as_it_stands = || {
            let opening = self.pieces[span.pair.opening];
            let closing = self.pieces[span.pair.closing];
            let inside = self.text.part(opening.to, closing.from);
            reader.escape_html(inside.of(self.source.text), Written::Text)
        };
        match sort {
            Sort::Link => {
                if reader.misreads(Wrong::LinkTextAsItStands) {
                    inside.page = as_it_stands();
                }
                reader.link(span.tail.target, inside)
            }
            Sort::Image => {
                if reader.misreads(Wrong::AltAsItStands) {
                    inside.plain = as_it_stands();
                }
                reader.image(span.tail.target, inside)
            }
        }
    }

    /// A piece that is no part of the marks of a link or an image.
    fn piece(&self, piece: Piece) -> Content {
        let reader = self.text.reader;
        let source = |from, to| self.text.part(from, to).of(self.source.text);
        match piece.kind {
            PieceKind::Code(backticks) => {
                reader.code(source(piece.from + backticks, piece.to - backticks))
            }
            // "Escapes lose the backslash."
            PieceKind::Escape => reader.text(|written| {
                let kept = reader.misreads(Wrong::BackslashKept(written));
                source(piece.from + usize::from(!kept), piece.to)
            }),
            PieceKind::Tail => Content::default(),
            PieceKind::Opening(Sort::Image) if reader.misreads(Wrong::UnusedBangDropped) => {
                reader.text(|_| "[")
            }
            _ => reader.text(|_| source(piece.from, piece.to)),
        }
    }
}

impl Reader {
    /// Text, which may be written otherwise on the page and in A.
    fn text<'s>(self, source: impl Fn(Written) -> &'s str) -> Content {
        let as_written = |written| self.escape_html(source(written), written);
        Content {
            page: as_written(Written::Text),
            plain: as_written(Written::Alt),
        }
    }

    /// "Code: `<code>`, content, `</code>`".
    fn code(self, inside: &str) -> Content {
        let content = self.escape_html(&self.code_content(inside), Written::Code);
        let page = format!("<code>{content}</code>");
        let plain = self.misread_code_in_alt(inside).unwrap_or(content);
        self.misread_held(Held::Code, Content { page, plain })
    }

    /// "Links: `<a href="D" title="T">text</a>`".
    fn link(self, target: Target, text: Content) -> Content {
        let destination = self.destination(target);
        let title = self.title_attribute(target, Held::Link);
        let page = format!("<a href=\"{destination}\"{title}>{}</a>", text.page);
        let plain = text.plain;
        self.misread_held(Held::Link, Content { page, plain })
    }

    /// "The page writes `<img src="D" alt="A" title="T" />`, where A is the description's page content without
    /// tags" (document 02, request 5).
    fn image(self, target: Target, description: Content) -> Content {
        let source = self.misread_source(target);
        let source = source.unwrap_or_else(|| self.destination(target));
        let title = self.title_attribute(target, Held::Image);
        let alt = self.misread_alt(&description.plain);
        let alt = alt.unwrap_or_else(|| description.plain.clone());
        let misread = self.misread_image([&source, &alt, &title], &description);
        let right = || format!("<img src=\"{source}\" alt=\"{alt}\"{title} />");
        let page = misread.unwrap_or_else(right);
        self.misread_held(Held::Image, Content { page, plain: alt })
    }

    /// D, from the text in which it lies.
    fn destination(self, target: Target) -> String {
        self.escape_destination(&self.undone(target, target.destination, Written::Destination))
    }

    /// The attribute of a title: "an absent or empty title has no attribute", and images "with titles as for
    /// links" (document 02, request 5).
    fn title_attribute(self, target: Target, of: Held) -> String {
        let title = self.undone(target, target.title, Written::Title);
        let title = self.escape_html(&title, Written::Title);
        let absent = if self.misreads(Wrong::EmptyTitleWritten(of)) {
            target.title.is_none()
        } else {
            title.is_empty()
        };
        if absent {
            return String::new();
        }
        format!(" title=\"{title}\"")
    }

    /// A destination or title with its escapes undone; empty where it is absent.
    pub(super) fn undone(self, target: Target, part: Option<Part>, written: Written) -> String {
        let misread = part.and_then(|part| self.misread_bytes(target, part, written));
        let bytes = part.map_or("", |part| part.of(target.source.text));
        self.undo_escapes(misread.as_deref().unwrap_or(bytes), written)
    }

    /// "LF becomes a space; if the content starts and ends with a space and is not all spaces, one
    /// is dropped at each end", judged after the LFs became spaces.
    fn code_content(self, inside: &str) -> String {
        if let Some(content) = self.misread_content(inside) {
            return content;
        }
        let spaced = inside.replace('\n', " ");
        let all_spaces = spaced.chars().all(|character| character == ' ');
        let stripped = spaced
            .strip_prefix(' ')
            .and_then(|rest| rest.strip_suffix(' '));
        match stripped {
            Some(stripped) if !all_spaces => stripped.to_string(),
            _ => spaced,
        }
    }

    /// A destination or title without the backslashes of its escapes.
    pub(super) fn undo_escapes(self, source: &str, written: Written) -> String {
        if self.misreads(Wrong::BackslashKept(written)) {
            return source.to_string();
        }
        let text = Text::of_string(self, source);
        let mut undone = String::new();
        let mut at = 0;
        while let Some(character) = text.get(at) {
            if text.escape_stands_at(at) {
                undone.extend(text.get(at + 1));
                at += 2;
            } else {
                undone.push(character);
                at += 1;
            }
        }
        undone
    }

    /// "`&`, `<`, `>`, `"` become `&amp;`, `&lt;`, `&gt;`, `&quot;` in text, code and titles."
    pub(super) fn escape_html(self, source: &str, written: Written) -> String {
        let mut html = String::new();
        for character in self.misread_written(source, written).chars() {
            match character {
                raw if self.misreads(Wrong::Unescaped(written, raw)) => html.push(raw),
                '&' => html += "&amp;",
                '<' => html += "&lt;",
                '>' => html += "&gt;",
                '"' => html += "&quot;",
                '\'' if self.misreads(Wrong::ApostropheEscaped) => html += "&#39;",
                '\n' if self.misreads(Wrong::LineFeedSpaced(written)) => html.push(' '),
                other => html.push(other),
            }
        }
        html
    }

    /// "In D, escapes undone, ASCII letters, digits and `-_.~!*'();:@=+$,/?%#` stay, `&` becomes
    /// `&amp;`, every other byte is `%` and two capital hexadecimal digits."
    fn escape_destination(self, destination: &str) -> String {
        const STAY: &str = "-_.~!*'();:@=+$,/?%#";
        let mut href = String::new();
        let destination = self.misread_written(destination, Written::Destination);
        for byte in destination.bytes() {
            let character = char::from(byte);
            let stays = character.is_ascii_alphanumeric() || STAY.contains(character);
            if stays != self.misreads(Wrong::HrefOf(byte)) {
                href.push(character);
            } else if character == '&' && !self.misreads(Wrong::AmpersandByNumber) {
                href += "&amp;";
            } else if self.misreads(Wrong::SmallHexadecimal) {
                href += &format!("%{byte:02x}");
            } else {
                href += &format!("%{byte:02X}");
            }
        }
        href
    }
}
