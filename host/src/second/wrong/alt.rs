//! Misreadings of an image on the page: its tag and its A.

use super::super::page::Content;
use super::super::rows::Target;
use super::super::source::Origin;
use super::{Held, Reader, Written, Wrong};

impl Reader {
    /// A link, an image or a code span as it is, on the page and in the A of an image around it.
    pub(in super::super) fn misread_held(self, held: Held, content: Content) -> Content {
        let Content { page, plain } = content;
        let plain = match self.wrong {
            Some(Wrong::TagsInAlt(of)) if of == held => page.clone(),
            Some(Wrong::LeftOutOfAlt(of)) if of == held => String::new(),
            Some(Wrong::InnerAltEscapedAgain) if held == Held::Image => {
                self.escape_html(&plain, Written::Alt)
            }
            _ => plain,
        };
        Content { page, plain }
    }

    /// What a wrong reading writes of a code span in A.
    pub(in super::super) fn misread_code_in_alt(self, inside: &str) -> Option<String> {
        match self.wrong? {
            Wrong::CodeInAltAsItStands => Some(self.escape_html(inside, Written::Alt)),
            _ => None,
        }
    }

    /// The A of a wrong reading.
    pub(in super::super) fn misread_alt(self, plain: &str) -> Option<String> {
        match self.wrong? {
            Wrong::AltTrimmed => Some(plain.trim().to_string()),
            Wrong::AltEscapedAgain => Some(self.escape_html(plain, Written::Alt)),
            Wrong::AltOnOneLine => Some(plain.lines().next().unwrap_or_default().to_string()),
            Wrong::PointedLeftOutOfAlt => {
                let mut parts = plain.split("&lt;");
                let first = parts.next().unwrap_or_default().to_string();
                Some(parts.fold(first, |alt, part| {
                    let after = part.split_once("&gt;").map_or(part, |(_, after)| after);
                    alt + after
                }))
            }
            _ => None,
        }
    }

    /// The source of an image as a wrong reading writes it.
    pub(in super::super) fn misread_source(self, target: Target) -> Option<String> {
        match self.wrong? {
            Wrong::SourceAsText => {
                let undone = self.undone(target, target.destination, Written::Destination);
                Some(self.escape_html(&undone, Written::Text))
            }
            Wrong::SourceFromNote => {
                let part = target
                    .destination
                    .filter(|_| target.source.origin == Origin::Sheet)?;
                let bytes = target.source.beside.as_bytes().get(part.start..part.end);
                Some(String::from_utf8_lossy(bytes.unwrap_or_default()).into_owned())
            }
            _ => None,
        }
    }

    /// An image as a wrong reading writes it, of source, A and the attribute of its title.
    pub(in super::super) fn misread_image(
        self,
        [source, alt, title]: [&str; 3],
        description: &Content,
    ) -> Option<String> {
        let wrong = self.wrong?;
        let source = format!("<img src=\"{source}\"");
        let attribute = format!(" alt=\"{alt}\"");
        match wrong {
            Wrong::AltMissing => Some(format!("{source}{title} />")),
            Wrong::EmptyAltMissing if alt.is_empty() => Some(format!("{source}{title} />")),
            Wrong::AltAfterTitle => Some(format!("{source}{title}{attribute} />")),
            Wrong::ImageTitleLeftOut => Some(format!("{source}{attribute} />")),
            Wrong::NoSlash => Some(format!("{source}{attribute}{title}>")),
            Wrong::SlashUnspaced => Some(format!("{source}{attribute}{title}/>")),
            Wrong::BangBeforeImage => Some(format!("!{source}{attribute}{title} />")),
            Wrong::DescriptionOnPage => {
                let page = &description.page;
                Some(format!("{source}{attribute}{title} />{page}"))
            }
            _ => None,
        }
    }
}
