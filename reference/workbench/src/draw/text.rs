//! Faces of text, how wide words are in them, and words broken into lines. The widths are those of DejaVu Sans, the
//! widest of the usual faces: what fits in it fits in others.

#[derive(Clone, Copy, Debug, PartialEq, Eq)]
enum Anchor {
    Start,
    Middle,
    End,
}

/// How text looks: size in pixels, weight, colour, and where its x is.
#[derive(Clone, Copy, Debug, PartialEq, Eq)]
pub struct Face {
    pub size: i32,
    bold: bool,
    colour: &'static str,
    anchor: Anchor,
}

impl Face {
    pub const fn of(size: i32) -> Face {
        Face { size, bold: false, colour: "#000000", anchor: Anchor::Start }
    }

    pub const fn bold(self) -> Face {
        Face { bold: true, ..self }
    }

    pub const fn coloured(self, colour: &'static str) -> Face {
        Face { colour, ..self }
    }

    /// x is the middle of the words.
    pub const fn centred(self) -> Face {
        Face { anchor: Anchor::Middle, ..self }
    }

    /// x is the end of the words.
    pub const fn ending(self) -> Face {
        Face { anchor: Anchor::End, ..self }
    }

    pub fn attributes(self) -> String {
        let weight = if self.bold { " font-weight=\"bold\"" } else { "" };
        let anchor = match self.anchor {
            Anchor::Start => "",
            Anchor::Middle => " text-anchor=\"middle\"",
            Anchor::End => " text-anchor=\"end\"",
        };
        format!("font-size=\"{}\" fill=\"{}\"{weight}{anchor}", self.size, self.colour)
    }

    /// The width of the words in pixels, rounded up.
    pub fn width(self, words: &str) -> i32 {
        let thousandths: i32 = words.chars().map(width_of).sum();
        let wider = if self.bold { 112 } else { 100 };
        (thousandths * self.size * wider + 99_999) / 100_000
    }

    /// The words in lines of at most that width, broken at spaces; within a word that is wider after commas, and
    /// anywhere in what is still wider.
    pub fn lines(self, words: &str, width: i32) -> Vec<String> {
        let mut lines = vec![String::new()];
        for word in words.split_inclusive(' ') {
            if self.width(word.trim_end()) <= width {
                self.put(&mut lines, word, width);
                continue;
            }
            for piece in word.split_inclusive(',') {
                if self.width(piece.trim_end()) <= width {
                    self.put(&mut lines, piece, width);
                } else {
                    piece.chars().for_each(|character| self.put(&mut lines, &character.to_string(), width));
                }
            }
        }
        lines.iter().map(|line| line.trim_end().to_string()).collect()
    }

    /// On the last line, or on a new one where it does not fit.
    fn put(self, lines: &mut Vec<String>, piece: &str, width: i32) {
        match lines.last_mut() {
            Some(line) if line.is_empty() || self.width(&format!("{line}{}", piece.trim_end())) <= width => {
                *line += piece;
            }
            _ => lines.push(piece.to_string()),
        }
    }
}

/// In thousandths of the size.
fn width_of(character: char) -> i32 {
    match character {
        'i' | 'j' | 'l' => 278,
        ' ' | ',' | '.' => 318,
        '(' | ')' | '-' | 't' | ':' | ';' | 'f' | '/' => 392,
        'r' => 411,
        's' | 'c' | 'z' => 550,
        'm' | 'w' => 974,
        'M' | 'W' => 989,
        'A'..='Z' => 790,
        _ => 636,
    }
}

#[cfg(test)]
mod tests {
    use super::*;

    #[test]
    fn lines_within_their_width() {
        let words = "work asked on turnouts {0,1,2,30,40} by recorded verbal, form 4294967295";
        for width in [30, 42, 60, 100, 500] {
            let lines = Face::of(9).lines(words, width);
            assert!(lines.iter().all(|line| Face::of(9).width(line) <= width), "{lines:?}");
            let letters = |text: &str| text.replace(' ', "");
            assert_eq!(letters(&lines.concat()), letters(words));
        }
        assert_eq!(Face::of(10).lines("train 512, {0,1}", 45), ["train", "512,", "{0,1}"].map(String::from));
    }

    #[test]
    fn no_words() {
        assert_eq!(Face::of(10).lines("", 10), [""]);
        assert_eq!(Face::of(10).width(""), 0);
    }
}
