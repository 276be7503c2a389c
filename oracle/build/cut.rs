//! Cuts items out of Rust source text by name, byte for byte.

/// A source text with a mark per byte: true where the byte is code, false
/// inside comments, strings and character literals.
pub struct Source {
    pub path: String,
    pub text: String,
    code: Vec<bool>,
}

impl Source {
    pub fn new(path: &str, text: &str) -> Source {
        Source { path: path.to_string(), text: text.to_string(), code: code_marks(text.as_bytes()) }
    }

    fn is_code(&self, at: usize) -> bool {
        self.code[at]
    }

    /// The places in `from..to` where the words stand as code, one after
    /// another with blanks between, as whole words.
    fn find_words(&self, words: &[&str], from: usize, to: usize) -> Vec<usize> {
        let s = self.text.as_bytes();
        let mut found = Vec::new();
        for start in from..to {
            if !self.is_code(start) || (start > 0 && is_word(s[start - 1])) {
                continue;
            }
            let mut at = start;
            let mut all = true;
            for (i, word) in words.iter().enumerate() {
                if i > 0 {
                    let before = at;
                    while at < to && s[at].is_ascii_whitespace() {
                        at += 1;
                    }
                    if at == before && is_word(word.as_bytes()[0]) && is_word(s[at - 1]) {
                        all = false;
                        break;
                    }
                }
                if at + word.len() > to || &s[at..at + word.len()] != word.as_bytes() {
                    all = false;
                    break;
                }
                at += word.len();
                if is_word(s[at - 1]) && at < s.len() && is_word(s[at]) {
                    all = false;
                    break;
                }
            }
            if all {
                found.push(start);
            }
        }
        found
    }

    /// The place behind the brace that closes the first open brace at or behind `at`.
    fn block_end(&self, at: usize) -> Option<(usize, usize)> {
        let s = self.text.as_bytes();
        let mut open = at;
        while open < s.len() && !(self.is_code(open) && (s[open] == b'{' || s[open] == b';')) {
            open += 1;
        }
        if open >= s.len() || s[open] == b';' {
            return None;
        }
        let mut depth = 0usize;
        for i in open..s.len() {
            if !self.is_code(i) {
                continue;
            }
            if s[i] == b'{' {
                depth += 1;
            } else if s[i] == b'}' {
                depth -= 1;
                if depth == 0 {
                    return Some((open, i + 1));
                }
            }
        }
        None
    }

    /// How many braces stand open at `at`, counted from `from`.
    fn depth(&self, from: usize, at: usize) -> isize {
        let s = self.text.as_bytes();
        let mut depth = 0;
        for i in from..at {
            if self.is_code(i) {
                match s[i] {
                    b'{' => depth += 1,
                    b'}' => depth -= 1,
                    _ => {}
                }
            }
        }
        depth
    }

    /// The start of the item's text: its own line with the attribute lines above it.
    fn item_start(&self, at: usize) -> usize {
        let mut start = self.text[..at].rfind('\n').map_or(0, |i| i + 1);
        while start > 0 {
            let above = self.text[..start - 1].rfind('\n').map_or(0, |i| i + 1);
            if self.text[above..start].trim_start().starts_with("#[") {
                start = above;
            } else {
                break;
            }
        }
        start
    }

    fn one(&self, what: &str, places: Vec<usize>) -> Result<usize, String> {
        match places.len() {
            1 => Ok(places[0]),
            0 => Err(format!("`{}` is missing in {}", what, self.path)),
            n => Err(format!("`{}` stands {} times in {}", what, n, self.path)),
        }
    }

    fn item(&self, what: &str, at: usize) -> Result<String, String> {
        let (_, end) = self.block_end(at).ok_or_else(|| format!("`{}` in {} has no closing brace", what, self.path))?;
        Ok(self.text[self.item_start(at)..end].to_string())
    }

    /// A struct or an enum at the top level, with its attributes.
    pub fn data(&self, keyword: &str, name: &str) -> Result<String, String> {
        let what = format!("{} {}", keyword, name);
        let all = self.find_words(&[keyword, name, "{"], 0, self.text.len());
        let top = all.into_iter().filter(|&i| self.depth(0, i) == 0).collect();
        self.item(&what, self.one(&what, top)?)
    }

    /// A method of one of the plain `impl TYPE` blocks.
    pub fn method(&self, of: &str, name: &str) -> Result<String, String> {
        let what = format!("impl {} .. fn {}", of, name);
        let mut found = Vec::new();
        let blocks = self.find_words(&["impl", of, "{"], 0, self.text.len());
        if blocks.is_empty() {
            return Err(format!("`impl {}` is missing in {}", of, self.path));
        }
        for block in blocks {
            let (open, end) =
                self.block_end(block).ok_or_else(|| format!("`impl {}` in {} has no closing brace", of, self.path))?;
            for at in self.find_words(&["fn", name], open, end) {
                if self.depth(open, at) == 1 {
                    found.push(at);
                }
            }
        }
        self.item(&what, self.one(&what, found)?)
    }
}

/// The names of an enum's variants in order, from its cut text.
pub fn variants(text: &str) -> Vec<String> {
    let source = Source::new("enum", text);
    let s = text.as_bytes();
    let open = (0..s.len()).find(|&i| source.is_code(i) && s[i] == b'{').unwrap_or(s.len());
    let mut names = Vec::new();
    let mut depth = 0isize;
    let mut expect = true;
    let mut i = open;
    while i < s.len() {
        if source.is_code(i) {
            match s[i] {
                b'{' | b'(' | b'[' => depth += 1,
                b'}' | b')' | b']' => depth -= 1,
                b',' if depth == 1 => expect = true,
                c if depth == 1 && expect && is_word(c) => {
                    let start = i;
                    while i < s.len() && is_word(s[i]) {
                        i += 1;
                    }
                    names.push(text[start..i].to_string());
                    expect = false;
                    continue;
                }
                _ => {}
            }
        }
        i += 1;
    }
    names
}

/// The code places in `text` at which `words` begin.
pub fn code_places(text: &str, words: &[&str]) -> Vec<usize> {
    Source::new("text", text).find_words(words, 0, text.len())
}

/// The first string literal at or behind `at`, without its quotes.
pub fn literal_after(text: &str, at: usize) -> Option<String> {
    let start = at + text[at..].find('"')? + 1;
    let s = text.as_bytes();
    let mut end = start;
    while end < s.len() && s[end] != b'"' {
        end += if s[end] == b'\\' { 2 } else { 1 };
    }
    Some(text[start..end].to_string())
}

fn is_word(c: u8) -> bool {
    c.is_ascii_alphanumeric() || c == b'_'
}

fn code_marks(s: &[u8]) -> Vec<bool> {
    let mut code = vec![true; s.len()];
    let mut i = 0;
    while i < s.len() {
        let end = if s[i..].starts_with(b"//") {
            line_end(s, i)
        } else if s[i..].starts_with(b"/*") {
            comment_end(s, i)
        } else if s[i] == b'"' {
            string_end(s, i)
        } else if raw_string(s, i).is_some() && (i == 0 || !is_word(s[i - 1])) {
            raw_string(s, i).unwrap_or(i + 1)
        } else if s[i] == b'\'' {
            char_end(s, i).unwrap_or(i)
        } else {
            i
        };
        if end == i {
            i += 1;
        } else {
            for mark in &mut code[i..end] {
                *mark = false;
            }
            i = end;
        }
    }
    code
}

fn line_end(s: &[u8], at: usize) -> usize {
    s[at..].iter().position(|&c| c == b'\n').map_or(s.len(), |n| at + n)
}

fn comment_end(s: &[u8], at: usize) -> usize {
    let mut depth = 0;
    let mut i = at;
    while i < s.len() {
        if s[i..].starts_with(b"/*") {
            depth += 1;
            i += 2;
        } else if s[i..].starts_with(b"*/") {
            depth -= 1;
            i += 2;
            if depth == 0 {
                return i;
            }
        } else {
            i += 1;
        }
    }
    s.len()
}

fn string_end(s: &[u8], at: usize) -> usize {
    let mut i = at + 1;
    while i < s.len() && s[i] != b'"' {
        i += if s[i] == b'\\' { 2 } else { 1 };
    }
    (i + 1).min(s.len())
}

/// The end of a raw string that starts at `at`.
fn raw_string(s: &[u8], at: usize) -> Option<usize> {
    let mut i = at;
    if s[i] == b'b' {
        i += 1;
    }
    if i >= s.len() || s[i] != b'r' {
        return None;
    }
    i += 1;
    let hashes = s[i..].iter().take_while(|&&c| c == b'#').count();
    i += hashes;
    if i >= s.len() || s[i] != b'"' {
        return None;
    }
    let mut close = vec![b'"'];
    close.resize(1 + hashes, b'#');
    let rest = &s[i + 1..];
    let n = rest.windows(close.len()).position(|w| w == close.as_slice())?;
    Some(i + 1 + n + close.len())
}

/// The end of a character literal at `at`; none where the quote begins a lifetime.
fn char_end(s: &[u8], at: usize) -> Option<usize> {
    let next = *s.get(at + 1)?;
    if next == b'\\' {
        let mut i = at + 3;
        while i < s.len() && s[i] != b'\'' {
            i += 1;
        }
        return Some((i + 1).min(s.len()));
    }
    // One character of up to four bytes and a closing quote.
    let width = match next {
        0..=0x7f => 1,
        0xc0..=0xdf => 2,
        0xe0..=0xef => 3,
        _ => 4,
    };
    if s.get(at + 1 + width) == Some(&b'\'') {
        Some(at + 2 + width)
    } else {
        None
    }
}
