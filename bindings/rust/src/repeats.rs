use std::fmt;

/// A member name that comes more than once in one object of a manifest. The lookup takes it as JSON.parse does: its last value counts, in
/// the place of its first member.
#[derive(Clone, Debug, PartialEq, Eq)]
pub struct Repeat {
    /// The names that lead from the root to the object, and the numbers of elements, from 0; none for the root itself.
    pub place: Vec<String>,
    /// The name, escapes decoded.
    pub name: String,
    /// How often it comes.
    pub times: usize,
    /// The value that counts, as it is written.
    pub value: String,
}

impl fmt::Display for Repeat {
    fn fmt(&self, f: &mut fmt::Formatter<'_>) -> fmt::Result {
        write!(f, "the name {:?} comes {} times ", self.name, self.times)?;
        match &self.place[..] {
            [] => write!(f, "in the root")?,
            place => write!(f, "in {}", place.join(" > "))?,
        }
        write!(f, "; its last value counts, in the place of the first: {}", self.value)
    }
}

/// The names that come more than once in an object of a manifest; an object's stand behind those of the objects in it. Of bytes that are no
/// JSON, those before the first fault.
///
/// ```
/// let found = hannuvozh::repeats(br#"{"main":"x","exports":{"import":1,"m":[],"\u0069mport":2},"main":"y"}"#);
/// let words: Vec<String> = found.iter().map(|repeat| repeat.to_string()).collect();
/// assert_eq!(words, [
///     r#"the name "import" comes 2 times in exports; its last value counts, in the place of the first: 2"#,
///     r#"the name "main" comes 2 times in the root; its last value counts, in the place of the first: "y""#,
/// ]);
/// ```
#[must_use]
pub fn repeats(manifest: &[u8]) -> Vec<Repeat> {
    let text = String::from_utf8_lossy(manifest);
    let mut reader = Reader { text: text.trim_start_matches('\u{FEFF}'), at: 0, place: Vec::new(), found: Vec::new() };
    reader.value();
    reader.found
}

struct Reader<'a> {
    text: &'a str,
    at: usize,
    place: Vec<String>,
    found: Vec<Repeat>,
}

impl Reader<'_> {
    fn peek(&mut self) -> Option<u8> {
        let rest = &self.text[self.at..];
        self.at += rest.len() - rest.trim_start_matches([' ', '\t', '\n', '\r']).len();
        self.text.as_bytes().get(self.at).copied()
    }

    fn take(&mut self, byte: u8) -> Option<()> {
        let there = self.peek() == Some(byte);
        self.at += usize::from(there);
        there.then_some(())
    }

    fn value(&mut self) -> Option<()> {
        match self.peek()? {
            b'"' => self.string().map(drop),
            b'[' => self.array(),
            b'{' => self.object(),
            _ => {
                let rest = &self.text[self.at..];
                self.at += rest.find([',', ']', '}', ' ', '\t', '\n', '\r']).unwrap_or(rest.len());
                Some(())
            }
        }
    }

    fn array(&mut self) -> Option<()> {
        self.take(b'[')?;
        if self.take(b']').is_some() {
            return Some(());
        }
        for number in 0.. {
            self.place.push(number.to_string());
            self.value()?;
            self.place.pop();
            if self.take(b',').is_none() {
                break;
            }
        }
        self.take(b']')
    }

    fn object(&mut self) -> Option<()> {
        self.take(b'{')?;
        if self.take(b'}').is_some() {
            return Some(());
        }
        let mut members: Vec<Repeat> = Vec::new();
        let whole = self.members(&mut members);
        self.found.extend(members.into_iter().filter(|member| member.times > 1));
        whole
    }

    /// Up to the closing bracket: each name once, with what is known of it.
    fn members(&mut self, members: &mut Vec<Repeat>) -> Option<()> {
        loop {
            let name = self.string()?;
            self.take(b':')?;
            self.peek();
            let from = self.at;
            self.place.push(name);
            self.value()?;
            let name = self.place.pop()?;
            let value = self.text[from..self.at].to_string();
            match members.iter_mut().find(|known| known.name == name) {
                Some(known) => (known.times, known.value) = (known.times + 1, value),
                None => members.push(Repeat { place: self.place.clone(), name, times: 1, value }),
            }
            if self.take(b',').is_none() {
                return self.take(b'}');
            }
        }
    }

    /// A string, decoded.
    fn string(&mut self) -> Option<String> {
        self.take(b'"')?;
        let mut units: Vec<u16> = Vec::new();
        loop {
            let c = self.character()?;
            match c {
                '"' => return Some(String::from_utf16_lossy(&units)),
                '\\' => units.push(self.escape()?),
                _ => units.extend_from_slice(c.encode_utf16(&mut [0; 2])),
            }
        }
    }

    fn character(&mut self) -> Option<char> {
        let c = self.text[self.at..].chars().next()?;
        self.at += c.len_utf8();
        Some(c)
    }

    fn escape(&mut self) -> Option<u16> {
        Some(match self.character()? {
            'b' => 8,
            'f' => 12,
            'n' => 10,
            'r' => 13,
            't' => 9,
            'u' => {
                let unit = u16::from_str_radix(self.text.get(self.at..self.at + 4)?, 16).ok()?;
                self.at += 4;
                unit
            }
            c => u16::try_from(u32::from(c)).ok()?,
        })
    }
}
