//! RFC 8259 within document 01's limits: a manifest's members as they are written, or the number of its earliest fault (7 or 40); and
//! what JSON.parse of ECMA-262 makes of names that come more than once.

pub enum Json {
    /// null, true, false or a number
    Scalar,
    Text(Vec<u8>),
    Array(Vec<Json>),
    Object(Vec<Member>),
}

pub struct Member {
    pub name: Vec<u8>,
    /// Whether the name is written with an escape.
    pub escaped: bool,
    /// How often the name comes, and whether an escape stands in some of its spellings only; as written, 1 and false.
    pub times: usize,
    pub respelled: bool,
    pub value: Json,
    /// From the name's opening quote to the value's end.
    pub from: usize,
    pub value_from: usize,
    pub to: usize,
}

const MALFORMED: u32 = 7;
const BEYOND: u32 = 40;

pub fn read(manifest: &[u8]) -> Result<Json, u32> {
    if manifest.len() > 16_384 {
        return Err(BEYOND);
    }
    // A byte order mark counts as white space.
    let at = if manifest.starts_with(&[0xEF, 0xBB, 0xBF]) { 3 } else { 0 };
    let mut reader = Reader { bytes: manifest, at, depth: 0 };
    reader.blank();
    let value = reader.value()?;
    reader.blank();
    if reader.at == manifest.len() { Ok(value) } else { Err(MALFORMED) }
}

/// The value of JSON.parse: in every object, however deep, the last value of a name in the place of its first member.
pub fn settled(value: Json) -> Json {
    match value {
        Json::Object(members) => Json::Object(settled_members(members)),
        Json::Array(elements) => Json::Array(elements.into_iter().map(settled).collect()),
        value => value,
    }
}

/// One property is created after the other; one that is there keeps its place and gets the new value.
fn settled_members(members: Vec<Member>) -> Vec<Member> {
    let mut made: Vec<Member> = Vec::new();
    for member in members {
        let value = settled(member.value);
        match made.iter_mut().find(|known| known.name == member.name) {
            None => made.push(Member { value, ..member }),
            Some(known) => {
                known.value = value;
                known.times += 1;
                known.respelled |= known.escaped != member.escaped;
            }
        }
    }
    made
}

struct Reader<'a> {
    bytes: &'a [u8],
    at: usize,
    depth: usize,
}

impl Reader<'_> {
    fn peek(&self) -> Option<u8> {
        self.bytes.get(self.at).copied()
    }

    fn take(&mut self) -> Result<u8, u32> {
        let byte = self.peek().ok_or(MALFORMED)?;
        self.at += 1;
        Ok(byte)
    }

    fn expect(&mut self, word: &[u8]) -> Result<(), u32> {
        for &byte in word {
            if self.take()? != byte {
                return Err(MALFORMED);
            }
        }
        Ok(())
    }

    fn blank(&mut self) {
        while matches!(self.peek(), Some(b' ' | b'\t' | b'\n' | b'\r')) {
            self.at += 1;
        }
    }

    fn value(&mut self) -> Result<Json, u32> {
        match self.peek().ok_or(MALFORMED)? {
            b'"' => Ok(Json::Text(self.string()?)),
            b'[' => self.nested(Self::array),
            b'{' => self.nested(Self::object),
            b't' => self.expect(b"true").map(|()| Json::Scalar),
            b'f' => self.expect(b"false").map(|()| Json::Scalar),
            b'n' => self.expect(b"null").map(|()| Json::Scalar),
            _ => self.number(),
        }
    }

    fn nested(&mut self, inside: fn(&mut Self) -> Result<Json, u32>) -> Result<Json, u32> {
        if self.depth == 16 {
            return Err(BEYOND);
        }
        self.at += 1;
        self.depth += 1;
        self.blank();
        let value = inside(self)?;
        self.depth -= 1;
        Ok(value)
    }

    fn array(&mut self) -> Result<Json, u32> {
        let mut elements = Vec::new();
        if self.peek() == Some(b']') {
            self.at += 1;
            return Ok(Json::Array(elements));
        }
        loop {
            let begins = |b: u8| b"\"{[-0123456789tfn".contains(&b);
            if elements.len() == 128 {
                return Err(if self.peek().is_some_and(begins) { BEYOND } else { MALFORMED });
            }
            elements.push(self.value()?);
            if self.closes(b']')? {
                return Ok(Json::Array(elements));
            }
        }
    }

    fn object(&mut self) -> Result<Json, u32> {
        let mut members: Vec<Member> = Vec::new();
        if self.peek() == Some(b'}') {
            self.at += 1;
            return Ok(Json::Object(members));
        }
        loop {
            if self.peek() != Some(b'"') {
                return Err(MALFORMED);
            }
            if members.len() == 128 {
                return Err(BEYOND);
            }
            let from = self.at;
            let name = self.string()?;
            let escaped = self.bytes[from..self.at].contains(&b'\\');
            self.blank();
            self.expect(b":")?;
            self.blank();
            let value_from = self.at;
            let value = self.value()?;
            members.push(Member { name, escaped, times: 1, respelled: false, value, from, value_from, to: self.at });
            if self.closes(b'}')? {
                return Ok(Json::Object(members));
            }
        }
    }

    /// Behind an element or member: the bracket, or a comma and another one.
    fn closes(&mut self, bracket: u8) -> Result<bool, u32> {
        self.blank();
        match self.take()? {
            b',' => self.blank(),
            byte if byte == bracket => return Ok(true),
            _ => return Err(MALFORMED),
        }
        Ok(false)
    }

    fn number(&mut self) -> Result<Json, u32> {
        if self.peek() == Some(b'-') {
            self.at += 1;
        }
        if self.peek() == Some(b'0') {
            self.at += 1;
        } else {
            self.digits()?;
        }
        if self.peek() == Some(b'.') {
            self.at += 1;
            self.digits()?;
        }
        if matches!(self.peek(), Some(b'e' | b'E')) {
            self.at += 1;
            if matches!(self.peek(), Some(b'+' | b'-')) {
                self.at += 1;
            }
            self.digits()?;
        }
        Ok(Json::Scalar)
    }

    fn digits(&mut self) -> Result<(), u32> {
        if !self.take()?.is_ascii_digit() {
            return Err(MALFORMED);
        }
        while self.peek().is_some_and(|b| b.is_ascii_digit()) {
            self.at += 1;
        }
        Ok(())
    }

    fn string(&mut self) -> Result<Vec<u8>, u32> {
        self.at += 1;
        let mut text = Vec::new();
        loop {
            match self.take()? {
                b'"' => return Ok(text),
                b'\\' => {
                    let decoded = self.escape()?;
                    text.extend_from_slice(decoded.encode_utf8(&mut [0; 4]).as_bytes());
                    if text.len() > 1_024 {
                        return Err(BEYOND);
                    }
                }
                byte => self.character(byte, &mut text)?,
            }
        }
    }

    /// A character as it stands: each of its bytes is judged by itself, and counts by itself.
    fn character(&mut self, first: u8, text: &mut Vec<u8>) -> Result<(), u32> {
        if first < 0x20 {
            return Err(MALFORMED);
        }
        let from = self.at - 1;
        loop {
            let unfinished = match std::str::from_utf8(&self.bytes[from..self.at]) {
                Ok(_) => false,
                Err(fault) if fault.error_len().is_none() => true,
                Err(_) => return Err(MALFORMED),
            };
            if text.len() == 1_024 {
                return Err(BEYOND);
            }
            text.push(self.bytes[self.at - 1]);
            if !unfinished {
                return Ok(());
            }
            self.take()?;
        }
    }

    fn escape(&mut self) -> Result<char, u32> {
        Ok(match self.take()? {
            b'"' => '"',
            b'\\' => '\\',
            b'/' => '/',
            b'b' => '\u{8}',
            b'f' => '\u{C}',
            b'n' => '\n',
            b'r' => '\r',
            b't' => '\t',
            b'u' => {
                let unit = self.unit()?;
                let code = if (0xD800..0xDC00).contains(&unit) { self.pair(unit)? } else { unit };
                char::from_u32(code).ok_or(MALFORMED)?
            }
            _ => return Err(MALFORMED),
        })
    }

    fn pair(&mut self, high: u32) -> Result<u32, u32> {
        self.expect(b"\\u")?;
        let low = self.unit()?;
        if !(0xDC00..0xE000).contains(&low) {
            return Err(MALFORMED);
        }
        Ok(0x10000 + ((high - 0xD800) << 10) + (low - 0xDC00))
    }

    fn unit(&mut self) -> Result<u32, u32> {
        let mut unit = 0;
        for _ in 0..4 {
            let digit = char::from(self.take()?).to_digit(16).ok_or(MALFORMED)?;
            unit = unit * 16 + digit;
        }
        Ok(unit)
    }
}
