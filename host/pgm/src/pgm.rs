//! Binary PGM files (P5) of 8 or 16 bits a pixel.

/// A grey picture.
#[derive(Clone, Debug, PartialEq, Eq)]
pub struct Picture {
    pub width: usize,
    pub height: usize,
    /// The greatest value that the file allows.
    pub most: u16,
    /// A value for each pixel, row by row from the top left.
    pub values: Vec<u16>,
}

/// Reads the words of a PGM header.
struct Header<'a> {
    bytes: &'a [u8],
    place: usize,
}

impl Header<'_> {
    fn next(&self) -> Option<u8> {
        self.bytes.get(self.place).copied()
    }

    /// Passes over blanks and comments, of which there must be one at least.
    fn blanks(&mut self, what: &str) -> Result<(), String> {
        let start = self.place;
        while let Some(byte) = self.next() {
            if byte == b'#' {
                let line = self.bytes[self.place..].iter().position(|&byte| byte == b'\n');
                self.place = line.map_or(self.bytes.len(), |length| self.place + length);
            } else if byte.is_ascii_whitespace() {
                self.place += 1;
            } else {
                break;
            }
        }
        if self.place == start {
            return Err(format!("the header has no blank before its {what}"));
        }
        Ok(())
    }

    fn number(&mut self, what: &str) -> Result<usize, String> {
        self.blanks(what)?;
        let digits: String = self.bytes[self.place..]
            .iter()
            .take_while(|byte| byte.is_ascii_digit())
            .map(|&byte| char::from(byte))
            .collect();
        if digits.is_empty() {
            return Err(format!("the header has no {what}"));
        }
        self.place += digits.len();
        digits.parse().map_err(|_| format!("the {what} {digits} is too large"))
    }

    /// The bytes behind the header: one blank ends it, and whatever follows is a pixel.
    fn body(&self) -> Result<&[u8], String> {
        match self.next() {
            Some(byte) if byte.is_ascii_whitespace() => Ok(&self.bytes[self.place + 1..]),
            Some(_) => Err("the header has no blank behind its greatest value".to_string()),
            None => Ok(&[]),
        }
    }
}

/// Reads a picture from a file's bytes, and says how many bytes are left over behind its pixels.
pub fn read(bytes: &[u8]) -> Result<(Picture, usize), String> {
    if !bytes.starts_with(b"P5") {
        return Err("not a binary PGM file: it does not begin with P5".to_string());
    }
    let mut header = Header { bytes, place: 2 };
    let (width, height) = (header.number("width")?, header.number("height")?);
    let most = header.number("greatest value")?;
    let most = u16::try_from(most).ok().filter(|&most| most > 0);
    let most = most.ok_or("the greatest value must be 1 to 65535")?;
    let body = header.body()?;
    let size = if most < 256 { 1 } else { 2 };
    let needed = width.checked_mul(height).and_then(|pixels| pixels.checked_mul(size));
    let needed = needed.ok_or_else(|| format!("{width}x{height} pixels are too many"))?;
    let Some(left_over) = body.len().checked_sub(needed) else {
        return Err(format!("the file ends early: {width}x{height} pixels take {needed} bytes, it has {}", body.len()));
    };
    let number = |pixel: &[u8]| pixel.iter().fold(0, |number, &byte| number << 8 | u16::from(byte));
    let values: Vec<u16> = body[..needed].chunks_exact(size).map(number).collect();
    match values.iter().position(|&value| value > most) {
        Some(pixel) => Err(format!("pixel {pixel} is above the greatest value {most}")),
        None => Ok((Picture { width, height, most, values }, left_over)),
    }
}

/// The bytes of a picture's file.
pub fn write(picture: &Picture) -> Vec<u8> {
    let mut bytes = format!("P5\n{} {}\n{}\n", picture.width, picture.height, picture.most).into_bytes();
    for value in &picture.values {
        let both = value.to_be_bytes();
        bytes.extend(if picture.most < 256 { &both[1..] } else { &both });
    }
    bytes
}

#[cfg(test)]
mod tests {
    use super::*;

    #[test]
    fn reads_8_bits_and_comments() {
        let picture = Picture { width: 2, height: 1, most: 255, values: vec![5, 255] };
        assert_eq!(read(b"P5 # a comment\n2 # another\n1\n255\n\x05\xff"), Ok((picture.clone(), 0)));
        assert_eq!(read(b"P5# a comment\n2# another\n1\n255\n\x05\xff"), Ok((picture, 0)));
    }

    #[test]
    fn reads_16_bits_high_byte_first() {
        let (picture, _) = read(b"P5\n1 2\n1000\n\x01\x02\x03\x00").unwrap();
        assert_eq!(picture.values, [258, 768]);
    }

    #[test]
    fn reads_what_it_writes() {
        for most in [1, 255, 256, 65_535] {
            let picture = Picture { width: 2, height: 2, most, values: vec![0, 1, most / 2, most] };
            assert_eq!(read(&write(&picture)), Ok((picture, 0)));
        }
    }

    #[test]
    fn counts_what_is_left_over() {
        let (picture, left_over) = read(b"P5\r\n2 1\r\n255\r\n\x01\x02").unwrap();
        assert_eq!((picture.values, left_over), (vec![10, 1], 1));
        assert_eq!(read(b"P5 1 1 256 \x01\x00abc").unwrap().1, 3);
        assert_eq!(read(b"P5 1 1 256 \x01\x00").unwrap().1, 0);
    }

    #[test]
    fn says_what_is_wrong() {
        let message = |bytes: &[u8]| read(bytes).unwrap_err();
        assert!(message(b"P2\n1 1\n1\n0").contains("P5"));
        assert_eq!(message(b"P5\nx"), "the header has no width");
        assert_eq!(message(b"P5"), "the header has no blank before its width");
        assert_eq!(message(b"P520 10 255\n"), "the header has no blank before its width");
        assert_eq!(message(b"P5 2x1 255\n"), "the header has no blank before its height");
        assert_eq!(message(b"P5 1 1 255x\0"), "the header has no blank behind its greatest value");
        assert_eq!(message(b"P5 1 1 255# \n\0"), "the header has no blank behind its greatest value");
        assert_eq!(message(b"P5 99999999999999999999 1 255\n"), "the width 99999999999999999999 is too large");
        assert!(message(b"P5 4294967296 4294967296 255\n").contains("4294967296x4294967296 pixels are too many"));
        assert!(message(b"P5\n1 1\n0\n\0").contains("greatest value"));
        assert!(message(b"P5\n1 1\n65536\n\0").contains("1 to 65535"));
        assert_eq!(message(b"P5\n2 1\n255\n\0"), "the file ends early: 2x1 pixels take 2 bytes, it has 1");
        assert!(message(b"P5\n2 1\n255").contains("it has 0"));
        assert!(message(b"P5\n1 1\n9\n\x0a").contains("above"));
    }
}
