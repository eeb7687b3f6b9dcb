// The container: of each case the length of its name (2 bytes), of its token file and of its calls (4 bytes each), lowest
// byte first, then the name, the file and the calls.
use std::convert::TryInto;
use std::io::{self, Read};

const HEAD: usize = 10;

pub struct Case<'a> {
    // the whole of it, head included
    pub bytes: &'a [u8],
    pub name: &'a [u8],
    pub file: &'a [u8],
    pub calls: &'a [u8],
}

pub enum Call<'a> {
    Next,
    All,
    Define(&'a [u8]),
}

fn lengths(head: &[u8]) -> (usize, usize, usize) {
    let name = u16::from_le_bytes(head[0..2].try_into().unwrap());
    let file = u32::from_le_bytes(head[2..6].try_into().unwrap());
    let calls = u32::from_le_bytes(head[6..10].try_into().unwrap());
    (name as usize, file as usize, calls as usize)
}

impl<'a> Case<'a> {
    // None where the bytes are cut off in it.
    pub fn first(bytes: &'a [u8]) -> Option<Case<'a>> {
        let (name, file, calls) = lengths(bytes.get(..HEAD)?);
        let bytes = bytes.get(..HEAD + name + file + calls)?;
        let (names, rest) = bytes[HEAD..].split_at(name);
        let (file, calls) = rest.split_at(file);
        Some(Case { bytes, name: names, file, calls })
    }

    // None where the calls cannot be read.
    pub fn calls(&self) -> Option<Vec<Call<'a>>> {
        let mut calls = Vec::new();
        let mut rest = self.calls;
        if rest.is_empty() {
            calls.push(Call::All);
        }
        while let Some((kind, more)) = rest.split_first() {
            rest = more;
            match kind {
                0 => calls.push(Call::Next),
                1 => calls.push(Call::All),
                2 => {
                    let length = u32::from_le_bytes(rest.get(..4)?.try_into().unwrap()) as usize;
                    calls.push(Call::Define(rest.get(4..4 + length)?));
                    rest = &rest[4 + length..];
                }
                _ => return None,
            }
        }
        Some(calls)
    }
}

// The bytes of the next case, none at the end.
pub fn read_case(input: &mut dyn Read) -> io::Result<Option<Vec<u8>>> {
    let mut bytes = vec![0; HEAD];
    match input.read_exact(&mut bytes) {
        Err(error) if error.kind() == io::ErrorKind::UnexpectedEof => return Ok(None),
        read => read?,
    }
    let (name, file, calls) = lengths(&bytes);
    bytes.resize(HEAD + name + file + calls, 0);
    input.read_exact(&mut bytes[HEAD..])?;
    Ok(Some(bytes))
}
