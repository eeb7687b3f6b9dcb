// Reads a token file, as docs/RULES.md describes it, without testing the limits and laws of a source.
use crate::lexer::{Record, Token, TokenValue};
use crate::token::{Float, Integer, Location, Punct};
use std::convert::TryInto;

const TOKEN: usize = 24;

// In the order of Punct, whose numbers are those of the file.
#[rustfmt::skip]
pub const PUNCTS: [(Punct, &str); 45] = {
    use Punct::*;
    [
        (AddAssign, "+="), (SubAssign, "-="), (MulAssign, "*="), (DivAssign, "/="), (ModAssign, "%="),
        (LeftShiftAssign, "<<="), (RightShiftAssign, ">>="), (AndAssign, "&="), (XorAssign, "^="), (OrAssign, "|="),
        (Increment, "++"), (Decrement, "--"), (LogicalAnd, "&&"), (LogicalOr, "||"), (LogicalXor, "^^"),
        (LessEqual, "<="), (GreaterEqual, ">="), (EqualEqual, "=="), (NotEqual, "!="),
        (LeftShift, "<<"), (RightShift, ">>"),
        (LeftBrace, "{"), (RightBrace, "}"), (LeftParen, "("), (RightParen, ")"), (LeftBracket, "["), (RightBracket, "]"),
        (LeftAngle, "<"), (RightAngle, ">"), (Semicolon, ";"), (Comma, ","), (Colon, ":"), (Dot, "."), (Equal, "="),
        (Bang, "!"), (Minus, "-"), (Tilde, "~"), (Plus, "+"), (Star, "*"), (Slash, "/"), (Percent, "%"),
        (Pipe, "|"), (Caret, "^"), (Ampersand, "&"), (Question, "?"),
    ]
};

fn two(bytes: &[u8]) -> Option<usize> {
    Some(u16::from_le_bytes(bytes.get(..2)?.try_into().ok()?) as usize)
}

fn four(bytes: &[u8]) -> Option<u32> {
    Some(u32::from_le_bytes(bytes.get(..4)?.try_into().ok()?))
}

// A name of any bytes as a String: each byte becomes the character of that number.
fn text(bytes: &[u8]) -> String {
    bytes.iter().map(|&b| b as char).collect()
}

pub fn name_bytes(name: &str) -> impl Iterator<Item = u8> + '_ {
    name.chars().map(|c| c as u32 as u8)
}

// None where the file cannot be read.
pub fn read(file: &[u8]) -> Option<Vec<Record>> {
    let (names, tokens) = (four(file)? as usize, four(file.get(4..)?)? as usize);
    let (lengths, mut rest) = split(file.get(8..)?, names.checked_mul(2)?)?;
    let mut spellings = Vec::new();
    for length in lengths.chunks(2) {
        let (name, more) = split(rest, two(length)?)?;
        spellings.push(text(name));
        rest = more;
    }
    if rest.len() != tokens.checked_mul(TOKEN)? {
        return None;
    }
    rest.chunks(TOKEN).map(|token| record(token, &spellings)).collect()
}

fn split(bytes: &[u8], at: usize) -> Option<(&[u8], &[u8])> {
    Some((bytes.get(..at)?, bytes.get(at..)?))
}

fn record(bytes: &[u8], names: &[String]) -> Option<Record> {
    let (kind, marks) = (bytes[0], bytes[1]);
    let width = two(&bytes[2..])? as i32;
    let value = u64::from_le_bytes(bytes[4..12].try_into().ok()?);
    let small: Option<usize> = value.try_into().ok();
    let value = match kind {
        0 => TokenValue::Ident(names.get(small?)?.clone()),
        1 => TokenValue::Integer(Integer { value, signed: marks & 8 != 0, width }),
        2 => TokenValue::Float(Float { value: f32::from_bits(value.try_into().ok()?), width }),
        3 => TokenValue::Punct(PUNCTS.get(small?)?.0),
        4 => TokenValue::Hash,
        5 => TokenValue::NewLine,
        _ => return None,
    };
    let location = Location { start: four(&bytes[12..])?, end: four(&bytes[16..])?, line: four(&bytes[20..])? };
    Some(Record {
        token: Token { value, location, leading_whitespace: marks & 1 != 0, start_of_line: marks & 2 != 0 },
        comments: marks & 4 != 0,
    })
}
