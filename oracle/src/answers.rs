// The answers to one case, a line each.
use crate::container::{Call, Case};
use crate::lexer::{self, TokenValue as Lexed};
use crate::pp::Preprocessor;
use crate::token::{Location, PreprocessorError as Error, Token, TokenValue};
use crate::token_file::{self, PUNCTS};
use std::cell::RefCell;
use std::fmt::Write as _;
use std::io::{self, Write};
use std::panic::{catch_unwind, set_hook, AssertUnwindSafe};

thread_local! {
    static PANIC: RefCell<String> = RefCell::new(String::new());
}

pub fn keep_panics_quiet() {
    set_hook(Box::new(|info| {
        PANIC.with(|panic| *panic.borrow_mut() = info.to_string().replace('\n', " "));
    }));
}

pub fn answer(case: &Case, out: &mut dyn Write) -> io::Result<()> {
    lexer::forget_all();
    match catch_unwind(AssertUnwindSafe(|| run(case, &mut *out))) {
        Ok(done) => done,
        Err(_) => {
            let panic = PANIC.with(|panic| panic.take());
            if panic.contains("attempt to negate with overflow") {
                writeln!(out, "negated")
            } else {
                writeln!(out, "panic {}", panic)
            }
        }
    }
}

// Makes the calls up to the first fault.
fn run(case: &Case, out: &mut dyn Write) -> io::Result<()> {
    let records = match token_file::read(case.file) {
        Some(records) => records,
        None => return writeln!(out, "bad file"),
    };
    let calls = match case.calls() {
        Some(calls) => calls,
        None => return writeln!(out, "bad calls"),
    };
    let text = lexer::keep(records);
    let mut preprocessor = Preprocessor::new(&text);
    for call in calls {
        match call {
            Call::Next => {
                if next(&mut preprocessor, out)? == Next::Fault {
                    return Ok(());
                }
            }
            Call::All => loop {
                match next(&mut preprocessor, out)? {
                    Next::Token => {}
                    Next::End => break,
                    Next::Fault => return Ok(()),
                }
            },
            Call::Define(file) => {
                let line = match define(&mut preprocessor, file) {
                    None => return writeln!(out, "bad calls"),
                    Some(Ok(())) => "defined".to_string(),
                    Some(Err((error, place))) => format!("refused {}", fault(&error, place)),
                };
                writeln!(out, "{}", line)?;
            }
        }
    }
    Ok(())
}

#[derive(PartialEq)]
enum Next {
    Token,
    End,
    Fault,
}

fn next(preprocessor: &mut Preprocessor, out: &mut dyn Write) -> io::Result<Next> {
    match preprocessor.next() {
        None => {
            writeln!(out, "end")?;
            Ok(Next::End)
        }
        Some(Ok(token)) => {
            writeln!(out, "token {}", placed(&token))?;
            Ok(Next::Token)
        }
        Some(Err((error, place))) => {
            writeln!(out, "fault {}", fault(&error, place))?;
            Ok(Next::Fault)
        }
    }
}

// None where the file cannot be read or does not begin with a name.
fn define(preprocessor: &mut Preprocessor, file: &[u8]) -> Option<Result<(), (Error, Location)>> {
    let mut records = token_file::read(file)?;
    if records.is_empty() {
        return None;
    }
    let name = match records.remove(0).token.value {
        Lexed::Ident(name) => name,
        _ => return None,
    };
    Some(preprocessor.add_define(&name, &lexer::keep(records)))
}

fn place(place: Location) -> String {
    format!("{} {} {}", place.start, place.end, place.line)
}

fn placed(token: &Token) -> String {
    format!("{} {}", place(token.location), value(&token.value))
}

fn fault(error: &Error, at: Location) -> String {
    let mut line = format!("{} {}", number(error), place(at));
    if let Error::UnexpectedToken(met) = error {
        line += " ";
        line += &value(met);
    }
    line
}

fn value(value: &TokenValue) -> String {
    match value {
        TokenValue::Ident(name) => {
            let mut line = "ident ".to_string();
            for byte in token_file::name_bytes(name) {
                write!(line, "{:02x}", byte).unwrap();
            }
            line
        }
        TokenValue::Integer(i) => format!("integer {} {} {}", i.value, i.signed as u8, i.width),
        TokenValue::Float(f) => format!("float {:08x} {}", f.value.to_bits(), f.width),
        TokenValue::Punct(p) => {
            let (_, spelling) = PUNCTS.iter().find(|(punct, _)| punct == p).unwrap();
            format!("punct {}", spelling)
        }
        TokenValue::Version(v) => {
            let (first, comments) = (v.is_first_directive as u8, v.has_comments_before as u8);
            format!("version {} {} {}", first, comments, carried(&v.tokens))
        }
        TokenValue::Extension(e) => {
            format!("extension {} {}", e.has_non_directive_before as u8, carried(&e.tokens))
        }
        TokenValue::Pragma(p) => format!("pragma {}", carried(&p.tokens)),
    }
}

// The count of a directive's tokens, and a line for each.
fn carried(tokens: &[Token]) -> String {
    let mut lines = tokens.len().to_string();
    for token in tokens {
        write!(lines, "\n  {}", placed(token)).unwrap();
    }
    lines
}

fn number(error: &Error) -> u32 {
    match error {
        Error::IntegerOverflow => 1,
        Error::FloatParsingError => 2,
        Error::UnexpectedCharacter => 3,
        Error::UnexpectedToken(_) => 4,
        Error::UnexpectedHash => 5,
        Error::UnexpectedNewLine => 6,
        Error::UnexpectedEndOfInput => 7,
        Error::TooFewDefineArguments => 8,
        Error::TooManyDefineArguments => 9,
        Error::ErrorDirective => 10,
        Error::DuplicateParameter => 11,
        Error::UnknownDirective => 12,
        Error::DefineRedefined => 13,
        Error::ElifOutsideOfBlock => 14,
        Error::ElseOutsideOfBlock => 15,
        Error::EndifOutsideOfBlock => 16,
        Error::ElifAfterElse => 17,
        Error::MoreThanOneElse => 18,
        Error::UnfinishedBlock => 19,
        Error::LineOverflow => 20,
        Error::NotSupported16BitLiteral => 21,
        Error::NotSupported64BitLiteral => 22,
        Error::MacroNotDefined => 23,
        Error::RecursionLimitReached => 24,
        Error::DivisionByZero => 25,
        Error::RemainderByZero => 26,
    }
}
