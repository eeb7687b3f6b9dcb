// Stands in for pp-rs's lexer: a reader of tokens that were lexed beforehand.
//
// pp-rs hands its lexer a text. Here that text is a key, the number of a list of tokens that `keep` was given.
use crate::token::{Float, Integer, Location, PreprocessorError, Punct};
use std::cell::RefCell;
use std::marker::PhantomData;
use std::rc::Rc;

// These four are what pp-rs's lexer has under the same names.

#[derive(Clone, PartialEq, Debug)]
pub enum TokenValue {
    Hash,
    NewLine,
    Ident(String),
    Integer(Integer),
    Float(Float),
    Punct(Punct),
}

impl From<Punct> for TokenValue {
    fn from(punct: Punct) -> Self {
        TokenValue::Punct(punct)
    }
}

#[derive(Clone, PartialEq, Debug)]
pub struct Token {
    pub value: TokenValue,
    pub location: Location,
    pub leading_whitespace: bool,
    pub start_of_line: bool,
}

pub type LexerItem = Result<Token, (PreprocessorError, Location)>;

pub struct Record {
    pub token: Token,
    // a comment was seen up to it
    pub comments: bool,
}

thread_local! {
    static KEPT: RefCell<Vec<Rc<Vec<Record>>>> = RefCell::new(Vec::new());
}

// Keeps the tokens for a `Lexer::new` with the key that is answered.
pub fn keep(records: Vec<Record>) -> String {
    KEPT.with(|kept| {
        kept.borrow_mut().push(Rc::new(records));
        (kept.borrow().len() - 1).to_string()
    })
}

pub fn forget_all() {
    KEPT.with(|kept| kept.borrow_mut().clear());
}

pub struct Lexer<'a> {
    records: Rc<Vec<Record>>,
    position: usize,
    key: PhantomData<&'a str>,
}

impl<'a> Lexer<'a> {
    pub fn new(key: &'a str) -> Self {
        let number: usize = key.parse().expect("a key");
        let records = KEPT.with(|kept| Rc::clone(&kept.borrow()[number]));
        Lexer { records, position: 0, key: PhantomData }
    }

    pub fn had_comments(&self) -> bool {
        self.position > 0 && self.records[self.position - 1].comments
    }
}

impl<'a> Iterator for Lexer<'a> {
    type Item = LexerItem;

    fn next(&mut self) -> Option<Self::Item> {
        let record = self.records.get(self.position)?;
        self.position += 1;
        Some(Ok(record.token.clone()))
    }
}
