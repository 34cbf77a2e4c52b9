//! The grammar, by recursive descent: refusals 4 to 6.

use crate::compile::Refusal;
use crate::operand;
use crate::program::Op;
use crate::test::{Relation, Test};
use crate::token::{Kind, Token};

const DEEPEST: usize = 32;

/// The operations of a text, which has so many bytes.
pub fn parse(tokens: &[Token], text_size: usize) -> Result<Vec<Op>, Refusal> {
    let mut parser = Parser {
        tokens: tokens.iter(),
        end: text_size,
        level: 0,
        ops: Vec::new(),
    };
    parser.expression()?;
    match parser.tokens.next() {
        None => Ok(parser.ops),
        Some(token) => Err(Refusal::new(4, token.place)),
    }
}

struct Parser<'a> {
    tokens: std::slice::Iter<'a, Token<'a>>,
    end: usize,
    level: usize,
    ops: Vec<Op>,
}

impl<'a> Parser<'a> {
    fn expression(&mut self) -> Result<(), Refusal> {
        self.conjunction()?;
        while self.take_word("-or") {
            self.joined(true, Parser::conjunction)?;
        }
        Ok(())
    }

    fn conjunction(&mut self) -> Result<(), Refusal> {
        self.factor()?;
        while self.take_word("-and") {
            self.joined(false, Parser::factor)?;
        }
        Ok(())
    }

    /// The right side, which is passed over when the left one decides.
    fn joined(
        &mut self,
        when: bool,
        right: fn(&mut Self) -> Result<(), Refusal>,
    ) -> Result<(), Refusal> {
        let pass = self.ops.len();
        self.ops.push(Op::Pass { when, over: 0 });
        right(self)?;
        let over = self.ops.len() - pass - 1;
        self.ops[pass] = Op::Pass { when, over };
        Ok(())
    }

    fn factor(&mut self) -> Result<(), Refusal> {
        let token = self.next()?;
        match token.kind {
            Kind::Not => {
                self.deeper(token.place, Parser::factor)?;
                self.ops.push(Op::Flip);
                Ok(())
            }
            Kind::Open => self.deeper(token.place, |parser| {
                parser.expression()?;
                parser.close()
            }),
            Kind::Word(name) => {
                let test = self.test(name, token.place)?;
                self.ops.push(Op::Test(test));
                Ok(())
            }
            Kind::Close | Kind::Quoted(_) => Err(Refusal::new(4, token.place)),
        }
    }

    /// One level more, until the factor that it opens is finished.
    fn deeper(
        &mut self,
        place: usize,
        inner: fn(&mut Self) -> Result<(), Refusal>,
    ) -> Result<(), Refusal> {
        if self.level == DEEPEST {
            return Err(Refusal::new(6, place));
        }
        self.level += 1;
        inner(self)?;
        self.level -= 1;
        Ok(())
    }

    fn close(&mut self) -> Result<(), Refusal> {
        let token = self.next()?;
        match token.kind {
            Kind::Close => Ok(()),
            _ => Err(Refusal::new(4, token.place)),
        }
    }

    fn test(&mut self, name: &str, place: usize) -> Result<Test, Refusal> {
        match name {
            "-type" => self.operand(|text| operand::message_type(text).map(Test::Type)),
            "-attr" => self.operand(|text| operand::attribute(text).map(Test::Attribute)),
            "-aspath" => self.operand(|text| operand::pattern(text).map(Test::Path)),
            "-peer" => self.operand(|text| operand::peer(text).map(Test::Peer)),
            "-loops" => Ok(Test::Loops),
            "-bogon-asn" => Ok(Test::Bogon),
            "-exact" => self.network(Relation::Exact),
            "-supernet" => self.network(Relation::Supernet),
            "-subnet" => self.network(Relation::Subnet),
            "-related" => self.network(Relation::Related),
            "-timestamp" => self.operand(|text| operand::time(text).map(Test::Time)),
            "-communities" => {
                self.operand(|text| operand::communities(text).map(Test::Communities))
            }
            _ => Err(Refusal::new(4, place)),
        }
    }

    fn network(&mut self, relation: Relation) -> Result<Test, Refusal> {
        self.operand(|text| operand::network(relation, text).map(Test::Network))
    }

    /// A word or a quoted token that the test's rule takes.
    fn operand(&mut self, rule: impl FnOnce(&str) -> Option<Test>) -> Result<Test, Refusal> {
        let token = self.next()?;
        match token.kind {
            Kind::Word(text) | Kind::Quoted(text) => rule(text).ok_or(Refusal::new(5, token.place)),
            Kind::Open | Kind::Close | Kind::Not => Err(Refusal::new(4, token.place)),
        }
    }

    /// The next token, where the text mustn't end.
    fn next(&mut self) -> Result<&'a Token<'a>, Refusal> {
        self.tokens.next().ok_or(Refusal::new(4, self.end))
    }

    fn take_word(&mut self, word: &str) -> bool {
        let there =
            matches!(self.tokens.as_slice().first(), Some(token) if token.kind == Kind::Word(word));
        if there {
            self.tokens.next();
        }
        there
    }
}
