//! Constants and expressions.

use super::{Parsed, Parser, Stop};
use crate::kind::*;
use crate::rule;

impl Parser<'_> {
    /// 27.
    pub(super) fn constant(&mut self) -> Parsed {
        let node = self.begin();
        self.expect(CONST)?;
        self.constant_type()?;
        self.expect(IDENTIFIER)?;
        self.expect(EQUALS)?;
        self.expression()?;
        self.record(rule::CONST_DCL, node);
        Ok(())
    }

    /// 28.
    fn constant_type(&mut self) -> Parsed {
        match self.kind {
            STRING | WSTRING => self.string_type(),
            FIXED => self.leaf(rule::FIXED_PT_CONST_TYPE),
            ANY | OBJECT | VALUE_BASE => Err(Stop::Grammar),
            _ => self.base_type_or_name(),
        }
    }

    /// 29 and 41.
    pub(super) fn expression(&mut self) -> Parsed {
        self.binary(rule::OR_EXPR)
    }

    /// 30 to 35: the operators of this rule and of those after it, which bind tighter, each grouping to the left.
    fn binary(&mut self, loosest: u32) -> Parsed {
        let node = self.begin();
        self.unary()?;
        loop {
            let operator = operator_rule(self.kind);
            if operator < loosest {
                return Ok(());
            }
            self.take();
            self.binary(operator + 1)?;
            self.record(operator, node);
        }
    }

    /// 36 and 37.
    fn unary(&mut self) -> Parsed {
        let node = self.begin();
        if !matches!(self.kind, MINUS | PLUS | TILDE) {
            return self.primary();
        }
        self.leaf(rule::UNARY_OPERATOR)?;
        self.primary()?;
        self.record(rule::UNARY_EXPR, node);
        Ok(())
    }

    /// 38 to 40.
    fn primary(&mut self) -> Parsed {
        let node = self.begin();
        match self.kind {
            IDENTIFIER | SCOPE => self.scoped_name(),
            INTEGER | FLOATING | FIXED_POINT | CHARACTER | WIDE_CHARACTER => self.leaf(rule::LITERAL),
            STRING_LITERAL | WIDE_STRING => {
                self.string_literal(self.kind)?;
                self.record(rule::LITERAL, node);
                Ok(())
            }
            TRUE | FALSE => self.leaf(rule::BOOLEAN_LITERAL),
            _ => {
                self.open(LEFT_PARENTHESIS)?;
                self.expression()?;
                self.close(RIGHT_PARENTHESIS)?;
                self.record(rule::PRIMARY_EXPR, node);
                Ok(())
            }
        }
    }
}

/// The rule that a binary operator belongs to, or 0 for any other token.
fn operator_rule(kind: u32) -> u32 {
    match kind {
        BAR => rule::OR_EXPR,
        CARET => rule::XOR_EXPR,
        AMPERSAND => rule::AND_EXPR,
        SHIFT_RIGHT | SHIFT_LEFT => rule::SHIFT_EXPR,
        PLUS | MINUS => rule::ADD_EXPR,
        STAR | SLASH | PERCENT => rule::MULT_EXPR,
        _ => 0,
    }
}
