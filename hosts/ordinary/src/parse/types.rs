//! Types and declarators.

use super::{Node, Parsed, Parser, Stop};
use crate::kind::*;
use crate::rule;

/// Whether a struct or union may stand without its body.
#[derive(Clone, Copy, PartialEq, Eq)]
enum Forward {
    Allowed,
    Refused,
}

impl Parser<'_> {
    /// 42.
    pub(super) fn type_declaration(&mut self) -> Parsed {
        let node = self.begin();
        match self.kind {
            STRUCT => return self.structure(Forward::Allowed),
            UNION => return self.union(Forward::Allowed),
            ENUM => return self.enumeration(),
            NATIVE => {
                self.take();
                self.simple_declarator()?;
            }
            _ => {
                self.expect(TYPEDEF)?;
                self.type_declarator()?;
            }
        }
        self.record(rule::TYPE_DCL, node);
        Ok(())
    }

    /// 43.
    fn type_declarator(&mut self) -> Parsed {
        let node = self.begin();
        self.type_spec()?;
        self.declarators()?;
        self.record(rule::TYPE_DECLARATOR, node);
        Ok(())
    }

    /// 44 and 48.
    pub(super) fn type_spec(&mut self) -> Parsed {
        match self.kind {
            STRUCT => self.structure(Forward::Refused),
            UNION => self.union(Forward::Refused),
            ENUM => self.enumeration(),
            _ => self.simple_type(),
        }
    }

    /// 45 and 47.
    #[inline(always)]
    fn simple_type(&mut self) -> Parsed {
        match self.kind {
            SEQUENCE => self.sequence(),
            STRING | WSTRING => self.string_type(),
            FIXED => self.fixed_type(),
            _ => self.base_type_or_name(),
        }
    }

    /// 95.
    pub(super) fn parameter_type(&mut self) -> Parsed {
        match self.kind {
            STRING | WSTRING => self.string_type(),
            _ => self.base_type_or_name(),
        }
    }

    /// 46, or a name.
    #[inline(always)]
    pub(super) fn base_type_or_name(&mut self) -> Parsed {
        match self.kind {
            IDENTIFIER | SCOPE => self.scoped_name(),
            FLOAT | DOUBLE => self.leaf(rule::FLOATING_PT_TYPE),
            LONG => self.long_type(true),
            SHORT | UNSIGNED => self.integer_type(),
            CHAR => self.leaf(rule::CHAR_TYPE),
            WCHAR => self.leaf(rule::WIDE_CHAR_TYPE),
            BOOLEAN => self.leaf(rule::BOOLEAN_TYPE),
            OCTET => self.leaf(rule::OCTET_TYPE),
            ANY => self.leaf(rule::ANY_TYPE),
            OBJECT => self.leaf(rule::OBJECT_TYPE),
            VALUE_BASE => self.leaf(rule::VALUE_BASE_TYPE),
            _ => Err(Stop::Grammar),
        }
    }

    /// 54 to 62.
    fn integer_type(&mut self) -> Parsed {
        match self.kind {
            SHORT => self.leaf(rule::SIGNED_SHORT_INT),
            LONG => self.long_type(false),
            _ => self.unsigned_type(),
        }
    }

    /// 57 and 58; and 53, where a `double` may follow.
    fn long_type(&mut self, double_allowed: bool) -> Parsed {
        let node = self.begin();
        self.expect(LONG)?;
        let rule = match self.kind {
            LONG => rule::SIGNED_LONGLONG_INT,
            DOUBLE if double_allowed => rule::FLOATING_PT_TYPE,
            _ => rule::SIGNED_LONG_INT,
        };
        if rule != rule::SIGNED_LONG_INT {
            self.take();
        }
        self.record(rule, node);
        Ok(())
    }

    /// 59 to 62.
    fn unsigned_type(&mut self) -> Parsed {
        let node = self.begin();
        self.expect(UNSIGNED)?;
        if self.accept(SHORT) {
            self.record(rule::UNSIGNED_SHORT_INT, node);
            return Ok(());
        }
        self.expect(LONG)?;
        let rule = if self.accept(LONG) { rule::UNSIGNED_LONGLONG_INT } else { rule::UNSIGNED_LONG_INT };
        self.record(rule, node);
        Ok(())
    }

    /// 80.
    fn sequence(&mut self) -> Parsed {
        let node = self.begin();
        self.expect(SEQUENCE)?;
        self.open(LESS)?;
        self.simple_type()?;
        if self.accept(COMMA) {
            self.expression()?;
        }
        self.close(GREATER)?;
        self.record(rule::SEQUENCE_TYPE, node);
        Ok(())
    }

    /// 81 and 82.
    pub(super) fn string_type(&mut self) -> Parsed {
        let node = self.begin();
        let rule = if self.kind == STRING { rule::STRING_TYPE } else { rule::WIDE_STRING_TYPE };
        self.take();
        if self.kind == LESS {
            self.open(LESS)?;
            self.expression()?;
            self.close(GREATER)?;
        }
        self.record(rule, node);
        Ok(())
    }

    /// 96.
    fn fixed_type(&mut self) -> Parsed {
        let node = self.begin();
        self.expect(FIXED)?;
        self.open(LESS)?;
        self.expression()?;
        self.expect(COMMA)?;
        self.expression()?;
        self.close(GREATER)?;
        self.record(rule::FIXED_PT_TYPE, node);
        Ok(())
    }

    /// 49.
    pub(super) fn declarators(&mut self) -> Parsed {
        let node = self.begin();
        if self.list(Self::declarator)? > 1 {
            self.record(rule::DECLARATORS, node);
        }
        Ok(())
    }

    /// 50.
    #[inline(always)]
    fn declarator(&mut self) -> Parsed {
        let node = self.begin();
        self.expect(IDENTIFIER)?;
        if self.kind == LEFT_BRACKET {
            return self.array_sizes(node);
        }
        self.record(rule::SIMPLE_DECLARATOR, node);
        Ok(())
    }

    /// 52, 83 and 84, from behind the name.
    #[inline(never)]
    fn array_sizes(&mut self, node: Node) -> Parsed {
        while self.kind == LEFT_BRACKET {
            let size = self.begin();
            self.open(LEFT_BRACKET)?;
            self.expression()?;
            self.close(RIGHT_BRACKET)?;
            self.record(rule::FIXED_ARRAY_SIZE, size);
        }
        self.record(rule::ARRAY_DECLARATOR, node);
        Ok(())
    }

    /// 51.
    pub(super) fn simple_declarator(&mut self) -> Parsed {
        self.identifier(rule::SIMPLE_DECLARATOR)
    }

    /// A rule whose right side is an identifier.
    fn identifier(&mut self, rule: u32) -> Parsed {
        if self.kind != IDENTIFIER {
            return Err(Stop::Grammar);
        }
        self.leaf(rule)
    }

    /// 69 and 70; and 99, where the body may be absent.
    fn structure(&mut self, forward: Forward) -> Parsed {
        let node = self.begin();
        self.expect(STRUCT)?;
        self.expect(IDENTIFIER)?;
        if forward == Forward::Allowed && self.kind != LEFT_BRACE {
            self.record(rule::CONSTR_FORWARD_DECL, node);
            return Ok(());
        }
        self.open(LEFT_BRACE)?;
        let members = self.begin();
        self.member()?;
        if self.kind != RIGHT_BRACE {
            self.members()?;
            self.record(rule::MEMBER_LIST, members);
        }
        self.close(RIGHT_BRACE)?;
        self.record(rule::STRUCT_TYPE, node);
        Ok(())
    }

    fn members(&mut self) -> Parsed {
        while self.kind != RIGHT_BRACE {
            self.member()?;
        }
        Ok(())
    }

    /// 71.
    fn member(&mut self) -> Parsed {
        let node = self.begin();
        self.type_spec()?;
        self.declarators()?;
        self.expect(SEMICOLON)?;
        self.record(rule::MEMBER, node);
        Ok(())
    }

    /// 72 and 74; and 99, where the rest may be absent.
    fn union(&mut self, forward: Forward) -> Parsed {
        let node = self.begin();
        self.expect(UNION)?;
        self.expect(IDENTIFIER)?;
        if forward == Forward::Allowed && self.kind != SWITCH {
            self.record(rule::CONSTR_FORWARD_DECL, node);
            return Ok(());
        }
        self.expect(SWITCH)?;
        self.open(LEFT_PARENTHESIS)?;
        self.switch_type()?;
        self.close(RIGHT_PARENTHESIS)?;
        self.open(LEFT_BRACE)?;
        self.switch_body()?;
        self.close(RIGHT_BRACE)?;
        self.record(rule::UNION_TYPE, node);
        Ok(())
    }

    /// 73.
    fn switch_type(&mut self) -> Parsed {
        match self.kind {
            CHAR => self.leaf(rule::CHAR_TYPE),
            BOOLEAN => self.leaf(rule::BOOLEAN_TYPE),
            ENUM => self.enumeration(),
            IDENTIFIER | SCOPE => self.scoped_name(),
            _ => self.integer_type(),
        }
    }

    /// 74.
    fn switch_body(&mut self) -> Parsed {
        let node = self.begin();
        self.case()?;
        if self.kind == RIGHT_BRACE {
            return Ok(());
        }
        while self.kind != RIGHT_BRACE {
            self.case()?;
        }
        self.record(rule::SWITCH_BODY, node);
        Ok(())
    }

    /// 75 and 77.
    fn case(&mut self) -> Parsed {
        let node = self.begin();
        self.case_label()?;
        while matches!(self.kind, CASE | DEFAULT) {
            self.case_label()?;
        }
        let element = self.begin();
        self.type_spec()?;
        self.declarator()?;
        self.record(rule::ELEMENT_SPEC, element);
        self.expect(SEMICOLON)?;
        self.record(rule::CASE, node);
        Ok(())
    }

    /// 76.
    fn case_label(&mut self) -> Parsed {
        let node = self.begin();
        if !self.accept(DEFAULT) {
            self.expect(CASE)?;
            self.expression()?;
        }
        self.expect(COLON)?;
        self.record(rule::CASE_LABEL, node);
        Ok(())
    }

    /// 78.
    fn enumeration(&mut self) -> Parsed {
        let node = self.begin();
        self.expect(ENUM)?;
        self.expect(IDENTIFIER)?;
        self.open(LEFT_BRACE)?;
        self.list(|parser| parser.identifier(rule::ENUMERATOR))?;
        self.close(RIGHT_BRACE)?;
        self.record(rule::ENUM_TYPE, node);
        Ok(())
    }

    /// 86.
    pub(super) fn exception(&mut self) -> Parsed {
        let node = self.begin();
        self.expect(EXCEPTION)?;
        self.expect(IDENTIFIER)?;
        self.open(LEFT_BRACE)?;
        self.members()?;
        self.close(RIGHT_BRACE)?;
        self.record(rule::EXCEPT_DCL, node);
        Ok(())
    }
}
