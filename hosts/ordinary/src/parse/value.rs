//! Value types.

use super::{Node, Parsed, Parser, Stop};
use crate::kind::*;
use crate::rule;

impl Parser<'_> {
    /// 14 and 16, from the word `valuetype` on.
    pub(super) fn abstract_value(&mut self, node: Node) -> Parsed {
        self.expect(VALUETYPE)?;
        self.expect(IDENTIFIER)?;
        match self.kind {
            COLON | SUPPORTS => self.value_inheritance()?,
            LEFT_BRACE => {}
            _ => {
                self.record(rule::VALUE_FORWARD_DCL, node);
                return Ok(());
            }
        }
        self.open(LEFT_BRACE)?;
        self.exports()?;
        self.close(RIGHT_BRACE)?;
        self.record(rule::VALUE_ABS_DCL, node);
        Ok(())
    }

    pub(super) fn custom_value(&mut self) -> Parsed {
        let node = self.begin();
        self.expect(CUSTOM)?;
        self.expect(VALUETYPE)?;
        self.expect(IDENTIFIER)?;
        self.value_body(node)
    }

    /// 14, 15, 17 and 18, where the word `valuetype` stands first.
    pub(super) fn value(&mut self) -> Parsed {
        let node = self.begin();
        self.expect(VALUETYPE)?;
        self.expect(IDENTIFIER)?;
        match self.kind {
            COLON | SUPPORTS | LEFT_BRACE => self.value_body(node)?,
            SEMICOLON => self.record(rule::VALUE_FORWARD_DCL, node),
            _ => {
                self.type_spec()?;
                self.record(rule::VALUE_BOX_DCL, node);
            }
        }
        Ok(())
    }

    /// 17 and 18, from behind the name.
    fn value_body(&mut self, node: Node) -> Parsed {
        if matches!(self.kind, COLON | SUPPORTS) {
            self.value_inheritance()?;
        }
        if self.kind != LEFT_BRACE {
            return Err(Stop::Grammar);
        }
        self.record(rule::VALUE_HEADER, node);
        self.open(LEFT_BRACE)?;
        while self.kind != RIGHT_BRACE {
            self.value_element()?;
        }
        self.close(RIGHT_BRACE)?;
        self.record(rule::VALUE_DCL, node);
        Ok(())
    }

    /// 19, of which at least one half stands here.
    fn value_inheritance(&mut self) -> Parsed {
        let node = self.begin();
        if self.accept(COLON) {
            self.accept(TRUNCATABLE);
            self.list(Self::scoped_name)?;
        }
        if self.accept(SUPPORTS) {
            self.list(Self::scoped_name)?;
        }
        self.record(rule::VALUE_INHERITANCE_SPEC, node);
        Ok(())
    }

    /// 21.
    fn value_element(&mut self) -> Parsed {
        match self.kind {
            PUBLIC | PRIVATE => self.state_member(),
            FACTORY => self.factory(),
            _ => self.export(),
        }
    }

    /// 22.
    fn state_member(&mut self) -> Parsed {
        let node = self.begin();
        self.take();
        self.type_spec()?;
        self.declarators()?;
        self.expect(SEMICOLON)?;
        self.record(rule::STATE_MEMBER, node);
        Ok(())
    }

    /// 23 and 24.
    fn factory(&mut self) -> Parsed {
        let node = self.begin();
        self.expect(FACTORY)?;
        self.expect(IDENTIFIER)?;
        self.open(LEFT_PARENTHESIS)?;
        if self.kind != RIGHT_PARENTHESIS {
            let parameters = self.begin();
            if self.list(Self::factory_parameter)? > 1 {
                self.record(rule::INIT_PARAM_DECLS, parameters);
            }
        }
        self.close(RIGHT_PARENTHESIS)?;
        self.expect(SEMICOLON)?;
        self.record(rule::INIT_DCL, node);
        Ok(())
    }

    /// 25 and 26.
    fn factory_parameter(&mut self) -> Parsed {
        let node = self.begin();
        match self.kind {
            IN => self.leaf(rule::INIT_PARAM_ATTRIBUTE)?,
            _ => return Err(Stop::Grammar),
        }
        self.parameter_type()?;
        self.simple_declarator()?;
        self.record(rule::INIT_PARAM_DECL, node);
        Ok(())
    }
}
