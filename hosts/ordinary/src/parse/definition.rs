//! Modules, interfaces, attributes and operations.

use super::{Node, Parsed, Parser, Stop};
use crate::kind::*;
use crate::rule;

impl Parser<'_> {
    /// 1.
    pub fn specification(&mut self) -> Parsed {
        let node = self.begin();
        self.definition()?;
        while !self.at_end() {
            self.definition()?;
        }
        self.record(rule::SPECIFICATION, node);
        Ok(())
    }

    /// 2.
    fn definition(&mut self) -> Parsed {
        let node = self.begin();
        match self.kind {
            CONST => self.constant()?,
            EXCEPTION => self.exception()?,
            MODULE => self.module()?,
            LOCAL | INTERFACE => self.local_interface()?,
            ABSTRACT => self.abstract_definition()?,
            CUSTOM => self.custom_value()?,
            VALUETYPE => self.value()?,
            _ => self.type_declaration()?,
        }
        self.expect(SEMICOLON)?;
        self.record(rule::DEFINITION, node);
        Ok(())
    }

    /// 3.
    fn module(&mut self) -> Parsed {
        let node = self.begin();
        self.expect(MODULE)?;
        self.expect(IDENTIFIER)?;
        self.open(LEFT_BRACE)?;
        self.definition()?;
        while self.kind != RIGHT_BRACE {
            self.definition()?;
        }
        self.close(RIGHT_BRACE)?;
        self.record(rule::MODULE, node);
        Ok(())
    }

    fn abstract_definition(&mut self) -> Parsed {
        let node = self.begin();
        self.expect(ABSTRACT)?;
        match self.kind {
            VALUETYPE => self.abstract_value(node),
            _ => self.interface(node),
        }
    }

    fn local_interface(&mut self) -> Parsed {
        let node = self.begin();
        self.accept(LOCAL);
        self.interface(node)
    }

    /// 4 to 7, from the word `interface` on.
    fn interface(&mut self, node: Node) -> Parsed {
        self.expect(INTERFACE)?;
        self.expect(IDENTIFIER)?;
        match self.kind {
            COLON => self.interface_inheritance()?,
            LEFT_BRACE => {}
            _ => {
                self.record(rule::FORWARD_DCL, node);
                return Ok(());
            }
        }
        self.record(rule::INTERFACE_HEADER, node);
        self.open(LEFT_BRACE)?;
        let body = self.begin();
        self.exports()?;
        self.record(rule::INTERFACE_BODY, body);
        self.close(RIGHT_BRACE)?;
        self.record(rule::INTERFACE_DCL, node);
        Ok(())
    }

    /// 10.
    fn interface_inheritance(&mut self) -> Parsed {
        let node = self.begin();
        self.expect(COLON)?;
        self.list(Self::scoped_name)?;
        self.record(rule::INTERFACE_INHERITANCE_SPEC, node);
        Ok(())
    }

    pub(super) fn exports(&mut self) -> Parsed {
        while self.kind != RIGHT_BRACE {
            self.export()?;
        }
        Ok(())
    }

    /// 9.
    pub(super) fn export(&mut self) -> Parsed {
        let node = self.begin();
        match self.kind {
            TYPEDEF | STRUCT | UNION | ENUM | NATIVE => self.type_declaration()?,
            CONST => self.constant()?,
            EXCEPTION => self.exception()?,
            READONLY | ATTRIBUTE => self.attribute()?,
            _ => self.operation()?,
        }
        self.expect(SEMICOLON)?;
        self.record(rule::EXPORT, node);
        Ok(())
    }

    /// 12: a record for the name, and one for each step after it.
    pub(super) fn scoped_name(&mut self) -> Parsed {
        let node = self.begin();
        self.accept(SCOPE);
        self.expect(IDENTIFIER)?;
        self.record(rule::SCOPED_NAME, node);
        while self.accept(SCOPE) {
            self.expect(IDENTIFIER)?;
            self.record(rule::SCOPED_NAME, node);
        }
        Ok(())
    }

    /// 85.
    fn attribute(&mut self) -> Parsed {
        let node = self.begin();
        self.accept(READONLY);
        self.expect(ATTRIBUTE)?;
        self.parameter_type()?;
        self.list(Self::simple_declarator)?;
        self.record(rule::ATTR_DCL, node);
        Ok(())
    }

    /// 87 to 89.
    fn operation(&mut self) -> Parsed {
        let node = self.begin();
        if self.kind == ONEWAY {
            self.leaf(rule::OP_ATTRIBUTE)?;
        }
        match self.kind {
            VOID => self.leaf(rule::OP_TYPE_SPEC)?,
            _ => self.parameter_type()?,
        }
        self.expect(IDENTIFIER)?;
        self.parameters()?;
        if self.kind == RAISES {
            self.raises()?;
        }
        if self.kind == CONTEXT {
            self.context()?;
        }
        self.record(rule::OP_DCL, node);
        Ok(())
    }

    /// 90.
    fn parameters(&mut self) -> Parsed {
        let node = self.begin();
        self.open(LEFT_PARENTHESIS)?;
        if self.kind != RIGHT_PARENTHESIS {
            self.list(Self::parameter)?;
        }
        self.close(RIGHT_PARENTHESIS)?;
        self.record(rule::PARAMETER_DCLS, node);
        Ok(())
    }

    /// 91 and 92.
    fn parameter(&mut self) -> Parsed {
        let node = self.begin();
        match self.kind {
            IN | OUT | INOUT => self.leaf(rule::PARAM_ATTRIBUTE)?,
            _ => return Err(Stop::Grammar),
        }
        self.parameter_type()?;
        self.simple_declarator()?;
        self.record(rule::PARAM_DCL, node);
        Ok(())
    }

    /// 93.
    fn raises(&mut self) -> Parsed {
        let node = self.begin();
        self.expect(RAISES)?;
        self.open(LEFT_PARENTHESIS)?;
        self.list(Self::scoped_name)?;
        self.close(RIGHT_PARENTHESIS)?;
        self.record(rule::RAISES_EXPR, node);
        Ok(())
    }

    /// 94.
    fn context(&mut self) -> Parsed {
        let node = self.begin();
        self.expect(CONTEXT)?;
        self.open(LEFT_PARENTHESIS)?;
        self.list(|parser| parser.string_literal(STRING_LITERAL))?;
        self.close(RIGHT_PARENTHESIS)?;
        self.record(rule::CONTEXT_EXPR, node);
        Ok(())
    }
}
