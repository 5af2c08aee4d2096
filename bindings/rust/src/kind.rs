//! The kinds of nodes and tokens.
#![forbid(unsafe_code)]

use std::fmt;
use std::sync::Arc;

macro_rules! kinds {
    ($($variant:ident $name:literal,)*) => {
        /// The kind of a node or a token: a name. Any kind can be a node's or a token's. Those that have a name from the
        /// start are a part of rust-analyzer's.
        ///
        /// ```
        /// use syned::Kind;
        ///
        /// assert_eq!(Kind::ArgList.name(), "ARG_LIST");
        /// assert_eq!(Kind::ALL.len(), 65);
        /// assert_eq!(Kind::new("ARG_LIST"), Some(Kind::ArgList));
        /// assert_eq!(Kind::new("call_expression").unwrap().name(), "call_expression");
        /// assert_eq!(Kind::new("+="), None);
        /// ```
        #[derive(Clone, Debug, PartialEq, Eq, PartialOrd, Ord, Hash)]
        pub enum Kind {
            $(#[doc = concat!("`", $name, "`")] $variant,)*
            /// Any other, which [`Kind::new`] makes.
            Own(OwnKind),
        }

        impl Kind {
            /// All that have a name from the start, in the order of their numbers.
            pub const ALL: [Kind; 65] = [$(Kind::$variant,)*];

            /// The kind of this name, unless none can have it: it has ASCII letters, digits and underscores, and one at
            /// least.
            pub fn new(name: &str) -> Option<Kind> {
                match name {
                    $($name => Some(Kind::$variant),)*
                    _ => {
                        let is_name = |byte: u8| byte.is_ascii_alphanumeric() || byte == b'_';
                        let fits = !name.is_empty() && name.bytes().all(is_name);
                        fits.then(|| Kind::Own(OwnKind(name.into())))
                    }
                }
            }

            /// Its name in a script.
            pub fn name(&self) -> &str {
                match self {
                    $(Kind::$variant => $name,)*
                    Kind::Own(kind) => &kind.0,
                }
            }
        }
    };
}

/// The name of a kind that [`Kind`] lacks.
#[derive(Clone, Debug, PartialEq, Eq, PartialOrd, Ord, Hash)]
pub struct OwnKind(Arc<str>);

impl OwnKind {
    /// The name.
    pub fn name(&self) -> &str {
        &self.0
    }
}

impl Kind {
    /// A kind by the name that others call it by, which may be any text: the same if a kind can have it, else with `_` and
    /// a number in hexadecimal digits for each other character.
    ///
    /// ```
    /// use syned::Kind;
    ///
    /// assert_eq!(Kind::spelled("+=").name(), "_2B_3D");
    /// assert_eq!(Kind::spelled("COMMA"), Kind::Comma);
    /// ```
    pub fn spelled(name: &str) -> Kind {
        let mut spelled = String::new();
        for c in name.chars() {
            if c.is_ascii_alphanumeric() || c == '_' {
                spelled.push(c);
            } else {
                spelled.push_str(&format!("_{:X}", u32::from(c)));
            }
        }
        Kind::new(&spelled).unwrap_or_else(|| Kind::Own(OwnKind("_".into())))
    }
}

kinds! {
    Whitespace "WHITESPACE",
    Comment "COMMENT",
    DocComment "DOC_COMMENT",
    Semicolon "SEMICOLON",
    Comma "COMMA",
    LParen "L_PAREN",
    RParen "R_PAREN",
    LCurly "L_CURLY",
    RCurly "R_CURLY",
    LBrack "L_BRACK",
    RBrack "R_BRACK",
    LAngle "L_ANGLE",
    RAngle "R_ANGLE",
    Amp "AMP",
    Pound "POUND",
    Underscore "UNDERSCORE",
    Eq "EQ",
    FatArrow "FAT_ARROW",
    ThinArrow "THIN_ARROW",
    Plus "PLUS",
    Ident "IDENT",
    IntNumber "INT_NUMBER",
    LifetimeIdent "LIFETIME_IDENT",
    TrueKw "TRUE_KW",
    LetKw "LET_KW",
    FnKw "FN_KW",
    UseKw "USE_KW",
    SourceFile "SOURCE_FILE",
    ArgList "ARG_LIST",
    Literal "LITERAL",
    TupleExpr "TUPLE_EXPR",
    BinExpr "BIN_EXPR",
    BlockExpr "BLOCK_EXPR",
    StmtList "STMT_LIST",
    ItemList "ITEM_LIST",
    LetStmt "LET_STMT",
    ExprStmt "EXPR_STMT",
    IdentPat "IDENT_PAT",
    WildcardPat "WILDCARD_PAT",
    Name "NAME",
    NameRef "NAME_REF",
    MatchArm "MATCH_ARM",
    MatchArmList "MATCH_ARM_LIST",
    ParamList "PARAM_LIST",
    RetType "RET_TYPE",
    TupleType "TUPLE_TYPE",
    Attr "ATTR",
    Lifetime "LIFETIME",
    GenericArgList "GENERIC_ARG_LIST",
    Use "USE",
    Const "CONST",
    Enum "ENUM",
    ExternBlock "EXTERN_BLOCK",
    ExternCrate "EXTERN_CRATE",
    Fn "FN",
    Impl "IMPL",
    MacroCall "MACRO_CALL",
    MacroDef "MACRO_DEF",
    MacroRules "MACRO_RULES",
    Module "MODULE",
    Static "STATIC",
    Struct "STRUCT",
    Trait "TRAIT",
    TypeAlias "TYPE_ALIAS",
    Union "UNION",
}

/// Its name in a script.
impl fmt::Display for Kind {
    fn fmt(&self, f: &mut fmt::Formatter<'_>) -> fmt::Result {
        f.write_str(self.name())
    }
}
