"""The grammar of a unit (C11 6.5 to 6.9 with the GNU forms), a symbol a line, and the tokens with which each row may begin.

A quoted word is a token; `-` is the empty row; a word in braces is something that the reader does there. Rows are tried in order:
one is taken where the next token can begin it, an empty one where no other is; one that may be empty and has parts, where the next
token can begin it or follow the symbol. A look in square brackets stands in place of that.
"""
import re
from typing import NamedTuple

TEXT = """
Unit = External Unit | -
External = ';' | Assertion | {begin} Specifiers {of_file} ExternalRest {end}
ExternalRest = {alone} ';' | {typed} Declarator {bind} AttributeLists BodyOrMore
BodyOrMore = {body} Body | Initial Further ';'
Initial = '=' Initializer | -
Further = ',' AttributeLists Declarator {bind} AttributeLists {note} Initial Further | -
Specifiers = Storage {specifier} Specifiers | Qualifier {specifier} Specifiers | AttributeList Specifiers | TypeWord {specifier} TypedSpecifiers
    | Aggregate {whole} TypedSpecifiers | Enumeration {whole} TypedSpecifiers | Typeof {whole} TypedSpecifiers | tname {whole} TypedSpecifiers | -
TypedSpecifiers = Storage {specifier} TypedSpecifiers | Qualifier {specifier} TypedSpecifiers | AttributeList TypedSpecifiers
    | TypeWord {specifier} TypedSpecifiers | -
Storage = 'typedef' | 'extern' | 'static' | 'auto' | 'register' | 'inline' | '_Noreturn'
Qualifier = 'const' | 'volatile' | 'restrict'
TypeWord = 'void' | 'char' | 'short' | 'int' | 'long' | 'signed' | 'unsigned' | '_Bool'
Aggregate = 'struct' AttributeLists TagOrMembers | 'union' AttributeLists TagOrMembers
TagOrMembers = name OptionalMembers | '{' Members '}'
OptionalMembers = '{' Members '}' | -
Members = Member Members | -
Member = ';' | Assertion | {begin} Specifiers {without_storage} MemberDeclarators ';' {end}
MemberDeclarators = {typed} MemberDeclarator FurtherMembers | {alone}
FurtherMembers = ',' MemberDeclarator FurtherMembers | -
MemberDeclarator = ':' Conditional AttributeLists | Declarator {drop} Width AttributeLists
Width = ':' Conditional | -
Enumeration = 'enum' AttributeLists TagOrEnumerators
TagOrEnumerators = name OptionalEnumerators | '{' Enumerator FurtherEnumerators '}'
OptionalEnumerators = '{' Enumerator FurtherEnumerators '}' | -
Enumerator = name {held} AttributeLists EnumeratorValue {enumerator}
EnumeratorValue = '=' Conditional | -
FurtherEnumerators = ',' NextEnumerator | -
NextEnumerator = Enumerator FurtherEnumerators | -
AttributeLists = AttributeList AttributeLists | -
AttributeList = '__attribute__' {listed} '(' '(' Attribute FurtherAttributes ')' ')' {attributes}
FurtherAttributes = ',' Attribute FurtherAttributes | -
Attribute = word AttributeArguments | -
AttributeArguments = '(' {spare} Balanced {heed} ')' | -
Balanced = '(' Balanced ')' Balanced | other Balanced | - [')']
Typeof = 'typeof' '(' TypeofOperand ')'
TypeofOperand = TypeName [START] | Expression
TypeName = {begin} Specifiers {without_storage} {typed} AnyDeclarator {unnamed} {end}
Declarator = {stars} Pointers Direct {declarator}
Pointers = '*' PointerQualifiers {pointer} Pointers | -
PointerQualifiers = Qualifier PointerQualifiers | AttributeList PointerQualifiers | -
Direct = name {named} Suffixes | '(' AttributeLists Declarator ')' Suffixes
Suffixes = '[' {bracket} ArraySize ']' {array} Suffixes | '(' {open} {list} Parameters ')' {ended} {function} Suffixes | -
ArraySize = - [']'] | Assignment
Parameters = - [')'] | Parameter FurtherParameters
FurtherParameters = ',' NextParameter | -
NextParameter = '...' | Parameter FurtherParameters
Parameter = {count} {begin} Specifiers {of_parameter} AnyDeclarator {parameter} AttributeLists {end}
AnyDeclarator = {stars} Pointers AnyDirect {declarator}
AnyDirect = name {named} Suffixes | {nameless} Suffixes [ANY] | '(' AttributeLists AnyDeclarator ')' Suffixes
Initializer = '{' Initializers '}' | Assignment
Initializers = InitializerItem FurtherInitializers | - ['}']
FurtherInitializers = ',' Initializers | -
InitializerItem = Designator FurtherDesignators '=' Initializer | Initializer
Designator = '.' name | '[' Conditional {range} ']'
FurtherDesignators = Designator FurtherDesignators | -
Assertion = '_Static_assert' '(' Conditional ',' Strings ')' ';'
Body = '{' {scope} Items '}' {leave}
Items = Item Items | - ['}']
Item = Statement [LABEL] | Assertion | Declaration [START] | Statement
Declaration = {begin} Specifiers {of_block} Declarators {end}
Declarators = {alone} ';' | {typed} Declarator {bind} AttributeLists {note} Initial Further ';'
Statement = name ':' Statement [LABEL] | 'case' Conditional {case} ':' Statement | 'default' ':' Statement | Body
    | 'if' '(' Expression ')' Statement Else | 'switch' '(' Expression ')' Statement | 'while' '(' Expression ')' Statement
    | 'do' Statement 'while' '(' Expression ')' ';' | 'for' {scope} '(' ForFirst OptionalExpression ';' OptionalExpression ')' Statement {leave}
    | 'goto' {goto} name ';' | 'continue' ';' | 'break' ';' | 'return' OptionalExpression ';'
    | '__context__' {context} '(' {spare} Balanced {heed} ')' ';' {change} | AttributeList AttributeLists ';' | OptionalExpression ';'
Else = 'else' Statement | -
ForFirst = Declaration [START] | OptionalExpression ';'
OptionalExpression = - [';' ')'] | Expression
Expression = Assignment CommaTail
CommaTail = ',' Assignment CommaTail | -
Assignment = Conditional AssignmentTail
AssignmentTail = AssignmentOperator Assignment | -
AssignmentOperator = '=' | '*=' | '/=' | '%=' | '+=' | '-=' | '<<=' | '>>=' | '&=' | '^=' | '|='
Conditional = Or ConditionalTail
ConditionalTail = '?' Middle ':' Conditional | -
Middle = - [':'] | Expression
Or = And OrTail
OrTail = '||' And OrTail | -
And = BitOr AndTail
AndTail = '&&' BitOr AndTail | -
BitOr = BitXor BitOrTail
BitOrTail = '|' BitXor BitOrTail | -
BitXor = BitAnd BitXorTail
BitXorTail = '^' BitAnd BitXorTail | -
BitAnd = Equality BitAndTail
BitAndTail = '&' Equality BitAndTail | -
Equality = Order EqualityTail
EqualityTail = '==' Order EqualityTail | '!=' Order EqualityTail | -
Order = Shift OrderTail
OrderTail = '<' Shift OrderTail | '>' Shift OrderTail | '<=' Shift OrderTail | '>=' Shift OrderTail | -
Shift = Sum ShiftTail
ShiftTail = '<<' Sum ShiftTail | '>>' Sum ShiftTail | -
Sum = Product SumTail
SumTail = '+' Product SumTail | '-' Product SumTail | -
Product = Cast ProductTail
ProductTail = '*' Cast ProductTail | '/' Cast ProductTail | '%' Cast ProductTail | -
Cast = '(' TypeName ')' CastOperand [TYPED] | Unary
CastOperand = Braced PostfixTail | Cast
Braced = '{' Initializers '}'
Unary = '&' Cast | '*' Cast | '+' Cast | '-' Cast | '~' Cast | '!' Cast | '++' Unary | '--' Unary | 'sizeof' SizeofOperand
    | '_Alignof' '(' TypeName ')' | Primary PostfixTail
SizeofOperand = '(' TypeName ')' SizeofRest [TYPED] | Unary
SizeofRest = Braced PostfixTail | -
PostfixTail = '[' Expression ']' PostfixTail | '(' {list} Arguments ')' {ended} PostfixTail | '.' name PostfixTail | '->' name PostfixTail
    | '++' PostfixTail | '--' PostfixTail | -
Arguments = - [')'] | {count} Assignment FurtherArguments
FurtherArguments = ',' {count} Assignment FurtherArguments | -
Primary = ident {use} | number {number} | character {character} | Strings | '(' ParenthesizedRest
    | '__builtin_expect' '(' Assignment ',' Assignment ')' | '__builtin_offsetof' '(' TypeName ',' name OffsetofTail ')'
OffsetofTail = '.' name OffsetofTail | '[' Expression ']' OffsetofTail | -
ParenthesizedRest = Body ')' | Expression ')'
Strings = string {piece} FurtherStrings {strings}
FurtherStrings = string {piece} FurtherStrings | -
"""

# Classes of tokens that no spelling is, and the end.
END = "end"
CLASSES = {"name", "ident", "tname", "word", "other", "number", "character", "string", END}
ITEM = re.compile(r"'(?P<token>[^']+)'|\{(?P<action>\w+)\}|\[(?P<look>[^\]]*(?:'\]'[^\]]*)?)\](?!')|(?P<symbol>[A-Za-z]\w*)|(?P<empty>-)(?!>)")


class Row(NamedTuple):
    """The items of a row: tokens and classes, symbols, and actions in braces; and its own look, where it has one."""

    items: tuple
    look: str


def rows_of(text):
    found = []
    for row in re.split(r" \| ", text):
        items, look = [], None
        for item in ITEM.finditer(row):
            if item["token"]:
                items.append(("token", item["token"]))
            elif item["action"]:
                items.append(("action", item["action"]))
            elif item["look"] is not None:
                look = item["look"].strip()
            elif item["symbol"]:
                items.append(("token" if item["symbol"] in CLASSES else "symbol", item["symbol"]))
        found.append(Row(tuple(items), look))
    return found


def grammar():
    """The rows of each symbol."""
    lines = re.sub(r"\n    \| ", " | ", TEXT.strip()).split("\n")
    return {symbol: rows_of(rows) for symbol, rows in (line.split(" = ", 1) for line in lines)}


ROWS = grammar()
assert all(name in ROWS for rows in ROWS.values() for row in rows for kind, name in row.items if kind == "symbol")


def parts(row):
    return [item for item in row.items if item[0] != "action"]


def closed(step):
    """What a step comes to that only adds to sets, once it adds no more."""
    while step():
        pass


def nullable_symbols():
    found = set()

    def step():
        before = len(found)
        for symbol, rows in ROWS.items():
            if any(all(kind == "symbol" and name in found for kind, name in parts(row)) for row in rows):
                found.add(symbol)
        return len(found) > before

    closed(step)
    return found


NULLABLE = nullable_symbols()


def first_of(items, firsts):
    """What items may begin with, and whether they may be empty."""
    found = set()
    for kind, name in items:
        if kind == "token":
            return found | {name}, False
        found |= firsts[name]
        if name not in NULLABLE:
            return found, False
    return found, True


def first_sets():
    firsts = {symbol: set() for symbol in ROWS}

    def step():
        before = sum(map(len, firsts.values()))
        for symbol, rows in ROWS.items():
            for row in rows:
                firsts[symbol] |= first_of(parts(row), firsts)[0]
        return sum(map(len, firsts.values())) > before

    closed(step)
    return firsts


FIRSTS = first_sets()


def follow_sets():
    follows = {symbol: set() for symbol in ROWS}
    follows["Unit"].add(END)

    def step():
        before = sum(map(len, follows.values()))
        for symbol, rows in ROWS.items():
            for row in rows:
                items = parts(row)
                for at, (kind, name) in enumerate(items):
                    if kind == "symbol":
                        behind, is_empty = first_of(items[at + 1 :], FIRSTS)
                        follows[name] |= behind | (follows[symbol] if is_empty else set())
        return sum(map(len, follows.values())) > before

    closed(step)
    return follows


FOLLOWS = follow_sets()
# What begins a type's specifiers.
START = FIRSTS["Specifiers"]
