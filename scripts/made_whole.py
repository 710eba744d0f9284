"""Random units of all forms: structures, unions, enums, bit-fields, initializers, declarations that stand again, statements, labels.

Rules fail often; constraints are broken where a slip is made.
"""
from made_expressions import ASSIGNMENT, CAST, COMMA, CONDITIONAL, FIRST_OF_TWO, POSTFIX, PRIMARY, UNARY, Expression, written
from made_initializers import INT, POINTER, SCALARS, Aggregate, Array, Initializers, Scalar, declared, type_name
from made_judged import COMMON, KNOWN, LITERALS, MARKS, SHAPES, TYPES, WORD, Maker, Name, names, objects_of, postfix, primary, unary

# What stands behind the objects of expressions, a line each
AGGREGATES = """struct pair { int ma; int mb[2]; int mf : 3; int USER mu; };
struct other { int mz; le16 mh; };
struct unknown;
union word { int mi; unsigned char mc[4]; struct { short ml, mg : 5; }; const struct { int me; } md; };
struct wide { const int mk; char m2 : 2; unsigned m32 : 32; long m40 : 40; _Bool mt : 1; unsigned short m7 : 7; \
le32 mr; struct pair mp; int SPACE2 *ms; le16 *mq; struct { int mn; union { int mv; int USER mw; }; } NODEREF; int mx[]; };
enum num { E0, E1 = 5, E2 = -1 };
enum big { G0 = 5000000000, G1 };
enum rest { R0, R1 = (FORCE le32)1, R2 = (FORCE le32)6 };
extern struct pair x, y, xs[3];
extern struct pair *xp, **xpp;
extern struct pair USER *xu;
extern const struct pair kx;
extern struct other z, *zp;
extern union word w1, *wp;
extern struct wide wd, *wq;
extern struct wide SPACE1 *ws;
extern struct unknown *no;
extern enum num en;
extern enum big eb;
extern enum rest er;
extern struct pair give(void);
extern struct other *take(struct pair, int);
extern struct unknown lost(void);
extern void locks(int) __attribute__((context(0, 1)));
extern void unlocks(int) __attribute__((context(l, 1, 0)));
extern void ends(int) __attribute__((noreturn));
"""
MEMBERS = {
    "pair": {"int": ["ma", "mf", "mu"], "p": ["mb"]}, "other": {"int": ["mz", "mh"]}, "word": {"int": ["mi", "ml", "mg"], "p": ["mc"]},
    "wide": {"int": ["mk", "m2", "m32", "m40", "mt", "m7", "mr", "mn", "mv", "mw"], "p": ["ms", "mq", "mx"], "pair": ["mp"]},
}
VALUES = {
    "pair": ["x", "y", "kx", "* xp", "* xu", "xs [ 1 ]", "give ( )", "wq -> mp", "( x = y )", "( i ? x : y )", "* * xpp"],
    "other": ["z", "* zp", "* take ( x , 1 )"], "word": ["w1", "* wp"], "wide": ["wd", "* wq", "* ws"], "unknown": ["* no"],
}
POINTERS = {
    "pair": [
        "xp", "xu", "& x", "& kx", "xs", "* xpp", "& wd . mp", "& ws -> mp", "( xp + 1 )", "( xp = & y )",
    ], "other": ["zp", "& z", "take ( x , 1 )"],
    "word": ["wp", "& w1"], "wide": ["wq", "& wd", "ws"], "unknown": ["no"],
}
ENUMERATORS = ["E0", "E1", "E2", "G0", "G1", "R0", "R1", "R2"]
ALL_MEMBERS = sorted({name for of in MEMBERS.values() for names_of in of.values() for name in names_of} | {"md", "none_such"})
KINDS = [
    "int", "char", "unsigned char", "short", "unsigned", "long", "unsigned long", "_Bool", "signed char", "enum num", "enum big",
    "long long",
]
RESTRICTED = ["le32", "le16", "enum rest", "unsigned short BITWISE"]
# What `__builtin_offsetof` may ask for, and what it may not
OFFSETS = [
    "struct pair , ma", "struct pair , mb [ 1 ]", "struct wide , mp . mb [ 7 ]", "struct wide , mv", "union word , mc [ E1 ]",
    "struct wide , mx [ 3 ]", "struct pair , mb [ ( FORCE le32 ) 1 ]", "union word , md . me", "struct wide , mr", "struct pair , mb [ 'a' - 90 ]",
]
BAD_OFFSETS = [
    "struct pair , mf", "struct wide , m40", "struct pair , none_such", "struct pair , ma . mb", "struct pair , ma [ 1 ]",
    "struct pair , mb [ - 1 ]", "struct pair , mb [ i ]", "struct unknown , ma", "int , ma", "struct wide , ms [ 1 ]",
    "struct pair , mb [ p ]", "struct wide , mp . none_such", "struct pair , mb [ 274877906944 ]", "struct wide , mp . mf",
    "struct wide , mp . mf . ma", "struct pair , mb [ none ( ) ]", "void , ma",
]
# The bits of the kinds
BITS = {"int": 32, "char": 8, "unsigned char": 8, "short": 16, "unsigned": 32, "long": 64, "unsigned long": 64, "_Bool": 1,
        "signed char": 8, "enum num": 32, "enum big": 64, "long long": 64}
# The aggregates as objects to be initialized
PAIR = Aggregate("struct pair", (("ma", INT), ("mb", Array(INT, 2)), ("mf", INT), ("mu", Scalar("int USER", "int"))))
OTHER = Aggregate("struct other", (("mz", INT), ("mh", Scalar("le16", "int"))))
WORD_UNION = Aggregate("union word", (
    ("mi", INT), ("mc", Array(Scalar("unsigned char", "int"), 4)), ("", Aggregate("", (("ml", INT), ("mg", INT)))),
    ("md", Aggregate("", (("me", INT),))),
), True)
WIDE = Aggregate("struct wide", (
    *((name, INT) for name in ("mk", "m2", "m32", "m40", "mt", "m7")), ("mr", Scalar("le32", "int")), ("mp", PAIR), ("ms", POINTER),
    ("mq", POINTER), ("", Aggregate("", (("mn", INT), ("", Aggregate("", (("mv", INT), ("mw", INT)), True))))), ("mx", Array(INT, 0)),
))
AGGREGATE_TYPES = [PAIR, PAIR, OTHER, WORD_UNION, WIDE, Aggregate("const struct other", OTHER.members), Aggregate("struct pair USER", PAIR.members)]
MARKED = [
    *(Scalar(words, "int") for words in ("le32", "le16", "le8", "const int", "int USER", "_Bool", "enum rest", "volatile char")),
    *(Scalar(words, "p") for words in ("int USER *", "const int *", "int * const", "le32 *", "void *", "int * USER", "struct pair *")),
]
# Values of static objects, and what isn't constant
STATIC_POINTERS = [
    "0", "0", "( void * ) 0", "& i", "m", "& m [ 1 ]", "m + 1", "1 + m", "& i - 1", '"ab"', '"ab" + 1', "& x . ma", "x . mb", "& x . mb [ 1 ]",
    "xs [ 1 ] . mb", "& xs [ E1 ] . ma", "& wd . mp . mb [ 1 ]", "( int * ) 5", "( int * ) 5 + 1", "( void * ) & i", "1 ? & i : p",
    "0 ? p : & i", "( & i )", "( int * ) & z", "& none", "none", "one + 1", "( long ) & i", "& fl", "n", "& wd . mn", "& 1 [ m ]",
    "( int [ 2 ] ) { 1 , 2 }", "& ( int ) { 1 }", "& ( struct pair ) { 1 } . mb [ 1 ]", "hs", "& r", "( FORCE int * ) u",
]
NOT_CONSTANT = [
    "i", "p", "p + 1", "& p [ 1 ]", "* & i", "& * & i", "& * m", "& ( & x ) -> ma", "xp", "& xp -> ma", "one ( 1 )", "i ? & i : & i", "& i - & j",
    "( long ) & i + 1", "& \"ab\" [ 1 ]", "& \"ab\"", "* none", "none ( )", "x", "( struct pair ) { 1 }", "( 1 , & i )", "( { & i ; } )",
    "__builtin_expect ( 1 , 1 )", "u", "& m [ i ]", "* m", "m [ 0 ]", "& x == & y", "m + i", "( m + 1 ) [ 0 ]", "& ( m + 1 ) [ 0 ]", "~ i", "& w1 . ml",
]
# Initialized objects that break a constraint, or whose lengths are seen
INITIALIZED = """typedef int @ = 1 ;
typedef int @ [ ] = { 1 , 2 } ;
extern int @ = 1 ;
int @ ( void ) = 0 ;
void @ = 1 ;
struct unknown @ = { 1 } ;
int @ = 1 ; extern int @ ;
static int @ = 1 ; static int @ ;
int @ [ ] = 5 ;
int @ [ 2 ] = m ;
extern int @ [ ] ; extern int @b [ sizeof ( @ ) ] ;
static int @ [ ] = { } ;
int @ [ ] = { sizeof ( @ ) } ;
int @ [ ] = { [ 549755813888 ] = 1 } ;
static int @ [ ] = { 1 , 2 } ; extern int @b [ sizeof ( @ ) ] ; extern int @b [ 8 ] ;
static char @ [ ] = "abc" ; extern char @b [ sizeof @ ] ; extern char @b [ 4 ] ;
static int @ [ ] [ 2 ] = { 1 , 2 , 3 } ; extern int @b [ sizeof ( @ ) ] ; extern int @b [ 16 ] ;
struct unknown @ [ ] = { } ;
char @ [ ] = ( "ab" ) ;
le8 @ [ ] = "ab" ;
struct { int a ; struct { } b ; int c [ 0 ] ; int d ; } @ = { 1 , 2 } ;
struct { } @ = { 1 } ;
struct { int a ; int b [ ] ; } @ = { 1 , { } } ;
struct { int a ; int b [ ] ; } @ = { 1 , 2 } ;
struct { int a ; char b [ ] ; } @ = { 1 , "a" } ;
union { struct { } a ; int b ; } @ = { 1 } ;
int @ [ 2 ] = { [ 0 ] = 1 , [ 0 ] = 2 , 3 } ;
int @ [ 2 ] [ 2 ] = { [ 0 ] = 1 , 2 , { 3 , 4 } } ;""".splitlines()
# Declarations that break a constraint, of a name @ and with an expression #
BAD = """int @ [ - 1 ] ;
int @ [ i ] ;
int @ [ # ] ;
struct unknown @ ;
void @ ;
int @ ( void ) [ 3 ] ;
int @ ( void ) ( int ) ;
extern void @ ( void , int ) ;
extern void @ ( int , void ) ;
extern int @ ( const void ) ;
extern int @ ( void , ... ) ;
enum { @ = i } ;
enum { @ = # } ;
enum { @ = - 1 , @b = 18446744073709551615u } ;
enum { @ = 18446744073709551615u , @b } ;
_Static_assert ( 0 , "a" ) ;
_Static_assert ( # , "a" ) ;
struct pair { int again ; } ;
union pair * @ ;
enum pair * @ ;
struct num * @ ;
extern int * BITWISE @ ;
extern struct pair BITWISE @ ;
extern int BITWISE * BITWISE @ ;
void @ [ 3 ] ;
extern struct unknown @ [ 3 ] ;
extern int @ [ 2 ] ( void ) ;
extern int @ [ 2 ] [ ] ;
extern struct @ { int a ; struct @ b ; } @b ;
struct @ { int a , a ; } ;
struct @ { int a [ ] ; } ;
struct @ { int a [ ] , b ; } ;
struct @ { int a ; int b ( void ) ; } ;
union @ { int a ; int b [ ] ; } ;
struct @ { int a ; void b ; } ;
struct @ { int a : # ; } ;
struct @ { int a : 33 ; } ;
struct @ { int a : 0 ; } ;
struct @ { int : - 1 ; } ;
struct @ { int * a : 3 ; } ;
struct @ { le32 a : 3 ; } ;
struct @ { int a ; struct { int b , a ; } ; } ;
struct @ { struct unknown a ; } ;
struct @ { _Static_assert ( 0 , "a" ) ; int a ; } ;
typedef int @ ; typedef int USER @ ;
typedef int @ ; typedef const int @ ;
int @ ( struct unknown ) ;
extern char @ [ 1099511627777 ] ;
extern struct { char a [ 1099511627776 ] , b ; } @ ;
register struct pair @ ; & @ . ma ;
extern int @ [ sizeof ( struct unknown ) ] ;
struct @ ; extern struct @ @b [ 2 ] ;
union @ { int a ; } ; struct @ { int a ; } ;
int @ [ x . ma ] ;
int @ [ none ( ) ] ;
enum { @ = none ( ) } ;
struct @ { int a : none ( ) ; } ;
_Static_assert ( none ( ) , "a" ) ;
void * @ [ p ] ;
struct unknown @ [ 2 ] ;
struct @ { struct unknown a [ 2 ] ; } ;
int @ ( void ) ( void ) [ 3 ] ;
int @ [ 3 ] ( void ) [ 2 ] ;
struct @ { int a , b ; struct unknown * a ; } ;
struct @ { struct @ { int a ; } b ; } ;
enum @ { @b = sizeof ( enum @ { @c } ) } ;
struct @ { int a : 3 ; } @b ; & @b . a ;
struct @ { int a ; struct unknown : 3 ; } ;""".splitlines()


KEYWORDS = {"struct", "union", "enum", "le16", "le32", "__attribute__", "context", "noreturn", "l", "0", "1"}
TAGS = {"pair", "other", "unknown", "word", "wide", "num", "big", "rest"}


class Whole(Maker):
    """Makes units of all forms."""

    def __init__(self, chance):
        super().__init__(chance)
        self.scopes = [[*KNOWN, *names("int", "en eb er")]]
        # What stands around: loops and switches, each with the labels that it has; labels that are wanted; names of functions so far
        self.around = []
        self.wanted = []
        self.switches = []
        self.tags = []
        self.redeclared = set()

    # Expressions

    def expression(self, shape, depth):
        if self.slips(1):
            return self.odd(depth)
        if shape in ("int", "p") and self.often(3):
            return self.literal_of(shape)
        if shape == "int" and self.often(12):
            return self.of_members(depth)
        if shape == "p" and self.often(6):
            return self.member_of(self.chance.choice(["pair", "word", "wide"]), "p", depth)
        if shape == "void" and self.often(15):
            return self.whole(self.chance.choice(["pair", "other", "wide"]), depth)
        return super().expression(shape, depth)

    def place(self, shape, depth, is_stored=True):
        if shape == "int" and depth > 0 and self.often(15):
            return self.member_of(self.chance.choice(["pair", "pair", "other", "word", "wide"]), "int", depth)
        return super().place(shape, depth, is_stored)

    def whole(self, tag, depth):
        """An aggregate, now and then an assignment of one or another one."""
        if self.slips(4):
            tag = self.chance.choice(list(VALUES))
        value = Expression(COMMA, [self.chance.choice(VALUES[tag])])
        if tag == "pair" and self.often(10):
            return Expression(CAST, [f"( struct pair ) {self.initializers(False).braced(PAIR)}"])
        if self.often(20) and depth > 0:
            target = Expression(CAST, [self.chance.choice(VALUES[tag][:2])])
            return Expression(ASSIGNMENT, [(target, CONDITIONAL), "=", (self.whole(tag, depth - 1), ASSIGNMENT)])
        return value

    def member_of(self, tag, shape, depth):
        """A member of this shape of a structure or a union."""
        member = self.chance.choice(MEMBERS[tag].get(shape) or ["ma"])
        if self.slips(3):
            member = self.chance.choice(ALL_MEMBERS)
        if self.slips(2):
            tag = self.chance.choice(list(VALUES))
        if self.slips(1):
            return postfix((super().expression(self.chance.choice(SHAPES), depth - 1), POSTFIX), self.chance.choice([".", "->"]), member)
        if self.often(50):
            return postfix((Expression(CAST, [self.chance.choice(VALUES[tag])]), POSTFIX), ".", member)
        return postfix((Expression(CAST, [self.chance.choice(POINTERS[tag])]), POSTFIX), "->", member)

    def of_members(self, depth):
        """An integer that has to do with structures, unions and enums."""
        kind = self.chance.randrange(10)
        if kind < 6:
            return self.member_of(self.chance.choice(["pair", "other", "word", "wide"]), "int", depth)
        if kind == 6:
            return primary(self.offset(depth))
        if kind == 7:
            tags = [
                "struct pair", "struct other", "union word", "struct wide", "enum num", "enum big",
            ] + ["struct unknown"] * bool(self.slip)
            tag = self.chance.choice(tags)
            return unary(f"{self.chance.choice(['sizeof', '_Alignof'])} ( {tag} )")
        if kind == 8:
            return unary("sizeof", (self.whole(self.chance.choice(["pair", "other", "word", "wide"]), 0), UNARY))
        return primary(self.chance.choice(ENUMERATORS))

    def offset(self, depth):
        chance = self.chance
        bad = [*BAD_OFFSETS, f"struct pair , mb [ {written(self.expression('int', depth - 1), False)} ]"]
        return f"__builtin_offsetof ( {chance.choice(bad if self.slips(20) else OFFSETS)} )"

    def odd(self, depth):
        """An operator over what it may not take."""
        tag = self.chance.choice(list(VALUES))
        value = Expression(COMMA, [self.chance.choice(VALUES[tag] + POINTERS[tag])])
        other = self.whole(self.chance.choice(list(VALUES)), 0)
        if self.often(50):
            other = self.expression(self.chance.choice(["int", "p", "void *", "void"]), depth - 2)
        operator = self.chance.choice(["+", "-", "==", "!=", "<", "&&", "||", "&", "=", "+=", ",", "?", "? :", "[", "("])
        pair = [value, other] if self.often(60) else [other, value]
        if self.often(30):
            return unary(self.chance.choice([
                "*", "&", "!", "~", "-", "sizeof", "++", "--", "( int )", "( struct pair )", "( void )", "( long )",
            ]), (pair[0], CAST))
        if operator == "?":
            return Expression(CONDITIONAL, [
                (self.expression("int", 0), FIRST_OF_TWO), "?", (pair[0], COMMA), ":", (pair[1], CONDITIONAL),
            ])
        if operator in "[(":
            return postfix((pair[0], POSTFIX), operator, (pair[1], ASSIGNMENT), {"[": "]", "(": ")"}[operator])
        return primary("(", (pair[0], UNARY), operator, (pair[1], UNARY), ")")

    def constant(self, depth=2):
        """A constant expression, or, where it slips, any."""
        chance = self.chance
        if self.slips(6):
            return written(self.expression(self.any(), depth), False)
        if depth <= 0 or self.often(35):
            return chance.choice([
                *LITERALS[:8], *ENUMERATORS, "- 1", "( FORCE le32 ) 5", "~ ( FORCE le16 ) 1", "sizeof ( int )", "( char ) 300",
                "4294967297",
            ])
        kind = chance.randrange(6)
        if kind == 0:
            return f"( {self.constant(depth - 1)} {chance.choice(['+', '-', '*', '&', '|', '==', '<', '&&', '<<'])} {self.constant(depth - 1)} )"
        if kind == 1:
            return f"( {self.constant(depth - 1)} ? {self.constant(depth - 1)} : {self.constant(depth - 1)} )"
        if kind == 2:
            return f"( {chance.choice(TYPES['int'][:-1])} ) {self.constant(0)}"
        if kind == 3:
            return self.offset(0)
        if kind == 4:
            return f"sizeof ( {written(self.expression('int', depth - 1), False)} )"
        return f"{chance.choice(['-', '~', '!', '+'])} {self.constant(depth - 1)}"

    def size(self):
        """A length that is none too large."""
        if self.slips(4):
            return self.constant()
        good = [
            "1", "2", "3", "E1", "sizeof ( struct pair ) / 2", "1 + 2", "( FORCE le32 ) 2", "0", "'\\3'",
            "__builtin_offsetof ( struct wide , mr )",
        ]
        return self.chance.choice(good + ["i ? 1 : 1"] * bool(self.slip))

    # Initializers

    def initializers(self, is_static):
        """A maker of initializers of objects that are static or aren't."""

        def value(of):
            if isinstance(of, Aggregate):
                words = of.words.split()
                has_values = not is_static and words and words[-1] in VALUES
                return self.chance.choice(VALUES[words[-1]]) if has_values else None
            if not is_static:
                return written(Expression(PRIMARY, [(self.expression(of.shape, 1), ASSIGNMENT)]), False)
            if self.slips(5):
                return self.chance.choice(NOT_CONSTANT)
            return self.chance.choice(STATIC_POINTERS) if of.shape == "p" or self.often(3) else self.constant(1)

        return Initializers(self.chance, value, 2 if self.slip else 0, [*SCALARS, *MARKED])

    def object_type(self, made):
        """A type of an object, and now and then an array of such without a length."""
        of = self.chance.choice(AGGREGATE_TYPES) if self.often(40) else made.type(2)
        return Array(of, None) if self.often(20) else of

    def initialized(self, storage):
        """An object with its initializer, which is known behind it."""
        is_static = len(self.scopes) == 1 or storage == "static "
        if self.slips(25):
            return self.chance.choice(INITIALIZED).replace("@b", self.new_name()).replace("@", self.new_name())
        made, name = self.initializers(is_static), self.new_name()
        of = self.object_type(made)
        text = f"{storage}{declared(of, name)} = {made.initializer(of)} ;"
        if isinstance(of, Scalar):
            self.scopes[-1].append(Name(name, of.shape))
        elif isinstance(of, Array) and isinstance(of.element, Scalar):
            self.scopes[-1].append(Name(name, {"int": "p", "p": "pp"}[of.element.shape], False, False))
        return text

    def literal_of(self, shape):
        """A compound literal of a shape, or what is selected of one."""
        made = self.initializers(False)
        if shape == "p":
            of = Array(INT, self.chance.choice([None, 2, 3]))
            return Expression(CAST, [f"( {type_name(of)} ) {made.braced(of)}"])
        kind = self.chance.randrange(4)
        if kind == 0:
            return postfix(f"( struct pair ) {made.braced(PAIR)}", ".", self.chance.choice(["ma", "mf", "mu", "mb [ 0 ]"]))
        if kind == 1:
            return unary(f"sizeof ( int [ ] ) {made.braced(Array(INT, None))}")
        of = self.chance.choice([INT, *MARKED[:6]])
        return Expression(CAST, [f"( {of.words} ) {made.in_braces(of)}"])

    # Structures, unions, enums

    def attribute(self, percent):
        if not self.often(percent):
            return ""
        return " " + self.chance.choice(["USER", "NODEREF", "SPACE2", "__attribute__((aligned(4)))", "__attribute__((aligned))", "__attribute__((packed))",
                                          "__attribute__((packed, aligned(2)))", "BITWISE" if self.slip else "", "__attribute__((unused))"])

    def member(self, number, depth):
        """A declaration of members, the first of which has a number."""
        chance, name = self.chance, f"n{number}"
        if self.slips(3):
            name = f"n{chance.randrange(4)}"
        kind = chance.randrange(14)
        if kind < 3:
            return self.bit_field(name)
        if kind == 3 and depth > 0:
            return f"{self.aggregate('', number + 10, depth - 1)}{self.attribute(10)} ;"
        if kind == 4 and depth > 0:
            return f"{self.aggregate(self.chance.choice(['', self.new_name()]), number + 20, depth - 1)} {chance.choice(['', '* '])}{name} ;"
        if kind == 5:
            return chance.choice([
                ";", "int ;", "_Static_assert ( 1 , \"a\" ) ;", f"enum {{ {self.new_name()} = {self.constant(1)} }} {name} ;",
                "struct unknown * n0a ;",
            ])
        if kind == 6:
            return f"{chance.choice(['struct pair', 'struct other', 'union word', 'struct wide', 'const struct other'])}{self.attribute(10)} {name} ;"
        star = chance.choice(["", "", "*", "* USER ", "* const "])
        behind = chance.choice(["", "", "", f" [ {self.size()} ]", f" [ 2 ] [ {self.size()} ]"])
        base = chance.choice([*KINDS, *RESTRICTED, "const int", "int USER", "int SPACE1", "volatile char"])
        more = f" , * {name}b" if self.often(15) else ""
        return f"{base}{self.attribute(6)} {star}{name}{behind}{self.attribute(8)}{more} ;"

    def bit_field(self, name):
        chance = self.chance
        kind = chance.choice(KINDS if not self.slips(5) else KINDS + RESTRICTED + ["int *", "struct pair", "void", "struct unknown"])
        width = chance.choice(["1", "1", "2", str(BITS.get(kind, 4)), str(max(BITS.get(kind, 8) // 2, 1)), "sizeof ( char )"])
        if self.slips(8):
            width = chance.choice(["0", "- 1", "65", "33", "9", "i", "p", "none ( )", self.constant(1)])
        if self.often(20):
            return f"{kind} : {chance.choice([width, '0'])} ;"
        more = f" , {name}b : {width}" if self.often(20) and "none" not in width else ""
        return f"{kind} {name} : {width}{self.attribute(4)}{more} ;"

    def aggregate(self, tag, number=0, depth=1):
        """A structure or a union with its members."""
        chance = self.chance
        keyword = chance.choice(["struct", "struct", "union"])
        found = [self.member(number + each, depth) for each in range(chance.choice([0, 1, 2, 3, 4]))]
        if keyword == "struct" and len(found) > 1 and self.often(10):
            found.append(f"int n{number + 9} [ ] ;")
        if tag and self.often(15):
            found.append(f"{keyword} {tag} * n{number + 8} ;")
        return f"{keyword}{self.attribute(5)} {tag} {{ {' '.join(found)} }}{self.attribute(12)}"

    def enumeration(self, tag):
        chance, found = self.chance, []
        is_restricted = self.often(25)
        for _ in range(chance.choice([1, 2, 3])):
            name = self.new_name()
            value = chance.choice(["", "", f" = {self.constant(1)}"])
            if is_restricted:
                odd = ["( FORCE be32 ) 1", "7"] if self.often(30) else []
                value = f" = {chance.choice(['0', '0', '( FORCE le32 ) 1', '( FORCE le32 ) 2', '~ ( FORCE le32 ) 0', *odd])}"
            found.append(f"{name}{value}")
            self.scopes[-1].append(Name(name, "int", False, False))
        return f"enum {tag} {{ {' , '.join(found)} }}"

    def of_this_unit(self):
        """A structure, a union or an enum, and what is declared with it."""
        chance, tag, name = self.chance, self.new_name(), self.new_name()
        if self.often(30):
            text = self.enumeration(chance.choice([tag, ""]))
            behind = chance.choice(["", f" {name}", f" * {name}"])
            if behind:
                self.scopes[-1].append(Name(name, "p" if "*" in behind else "int"))
            return f"{'extern ' if behind and self.often(50) else ''}{text}{behind} ;"
        text, behind = self.aggregate(tag), chance.choice(["", "", f" {name}", f" {name} [ {self.size()} ]", f" * {name}"])
        storage = chance.choice(["", "extern ", "static ", "typedef "]) if behind else ""
        line = f"{storage}{text}{behind} ;"
        if storage != "typedef " and self.often(60):
            member = f"n{chance.randrange(3)}"
            kind = self.chance.randrange(4)
            if kind == 0:
                line += f"\nextern int {name}c [ sizeof ( {text.split()[0]} {tag} ) ] ;"
            elif kind == 1 and self.slip:
                line += f"\nextern int {name}c [ __builtin_offsetof ( {text.split()[0]} {tag} , {member} ) ] ;"
            elif kind == 2:
                line += f"\nextern {text.split()[0]} {tag} {self.attribute(30)} {name}d ;"
                if self.slip:
                    self.scopes[-1].append(Name(f"{name}d . {member}", "int", True, True))
            else:
                line += f"\nextern int {name}c [ _Alignof ( {text.split()[0]} {tag} ) ] ;"
        return line

    def prototype(self):
        """A function, or a pointer to one, that is declared."""
        chance, name = self.chance, self.new_name()
        parameters = chance.choice([
            "", "void", "int", "int a , char * b", "struct pair a", "int USER * , ...", "int a [ 3 ]", "int ( * ) ( )", "struct unknown",
            "int a [ sizeof ( int ) ]", "enum num", "const le32 i",
        ])
        result = chance.choice(["void", "int", "struct pair", "le16", "int USER *", "struct unknown", "enum rest"])
        head = chance.choice(["{0} ( {1} )", "( * {0} ) ( {1} )", "( {0} ) ( {1} )", "( * {0} ( ) ) ( {1} )", "( * {0} [ 2 ] ) ( {1} )"])
        return f"extern {result} {head.format(name, parameters)}{chance.choice(['', ' __attribute__((noreturn))', ' __attribute__((unused))'])} ;"

    def again(self):
        """Declarations that stand twice, mostly alike."""
        chance, name, tag = self.chance, self.new_name(), self.new_name()
        return chance.choice([
            f"extern int {name} [ ] ; extern int {name} [ {self.size()} ] ; extern int {name} [ 3 ] ;",
            f"struct {tag} ; extern struct {tag} * {name} ; struct {tag} {{ int a ; }} ; extern struct {tag} * {name} ;",
            f"enum {tag} ; extern enum {tag} * {name} ; enum {tag} {{ {tag}e = 5000000000 }} ; extern enum {tag} * {name} ;",
            f"typedef int {tag} ( int ) ; extern {tag} {name} ; extern int {name} ( {chance.choice(['int', 'const int', 'long', ''])} ) ;",
            f"typedef struct pair {tag} ; typedef struct pair {tag} ; extern {tag} {name} ; extern const {tag} {name} ;",
            f"static int {name} ; extern int {name} ; extern {chance.choice(['int', 'le32', 'int USER'])} {name} ;",
            f"extern typeof ( x . mf ) {name} ; extern int {name} ; extern typeof ( xu -> mb ) {name}b ; extern int {name}b [ 2 ] ;",
            f"extern unsigned BITWISE {name} , * {name}b ; extern typeof ( {name} ) * {name}b ;",
            f"extern int * USER {name} , SPACE2 * {name}b ; extern int ( USER * {name}c ) ; extern int * {name}c ;",
            f"extern struct unknown {name} ; extern struct unknown {name}b ( struct unknown ) ;",
            f"extern int {name} ( enum {tag} {{ {tag}a , {tag}b }} a ) ;",
            f"extern void {name} ( void ) {self.context()} ; extern {self.context()} void {name} ( void ) , {self.context()} {name}b ( void ) ;",
            f"{self.context()} void {name} ( void ) ; extern void ( {self.context()} {name} ) ( void ) ; extern void {name} ( {chance.choice(['void', 'int'])} ) {self.context()} ;",
            f"extern char {name} [ 1099511627776 ] ; extern char {name}b [ {chance.choice(['16', '1099511627776', '1099511627777' if self.slip else '4'])} ] ;",
        ])

    def context(self):
        chance = self.chance
        return chance.choice(["", f"__attribute__((context(a, {chance.randrange(2)}, {chance.randrange(2)})))", "__attribute__((context(0, 1), context(1, 0)))"])

    def bad(self):
        text = self.chance.choice(BAD).strip().replace("#", self.constant())
        return text.replace("@b", self.new_name()).replace("@c", self.new_name()).replace("@", self.new_name())

    def tentative(self):
        """An object of the file, which is defined."""
        name, tag = self.new_name(), self.new_name()
        return self.chance.choice([
            f"int {name} ;", f"static int {name} [ ] ;", f"int {name} [ ] ;", f"struct {tag} {name} ; struct {tag} {{ int a ; }} ;", f"extern int {name} ; int {name} ; int {name} ;",
            f"struct pair {name} ; struct pair {name} ;", f"static struct pair {name} ;", f"extern void {name} ;", f"le32 {name} , * {name}b ; extern int {name} ;",
            f"int {name} ( void ) ; int {name} ( void ) ;", f"inline int {name} ( void ) ;",
        ])

    def line_of_file(self):
        kind = self.chance.randrange(12)
        if self.often(30):
            return self.initialized(self.chance.choice(["", "static ", "static "]))
        if self.slips(15):
            return self.bad()
        if kind < 4:
            return self.of_this_unit()
        if kind < 6:
            return self.again()
        if kind < 8:
            return self.tentative()
        if kind < 10:
            return self.prototype()
        if kind == 10:
            return f"_Static_assert ( {self.chance.choice(['1', 'sizeof ( struct pair ) == 20', 'E1 == 5'])} , \"a\" ) ;"
        return self.declaration(self.chance.choice(["extern ", "static ", ""]))

    # Statements

    def called(self, shape, depth):
        """A call, now and then of a function that takes a lock, gives it back or doesn't return."""
        if shape != "void" or self.often(60):
            return super().called(shape, depth)
        name = self.chance.choice(["locks", "locks", "unlocks", "( locks )", "ends"])
        return postfix(name, "(", (self.expression("int", depth - 1), ASSIGNMENT), ")")

    def condition(self, depth):
        shape = self.scalar()
        if self.slips(4):
            return written(self.chance.choice([self.whole("pair", 0), self.expression("void", 1), self.expression("function", 1)]), False)
        return written(self.expression(shape, depth), False)

    def statement(self, depth):
        """One of all statements."""
        kind = self.chance.randrange(32)
        if depth <= 0 or kind < 10:
            return super().statement(max(depth, 0))
        if kind >= 30:
            locked = f"{{ __context__ ( l , 1 ) ; {self.statement(depth - 1)} __context__ ( l , - 1 ) ; }}"
            return self.chance.choice(["__context__ ( 1 ) ;", "__context__ ( l , - 1 ) ;", locked, locked])
        if kind < 13:
            behind = f" else {self.sub(depth)}" if self.often(40) else ""
            # (the inner one takes the `else` that stands next)
            return f"if ( {self.condition(depth - 1)} ) {self.block(depth - 1) if behind else self.sub(depth)}{behind}"
        if kind < 15:
            return f"while ( {self.condition(depth - 1)} ) {self.looped(depth)}"
        if kind < 17:
            return f"do {self.looped(depth, self.often(70))} while ( {self.condition(depth - 1)} ) ;"
        if kind < 19:
            return self.for_loop(depth)
        if kind < 22:
            return self.switch(depth)
        if kind < 24:
            return self.jump()
        if kind == 24:
            return self.labelled(depth)
        if kind == 25:
            return self.chance.choice([";", "l{0} : __attribute__((unused)) ;", "_l{0} : ;"]).format(self.new_name())
        if kind == 26 and self.slip:
            return self.chance.choice([
                f"case {self.constant(1)} : ;", "default : ;", "break ;", "continue ;", "goto nowhere ;",
            ]) if self.often(30) else ";"
        if kind == 27:
            return self.returned(self.chance.choice(["int", "void"]) if self.slips(20) else self.result, depth - 1)
        return self.block(depth - 1)

    def sub(self, depth):
        return self.statement(depth - 1) if self.often(50) else self.block(depth - 1)

    def looped(self, depth, has_braces=False):
        self.around.append("loop")
        text = self.block(depth - 1) if has_braces else self.sub(depth)
        self.around.pop()
        return text

    def for_loop(self, depth):
        self.scopes.append([])
        begin = self.chance.choice([";", f"{written(self.expression(self.any(), 1), False)} ;", "", ""])
        if not begin:
            name = self.chance.choice(["i", "j", self.new_name()])
            begin = self.chance.choice([
                f"int {name} ;", f"struct {{ int a ; }} {name} ;", self.declaration("register "), self.initialized(""),
            ])
        condition = self.condition(depth - 1) if self.often(70) else ""
        step = written(self.expression(self.any(), 1), False) if self.often(60) else ""
        text = f"for ( {begin} {condition} ; {step} ) {self.looped(depth)}"
        self.scopes.pop()
        return text

    def switch(self, depth):
        chance = self.chance
        value = written(self.expression("int" if not self.slips(6) else self.any(), depth - 1), False)
        if self.often(30):
            value = chance.choice(["r", "h", "er", "en", "c", "l", "~ h", "x . mf", "1", "wd . m40", "ui"])
        self.around.append("switch")
        lines, numbers = [], list(range(10))
        chance.shuffle(numbers)
        for _ in range(chance.choice([0, 1, 2, 3, 4])):
            label = f"case {numbers.pop()} :"
            if self.slips(30):
                label = f"case {self.constant(1)} :"
            elif self.often(15):
                kind = chance.choice(["( FORCE le32 )", "( FORCE le16 )", "~ ( FORCE le16 )", "( FORCE be32 )"])
                label = f"case {kind} {numbers.pop()} :"
            if self.slips(5):
                label = f"( {{ {label} ; }} ) ;"
            lines.append(f"{label} {self.statement(depth - 2)}")
        if self.often(40):
            lines.insert(chance.randrange(len(lines) + 1), f"default : {self.statement(depth - 2)}" * (2 if self.slips(8) else 1))
        self.around.pop()
        inside = "\n".join(lines)
        return f"switch ( {value} ) {{\n{inside}\n}}"

    def jump(self):
        chance = self.chance
        if self.slips(6):
            return chance.choice(["break ;", "continue ;", "goto l9 ;", "goto l1 ;", "goto l2 ;"])
        if self.around and self.often(70):
            return "continue ;" if "loop" in self.around and self.often(40) else "break ;"
        label = f"l{chance.randrange(3)}"
        if label not in self.wanted:
            self.wanted.append(label)
        return f"goto {label} ;"

    def labelled(self, depth):
        if self.slips(20):
            label = f"l{self.chance.randrange(4)}"
            return f"{label} : {self.statement(depth - 1)}" if self.often(60) else f"( {{ {label} : ; goto {label} ; }} ) ;"
        return f"{self.new_name()} : {self.statement(depth - 1)}"

    def body_line(self, depth):
        kind = self.chance.randrange(26)
        if kind >= 24:
            return self.initialized(self.chance.choice(["", "", "static "]))
        if kind == 0:
            return self.of_this_unit()
        if kind == 1 and self.often(50):
            return self.chance.choice([self.again, self.prototype])()
        if kind == 2 and self.slips(30):
            return self.bad()
        if kind == 3 and self.often(40):
            return self.hiding()
        return super().body_line(depth)

    def hiding(self):
        """A name that hides another one."""
        name = self.chance.choice(["i", "j", "ui", "l", "c"])
        if (len(self.scopes), name) in self.redeclared:
            return ";"
        self.redeclared.add((len(self.scopes), name))
        return self.chance.choice([
            "int {} ;", "extern int {} ;", "static char {} ;", "register long {} ;", "enum {{ {} }} ;", "{{ typedef int {} ; }}",
        ]).format(name)

    def definition(self):
        self.wanted, self.redeclared = [], set()
        text = super().definition()
        head, end = text[: text.rindex("}")], "".join(f"{label} : ;\n" for label in self.wanted)
        return f"{head}{end}}}"

    def block(self, depth):
        self.redeclared = {each for each in self.redeclared if each[0] <= len(self.scopes)}
        return super().block(depth)

    def unit(self):
        lines = [self.line_of_file() for _ in range(self.chance.choice([0, 0, 1, 2, 3]))]
        for _ in range(self.chance.choice([1, 1, 2])):
            lines.append(self.definition())
            lines += [self.line_of_file()] if self.often(20) else []
        if self.slips(3):
            lines.append(self.chance.choice([
                "void f1 ( void ) { } void f1 ( void ) { }", "struct unknown f1 ( void ) { }", "void f1 ( struct unknown a ) { }",
                "int f1 ( int , int ) { }",
            ]))
        text = "\n".join(lines) + "\n"
        text = aggregates_of(text) + text
        return MARKS + objects_of(text) + text


def aggregates_of(text):
    """Those of the aggregates and of what is declared with them that a text names."""
    named, found = set(WORD.findall(text)), []
    for line in reversed(AGGREGATES.splitlines()):
        words = set(WORD.findall(line))
        declares = words - COMMON - KEYWORDS - TAGS
        is_tag_named = not line.startswith("extern") and line.split()[1].strip(";") in named
        if is_tag_named or declares & named:
            named |= words
            found.append(line + "\n")
    return "".join(reversed(found))
