"""Random functions with contexts, whose counts are kept on every path, or nearly: now and then one is off where a slip is made.

Each part is made for a count that it comes with and for the counts with which it is to be left, as true and as false where it is
tested. Counts are changed by statements and by calls; control goes through all statements and operators that know it.
"""
from typing import NamedTuple

PRELUDE = """#define AC __context__ ( l , 1 ) ;
#define RE __context__ ( l , - 1 ) ;
#define FN(i,o) __attribute__ ( ( context ( l , i , o ) ) )
#define CL(c) ( ( c ) ? ( { AC 1 ; } ) : 0 )
extern int a , b , m [ 4 ] , * p ;
extern int try ( int * ) , two ( int , int ) , one ( int ) ;
extern void lk ( void ) FN(0,1) , un ( int ) FN(1,0) , held ( void ) FN(1,1) , none ( void ) FN(0,0) , out ( int ) , ( * fp ) ( void ) ;
extern int lv ( int ) FN(0,1) , uv ( int ) FN(1,0) , both ( int ) FN(0,2) FN(0,0) ;
extern void die ( void ) __attribute__ ( ( noreturn ) ) ;
extern _Noreturn void die_un ( int ) FN(1,0) ;
"""
NAMES = ["a", "b", "* p", "m [ a ]", "m [ 1 ]"]
TRUE = ["1", "! 0", "sizeof ( a ) == 4", "( _Bool ) 2", "1 || a", "( int ) 3L", "2 - 1", "'a'", "! ! 1"]
FALSE = ["0", "! 1", "sizeof ( int ) == 8", "( char ) 256", "0 && a", "1 - 1", "'\\0'", "5 / 7"]
# The most that a count is at a time; and how many parts a body has
MOST, LONGEST = 3, 4


class Label(NamedTuple):
    """A label of a body, and the count with which it is jumped to."""

    name: str
    count: int


class Body:
    """A body that may have labels: a function's, or that of a statement expression."""

    def __init__(self):
        self.behind = []
        self.before = []


class Leaving(NamedTuple):
    """A loop or a switch around: the counts at `break`, and at `continue` where it is a loop."""

    breaks: int
    continues: int | None


class Contexts:
    """Makes functions by chance."""

    def __init__(self, chance):
        self.chance = chance
        # Every so many-th change of a count is off; never, where it is 0
        self.slip = chance.choice([0, 0, 60, 20, 8])
        self.made = 0
        self.bodies = []
        self.around = []
        self.leaves = 0
        # The functions of the unit so far, with what each takes and gives
        self.functions = []

    def often(self, percent):
        return self.chance.randrange(100) < percent

    def count(self):
        return self.chance.choice([0, 0, 1, 1, 1, 2, MOST])

    def near(self, count):
        """A count that is mostly this one."""
        return count if self.often(60) else self.count()

    def new_name(self):
        self.made += 1
        return f"x{self.made}"

    # Changes

    def changes(self, before, after):
        """Statements that bring one count to another."""
        if self.slip and self.chance.randrange(self.slip) == 0:
            after += self.chance.choice([1, -1])
        parts = []
        while before != after:
            step = 1 if before < after else -1
            parts.append(self.chance.choice(self.steps(before, step, abs(after - before))))
            before += step
        if before and self.often(8):
            parts.append("held ( ) ;")
        return " ".join(parts)

    def steps(self, before, step, left):
        """Ways to change a count by 1; a call takes what is there."""
        word = "AC" if step > 0 else "RE"
        found = [word, word, word, "lk ( ) ;" if step > 0 else "un ( a ) ;", "( lk ) ( ) ;" if step > 0 else "b = uv ( 1 ) ;"]
        enters, leaves = (0, 1) if step > 0 else (1, 0)
        return found + [f"{name} ( a ) ;" for name, *sums in self.functions if sums == [enters, leaves] and before >= enters]

    # Expressions

    def leaf(self):
        return self.chance.choice([*NAMES, "try ( p )", "one ( a )", "a == b", "2", "a + 1"])

    def value(self, depth, before, after):
        """An operand, of which nobody asks whether it is true."""
        if depth <= 0 or before == after and self.often(35):
            return self.leaf() if before == after else f"( {{ {self.changes(before, after)} {self.leaf()} ; }} )"
        between = self.near(after)
        kind = self.chance.randrange(16)
        if kind < 3:
            return self.inner(before, after, lambda count: self.value(depth - 1, count, after), depth)
        if kind == 3:
            return f"( {self.value(depth - 1, before, between)} {self.chance.choice('+ - * | < =='.split())} {self.value(depth - 1, between, after)} )"
        if kind == 4:
            return f"two ( {self.value(depth - 1, before, between)} , {self.value(depth - 1, between, after)} )"
        if kind == 5:
            return f"( {self.value(depth - 1, before, between)} , {self.value(depth - 1, between, after)} )"
        if kind == 6:
            return f"{self.chance.choice(['-', '~', '!', '+', '( int )'])} ( {self.value(depth - 1, before, after)} )"
        if kind == 7:
            return f"__builtin_expect ( {self.value(depth - 1, before, between)} , {self.value(depth - 1, between, after)} )"
        if kind == 8:
            return f"( {self.chance.choice(['b =', 'm [ 1 ] +='])} {self.value(depth - 1, before, after)} )"
        if kind == 9:
            return f"m [ {self.value(depth - 1, before, after)} ]"
        if kind == 10 and after > 0:
            return f"{self.chance.choice(['lv', '( lv )'])} ( {self.value(depth - 1, before, after - 1)} )"
        if kind == 11:
            return f"uv ( {self.value(depth - 1, before, after + 1)} )"
        return f"( {self.chosen_value(depth, before, after)} )"

    def chosen_value(self, depth, before, after):
        """A value of which a condition decides what else is evaluated."""
        true, false = self.near(after), self.near(after)
        kind = self.chance.randrange(4)
        if kind == 0:
            return f"{self.condition(depth - 1, before, true, after)} && {self.value(depth - 1, true, after)}"
        if kind == 1:
            return f"{self.condition(depth - 1, before, after, false)} || {self.value(depth - 1, false, after)}"
        if kind == 2:
            return f"{self.condition(depth - 1, before, after, false)} ? : {self.value(depth - 1, false, after)}"
        arms = self.value(depth - 1, true, after), self.value(depth - 1, false, after)
        return f"{self.condition(depth - 1, before, true, false)} ? {arms[0]} : {arms[1]}"

    def inner(self, before, after, last, depth):
        """A statement expression, whose last value is made for the count there."""
        self.bodies.append(Body())
        between = self.near(after)
        text = self.items(depth - 1, before, between)
        behind = self.labels_behind(between)
        value = last(between)
        self.bodies.pop()
        return f"( {{ {text} {behind} {value} ; }} )"

    def condition(self, depth, before, true, false):
        """What is tested."""
        if depth <= 0 or self.often(15):
            return self.simple_condition(before, true, false)
        between = self.near(true)
        kind = self.chance.randrange(14)
        if kind < 2:
            return f"( {self.condition(depth - 1, before, between, false)} && {self.condition(depth - 1, between, true, false)} )"
        if kind < 4:
            return f"( {self.condition(depth - 1, before, true, between)} || {self.condition(depth - 1, between, true, false)} )"
        if kind < 6:
            return f"! {self.condition(depth - 1, before, false, true)}"
        if kind == 6:
            other = self.near(false)
            arms = self.condition(depth - 1, between, true, false), self.condition(depth - 1, other, true, false)
            return f"( {self.condition(depth - 1, before, between, other)} ? {arms[0]} : {arms[1]} )"
        if kind == 7:
            return f"( {self.condition(depth - 1, before, true, between)} ? : {self.condition(depth - 1, between, true, false)} )"
        if kind == 8:
            return f"( {self.value(depth - 1, before, between)} , {self.condition(depth - 1, between, true, false)} )"
        if kind == 9:
            return self.expected(depth, before, true, false)
        if kind == 10 and true == before + 1 and false == before:
            return f"CL ( {self.simple_condition(before, before, before)} )"
        if kind < 13:
            return self.inner(before, true, lambda count: self.condition(depth - 1, count, true, false), depth)
        return self.simple_condition(before, true, false)

    def expected(self, depth, before, true, false):
        """The second operand is passed behind either outcome; a point in it is reached by both."""
        move = self.chance.choice([0, 0, 1, -1]) if true == false and 0 < true < MOST else 0
        second = self.value(1, true - move, true) if true == false else self.leaf()
        return f"__builtin_expect ( {self.condition(depth - 1, before, true - move, false - move)} , {second} )"

    def simple_condition(self, before, true, false):
        """A condition of one part, or of three arms."""
        if before == true and self.often(15):
            return f"( {self.chance.choice(TRUE)} )"
        if before == false and self.often(15):
            return f"( {self.chance.choice(FALSE)} )"
        if true == false:
            return f"( {self.leaf()} )" if before == true else f"( {{ {self.changes(before, true)} {self.leaf()} ; }} )"
        if before == false and self.often(50):
            return f"( {self.leaf()} && ( {{ {self.changes(before, true)} 1 ; }} ) )"
        if before == true and self.often(50):
            return f"( {self.leaf()} || ( {{ {self.changes(before, false)} 0 ; }} ) )"
        return f"( {self.leaf()} ? ( {{ {self.changes(before, true)} 1 ; }} ) : ( {{ {self.changes(before, false)} 0 ; }} ) )"

    # Statements

    def items(self, depth, before, after):
        """Statements and declarations one behind the other."""
        found = []
        for _ in range(self.chance.randrange(LONGEST)):
            between = self.near(before)
            found.append(self.item(depth, before, between))
            before = between
        return " ".join([*found, self.changes(before, after)])

    def item(self, depth, before, after):
        if self.often(85):
            return self.statement(depth, before, after)
        name, other, between = self.new_name(), self.new_name(), self.near(after)
        first, second = self.value(depth - 1, before, between), self.value(depth - 1, between, after)
        if self.often(20):
            return f"{self.chance.choice(['static', 'extern'])} int {name} ; {self.changes(before, after)}"
        return self.chance.choice([
            f"int {name} = {first} , {other} = {second} ;", f"int {name} [ 2 ] = {{ {first} , {second} }} ;",
            f"int {name} [ ] = {{ [ 1 ] = {first} , [ 0 ] = {second} }} ;", f"struct {{ int y , z ; }} {name} = {{ .z = {first} , .y = {second} }} ;",
            f"int {name} = ( int [ ] ) {{ {first} , {second} }} [ 0 ] ;", f"_Static_assert ( 1 , \"a\" ) ; int {name} = {first} ; {self.changes(between, after)}",
        ])

    def statement(self, depth, before, after):
        """A statement; what comes behind one that jumps is never reached."""
        label = self.label_before(before) if self.often(6) else ""
        kinds = [
            self.plain, self.plain, self.plain, self.nested, self.chosen, self.chosen, self.chosen, self.while_loop, self.do_loop,
            self.for_loop, self.switch, self.jump, self.called,
        ]
        make = self.chance.choice(kinds) if depth > 0 else self.plain
        return label + make(depth, before, after)

    def label_before(self, before):
        label = Label(self.new_name(), before)
        self.bodies[-1].before.append(label)
        return f"{label.name} : "

    def labels_behind(self, count):
        """The labels that were jumped to, behind what a body has: each with its count, which is changed back."""
        found, body = [], self.bodies[-1]
        for label in body.behind:
            found.append(f"{self.changes(count, label.count)} {label.name} : ; {self.changes(label.count, count)}")
        return " ".join(found)

    def plain(self, depth, before, after):
        if before == after and self.often(40):
            return self.chance.choice([";", "a = b ;", "{ }", "__attribute__ ( ( unused ) ) ;", "none ( ) ;", "fp ( ) ;", "sizeof ( ( { AC 1 ; } ) ) ;"])
        return f"{{ {self.changes(before, after)} }}" if self.often(40) else f"{self.value(depth, before, after)} ;"

    def called(self, depth, before, after):
        """A call that doesn't return, or one of a function of the unit."""
        if self.often(25):
            return f"{{ {self.changes(before, self.near(before))} die ( ) ; }}"
        if self.often(10):
            return f"{{ {self.changes(before, before or 1)} die_un ( 1 ) ; }}"
        fit = [each for each in self.functions if each[1] <= before]
        if not fit:
            return self.plain(depth, before, after)
        name, enters, leaves = self.chance.choice(fit)
        between = before + leaves - enters
        return f"{{ {name} ( {self.value(depth - 1, before, before)} ) ; {self.changes(between, after)} }}"

    def nested(self, depth, before, after):
        return f"{{ {self.items(depth - 1, before, after)} }}"

    def chosen(self, depth, before, after):
        true, false = self.near(after), self.near(after)
        if self.often(40):
            return f"if ( {self.condition(depth - 1, before, true, after)} ) {self.statement(depth - 1, true, after)}"
        arm = self.nested(depth, true, after)
        return f"if ( {self.condition(depth - 1, before, true, false)} ) {arm} else {self.statement(depth - 1, false, after)}"

    def within(self, leaving, make, *of):
        self.around.append(leaving)
        text = make(*of)
        self.around.pop()
        return text

    def while_loop(self, depth, before, after):
        true = self.near(before)
        condition = self.condition(depth - 1, before, true, after)
        return f"while ( {condition} ) {self.within(Leaving(after, before), self.statement, depth - 1, true, before)}"

    def do_loop(self, depth, before, after):
        between = self.near(before)
        body = self.within(Leaving(after, between), self.nested, depth, before, between)
        return f"do {body} while ( {self.condition(depth - 1, between, before, after)} ) ;"

    def for_loop(self, depth, before, after):
        first, true, step = self.near(before), self.near(before), self.near(before)
        begin = self.value(depth - 1, before, first) if before != first or self.often(60) else ""
        if self.often(30):
            begin = f"int {self.new_name()} = {self.value(depth - 1, before, first)}"
        if self.often(20):
            condition, true = "", first
        else:
            condition = self.condition(depth - 1, first, true, after)
        moved = self.value(depth - 1, step, first) if step != first or self.often(50) else ""
        body = self.within(Leaving(after, step), self.statement, depth - 1, true, step)
        return f"for ( {begin} ; {condition} ; {moved} ) {body}"

    def switch(self, depth, before, after):
        """A switch, of whose labels each comes with the count of its value."""
        between = before if self.often(80) else self.near(before)
        value = self.chance.choice(["1", "2", "sizeof ( int )", "( char ) 258"]) if self.often(25) and between == before else self.value(depth - 1, before, between)
        around = next((each.continues for each in reversed(self.around) if each.continues is not None), None)
        self.around.append(Leaving(after, around))
        labels = [f"case {number} :" for number in self.chance.sample(range(6), self.chance.randrange(4))]
        has_default = between != after or self.often(40)
        labels += ["default :"] if has_default else []
        self.chance.shuffle(labels)
        lines = [f"{label} {self.section(depth, between, after, label == labels[-1])}" for label in labels]
        self.around.pop()
        front = self.statement(0, between, between) if self.often(10) else ""
        return f"switch ( {value} ) {{ {front} {' '.join(lines)} }}"

    def section(self, depth, before, after, is_last):
        """What stands behind a label: it runs into the next one, or leaves."""
        if is_last and self.often(50):
            return self.statement(depth - 1, before, after)
        if not is_last and self.often(25):
            return self.statement(depth - 1, before, before)
        return f"{self.statement(depth - 1, before, after)} break ;"

    def jump(self, depth, before, after):
        """A way out of here, which brings the count that is wanted there."""
        kind = self.chance.randrange(8)
        if kind < 2 and self.around:
            return f"{{ {self.changes(before, self.around[-1].breaks)} break ; }}"
        if kind < 4 and self.around and self.around[-1].continues is not None:
            return f"{{ {self.changes(before, self.around[-1].continues)} continue ; }}"
        if kind < 6:
            label = self.target()
            return f"{{ {self.changes(before, label.count)} goto {label.name} ; }}"
        if self.often(30):
            return f"return {self.value(depth - 1, before, self.leaves)} ;"
        return f"{{ {self.changes(before, self.leaves)} return {self.leaf()} ; }}"

    def target(self):
        """A label of a body around: one before, or one that will stand behind."""
        body = self.chance.choice(self.bodies)
        if body.before + body.behind and self.often(60):
            return self.chance.choice(body.before + body.behind)
        body.behind.append(Label(self.new_name(), self.count()))
        return body.behind[-1]

    # Units

    def marks(self, enters, leaves):
        """Contexts whose sums are these."""
        if enters == leaves == 0 and self.often(70):
            return ""
        if self.often(20):
            return f"FN({enters},0) FN(0,{leaves})"
        return f"FN({enters},{leaves})"

    def function(self):
        enters = self.chance.choice([0, 0, 0, 1, 2])
        leaves = self.chance.choice([enters, enters, 0, 1])
        name, marks = self.new_name(), self.marks(enters, leaves)
        if self.slip and self.chance.randrange(self.slip) == 0:
            enters += 1
        self.leaves, self.bodies, self.around = leaves, [Body()], []
        depth = self.chance.choice([1, 2, 2, 3, 3, 4])
        text = f"{self.items(depth, enters, leaves)} {self.labels_behind(leaves)} {'return 0 ;' if self.often(30) else ''}"
        self.functions.append((name, enters, leaves))
        head = self.chance.choice(["int {} ( int n ) {}", "static {1} int {0} ( int n )", "int ( {1} {0} ) ( int n )", "int {0} ( int ) {1} ; int {0} ( int n )"])
        later = f"extern int {name} ( int ) {marks} ;" if marks and self.often(10) else ""
        head = "int {} ( int n )" if later and self.often(50) else head
        return f"{head.format(name, marks)} {{ {text} }} {later}"

    def unit(self):
        lines = [self.function() for _ in range(self.chance.choice([1, 1, 2, 3]))]
        return PRELUDE + "\n".join(lines).replace(" ;", " ;\n").replace("{ ", "{\n") + "\n"
