"""Lines with replies that were worked out by hand."""

from plain import tables
from plain.keyed import MOST_MAPPINGS
from plain.operators import MOST_PROPERTIES, TOO_LONG
from plain.reading import COMMANDS, MOST_OPERATORS, Reader, tokens_of
from plain.session import MOST_CURSORS, MOST_SNAPSHOTS, MOST_VIEWS

spelled, spelled_row = tables.spelled, tables.spelled_row


# What was worked out by hand: tables, and expressions over them with their structure and rows, or with what is said where they are refused.

WIDTH = [f"p{at}" for at in range(MOST_PROPERTIES)]


def wide(names):
    return "[" + ",".join(f"{name}:I" for name in names) + "]"


TABLES = [
    'people[name:S,age:I] {("Ann",31),("Bob",31),("Cy",20)}',
    "nested[k:I,s[n:I]] {(2,{(1)}),(1,{(1),(0)}),(2,{(1)}),(1,{(1)}),(2,{})}",
    "other[k:I,s[n:I]] {(2,{(1)}),(1,{(0),(1)})}",
    "tens[a:I] {(10),(20),(30),(40),(50)}",
    'left[k:I,x:S] {(1,"a"),(1,"b"),(2,"c")}',
    'gaps[k:I,x:S] {(1,"a"),(2,"c"),(1,"b")}',
    'right[k:I,y:S] {(1,"p"),(1,"q")}',
    "u[a:I] {(1),(2),(2)}",
    "z[a:I] {(2),(3)}",
    "w[b:I] {(1),(2)}",
    'words[word:S,size:L] {("é",0),("",0),("zug",0)}',
    "ends[a:I,b:I] {(2147483647,1),(-2147483648,-1),(0,0)}",
    "none[b:I] {}",
    'book[name:S,phones[kind:S,number:S],born:I] {("Ann",{("home","555-0100"),("cell","")},1970),("Bob",{},1980)}',
    'mixed[s[q:I],x:S,n:I] {({(1)},"b",2),({(2)},"b",1),({(3)},"a",3)}',
    'bare[n:S,s[q:I]] {("e",{})}',
    'inside[n:S,s[s:I,n:I]] {("e",{(1,2)})}',
    "views[s[q:I],r[q:I]] {({(1)},{}),({},{(2)})}",
    "turned[age:I,name:S] {}",
    "texts[age:S] {}",
    "kids[name:S,age:I,kids[name:S]] {}",
    'kinds[i:I,l:L,s:S,b:B] {(-1,-3000000000,"é",x"80"),(0,0,"z",x"7f"),(1,1,"",x""),(1,1,"z",x"7f00")}',
    f"wide{wide(WIDTH[:52])} {{}}",
    f"fits{wide(['p0', *WIDTH[52:]])} {{}}",
    f"wider{wide(['p0', 'q', *WIDTH[52:]])} {{}}",
    f"full{wide(WIDTH)} {{}}",
    f"holds{wide(WIDTH[:63])[:-1]},v[q:I,r:I]] {{}}",
    "deep[k:I,a[b[c[d[e[f[g[n:I]]]]]]]] {}",
    "less[k:I,a[b[c[d[e[f[n:I]]]]]]] {}",
]

# The rows of `many` are put in at once.
MANY = [
    ("getas many[a:I]", "ok many[a:I]"), ("insert many 0 4097 1", "ok 4097"),
    ("getas more[b:I]", "ok more[b:I]"), ("insert more 0 4097 1", "ok 4097"),
]

WORKED = [
    ("people", '[name:S,age:I] {("Ann",31),("Bob",31),("Cy",20)}'),
    ("book/0/phones", '[kind:S,number:S] {("home","555-0100"),("cell","")}'),
    ("nosuch", "err 3 noname"),
    ("nosuch/0/phones", "err 3 noname"),
    ("book/9/nosuch", "err 6 noprop"),
    ("book/9/name/9/nosuch", "err 7 kind"),
    ("book/2/phones", "err 5 range 2"),
    ("select(people,age=31)", '[name:S,age:I] {("Ann",31),("Bob",31)}'),
    ('select(people,age=31,name="Bob")', '[name:S,age:I] {("Bob",31)}'),
    ("select(people,age=31,age=20)", "[name:S,age:I] {}"),
    ("select(people,name=1)", "err 7 kind"),
    ("select(people,age=2147483648)", "err 7 kind"),
    ("select(nested,s={})", "err 7 kind"),
    ("select(people,zz=1)", "err 6 noprop"),
    ("select(nested,s={},zz=1)", "err 6 noprop"),
    (f'select(people,name="{"a" * 262_144}")', "[name:S,age:I] {}"),
    (f'select(people,name="{"a" * 262_145}")', "err 7 kind"),
    ("range(people,age=20:30)", '[name:S,age:I] {("Cy",20)}'),
    ("range(people,age=20:31)", '[name:S,age:I] {("Ann",31),("Bob",31),("Cy",20)}'),
    ("range(people,age=21:30)", "[name:S,age:I] {}"),
    ("range(people,age=31:20)", "[name:S,age:I] {}"),
    ('range(people,name="Ann":"Bob")', '[name:S,age:I] {("Ann",31),("Bob",31)}'),
    ("range(people,age=20:31,age=31:40)", '[name:S,age:I] {("Ann",31),("Bob",31)}'),
    ("range(people,name=1:1,zz=1:1)", "err 6 noprop"),
    ("range(people,age=20:2147483648)", "err 7 kind"),
    ('project(range(kinds,b=x"7f":x"80"),b)', '[b:B] {(x"80"),(x"7f"),(x"7f00")}'),
    ('project(range(kinds,s="a":"é"),s)', '[s:S] {("é"),("z"),("z")}'),
    ("sort(people,-age)", '[name:S,age:I] {("Ann",31),("Bob",31),("Cy",20)}'),
    ("sort(people,age)", '[name:S,age:I] {("Cy",20),("Ann",31),("Bob",31)}'),
    ("sort(people,age,-name)", '[name:S,age:I] {("Cy",20),("Bob",31),("Ann",31)}'),
    ("sort(sort(people,-age),age)", '[name:S,age:I] {("Cy",20),("Ann",31),("Bob",31)}'),
    ("sort(project(people,age))", "[age:I] {(20),(31),(31)}"),
    ("sort(people,age,-age,-name)", '[name:S,age:I] {("Cy",20),("Bob",31),("Ann",31)}'),
    ("sort(mixed)", '[s[q:I],x:S,n:I] {({(3)},"a",3),({(2)},"b",1),({(1)},"b",2)}'),
    ("sort(views)", "[s[q:I],r[q:I]] {({(1)},{}),({},{(2)})}"),
    ("sort(nested,s)", "err 7 kind"),
    ("sort(people,age,zz)", "err 6 noprop"),
    ("project(sort(kinds,-b),b)", '[b:B] {(x"80"),(x"7f00"),(x"7f"),(x"")}'),
    ("project(sort(kinds,s),s,i)", '[s:S,i:I] {("",1),("z",0),("z",1),("é",-1)}'),
    ("project(people,age,age)", "[age:I] {(31),(31),(20)}"),
    ("project(people,age,name)", '[age:I,name:S] {(31,"Ann"),(31,"Bob"),(20,"Cy")}'),
    ("project(people,zz)", "err 6 noprop"),
    ("without(range(people,age=20:20),age)", '[name:S] {("Cy")}'),
    ("without(people,age,name)", "err 6 noprop"),
    ("project(rename(people,age,years),years)", "[years:I] {(31),(31),(20)}"),
    ("rename(people,age,name)", "err 4 exists"),
    ("rename(people,nosuch,name)", "err 4 exists"),
    ("rename(people,nosuch,years)", "err 6 noprop"),
    ("project(rename(people,age,age),age)", "[age:I] {(31),(31),(20)}"),
    ("slice(tens,1,9,-2)", "[a:I] {(40),(20)}"),
    ("slice(tens,0,5,0)", "err 5 range 5"),
    ("slice(slice(tens,1,9,2),0,5,0)", "err 5 range 2"),
    ("slice(tens,0,9223372036854775807,9223372036854775807)", "[a:I] {(10)}"),
    ("slice(tens,0,5,-9223372036854775808)", "[a:I] {(10)}"),
    ("slice(tens,5,2,1)", "[a:I] {}"),
    ("slice(tens,9223372036854775807,9223372036854775807,-9223372036854775808)", "[a:I] {}"),
    ("slice(tens,4,9223372036854775807,9223372036854775807)", "[a:I] {(50)}"),
    ("slice(concat(people,people),2,4,1)", '[name:S,age:I] {("Cy",20),("Ann",31)}'),
    ("slice(people,0,3,2)", '[name:S,age:I] {("Ann",31),("Cy",20)}'),
    ("groupby(people,age:who)", '[age:I,who[name:S]] {(20,{("Cy")}),(31,{("Ann"),("Bob")})}'),
    ("groupby(people,age,age:name)", '[age:I,name[name:S]] {(20,{("Cy")}),(31,{("Ann"),("Bob")})}'),
    ("groupby(people,age:age)", "err 4 exists"),
    ("groupby(people,zz:zz)", "err 4 exists"),
    ("groupby(people,age,name:who)", "err 6 noprop"),
    ("groupby(nested,s:w)", "err 7 kind"),
    ("groupby(deep,k:s)", "err 8 limit"),
    ("groupby(less,k:s)", "[k:I,s[a[b[c[d[e[f[n:I]]]]]]]] {}"),
    ("counts(people,age:n)", "[age:I,n:I] {(20,1),(31,2)}"),
    ("counts(concat(people,people),age:n)", "[age:I,n:I] {(20,2),(31,4)}"),
    ("range(counts(people,age:n),n=2:9)", "[age:I,n:I] {(31,2)}"),
    ("counts(people,age:name)", "[age:I,name:I] {(20,1),(31,2)}"),
    ("counts(people,age,name:n)", '[age:I,name:S,n:I] {(20,"Cy",1),(31,"Ann",1),(31,"Bob",1)}'),
    ("counts(people,zz:zz)", "err 4 exists"),
    ("counts(people,zz:n)", "err 6 noprop"),
    ("counts(nested,s:n)", "err 7 kind"),
    (f"counts(full,{','.join(WIDTH)}:n)", "err 8 limit"),
    ("joinprop(groupby(people,age:who),who)", '[age:I,name:S] {(20,"Cy"),(31,"Ann"),(31,"Bob")}'),
    ("project(joinprop(book,phones),name,kind,number)", '[name:S,kind:S,number:S] {("Ann","home","555-0100"),("Ann","cell","")}'),
    ("joinprop(bare,s)", "[n:S,q:I] {}"),
    ("joinprop(inside,s)", '[n:S,s:I] {("e",1)}'),
    ("joinprop(people,age)", "err 7 kind"),
    ("joinprop(people,zz)", "err 6 noprop"),
    ("joinprop(holds,v)", "err 8 limit"),
    ("outerjoinprop(book,phones)",
     '[name:S,born:I,kind:S,number:S] {("Ann",1970,"home","555-0100"),("Ann",1970,"cell",""),("Bob",1980,"","")}'),
    ("outerjoinprop(bare,s)", '[n:S,q:I] {("e",0)}'),
    ("outerjoinprop(holds,v)", "err 8 limit"),
    ("unique(project(people,age))", "[age:I] {(31),(20)}"),
    ("unique(nested)", "[k:I,s[n:I]] {(2,{(1)}),(1,{(1),(0)}),(1,{(1)}),(2,{})}"),
    ("concat(u,z)", "[a:I] {(1),(2),(2),(2),(3)}"),
    ("concat(slice(people,2,3,1),concat(slice(people,0,1,1),slice(people,2,3,1)))", '[name:S,age:I] {("Cy",20),("Ann",31),("Cy",20)}'),
    ("concat(people,project(people,name))", "err 7 kind"),
    ("concat(slice(u,0,1,0),nosuch)", "err 5 range 3"),
    ("concat(nosuch,slice(u,0,1,0))", "err 3 noname"),
    ("union(u,z)", "[a:I] {(1),(2),(3)}"),
    ("union(people,turned)", "err 7 kind"),
    ("intersect(u,z)", "[a:I] {(2),(2)}"),
    ("intersect(nested,other)", "[k:I,s[n:I]] {(2,{(1)}),(2,{(1)})}"),
    ("minus(u,z)", "[a:I] {(1)}"),
    ("minus(people,select(people,age=31))", '[name:S,age:I] {("Cy",20)}'),
    ("minus(nested,other)", "[k:I,s[n:I]] {(1,{(1),(0)}),(1,{(1)}),(2,{})}"),
    ("different(u,z)", "[a:I] {(1),(3)}"),
    ("different(z,concat(u,u))", "[a:I] {(3),(1),(1)}"),
    ("pair(w,tens)", "[b:I,a:I] {(1,10),(2,20)}"),
    ("pair(nosuch,slice(u,0,1,0))", "err 3 noname"),
    ("pair(slice(u,0,1,0),nosuch)", "err 5 range 3"),
    ("pair(left,right)", '[k:I,x:S,y:S] {(1,"a","p"),(1,"b","q")}'),
    ("pair(wide,fits)", f"{wide(WIDTH)} {{}}"),
    ("pair(wide,wider)", "err 8 limit"),
    ("product(w,z)", "[b:I,a:I] {(1,2),(1,3),(2,2),(2,3)}"),
    ("product(tens,none)", "[a:I,b:I] {}"),
    ("product(u,u)", "[a:I] {(1),(1),(1),(2),(2),(2),(2),(2),(2)}"),
    ("product(wide,wider)", "err 8 limit"),
    ("product(many,more)", "err 8 limit"),
    ("join(left,right,k)", '[k:I,x:S,y:S] {(1,"a","p"),(1,"a","q"),(1,"b","p"),(1,"b","q")}'),
    ("join(people,texts,age)", "err 7 kind"),
    ("join(people,left,k)", "err 6 noprop"),
    ("join(kids,people,age,kids)", "err 6 noprop"),
    ("join(kids,kids,age,kids)", "err 7 kind"),
    ("join(wide,wider,p0)", "err 8 limit"),
    ("outerjoin(left,right,k)", '[k:I,x:S,y:S] {(1,"a","p"),(1,"a","q"),(1,"b","p"),(1,"b","q"),(2,"c","")}'),
    ("outerjoin(gaps,right,k)", '[k:I,x:S,y:S] {(1,"a","p"),(1,"a","q"),(2,"c",""),(1,"b","p"),(1,"b","q")}'),
    ("outerjoin(rename(w,b,k),nested,k)", "[k:I,s[n:I]] {(1,{(1),(0)}),(1,{(1)}),(2,{(1)}),(2,{(1)}),(2,{})}"),
    ("outerjoin(rename(tens,a,k),nested,k)", "[k:I,s[n:I]] {(10,{}),(20,{}),(30,{}),(40,{}),(50,{})}"),
    ("outerjoin(wide,wider,p0)", "err 8 limit"),
    ("calc(people,twice,age:dbl)", '[name:S,age:I,dbl:L] {("Ann",31,62),("Bob",31,62),("Cy",20,40)}'),
    ("calc(people,sum,age,age:dbl)", '[name:S,age:I,dbl:L] {("Ann",31,62),("Bob",31,62),("Cy",20,40)}'),
    ("calc(people,length,name:n)", '[name:S,age:I,n:L] {("Ann",31,3),("Bob",31,3),("Cy",20,2)}'),
    ("calc(words,length,word:n)", '[word:S,size:L,n:L] {("é",0,2),("",0,0),("zug",0,3)}'),
    ("calc(ends,twice,a:n)", "[a:I,b:I,n:L] {(2147483647,1,4294967294),(-2147483648,-1,-4294967296),(0,0,0)}"),
    ("calc(ends,sum,a,b:n)", "[a:I,b:I,n:L] {(2147483647,1,2147483648),(-2147483648,-1,-2147483649),(0,0,0)}"),
    ("calc(ends,sum,b,b:n)", "[a:I,b:I,n:L] {(2147483647,1,2),(-2147483648,-1,-2),(0,0,0)}"),
    ("calc(people,length,age:q)", "err 7 kind"),
    ("calc(people,sum,name,name:name)", "err 4 exists"),
    ("calc(people,nosuch,zz:name)", "err 3 noname"),
    ("calc(people,twice,zz:name)", "err 4 exists"),
    ("calc(people,twice,name,zz:dbl)", "err 6 noprop"),
    ("calc(people,twice,name:dbl)", "err 7 kind"),
    ("calc(people,twice,age,age:dbl)", "err 7 kind"),
    ("calc(full,twice,name:dbl)", "err 6 noprop"),
    ("calc(full,twice,p0:p63)", "err 4 exists"),
    ("calc(full,sum,p0:n)", "err 7 kind"),
    ("calc(full,twice,p0:dbl)", "err 8 limit"),
    ("calc(slice(u,0,1,0),nosuch,a:b)", "err 5 range 3"),
    ("keep(people,length,name)", '[name:S,age:I] {("Ann",31),("Bob",31),("Cy",20)}'),
    ("keep(words,length,word)", '[word:S,size:L] {("é",0),("zug",0)}'),
    ("keep(ends,sum,a,b)", "[a:I,b:I] {(2147483647,1),(-2147483648,-1)}"),
    ("keep(words,twice,size)", "err 7 kind"),
    ("keep(people,twice,name,zz)", "err 6 noprop"),
    ("keep(people,sum,age,name)", "err 7 kind"),
    ("keep(calc(people,nosuch,age:x),length,name)", "err 3 noname"),
    ("keep(people,nosuch,zz)", "err 3 noname"),
    ("keep(people,length,zz)", "err 6 noprop"),
    ("keep(people,length,age)", "err 7 kind"),
    ("keep(people,sum,age)", "err 7 kind"),
    ("keep(slice(u,0,1,0),length,zz)", "err 5 range 3"),
    ("sort(" * 15 + "u" + ")" * 15, "[a:I] {(1),(2),(2)}"),
    ("sort(" * 16 + "u" + ")" * 16, "err 8 limit"),
    ("concat(u," + "sort(" * 15 + "% ", "err 8 limit"),
]


def literal_of(text):
    """A literal or an expression as a reader has it."""
    return Reader(tokens_of(text.encode())[0])


def said(rows):
    return "\n".join([f"ok {len(rows)}", *map(spelled_row, rows)])


def worked_lines():
    """The lines by which the expressions are tried. That a structure is the due one is seen by an empty view that has it."""
    yield from MANY
    for table in TABLES:
        text, rows = table.split(" ")
        yield f"getas {text}", f"ok {text}"
        for at, row in enumerate(literal_of(rows).literal()):
            yield f"add {text.partition('[')[0]} {' '.join(map(spelled, row))}", f"ok {at}"
    for expression, due in WORKED:
        if due.startswith("err"):
            yield from ((f"{word} {expression}", due) for word in ("show", "size"))
            continue
        text, rows = due.split(" ", 1)
        rows = literal_of(rows).literal()
        yield f"show {expression}", said(rows)
        yield f"getas empty{text}", f"ok empty{text}"
        if expression.count("(") < MOST_OPERATORS:
            yield f"size concat({expression},empty)", f"ok {len(rows)}"


def session_lines(text):
    """The lines of a session, each with its reply."""
    shown = "\n".join(line for line in text.strip("\n").split("\n") if not line.startswith("#"))
    return [tuple(part.split("\n", 1)) for part in shown.removeprefix("> ").split("\n> ")]


def full_lines():
    """As many snapshots, cursors and mappings as there may be, and one more."""
    yield "getas t[a:I]", "ok t[a:I]"
    yield from ((f"dup s{at} t", "ok 0") for at in range(MOST_SNAPSHOTS))
    yield from [("dup more t", "err 8 limit"), ("dup s0 t", "err 4 exists"), ("dup more nosuch", "err 3 noname")]
    yield from [("undup s9", "ok"), ("dup more t", "ok 0")]
    yield from ((f"cursor c{at} t", "ok 0") for at in range(MOST_CURSORS))
    yield from [("cursor c t", "err 8 limit"), ("cursor c0 t", "err 4 exists"), ("cursor c nosuch", "err 3 noname")]
    yield from [("uncursor c9", "ok"), ("cursor c t", "ok 0")]
    yield from [("rollback", "ok rollback 0"), ("cursor c more", "ok 0"), ("dup s9 more", "err 8 limit")]
    yield from ((f"getas v{at}[a:I]", f"ok v{at}[a:I]") for at in range(MOST_VIEWS))
    yield from [("getas s0[a:I]", "err 4 exists"), ("getas v[a:I]", "err 8 limit"), ("getas v0[a:I]", "ok v0[a:I]")]
    yield from ((f"{('hash', 'ordered')[at % 2]} v{at} 1", "ok") for at in range(MOST_MAPPINGS))
    yield from [("ordered v64 1", "err 8 limit"), ("hash v0 1", "err 8 limit"), ("hash v0 2", "err 5 range 1"), ("unmap v9", "ok"), ("hash v64 1", "ok"), ("unmap v9", "err 3 noname")]


# Each command with what it is refused for, where that needs no session of its own: over two rows of the first structure, and over no rows of
# one that is as deep as it can be.

REFUSING = ("t[a:I,b:S,v[a:I]]", "deep[a:I,b[c[d[e[f[g[h[i:I]]]]]]]]")
ASKING = ("size {}", "show {}", "find {} 0 a=1", "search {} a=1", "locate {} a=1", "dup s {}")
EDITING = ("add {} 1", "insert {} 0 1 1", "set {} 0 a 1", "remove {} 0 1")
OF_NO_TABLE = {"nosuch": "3 noname", "t/2/z": "6 noprop", "t/2/a": "7 kind", "t/2/v": "5 range 2"}
OF_NO_VALUE = {
    "rename(t,a,b)": "4 exists", "project(t,z)": "6 noprop", "concat(t,deep)": "7 kind", "slice(t,0,1,0)": "5 range 2",
    "groupby(deep,a:b)": "8 limit",
}
OF_LINES = {
    f"add t 1 {spelled(TOO_LONG)}": "8 limit", f"insert t 2 1 1 {spelled(TOO_LONG)}": "8 limit",
    f"insert t 3 1 1 {spelled(TOO_LONG)}": "5 range 2", f"set t 1 b {spelled(TOO_LONG)}": "8 limit",
    f"set t 2 b {spelled(TOO_LONG)}": "5 range 2", f"set t 2 a {spelled(TOO_LONG)}": "7 kind", "insert t 2 65537": "8 limit",
    "add t 1 2": "7 kind", 'add t 1 "a" {} 1': "6 noprop", "drop nosuch": "3 noname", "revert": "3 noname", "quit x": "2 syntax 5",
    "foo": "2 syntax 0", "find t 9223372036854775807 a=1": "5 range 2", "find t 9223372036854775808 a=1": "2 syntax 7",
    "size t/9223372036854775807/v": "5 range 2", f"find t 0 v={'{(' * 8}1{')}' * 8}": "7 kind",
    f"find t 0 v={'{(' * 9}1{')}' * 9}": "2 syntax 27", f"find t 0 b={spelled(TOO_LONG)}": "7 kind",
    f"find t 3 b={spelled(TOO_LONG)}": "7 kind", f"show {'sort(' * 15}% sort(t": "2 syntax 80",
    f"show ,{'sort(' * 16}%": "2 syntax 86", f"show {'sort(' * 16}": "8 limit",
    f"dup s {'sort(' * 16}%": "8 limit", f"show {'sort(' * 15}sort %": "2 syntax 85",
}


def refused_lines():
    yield from ((f"getas {text}", f"ok {text}") for text in REFUSING)
    yield "insert t 0 2", "ok 2"
    for form in ASKING:
        yield from ((form.format(expression), f"err {why}") for expression, why in {**OF_NO_TABLE, **OF_NO_VALUE}.items())
    for form in EDITING:
        yield from ((form.format(path), f"err {why}") for path, why in OF_NO_TABLE.items())
    yield from ((f"{command} %", f"err 2 syntax {len(command) + 1}") for command in COMMANDS)
    yield from ((line, f"err {why}") for line, why in OF_LINES.items())
    yield "quit", "ok quit"
