"""Tables of runs of dk_table: what columns have, rows, names, and each refusal."""

from __future__ import annotations

from dataclasses import replace

from command import WRITE
from writing import Case, cut_short, failing_reads, failing_writes, unread, wanted, with_key

PIECE = 64
USED = b"name,price,kept\nbolt,1.25,true\n\"nut, small\",0.50,false\n,-0.75,true\n"


def run(name: str, arguments: str | tuple[str, ...], **files: bytes) -> Case:
    """A run over files; a file's name has `_` in the place of `.`."""
    split = tuple(arguments.split()) if isinstance(arguments, str) else arguments
    return wanted(Case(name, "dk_table", split, {key.replace("_", "."): text for key, text in files.items()}))


def column(name: str, *cells: bytes) -> Case:
    """A table of one column, beside one that has no empty cell."""
    rows = b"".join(b"%d,%s\n" % (number, cell) for number, cell in enumerate(cells))
    return run(name, "t.csv", t_csv=b"place,it\n" + rows)


def kinds() -> list[Case]:
    """What a column has."""
    return [
        column("whole numbers", b"1", b"-7", b"0", b"30"),
        column("whole numbers at the ends of 64 bits", b"9223372036854775807", b"-9223372036854775808"),
        column("a number beyond 64 bits is a text", b"9223372036854775808", b"1"),
        column("a number below 64 bits is a text", b"-9223372036854775809", b"1"),
        column("a leading zero makes texts", b"01", b"1"),
        column("a minus in front of zero makes texts", b"-0", b"1"),
        column("a plus makes texts", b"+1", b"1"),
        column("a blank makes texts", b" 1", b"1"),
        column("truth values in small letters", b"true", b"false", b"true"),
        column("truth values with a capital", b"True", b"False"),
        column("truth values in capitals", b"TRUE", b"FALSE"),
        column("one truth value alone", b"false", b"false"),
        column("truth values in two spellings are texts", b"true", b"False"),
        column("truth values and numbers are texts", b"true", b"1"),
        column("decimals", b"1.25", b"-0.50", b"10.00", b"0.05"),
        column("decimals with one place", b"-0.5", b"3.0"),
        column("decimals with eighteen places", b"0.000000000000000001", b"-9.000000000000000000"),
        column("decimals with nineteen places are texts", b"0.0000000000000000001"),
        column("decimals at the ends of 64 bits", b"92233720368547758.07", b"-92233720368547758.08"),
        column("a decimal beyond 64 bits is a text", b"92233720368547758.08"),
        column("different numbers of places are texts", b"1.5", b"1.25"),
        column("decimals and whole numbers are texts", b"1.5", b"2"),
        column("nothing in front of the dot makes texts", b".5"),
        column("a minus in front of the dot makes texts", b"-.5"),
        column("nothing behind the dot makes texts", b"5."),
        column("a leading zero of a decimal makes texts", b"01.5"),
        column("empty cells are missing", b"4", b"", b"6", b""),
        column("empty cells of truth values, decimals and texts", b"", b"true", b""),
        column("an empty cell between decimals", b"0.5", b"", b"1.5"),
        column("an empty cell between texts", b"a", b"", b"b"),
        column("a column without values", b"", b"", b""),
        column("texts with what is escaped", b'"a ""b"" \\c"', b'"d\ne\rf\tg"', b'"h, i"'),
        column("texts that aren't ASCII", "ü".encode(), b"\xff\x00\x7f", b"null"),
        column("texts that look like values of a trace", b"nonsensical", b"[1 2]", b"0x1f"),
    ]


def rows() -> list[Case]:
    """How bytes are rows."""
    return [
        run("names, prices and truth values", "prices.csv", prices_csv=USED),
        run("a header alone", "t.csv", t_csv=b"x,y\n"),
        run("a header without a line end", "t.csv", t_csv=b"x,y"),
        run("the last row without a line end", "t.csv", t_csv=b"x,y\n1,2\n3,4"),
        run("CR LF", "t.csv", t_csv=b"x,y\r\n1,2\r\n3,4\r\n"),
        run("CR", "t.csv", t_csv=b"x,y\r1,2\r3,4\r"),
        run("blank lines", "t.csv", t_csv=b"\n\nx,y\n\n1,2\n\r\n3,4\n\n"),
        run("a byte order mark", "t.csv", t_csv=b"\xef\xbb\xbfx,y\n1,2\n"),
        run("a byte order mark in the second file too", "t.csv u.csv", t_csv=b"\xef\xbb\xbfx\n1\n", u_csv=b"\xef\xbb\xbfx\n2\n"),
        run("quotes", "t.csv", t_csv=b'"x","y, ""z"""\n"1","a\nb"\n2,"c"\n'),
        run("a quote within a cell", "t.csv", t_csv=b'x\na"b"c\n'),
        run("a row of one empty cell between quotes", "t.csv", t_csv=b'x\n""\n1\n'),
        run("two files", "t.csv u.csv", t_csv=b"x,y\n1,2\n", u_csv=b"x,y\n3,4\n5,6\n"),
        run("a file twice", "t.csv t.csv", t_csv=b"x\n1\n"),
        run("a header that is written with quotes in the second file", "t.csv u.csv", t_csv=b"x,y\n1,2\n", u_csv=b'"x",y\n3,4\n'),
        run("semicolons", "--separator ; t.csv", t_csv=b"x;y\n1;2,5\n3;4,5\n"),
        run("tabs", ("--separator", "\t", "t.csv"), t_csv=b"x\ty\n1\t2\n"),
        run("blanks", ("--separator= ", "t.csv"), t_csv=b"x y\n1 2\n"),
        run("no header", "--no-header t.csv", t_csv=b"1,a\n2,b\n"),
        run("no header, two files", "--no-header t.csv u.csv", t_csv=b"1,a\n", u_csv=b"2,b\n"),
        run("kinds by the first row", "--types 1 t.csv", t_csv=b"x,y,z\n1,true,0.5\n2,false,1.5\n,,\n"),
        run("more rows than there are", "--types=1099511627776 t.csv", t_csv=b"x\n1\n"),
        run("kinds by the rows of two files", "--types 2 t.csv u.csv", t_csv=b"x\n1\n", u_csv=b"x\n2\n3\n"),
        run("a name of the point", ("--point", "Cash box:::rows", "t.csv"), t_csv=b"x\n1\n"),
        run("a name with blanks and backslashes", ("--point", "a b\\c", "t.csv"), t_csv=b"p q,r\\s\n1,2\n"),
        run("words in another order", "t.csv --no-header u.csv --point=P", t_csv=b"1\n", u_csv=b"2\n"),
        run("a name behind two dashes", "-- --types", **{"--types": b"x\n1\n"}),
    ]


def named(name: str, header: bytes, *arguments: str) -> Case:
    """A table whose names are refused."""
    count = header.count(b",") + 1
    return run(name, (*arguments, "t.csv"), t_csv=header + b"\n" + b",".join([b"0.5"] * count) + b"\n")


def refusals() -> list[Case]:
    """Each reason by which a table is refused, and which of two counts; not those of cells behind the first rows."""
    return [
        run("no bytes", "t.csv", t_csv=b""),
        run("blank lines alone", "t.csv", t_csv=b"\n\r\n\n"),
        run("a byte order mark alone", "t.csv", t_csv=b"\xef\xbb\xbf"),
        run("a second file without rows", "t.csv u.csv", t_csv=b"x\n1\n", u_csv=b"\n"),
        run("no bytes and no header", "--no-header t.csv", t_csv=b""),
        run("an open quote", "t.csv", t_csv=b'x,y\n1,2\n"3,4\n5,6\n'),
        run("an open quote in the header", "t.csv", t_csv=b'"x,y\n1,2\n'),
        run("an open quote in front of a row that is too short", "t.csv", t_csv=b'x,y\n1\n"3,4\n'),
        run("an open quote in the second file", "t.csv u.csv", t_csv=b"x\n1\n", u_csv=b'x\n"2\n'),
        run("another header", "t.csv u.csv", t_csv=b"x,y\n1,2\n", u_csv=b"y,x\n3,4\n"),
        run("another header in front of a row that is too long", "t.csv u.csv", t_csv=b"x\n1\n", u_csv=b"y\n3,4\n"),
        run("a header of another length", "t.csv u.csv", t_csv=b"x,y\n1,2\n", u_csv=b"x\n3\n"),
        run("a row that is too short", "t.csv", t_csv=b"x,y\n1,2\n3\n"),
        run("a row that is too long", "t.csv", t_csv=b"x,y\n1,2\n3,4,5\n6\n"),
        run("a row that is too long behind blank lines", "t.csv", t_csv=b"\nx\n\n1\n\n3,4\n"),
        run("a row that is too short in front of an open quote of the next file", "t.csv u.csv", t_csv=b"x,y\n1\n", u_csv=b'"x\n'),
        run("a row of another length without a header", "--no-header t.csv u.csv", t_csv=b"1,2\n", u_csv=b"3,4\n5\n"),
        run("a row that is too short in front of a name that is empty", "t.csv", t_csv=b"x,\n1\n"),
        named("a name that is empty", b"x,"),
        named("a name with a line end", b'x,"a\nb"'),
        named("a name that begins with a tab", b"\tx"),
        named("a name that ends with a CR", b'"x\r"'),
        named("a name that ends with a CR and a factor", b'"x\r",y'),
        named("a name twice", b"x,x"),
        named("a name of a nonce", b"x,this_invocation_nonce"),
        run("a name of a nonce, of whole numbers", "t.csv", t_csv=b"this_invocation_nonce\n1\n"),
        run("a name that a factor makes another one's", "t.csv", t_csv=b"x,x * 10\n0.5,1\n"),
        run("a name that ends with a tab", "t.csv", t_csv=b"x\t\n1\n"),
        run("a name of CR", "t.csv", t_csv=b'"\r"\n1\n'),
        named("a point without a name", b"x", "--point="),
        named("a point that is a comment", b"x", "--point", "#P"),
        named("a point that is a comment by two strokes", b"x", "--point", "//P"),
        named("a point that is a declaration", b"x", "--point", "DECLARE"),
        named("a point that begins as a header line", b"x", "--point", "decl-version"),
        named("a point that is a word for comparabilities", b"x", "--point", "VarComparability"),
        named("a point that begins as a declaration, with a blank that is told", b"x", "--point", "ppt P"),
        named("a point that begins with a tab", b"x", "--point", "\tP"),
        run("a name of two files", "t.csv u.csv", t_csv=b"x,\n1,2\n", u_csv=b"x,\n1,2\n"),
        run("a file that isn't there", "t.csv u.csv", t_csv=b"x\n1\n"),
        run("a refused file in front of one that isn't there", "t.csv u.csv", t_csv=b"x\n1,2\n"),
    ]


def bad_cells() -> list[Case]:
    """Cells behind the first rows."""
    return [
        run("no whole number", "--types 1 t.csv", t_csv=b"x\n1\n2\na\n"),
        run("a whole number beyond 64 bits", "--types 1 t.csv", t_csv=b"x\n1\n9223372036854775808\n"),
        run("another spelling of a truth value", "--types 2 t.csv", t_csv=b"x\ntrue\nfalse\nFalse\n"),
        run("another number of places", "--types 1 t.csv", t_csv=b"x\n0.5\n0.25\n"),
        run("the second column of the second file", "--types 1 t.csv u.csv", t_csv=b"x,y\n1,2\n", u_csv=b"x,y\n3,4\n5,b\n"),
        run("the first of two", "--types 1 t.csv", t_csv=b"x,y\n1,2\n3,b\nc,4\n"),
        run("a row that is too short behind it", "--types 1 t.csv", t_csv=b"x,y\n1,2\nc,4\n5\n"),
        run("a name behind which it comes", "--types 1 t.csv", t_csv=b"x,\n1,2\nc,4\n"),
        run("without a header", "--types 1 --no-header t.csv", t_csv=b"1\n2\nc\n"),
        run("a text is any text", "--types 1 t.csv", t_csv=b"x\na\n1\ntrue\n"),
        run("a column that was empty has texts", "--types 1 t.csv", t_csv=b"x,y\n1,\n2,b\n"),
    ]


def unread_behind(case: Case, name: str, number: int, front: Case) -> Case:
    """The case where this call, on the file of this name, fails behind rows that are all that this run has."""
    failing = unread(with_key(case, f"read {number} fails", 7, "failing-reads", number), name)
    return replace(failing, texts={**failing.texts, "report": front.texts["report"]})


def one_byte_writes(case: Case, numbers: list[int]) -> list[Case]:
    """The case, which writes a report and then a message, where a write moves one byte and that of each number fails, if it is made."""
    report, found = len(case.texts["report"]), []
    for number in numbers:
        fails = number <= report + len(case.texts["messages"])
        failing = with_key(case, f"write {number} {'fails' if fails else 'would fail'}", 1, "failing-writes", number)
        of_report = cut_short(replace(failing, status=WRITE if fails else case.status), "report", min(number - 1, report))
        found.append(cut_short(of_report, "messages", max(number - 1 - report, 0)))
    return found


def streams() -> list[Case]:
    """Rows that are written as they come, and what is refused among them."""
    numbers = run("four numbers", "--types 1 t.csv", t_csv=b"x\n1\n2\n3\n4\n")
    slow = run("kinds by three of four numbers", "--types 3 t.csv", t_csv=b"x\n1\n2\n3\n4\n")
    two = run("two files as they come", "--types 1 t.csv u.csv", t_csv=b"x\n1\n", u_csv=b"x\n2\n3\n")
    none = run("no file", "", t_csv=b"x\n1\n")
    refused = run("a cell of another kind behind two numbers", "--types 1 t.csv", t_csv=b"x\n1\n2\na\n")
    end = len(refused.texts["report"])
    return [
        run("a row among the first that is too short", "--types 2 t.csv", t_csv=b"x,y\n1,2\n3\n4,5\n"),
        run("a row behind them that is too short", "--types 1 t.csv", t_csv=b"x,y\n1,2\n3,4\n5\n6,7\n"),
        run("a row that is too long in front of a cell of another kind", "--types 1 t.csv", t_csv=b"x\n1\n2,3\na\n"),
        run("an open quote behind its rows", "--types 1 t.csv", t_csv=b'x\n1\n2\n"3\n'),
        run("an open quote, and fewer rows than are asked for", "--types 9 t.csv", t_csv=b'x\n1\n2\n"3\n'),
        run("another header behind the rows of a file", "--types 1 t.csv u.csv", t_csv=b"x\n1\n2\n", u_csv=b"y\n3\n"),
        run("another header, and fewer rows than are asked for", "--types 9 t.csv u.csv", t_csv=b"x\n1\n2\n", u_csv=b"y\n3\n"),
        run("no row behind the rows of a file", "--types 1 t.csv u.csv", t_csv=b"x\n1\n2\n", u_csv=b""),
        run("a row that is too short behind a name that is empty", "--types 1 t.csv", t_csv=b"x,\n1,2\n3\n"),
        run("a row that is too short among the first, and a name that is empty", "--types 2 t.csv", t_csv=b"x,\n1,2\n3\n"),
        run("cells of several lines", "--types 1 t.csv", t_csv=b'x,y\n1,"a\nb"\n2,"c\n""d"""\n'),
        run("a byte order mark in front of each", "--types 1 t.csv u.csv", t_csv=b"\xef\xbb\xbfx\n1\n", u_csv=b"\xef\xbb\xbfx\n2\n"),
        unread_behind(numbers, "t.csv", 1, none),
        unread_behind(numbers, "t.csv", 2, none),
        unread_behind(numbers, "t.csv", 3, run("", "--types 1 t.csv", t_csv=b"x\n1\n2\n")),
        unread_behind(numbers, "t.csv", 4, numbers),
        unread_behind(slow, "t.csv", 3, none),
        unread_behind(slow, "t.csv", 4, slow),
        unread_behind(two, "u.csv", 4, run("", "--types 1 t.csv", t_csv=b"x\n1\n")),
        unread_behind(two, "u.csv", 6, two),
        run("a file that isn't there behind the rows of one", "--types 1 t.csv u.csv", t_csv=b"x\n1\n"),
        *one_byte_writes(refused, [1, end // 2, end, end + 1, end + 5, end + len(refused.texts["messages"]) + 1]),
    ]


def arguments() -> list[Case]:
    """Arguments that are refused."""
    files = {"t_csv": b"x\n1\n"}
    refused = ("", "--point P", "--separator ab t.csv", "--separator= t.csv --separator ; t.csv", "--separator \" t.csv", "--types 0 t.csv",
               "--types 1099511627777 t.csv", "--types -1 t.csv", "--types t.csv", "--types 1 --types 1 t.csv",
               "--no-header --no-header t.csv", "--no-header=1 t.csv", "--point P --point Q t.csv", "--header t.csv", "--type 1 t.csv",
               "-p P t.csv", "--help=1 t.csv",
               "--colour --help")
    cases = [run(f"refused: {text or 'no words'}", text, **files) for text in refused]
    cases.append(run("refused: a separator of no byte", "--separator= t.csv", **files))
    cases.append(run("refused: a separator of two bytes", "--separator ü t.csv", **files))
    return [replace(case, keys={"failing-reads": "1"}) for case in cases]


def reads() -> list[Case]:
    """Reads that fail."""
    case = run("two tables", "t.csv u.csv", t_csv=USED, u_csv=b"name,price,kept\nwasher,2.00,true\n")
    refused = run("two tables, the first of which is refused", "t.csv u.csv", t_csv=b"x\n1,2\n", u_csv=b"x\n3\n")
    return failing_reads(case, ["t.csv", "u.csv"], PIECE) + failing_reads(case, ["t.csv", "u.csv"], 7)[-8:] \
        + failing_reads(refused, ["t.csv", "u.csv"], PIECE)


def writes() -> list[Case]:
    """Writes that fail."""
    case = run("a table", "prices.csv", prices_csv=USED)
    refused = run("a refused table", "t.csv", t_csv=b"x\n1,2\n")
    usage = run("refused words", "--types 0", t_csv=b"")
    return failing_writes(case, "report", PIECE) + failing_writes(refused, "messages", 7) + failing_writes(usage, "messages", PIECE)


TABLES = {
    "dk_table/kinds.cases": ("What a column has.", kinds),
    "dk_table/rows.cases": ("Rows of tables.", rows),
    "dk_table/refusals.cases": ("Tables that are refused.", refusals),
    "dk_table/bad_cells.cases": ("Cells behind the first rows, by which kinds are found.", bad_cells),
    "dk_table/streams.cases": ("Rows that are written as they come.", streams),
    "dk_table/words.cases": ("Words that are refused. A read would fail.", arguments),
    "dk_table/failing_reads.cases": ("Each read of a table that fails: one call starts a file, and the last one finds its end.", reads),
    "dk_table/failing_writes.cases": ("A write that fails leaves a front of the trace, or of the message.", writes),
}
