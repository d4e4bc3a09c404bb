"""The steps of bin/csv-readers, which has nightly answer cases between them: csv-readers.py STEP FOLDER.

ask   asks for the text and for the sheet of each file of the cases that were made
read  has every reader read each text, and asks to import what python3 writes of its fields
end   holds what was imported to the sheets, and gives the count
"""

import collections
import csv
import io
import json
import pathlib
import platform
import subprocess
import sys

# The greatest ROOM and LENGTH of a case, and the longest text that is imported.
CASE_LIMIT = 1114112
IMPORT_LIMIT = 1048000
# The longest record has seven fields; two columns more show a field too many.
COLUMNS = 9
SHOWN = 10


# ---- streams


def cases_of(stream):
    """The cases of a stream: the words of each header, and the body."""
    at = 0
    while at < len(stream):
        end = stream.index(b"\n", at)
        words = stream[at:end].split(b"\t")
        at = end + 1 + int(words[-1])
        yield words, stream[end + 1 : at]


def case_of(words, body):
    return b"\t".join([*words, b"%d" % CASE_LIMIT, b"%d" % len(body)]) + b"\n" + body


def answers_of(stream):
    """The answers of a stream: the bytes that were made, or the number of a refusal."""
    at = 0
    while at < len(stream):
        end = stream.index(b"\n", at)
        words = stream[at:end].split(b"\t")
        at = end + 1
        if words[0] == b"ok":
            made = stream[at : at + int(words[3])]
            at += len(made) + 1
            yield made
        else:
            yield int(words[1])


def rows_of(sheet):
    return [line.split("\t") for line in sheet.decode("ascii").split("\n")[:-1]]


# ---- the readers: each gives the rows of a text


def run(command, text=b""):
    """What a command prints of a text. One that fails has read nothing."""
    ended = subprocess.run(command, input=text, capture_output=True, check=False)
    return ended.stdout.decode("latin-1") if ended.returncode == 0 else ""


def hex_rows(said):
    """Rows of a line each, of fields in hex, parted by tabs; a dash is no field."""
    lines = [line.split("\t") for line in said.split("\n")[:-1]]
    return [[bytes.fromhex(field).decode("latin-1") for field in line if field != "-"] for line in lines]


def read_by_python(text):
    return list(csv.reader(io.StringIO(text.decode("latin-1"), newline="")))


PERL_READER = r"""
    my $csv = Text::CSV_XS->new({ binary => 1 });
    while (my $row = $csv->getline(*STDIN)) { print join("\t", map { unpack "H*", $_ } @$row), "\n" }
    exit !$csv->eof;
"""


def read_by_perl(text):
    return hex_rows(run(["perl", "-MText::CSV_XS", "-e", PERL_READER], text))


def read_by_sqlite(text):
    """A row shorter than the table is filled with NULL, which is told from an empty text."""
    names = [f"f{i}" for i in range(COLUMNS)]
    columns = ", ".join(f"{name} text" for name in names)
    fields = ", ".join(f"iif({name} is null, '-', hex({name}))" for name in names)
    before = [f"create table t ({columns})", ".import --csv /dev/stdin t", ".mode tabs"]
    words = [word for command in before for word in ("-cmd", command)]
    return hex_rows(run(["sqlite3", "-batch", *words, ":memory:", f"select {fields} from t order by rowid"], text))


def read_by_miller(text):
    """It has to be told of lines of different lengths and that no line has names; -S leaves numbers as they are written."""
    words = ["--icsv", "--implicit-csv-header", "--allow-ragged-csv-input", "-S", "--ojson", "cat"]
    return [list(row.values()) for row in json.loads(run(["mlr", *words], text) or "[]")]


READERS = {
    "python3's csv": read_by_python,
    "perl's Text::CSV_XS": read_by_perl,
    "sqlite3": read_by_sqlite,
    "Miller": read_by_miller,
}


def meant_for(name, rows):
    """The rows that a reader must give. Miller fills each line with empty fields up to the length of the first, the longest."""
    if name == "Miller":
        return [row + [""] * (len(rows[0]) - len(row)) for row in rows]
    return rows


def print_versions():
    print(f"python3's csv {csv.__version__} (python3 {platform.python_version()})")
    version = r'printf "%s (perl %vd)", $Text::CSV_XS::VERSION, $^V'
    print("perl's Text::CSV_XS " + run(["perl", "-MText::CSV_XS", "-e", version]))
    print("sqlite3 " + run(["sqlite3", "--version"]).split(" ")[0])
    print("Miller " + run(["mlr", "--version"]).split()[-1])


# ---- what is held


class Differences:
    def __init__(self, count=0):
        self.count = count

    def note(self, what):
        self.count += 1
        if self.count <= SHOWN:
            print(f"difference: {what}")

    def hold(self, who, rows, right):
        """Holds rows to the right ones."""
        if rows == right:
            return
        both = min(len(rows), len(right))
        at = next((i for i in range(both) if rows[i] != right[i]), both)
        read, meant = (lines[at] if at < len(lines) else "no line" for lines in (rows, right))
        self.note(f"{who}, line {at + 1}: {read}; the sheet has {meant}")


def written(rows, quoting=csv.QUOTE_MINIMAL):
    """The text that python3 writes of rows, in its usual dialect but for the quoting."""
    text = io.StringIO(newline="")
    csv.writer(text, quoting=quoting).writerows(rows)
    return text.getvalue().encode("ascii")


def texts_to_import(rows):
    """The usual text of rows, and the one with every field quoted, as far as a case can hold them."""
    return [text for text in (written(rows), written(rows, csv.QUOTE_ALL)) if len(text) <= CASE_LIMIT]


def must_be_quoted(field):
    return "," in field or '"' in field


def quoted(field):
    return '"' + field.replace('"', '""') + '"'


def without_a_mark(field):
    return quoted(field).replace('""', '"', 1) if '"' in field else None


def without_quotes(field):
    return field if "," in field and '"' not in field else None


SPOILS = {"a quotation mark that is not doubled": without_a_mark, "a comma that is not quoted": without_quotes}


def spoiled(rows, spoil):
    """The text of rows, the first field that can be spoiled so spoiled; None where there is none."""
    fields = [[quoted(field) if must_be_quoted(field) else field for field in row] for row in rows]
    for line, row in enumerate(rows):
        for place, field in enumerate(row):
            bad = spoil(field)
            if bad is not None:
                fields[line][place] = bad
                return "".join(",".join(row) + "\r\n" for row in fields).encode("ascii")
    return None


def hold_spoils(sheets, differences):
    """Every reader must read something else where an export is spoiled."""
    for what, spoil in SPOILS.items():
        found = ((spoiled(rows, spoil), rows) for rows in sheets)
        text, rows = next((pair for pair in found if pair[0] is not None), (None, None))
        if text is None:
            sys.exit(f"csv-readers: no field for {what}: ask for more cases")
        blind = [name for name, reader in READERS.items() if reader(text) == meant_for(name, rows)]
        for name in blind:
            differences.note(f"{name} does not see {what}")
        print(f"{what}: {len(READERS) - len(blind)} of {len(READERS)} readers see it")


# ---- the steps


def exports_in(folder):
    """The exports that were made: the number of the case, its flow, the text, and the sheet or the refusal of the reader."""
    cases = cases_of((folder / "made").read_bytes())
    answers = list(answers_of((folder / "answers").read_bytes()))
    for number, ((words, _), text, sheet) in enumerate(zip(cases, answers[::2], answers[1::2], strict=True), 1):
        if isinstance(text, bytes):
            yield number, words[1].decode("ascii"), text, sheet


def ask(folder):
    with open(folder / "cases", "wb") as out:
        for words, body in cases_of((folder / "made").read_bytes()):
            for part in (b"export", b"read"):
                out.write(case_of([part, words[1]], body))


def read(folder):
    print_versions()
    differences, flows, sheets = Differences(), collections.Counter(), []
    with open(folder / "imports", "wb") as out:
        for number, flow, text, sheet in exports_in(folder):
            where = f"case {number}, {flow}"
            flows[flow] += 1
            if not isinstance(sheet, bytes):
                differences.note(f"{where}: exported, and the sheet is refused with {sheet}")
                continue
            rows = rows_of(sheet)
            sheets.append(rows)
            for name, reader in READERS.items():
                differences.hold(f"{name}, {where}", reader(text), meant_for(name, rows))
            if written(rows) != text:
                differences.note(f"{where}: python3's writer writes another text than the export")
            for again in texts_to_import(rows):
                out.write(case_of([b"import"], again))
    print("exports: " + ", ".join(f"{flow} {count}" for flow, count in sorted(flows.items())))
    fields = [field for rows in sheets for row in rows for field in row]
    many = sum(map(must_be_quoted, fields))
    print(f"{sum(map(len, sheets))} lines, {len(fields)} fields, {many} of them with a comma or a quotation mark")
    hold_spoils(sheets, differences)
    (folder / "differences").write_text(str(differences.count))


def end(folder):
    differences = Differences(int((folder / "differences").read_text()))
    exports = list(exports_in(folder))
    sheets = [(f"case {number}, {flow}", sheet) for number, flow, _, sheet in exports if isinstance(sheet, bytes)]
    asked = [(where, sheet, text) for where, sheet in sheets for text in texts_to_import(rows_of(sheet))]
    answers = list(answers_of((folder / "imported").read_bytes()))
    for (where, sheet, text), answer in zip(asked, answers, strict=True):
        if answer != (sheet if len(text) <= IMPORT_LIMIT else 2):
            got = "another sheet" if isinstance(answer, bytes) else f"refused with {answer}"
            differences.note(f"import of {len(text)} bytes that python3 wrote, {where}: {got}")
    over = sum(len(text) > IMPORT_LIMIT for _, _, text in asked)
    print(f"{len(asked)} texts of python3's writer to import, {over} of them over the limit")
    print(f"{len(exports)} exports, {len(READERS)} readers, {differences.count} differences")


{"ask": ask, "read": read, "end": end}[sys.argv[1]](pathlib.Path(sys.argv[2]))
