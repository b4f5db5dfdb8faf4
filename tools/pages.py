"""What the pages say of each function, option, input table and message, and where it stands once.

The definitions of the program say which there are: the functions and options stand in crates/pgr_words/specs, the columns of input
tables in crates/pgr_table/specs, and the messages there and in crates/pgr_run/specs. docs/FUNCTIONS.md says in words what they do.
From the two the parts between marks are made in share/completion/pgr.bash, man/pgr.1 and docs/FROM-PGROUTING.md. `write-pages` writes
them, and `check-pages` compares them.

In docs/FUNCTIONS.md are read:
- the lists of functions, each below a line `**Title.** Perhaps a sentence.`, with what each function answers;
- the table of the forms of values: what stands in code before the first colon is how a value is shown;
- of a function's section the table of options, or `The options are those of [other]`; the table of columns, or `The columns are
  those of [other]`, or `The one column is`; a table below the name of an option, whose values it explains; and the lines
  `- In pgRouting: call; here: command` and `- Unlike pgRouting: what differs`;
- of `## Input tables` each section `### The table of ..`: its paragraphs, its lists, and its tables of columns, with what holds where a
  column is absent (`refused` where it is needed);
- of `## Exit statuses and messages` the table of statuses, and that of messages with their status and cause.

A reference to another place, as `: see [Links](#links)`, is left out where the words go to the manual page.
"""
import os
import re
import textwrap

TOP = os.path.realpath(os.path.join(os.path.dirname(os.path.realpath(__file__)), ".."))
WORDS = "crates/pgr_words/specs"
TABLES = "crates/pgr_table/specs"
RUN = "crates/pgr_run/specs"
REFERENCE = "docs/FUNCTIONS.md"


def read(page):
    with open(os.path.join(TOP, page), encoding="utf-8") as file:
        return file.read()


class Words:
    """The program's own tables of words: functions with their options, and each option's need, form and the form's values."""

    def __init__(self):
        rules = re.findall(r'rule_of option\.(\w+) = record \{\s*name = codes "(\w+)";\s*need = (\w+);\s*fill = into (\w+)',
                           read(WORDS + "/Options.antt"))
        names = {variant: name for variant, name, _, _ in rules}
        self.need = {name: need for _, name, need, _ in rules}
        self.form = {name: form for _, name, _, form in rules}
        functions = read(WORDS + "/Functions.antt")
        lists = {name: [names[word.strip()] for word in words.split("∷") if word.strip() != "[]"]
                 for name, words in re.findall(r"^(\w+_options) = (.*)$", functions, re.M)}
        self.functions = {name: lists[of] for name, of in re.findall(r'\(codes "(\w+)", \(function\.\w+, (\w+)\)\)', functions)}
        self.options = [name for name in self.need if any(name in options for options in self.functions.values())]
        forms = read(WORDS + "/Forms.antt")
        self.values = {name: re.findall(r'codes "(\w+)"', body) for name, body in re.findall(r"^(\w+) text =((?:.|\n )*)", forms, re.M)}

    def needed(self, function, option):
        """What the column of defaults says where the option is needed, and nothing where it isn't."""
        need = self.need[option]
        if need == "WithoutCombinations" and "combinations" in self.functions[function]:
            return "needed without `combinations`"
        return "" if need == "Never" else "needed"


def kinds():
    """The columns of each kind of input table of the program, in order, as `Reference.kinds` shows them."""
    names = dict(re.findall(r'^name_of column\.(\w+) = codes "(\w+)"', read(TABLES + "/Columns.antt"), re.M))
    modules = sorted(os.listdir(os.path.join(TOP, TABLES)))
    bodies = [body for module in modules for body in re.findall(r"^\w+_kind =((?:.|\n )*)", read(TABLES + "/" + module), re.M)]
    return [kind((names[column], need == "required") for need, column in re.findall(r"\b(required|optional) column\.(\w+)", body))
            for body in bodies]


def kind(columns):
    """A list of columns as a text, each with whether a header has to have it."""
    return ", ".join(name if needed else "perhaps " + name for name, needed in columns)


def messages():
    """The messages of the program with their statuses, where ROLE, NAME and N stand for a file, an option or a column, and a number."""
    numbers = dict(re.findall(r"^number_of (\w+) = (\d)", read(RUN + "/Status.antt"), re.M))
    status = dict(re.findall(r"^status_of\w* \(?\w+\.(\w+).* = status\.(\w+)", read(RUN + "/Causes.antt"), re.M))
    return ["pgr: %s, status %s" % (text, numbers[status.get(cause, "Words")]) for cause, text in causes()]


def causes():
    """What is said of each cause: its variant, and the text."""
    of_words, of_tables, of_others = read(WORDS + "/FaultText.antt"), read(TABLES + "/FaultText.antt"), read(RUN + "/Messages.antt")
    found = re.findall(r"^fault_text \(?(?:fault\.)?(\w+).* = (.+)$", of_words, re.M)
    found += [(cause, 'name_of role ++ codes ": " ++ ' + parts)
              for cause, parts in re.findall(r"^fault_text \(?(\w+).* = (.+)$", of_tables, re.M)]
    found += re.findall(r"^(?:refused_text|text_of) \(?\w+\.(\w+).* = ((?!.*fault_text|refused_text).+)$", of_others, re.M)
    return [(cause, "".join(as_shown(part) for part in parts.split(" ++ "))) for cause, parts in found]


def as_shown(part):
    """A part of a text in a definition, as a page shows it."""
    if part.startswith("codes"):
        return part.split('"')[1]
    if part.startswith("decimal"):
        return "N"
    return "ROLE" if part.endswith(" role") else "NAME"


def rows(table):
    return [[cell.strip() for cell in line.strip("| ").split(" | ")] for line in table.splitlines()]


def tables(text, head):
    """The rows of each table of a text whose first column is called so."""
    return [rows(table) for table in re.findall(r"^\| %s \|.*\n\|[-|]+\|\n((?:\|.*\n)+)" % head, text, re.M)]


def in_code(text):
    return re.findall(r"`([^`]+)`", text)


class Reference:
    """What docs/FUNCTIONS.md says of the functions and options."""

    def __init__(self, text):
        parts = re.split(r"^## +", text, flags=re.M)[1:]
        self.sections = {part.split("\n", 1)[0].strip(): part.split("\n", 1)[1] for part in parts}
        self.groups = []  # (title, sentence, [(function, answer)])
        for title, sentence, table in re.findall(r"^\*\*(.+)\.\*\* ?(.*)\n\n\| Function .*\n\|[-|]+\|\n((?:\|.*\n)+)", text, re.M):
            self.groups.append((title, sentence, [(in_code(row[0])[0], row[1]) for row in rows(table)]))
        forms = re.search(r"### Forms of values\n\n\|.*\n\|.*\n((?:\|.*\n)+)", text)
        self.forms = []  # (options, how a value is shown, words)
        for row in rows(forms.group(1)) if forms else []:
            shown, colon, words = row[1].partition(": ")
            self.forms.append((in_code(row[0]), in_code(shown), words if colon else ""))

    def part(self, function, table, others):
        """The rows of a table of a function's section, or of that of the function to which its section refers."""
        section = self.sections.get(function, "")
        found = tables(section, table)
        if found:
            return found[0]
        other = re.search(others + r"\b[^.]*\b(?:is that|are those) of \[`(\w+)`\]", " ".join(section.split()))
        return self.part(other.group(1), table, others) if other and other.group(1) != function else []

    def options(self, function):
        """The options of a function: name, default, meaning."""
        return [(in_code(row[0])[0], row[1], row[2]) for row in self.part(function, "Option", "[Tt]he options?")]

    def columns(self, function):
        one = re.search(r"The one column is\s+`(\w+)`", self.sections.get(function, ""))
        return [one.group(1)] if one else [name for row in self.part(function, "Column", "[Tt]he (?:option, the )?columns?") for name in in_code(row[0])]

    def calls(self, function):
        """pgRouting's calls, each with the command beside it."""
        return re.findall(r"^- In pgRouting: (.+); here: (`.+`)$", self.sections.get(function, ""), re.M)

    def differs(self, function):
        found = re.findall(r"^- Unlike pgRouting: (.+(?:\n  .+)*)", self.sections.get(function, ""), re.M)
        return [" ".join(text.split()) for text in found]

    def explained(self, option):
        """What each value of an option means, where a section has a table of them."""
        found = tables("\n".join(self.sections.values()), "`%s`" % option)
        return [(in_code(row[0])[0], row[1]) for table in found for row in table]

    def listed(self):
        return [function for _, _, listed in self.groups for function, _ in listed]

    def input_tables(self):
        """The input tables: what each is called, and its section."""
        return re.findall(r"^### (The table of .+)\n((?:(?!###).*\n)*)", self.sections.get("Input tables", ""), re.M)

    def kinds(self):
        """The columns of each input table, in order; where a section has a second table of columns, also those of both."""
        for _, section in self.input_tables():
            columns = []
            for table in tables(section, "Column"):
                columns += [(name, row[2] == "refused") for row in table if len(row) == 3 for name in in_code(row[0])]
                yield kind(columns)

    def statuses(self):
        """The exit statuses of the program: number, meaning."""
        return [row for table in tables(self.sections.get("Exit statuses and messages", ""), "Status") for row in table]

    def messages(self):
        """The messages: text, status, cause."""
        found = tables(self.sections.get("Exit statuses and messages", ""), "Message")
        return [(in_code(row[0])[0], row[1], row[2]) for table in found for row in table]


def differences(what, found, wanted):
    """What is missing among those that were found, what is too much, and what stands twice."""
    lines = ["%s %s is missing" % (what, name) for name in sorted(set(wanted) - set(found))]
    lines += ["%s %s isn't of the program" % (what, name) for name in sorted(set(found) - set(wanted))]
    return lines + ["%s %s stands twice" % (what, name) for name in sorted({name for name in found if found.count(name) > 1})]


def faults(words, reference):
    """Where docs/FUNCTIONS.md doesn't say what the parts are made of, or says other than the tables of words."""
    lines = [] if words.functions and words.options else ["the program's tables of words weren't found"]
    lines += differences("in the lists: function", reference.listed(), words.functions)
    lines += differences("in the table of forms: option", [name for names, _, _ in reference.forms for name in names], words.options)
    for names, shown, form in reference.forms:
        of = {words.form.get(name) for name in names}
        if not shown or len(of) > 1 or not form and shown != words.values.get(of.pop()):
            lines.append("in the table of forms: %s: not one form, or not its values" % ", ".join(names))
    for function, options in words.functions.items():
        if function not in reference.sections:
            lines.append("function %s has no section" % function)
            continue
        table = reference.options(function)
        lines += differences("function %s: option" % function, [name for name, _, _ in table], options)
        for name, default, _ in table:
            wanted = words.needed(function, name) if name in options else default
            if wanted != (default if default.startswith("needed") else ""):
                lines.append("function %s: option %s is %s" % (function, name, wanted or "not needed"))
        if not reference.columns(function):
            lines.append("function %s has no columns" % function)
        begun = len(re.findall(r"^- In pgRouting", reference.sections[function], re.M))
        if begun == 0 or begun != len(reference.calls(function)):
            lines.append("function %s has no line, or a broken one, '- In pgRouting: CALL; here: `COMMAND`'" % function)
    for name in words.options:
        defaults = {default for of in words.functions for option, default, _ in reference.options(of) if option == name}
        if len([default for default in defaults if not default.startswith("needed")]) > 1:
            lines.append("option %s has several defaults" % name)
    lines += differences("in the input tables: the list of columns", list(reference.kinds()), kinds())
    return [REFERENCE + ": " + line for line in lines + message_faults(words, reference)]


def message_faults(words, reference):
    """What differs between the program's messages and the table of messages, where a row may be for one file alone."""
    files = "|".join(name for name in words.options if words.form[name] == "file_name")
    found = {re.sub("^pgr: (?:%s): " % files, "pgr: ROLE: ", "%s, status %s" % (text, status)) for text, status, _ in reference.messages()}
    return differences("in the table of messages:", list(found), messages())


def sentence(text):
    text = text.rstrip(".")
    return text[:1].upper() + text[1:] + "."


def roff(text):
    """Words of a page as lines of a manual page, without references to other places; each sentence begins a line."""
    text = re.sub(r": see (?:below|\[[^]]*\]\([^)]*\))", "", " ".join(text.split()))
    text = re.sub(r"\[([^]]*)\]\([^)]*\)", r"\1", text).replace("\\", "\\e")
    text = re.sub(r"(?<![\w])-(?=\w)", r"\\-", text)
    text = re.sub(r"`([^`]+)`", lambda code: "\\fB%s\\fR" % code.group(1), text)
    text = re.sub(r"\*\*([^*]+)\*\*", lambda word: "\\fI%s\\fR" % word.group(1), text)
    lines = [line for part in re.split(r"(?<=\.) (?=\\f|[A-Z])", text)
             for line in textwrap.wrap(part, 120, break_long_words=False, break_on_hyphens=False)]
    return [re.sub(r"^([.'])", r"\\&\1", line) for line in lines]


def manual_functions(words, reference):
    lines = []
    for title, about, listed in reference.groups:
        lines += [".SS " + title] + roff(about)
        for function, answer in listed:
            options = ["[\\fB%s\\fR]" % name if words.need[name] == "Never" else "\\fB%s\\fR" % name for name in words.functions[function]]
            lines += [".TP", ".B " + function, *roff(sentence(answer)), ".br", " ".join(options)]
    return lines


def manual_options(words, reference):
    lines, shown = [], {name: shown for names, shown, _ in reference.forms for name in names}
    for name in words.options:
        value = "\\fR|".join("\\f%s%s" % ("I" if part.isupper() else "B", part) for part in shown[name])
        default, meanings = of_option(reference, name)
        lines += [".TP", "\\fB\\-\\-%s=%s\\fR" % (name, value), *roff(by_function(meanings))]
        if not default.startswith("needed"):
            lines += roff("The default is %s." % default)
        explained = reference.explained(name)
        if explained:
            lines += roff("; ".join("`%s`: %s" % pair for pair in explained) + ".")
    lines.append(".SS Values")
    for _, parts, form in reference.forms:
        if form:
            lines += [".TP", "\\fI%s\\fR" % "|".join(parts), *roff(sentence(form))]
    return lines


def of_option(reference, name):
    """The default of an option, and each of its meanings with the functions for which it has this meaning."""
    meanings, default = {}, ""
    for function in reference.listed():
        for option, default_here, says in reference.options(function):
            if option == name:
                default = default_here
                meanings.setdefault(says, []).append("`%s`" % function)
    return default, meanings


def by_function(meanings):
    """A sentence for each meaning of an option: first the one for most functions, then the others, with the names of theirs."""
    usual, *others = sorted(meanings, key=lambda says: -len(meanings[says]))
    return " ".join([sentence(usual), *(sentence("for %s: %s" % (listing(meanings[says]), says)) for says in others)])


def listing(names):
    """Names as a sentence has them: a, b and c."""
    return " and ".join([", ".join(names[:-1]), names[-1]] if names[1:] else names)


def manual_tables(words, reference):
    lines = []
    for title, section in reference.input_tables():
        made = [line for block in re.split(r"\n\n+", section.strip("\n")) for line in manual_block(block)]
        lines += [".SS " + title, *(made[1:] if made[:1] == [".PP"] else made)]
    return lines


def manual_block(block):
    """A paragraph, a list or a table of columns of an input table's section."""
    if block.startswith("|"):
        return [line for row in rows(block)[2:] for line in manual_column(*row)]
    if block.startswith("- "):
        return [line for item in re.split(r"^- ", block, flags=re.M)[1:] for line in [".IP \\(bu 2", *roff(item)]]
    return [".PP", *roff(block)]


def manual_column(names, field, absent):
    lines = [".TP", *roff(names), *roff(sentence(field))]
    return lines if absent == "refused" else lines + roff("Where the column is absent, it is %s." % absent)


def manual_statuses(words, reference):
    return [line for number, says in reference.statuses() for line in [".TP", ".B " + number, *roff(sentence(says))]]


def manual_messages(words, reference):
    lines = []
    for text, status, cause in reference.messages():
        shown = re.sub(r"\b([A-Z]+)\b", r"\\fI\1\\fB", text)
        lines += [".TP", "\\fB%s\\fR" % shown, *roff("Status %s: %s." % (status, cause))]
    return lines


def completion(words, reference):
    lists, values = {}, {}
    for function in reference.listed():
        lists.setdefault(" ".join(words.functions[function]), []).append(function)
    for name in words.options:
        if words.values.get(words.form[name]):
            values.setdefault(" ".join(words.values[words.form[name]]), []).append(name)
    files = [name for name in words.options if words.form[name] == "file_name"]
    lines = ["_pgr_functions='%s'" % "\n  ".join(textwrap.wrap(" ".join(reference.listed()), 110)), "", "_pgr_options() {", "  case $1 in"]
    lines += ["    %s) echo '%s' ;;" % ("|".join(functions), options) for options, functions in lists.items()]
    lines += ["  esac", "}", "", "_pgr_values() {", "  case $1 in"]
    lines += ["    %s) echo '%s' ;;" % ("|".join(names), of) for of, names in values.items()]
    return lines + ["  esac", "}", "", "_pgr_files='%s'" % " ".join(files)]


def calls(words, reference):
    lines, first, before = ["| pgRouting | `pgr` | Columns of `pgr` |", "|---|---|---|"], {}, None
    for function in reference.listed():
        columns = ",".join(reference.columns(function))
        first.setdefault(columns, function)
        shown = "`%s`" % columns if first[columns] == function else "those of `%s`" % first[columns]
        for call, command in reference.calls(function):
            lines.append("| %s | %s | %s |" % (call, command, "the same" if columns == before else shown))
            before = columns
    return lines


def differs(words, reference):
    """What differs, function by function; what is said alike of several stands once."""
    said = {}
    for function in reference.listed():
        for text in reference.differs(function):
            said.setdefault(text, []).append("`%s`" % function)
    return [line for text, names in said.items()
            for line in textwrap.wrap("- %s: %s" % (", ".join(names), text), 130, subsequent_indent="  ",
                                      break_long_words=False, break_on_hyphens=False)]


# the page, what the part is called there, how the page's comments begin and end, of what the part is made, and what makes its lines
BOTH = REFERENCE + " and " + WORDS
PARTS = [
    ("share/completion/pgr.bash", "words", "# %s", BOTH, completion),
    ("man/pgr.1", "functions", '.\\" %s', BOTH, manual_functions),
    ("man/pgr.1", "options", '.\\" %s', BOTH, manual_options),
    ("man/pgr.1", "input tables", '.\\" %s', REFERENCE, manual_tables),
    ("man/pgr.1", "statuses", '.\\" %s', REFERENCE, manual_statuses),
    ("man/pgr.1", "messages", '.\\" %s', REFERENCE, manual_messages),
    ("docs/FROM-PGROUTING.md", "calls", "<!-- %s -->", BOTH, calls),
    ("docs/FROM-PGROUTING.md", "differences", "<!-- %s -->", BOTH, differs),
]


def pages(words, reference):
    """Each page with parts: its name, its text as it stands, and as it is to be, or none where a mark is missing."""
    texts = {}
    for page, name, comment, sources, make in PARTS:
        before, after = texts.get(page, (read(page),) * 2)
        top = comment % ("%s: written by tools/write-pages from %s, don't edit by hand" % (name, sources))
        end = comment % ("%s: end of what tools/write-pages writes" % name)
        gap = "\n" if comment.startswith("<") else ""
        if after is not None and after.count(top + "\n") == after.count("\n" + end + "\n") == 1 and after.index(top) < after.index(end):
            after = after[:after.index(top)] + "\n".join([top + gap, *make(words, reference), gap + end]) + after[after.index(end) + len(end):]
        else:
            after = None
        texts[page] = before, after
    return [(page, before, after) for page, (before, after) in texts.items()]
