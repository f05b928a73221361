#!/usr/bin/env python3
"""Counts what has to be believed of the promises, and makes the tables of docs/believed.md.

A promise is carried by clauses of named functions. From them this goes down, by name, through every definition that they
cite and those that these cite; the clauses of the traits that a function is told of are among them, and the ghost values
and views of the types that it takes and gives. (What a type always holds, its invariant, is proved where a value is made.)
Each definition counts with its own lines, without blank ones and comments, under the first promise that reaches it.

    tools/believed.py            writes docs/believed.md
    tools/believed.py --names    prints each definition with its lines
    tools/believed.py --check    prints nothing, and fails if docs/believed.md is not what it would write

It fails, too, where a word is named below as only handed on and is not: some clause has to give it and some clause has to
ask for it; and of a value that is handed on with it no clause looks at more than its disk and what a public call answers.

It fails, too, where a public definition (one in a crate's specs/, but not in specs/Inner) is cited by no public contract,
and where one of specs/Inner is cited by one, unless it is named below with the reason; where one that is named below is
not so; and where a file names specs/Inner of another crate, or proofs of one beside its proofs/Laws.
"""
import collections
import pathlib
import re
import sys

TOP = pathlib.Path(__file__).resolve().parent.parent
PAGE = TOP / "docs" / "believed.md"
HEAD = """\
# Definitions, counted

`tools/believed.py` writes this page, and `.ci/run` compares. [BELIEVE.md](BELIEVE.md) says what to read here, and for what.

A line is a line of a definition, without blank lines and comments. Each promise lists only what is new: definitions that a promise above it needs are
not repeated. Read with them:

- the clauses themselves, which the first table counts;
- the clauses of the trait `Disk`, which say what a call does to a disk of the model, and of other traits;
- the declarations of the types that are named below each table;
- the meaning of the library's words.
"""

# The promises in reading order: a title, and the functions whose clauses carry it, each with the names of these clauses
# (all of them where none is named).
PROMISES = [
    ("The headline", [
        ("mot_playout", "format_and_run", ""), ("mot_playout", "first_turn", ""),
    ]),
    ("Acknowledged commands are stored", [
        ("mot_session", "format_and_serve", ""), ("mot_playout", "first_turn", ""),
        ("mot_playout", "format_and_open", "begins"), ("mot_session", "serve_and_restart", "in_a_row"),
        ("mot_session", "serve_line_and_restart", "told"),
    ]),
    ("The disk's format", [
        ("mot_journal", "load", ""), ("mot_journal", "slot_bytes", ""),
        ("mot_journal", "format", ""), ("mot_repository", "Repository::open", "only_syncs going opened refused calm cost"),
    ]),
    ("Sessions and playing", [
        ("mot_session", "serve", ""), ("mot_session", "serve_line", ""), ("mot_session", "told_laws", ""),
        ("mot_session", "serve_and_restart", ""), ("mot_session", "serve_line_and_restart", ""), ("mot_playout", "run_and_restart", ""), ("mot_playout", "format_and_restart", ""),
    ]),
    ("The program", [
        ("mot_cli", "task_of", ""), ("mot_commands", "format_file", ""), ("mot_commands", "work_on_file", ""),
        ("mot_commands", "serve_memory", ""), ("mot_commands", "put", ""), ("mot_commands", "withdraw_file", ""),
        ("mot_commands", "tell_health", ""),
        ("mot_copy_command", "copy_file", ""),
    ]),
    ("On the air", [
        ("mot_update", "update_laws", ""), ("mot_update", "look", ""), ("mot_listening", "listening_laws", ""),
        ("mot_feed", "feed", ""), ("mot_feed", "feed_laws", ""), ("mot_folder", "look_at_folder", ""), ("mot_suffixes", "FileTypes::new", ""),
        ("mot_suffixes", "FileTypes::add", ""), ("mot_suffixes", "FileTypes::of_name", ""), ("mot_endpoints", "file_types", ""),
        ("mot_feed_lines", "answer_there", ""), ("mot_feed_lines", "Lines::new", ""), ("mot_feed_lines", "Lines::update", ""),
        ("mot_air", "play", ""), ("mot_sync_command", "sync", ""), ("mot_air", "play_disk", ""),
        ("mot_air", "play_and_answer", ""), ("mot_sync_command", "sync_disk", ""), ("mot_export", "export_disk", ""), ("mot_export", "inspect_disk", ""),
    ]),
    ("Any command", [
        ("mot_server", "run_program_on", ""), ("mot_server", "run_program", ""),
    ]),
    ("Files beside the disk", [
        ("mot_devices", "use_of", ""), ("mot_devices", "signature_of", ""),
        ("mot_files", "read_file", ""), ("mot_files", "file_stamp", ""), ("mot_files", "write_all", ""), ("mot_files", "hold", ""),
        ("mot_files", "take_place", ""), ("mot_files", "replace", ""), ("mot_files", "make_last", ""),
        ("mot_files", "sync_path", ""), ("mot_endpoints", "StatusFile::write", ""),
        ("mot_endpoints", "OpenPackets::take_place", ""), ("mot_endpoints", "OpenPackets::take_away", ""),
        ("mot_endpoints", "PacketWriter::write_once", ""), ("mot_endpoints", "Host::packets", ""),
        ("mot_line_folder", "Spool::read", ""), ("mot_line_folder", "Spool::finish", ""),
    ]),
    ("Single crates", []),
]

# Words that the clauses of a promise hand on: one clause gives them, and the next one asks them, of one and the same value.
# Whatever they mean, what the clauses say besides them follows; so that promise counts neither them nor what they cite.
# (That they are only handed on is checked: `handed_on_faults`.)
HANDED_ON = {
    "The headline": ["KeepsCommands"], "Acknowledged commands are stored": ["KeepsCommands", "HasDone"],
    "Single crates": ["IsPrepared"],
}

# The types of these values, which are handed on with them, and what is seen of them.
HANDED_VALUES = {"Acknowledged commands are stored": ["Server", "ServerView"], "Single crates": ["Prepared"]}

# Public definitions that no public contract cites: by file and reason.
CITED_BY_NONE = [
    ("disk_store/Beginning", "first_state", "its own laws"),
    ("disk_store/FileSound", "now_is file_sound", "`mot_commands`, whose own disks are files"),
    ("mot_carousel/Gap", "AreReordered IsLeastGap", "private functions of `mot_repository`, and its proofs"),
    ("mot_player/Staying", "AreFewEarly", "proofs of `mot_listening` and of `mot_feed`"),
    ("mot_journal/Gaps", "IsBeside AreBeside standing_of", "private functions of `mot_repository`, and its proofs"),
    ("mot_repository/Copy", "bytes_in_row", "private functions of `mot_copy_command`, and a law"),
    ("mot_playout/Playing", "IsGoing", "private functions of `mot_playout`, and its proofs"),
    ("mot_listening/Entities", "packet_lengths group_lengths segment_lengths entity_lengths turn_lengths",
     "private functions of `turn_size` and of `inspect_disk`"),
    ("mot_feed/Feeding", "SendsPacket", "private functions of `mot_feed`, and its proofs"),
    ("mot_folder/Log", "TellsAnswers TellsOf not_accepted waiting_in", "private functions of `look_at_folder`"),
    ("mot_line_folder/LineFiles", "refusal_of", "private functions of `Spool`"),
    ("mot_shelf/Gives", "GoesOnSo", "private functions of `look_at_folder`"),
    ("mot_cli/Given", "AskBy", "proofs of `mot_server`"),
    ("mot_update/Looking", "unknown_names withdraw_all HasSettled", "private functions of `look`"),
]

# Private definitions that a public contract cites: by file and reason.
CITED_THOUGH_INNER = [("mot_folder/Inner.Reading", "unread_for", "`Report::missed`, which only `mot_folder` calls")]


class Definition:
    """A definition with its lines, or a type, a trait or a function of the program; and the names that it cites."""

    def __init__(self, kind, crate, module, name):
        self.kind, self.crate, self.module, self.name = kind, crate, module, name
        self.lines, self.text, self.cites = 0, "", []
        # a definition's module with parameters; a type's ghost value and view; whether another crate can name it
        self.outer, self.model, self.is_public = None, None, False

    @property
    def file(self):
        return f"{self.crate}/{self.module}"

    @property
    def is_inner(self):
        return self.module.split(".")[0] == "Inner"


WORD = re.compile(r"[^\W\d][\w'-]*|[^\s\w(){}\[\],;.\"◌]+")


def words_of(text):
    """The words that may name something: no comments, texts, fields of values and names that are just bound."""
    text = re.sub(r"(--|//).*|\"[^\"]*\"", "", text)
    text = re.sub(r"(?<=[\w')\]])\.[\w']+", "", text)
    text = re.sub(r"(?<=[({])[\w' ]+ : ", " : ", text)
    text = re.sub(r"(?m)^(\s+)(pub )?[\w']+ (:|=)(?= )", r"\1\3", text)
    return set(WORD.findall(text))


def is_cited(name, words):
    parts = [it for it in name.split("◌") if it]
    return all(it in words for it in parts) or (name == "◌>>=◌" and "←" in words)


class Scope:
    """The names that `use` lines bring in, and what stands for whole modules."""

    USE = re.compile(r"use Rattle\.([\w.]+?)(?:\.\{([^}]*)\}| as (\w+))")

    def __init__(self, text=""):
        self.names, self.modules = {}, {}
        for module, names, short in self.USE.findall(text):
            if short:
                self.modules[short] = module
            for name in filter(None, (it.strip() for it in names.split(","))):
                self.names[name] = module

    def cited_in(self, text):
        words = words_of(text)
        for name, module in self.names.items():
            if is_cited(name, words):
                yield module, name
        for short, module in self.modules.items():
            for name in re.findall(rf"(?<![\w.]){short}\.(\w+)", text):
                yield module, name


class Sources:
    """All definitions of the repository, and what of its program contracts cite."""

    def __init__(self):
        self.types, self.functions, self.below = {}, {}, crates_below()
        self.files, self.exported, self.says = collections.defaultdict(dict), {}, {}
        for crate in sorted(it for it in (TOP / "crates").iterdir() if (it / "src").is_dir()):
            for path in sorted((crate / "specs").rglob("*.antt")):
                module = ".".join(path.relative_to(crate / "specs").with_suffix("").parts)
                self.read_definitions(crate.name, module, path.read_text())
            library = crate / "src" / "lib.rt"
            uses = re.findall(r"(?m)^pub use ([^;]*);", library.read_text()) if library.exists() else []
            self.exported[crate.name] = set(re.findall(r"\w+", " ".join(uses)))
            for path in sorted((crate / "src").rglob("*.rt")):
                if "tests" not in path.with_suffix("").relative_to(crate / "src").parts:
                    self.read_code(crate.name, path.read_text())
        self.definitions = list(dict.fromkeys(it for here in self.files.values() for it in here.values()))
        for it in [*self.definitions, *self.types.values(), *self.functions.values()]:
            it.cites = self.cited_by(it)

    # The definitions of one file of specs/.
    def read_definitions(self, crate, module, text):
        scope, outer, current = Scope(text), None, None
        here = self.files[crate, module]
        self.says[f"{crate}/{module}"] = first_sentence(text)
        for line in text.splitlines():
            if not line.strip() or re.match(r"\s*--|(pub )?use |pub mod ", line):
                continue
            if not line.startswith(" "):
                outer = None
            if line.startswith("module "):
                outer = current = Definition("module", crate, module, line.removesuffix(" where"))
                here[current.name], current.scope = current, scope
            elif line.startswith("infix"):
                continue
            else:
                body = line[2:] if outer else line
                begins = not body.startswith(" ") and (
                    re.match(r"(?:unfoldable |abbrev )*(?:pub )?(record|data) (\w+)", body)
                    or re.match(r"(?:unfoldable |abbrev )*(?:pub )?()([^\s:()]+) :(?: |$)", body))
                if begins:
                    current = Definition(begins[1] or "function", crate, module, begins[2])
                    current.outer, current.scope = outer, scope
                    here[current.name] = current
                elif current.kind == "data":
                    built = re.match(r"\s+(\w+) : ", line)
                    if built:
                        here.setdefault(built[1], current)
            current.lines += 1
            current.text += line + "\n"

    # The types, traits and functions of one file of src/, with what their contracts say.
    def read_code(self, crate, text):
        top = "\n".join(it for it in text.splitlines() if it.startswith("ghost use "))
        for kind, block in items_of(text):
            scope = Scope(top + "\n" + block)
            head = re.sub(r"^\w+(<.*?>(?= [^+]))?\s+", "", re.sub(r"^pub(\(crate\))? ", "", block))
            name = re.match(r"\w+", head)[0]
            if kind == "impl":
                self.implement(crate, head.partition("{")[0], block, scope)
            elif kind == "fn":
                self.contract(crate, name, block, scope, block.startswith("pub fn") and name in self.exported[crate])
            else:
                self.declare(crate, kind, name, block, scope)

    def declare(self, crate, kind, name, text, scope):
        it = self.types.setdefault((crate, name), Definition(kind, crate, "", name))
        it.text, it.scope, it.is_public = text + it.text, scope, name in self.exported[crate]
        for inner in methods_of(text) if kind == "trait" else []:
            it.lines += clause_lines(inner)

    def implement(self, crate, head, text, scope):
        trait, _, of = head.partition(" for ")
        name = re.match(r"\w+", of or trait)[0]
        ghosts = "\n".join(re.findall(r"(?ms)^    ghost (?!use|invariant|inverse).*?;$", text))
        if of and trait.startswith("Model"):
            it = self.types.setdefault((crate, name), Definition("struct", crate, "", name))
            it.model = (ghosts, scope)
            return
        public = name in self.exported[crate]
        if ghosts:
            self.contract(crate, f"{name} as {trait}", ghosts, scope, public)
        for method in methods_of(text):
            short = re.search(r"fn (\w+)", method)[1]
            is_open = bool(of) or method.lstrip().startswith("pub fn")
            self.contract(crate, f"{name}::{short}", method, scope, public and is_open)

    def contract(self, crate, name, text, scope, public):
        it = Definition("fn", crate, "", name)
        it.text, it.scope, it.is_public = signature(text), scope, public
        it.lines = clause_lines(it.text)
        self.functions[crate, name] = it

    # What it cites: definitions, types of the program, and words of the library, which are pairs.
    def cited_by(self, it, clauses=""):
        return list(dict.fromkeys(filter(None, self.resolve(it, clauses))))

    def resolve(self, it, clauses):
        text, scope = it.text, it.scope
        if it.kind in ("struct", "enum"):
            text, scope = it.model or (re.sub(r"(?m)^\s+(pub )?\w+", "", text), scope)
        if clauses:
            text = only_clauses(text, clauses.split())
        if it.outer:
            yield it.outer
        for module, name in scope.cited_in(text):
            yield self.find(module, name)
        words = words_of(text)
        if it.module:
            for name, other in self.files[it.crate, it.module].items():
                if other is not it and is_cited(name, words):
                    yield other
        else:
            for name in words:
                yield self.type_named(it.crate, name)

    def find(self, module, name):
        crate, *path = module.split(".")
        if crate not in self.exported:
            return module, name
        if path[:2] == ["specs", "declared"]:
            owner = [it for it in path if it[0].isupper() and not it.startswith("The")]
            return self.types.get((crate, owner[-1] if owner else name))
        if path[0] != "specs":
            return module, name
        found = self.files[crate, ".".join(path[1:])].get(name)
        if found is None:
            # a constructor, by the data that it stands in
            found = self.files[crate, ".".join(path[1:-1])].get(path[-1])
        if found is None:
            sys.exit(f"tools/believed.py: {module} has no {name}")
        return found

    def type_named(self, crate, name):
        if (crate, name) in self.types:
            return self.types[crate, name]
        found = [it for (other, short), it in self.types.items()
                 if short == name and name in self.exported[other] and other in self.below[crate]]
        return found[0] if found else None


def crates_below():
    """Of each crate the crates that it stands on: a type's name is one of theirs."""
    listed = (it.split(":") for it in (TOP / "crates.txt").read_text().splitlines() if not it.startswith("#"))
    direct = {crate: rest.split() for crate, rest in listed}
    below = {}
    for crate, others in direct.items():
        # (lowest first)
        below[crate] = set(others).union(*(below.get(it, ()) for it in others))
    return below


def first_sentence(text):
    """What a file says of itself."""
    comment = re.match(r"(?:-- .*\n)*", text)[0].replace("-- ", "").replace("\n", " ")
    said = re.split(r"(?<=\w)[.:](?= )| \(", comment)[0].strip()
    return said if said[1:2].isupper() else said[:1].lower() + said[1:]


def items_of(text):
    """The items of a file of the program, each with its kind; what stands between them belongs to none."""
    items, is_inside = [], False
    for line in text.splitlines():
        head = re.match(r"(?:pub(?:\(crate\))? )?(?:const (?=fn))?(const|struct|enum|trait|impl|fn|type)\b", line)
        if head:
            items.append([head[1], ""])
        is_inside = bool(head) or is_inside and not re.match(r"//|#|ghost|(pub )?use |mod ", line)
        if is_inside:
            items[-1][1] += line + "\n"
    return items


def methods_of(text):
    """The heads and clauses of the functions in an item."""
    starts = re.finditer(r"(?m)^    (?:pub(?:\(crate\))? )?(?:const )?fn ", text)
    return [signature(text[it.start():]) for it in starts]


def signature(text):
    """A function's head and clauses, without its body."""
    kept, depth, has_clause = [], 0, False
    for line in text.splitlines():
        code = re.sub(r"//.*", "", line).rstrip()
        has_clause = has_clause or bool(re.match(r"\s*(ensures|requires)\b", code))
        if code.strip() == "{" and depth == 0:
            break
        kept.append(line)
        depth += sum(code.count(it) for it in "([{") - sum(code.count(it) for it in ")]}")
        if code.endswith("{") and not has_clause or code.endswith(";") and depth == 0:
            break
    return "\n".join(kept) + "\n"


def clauses_of(text):
    """The head of a function, and its clauses."""
    head, *others = re.split(r"(?m)^\s*(?=(?:ensures|requires)\b)", text)
    return head, others


def only_clauses(text, names):
    head, clauses = clauses_of(text)
    kept = [it for it in clauses if it.startswith("requires") or re.match(r"ensures (\w+)", it)[1] in names]
    return head + "".join(kept)


def clause_lines(text):
    kept = "".join(clauses_of(signature(text))[1])
    return sum(1 for it in kept.splitlines() if it.strip() and not it.strip().startswith("//"))


def closure(starts, closed=()):
    """All that these reach, themselves among it, but for what is closed."""
    reached, open_ones = {}, list(starts)
    while open_ones:
        it = open_ones.pop()
        if it not in reached and (isinstance(it, tuple) or it.name not in closed):
            reached[it] = True
            open_ones += [] if isinstance(it, tuple) else it.cites
    return reached


class Promise:
    """What a promise reaches, and what of that no earlier one does."""

    def __init__(self, sources, title, functions, earlier):
        self.title, self.functions, starts, self.clauses = title, [], [], 0
        if not functions:
            starts = [it for it in [*sources.functions.values(), *sources.types.values()] if it.is_public]
        for crate, name, clauses in functions:
            it = sources.functions[crate, name]
            text = only_clauses(it.text, clauses.split()) if clauses else it.text
            self.clauses += clause_lines(text)
            starts += sources.cited_by(it, clauses)
            self.functions.append(f"`{crate}::{name}`" + (f" ({', '.join(f'`{it}`' for it in clauses.split())})" if clauses else ""))
        self.handed_on = HANDED_ON.get(title, []) + HANDED_VALUES.get(title, [])
        self.opened = closure(starts)
        self.reached = closure(starts, self.handed_on)
        self.new = [it for it in self.reached if it not in earlier]

    def lines(self, which):
        return sum(it.lines for it in which if is_definition(it))


def is_definition(it):
    return not isinstance(it, tuple) and bool(it.module)


def by_file(definitions):
    files = collections.defaultdict(list)
    for it in definitions:
        files[it.file].append(it)
    return dict(sorted(files.items()))


def path_of(file):
    return f"{file.replace('/', '/specs/').replace('.', '/')}.antt"


def table_of(sources, promise):
    rows = ["| Definitions | What they say | Lines |", "|---|---|---|"]
    for file, found in by_file(filter(is_definition, promise.new)).items():
        rows.append(f"| `{path_of(file)}` | {sources.says[file]} | {sum(it.lines for it in found)} |")
    return rows + [f"| **together** | | **{promise.lines(promise.new)}** |"]


def names_of(promise, kinds):
    found = [it for it in promise.new if not isinstance(it, tuple) and it.kind in kinds]
    return ", ".join(sorted({f"`{it.name}`" + (f" ({it.lines} lines)" if it.lines else "") for it in found}))


def page_of(sources, promises):
    """The page, with the tables in the order of the promises."""
    rows = [HEAD, "| Promise | Its own lines | With those above | Clauses | Carried by |", "|---|---|---|---|---|"]
    total = 0
    for it in promises:
        total += it.lines(it.new)
        carried = ", ".join(it.functions) or "each public contract of each crate"
        rows.append(f"| {it.title} | {it.lines(it.new)} | {total} | {it.clauses or ''} | {carried} |")
    for it in promises:
        rows += ["", f"## {it.title}", "", *table_of(sources, it)]
        words = sorted({name.replace("◌", " ").strip() for word in it.new if isinstance(word, tuple) for name in word[1:]})
        for what, names in (("Types of the program", names_of(it, ("struct", "enum", "type"))),
                            ("Traits, with their clauses", names_of(it, ("trait",))),
                            ("Constants", names_of(it, ("const",))),
                            ("Handed on, and not counted", handed_on_of(it, total_by(promises, it))),
                            ("Words of the library", ", ".join(f"`{word}`" for word in words))):
            if names:
                rows += ["", f"{what}: {names}."]
    return "\n".join(rows + exceptions()) + "\n"


def total_by(promises, last):
    """The lines of all promises up to this one."""
    return sum(it.lines(it.new) for it in promises[:promises.index(last) + 1])


def handed_on_of(promise, total):
    """What a promise hands on, and what a reader meets who opens it."""
    if not promise.handed_on:
        return ""
    more = promise.lines(it for it in promise.opened if it not in promise.reached)
    names = ", ".join(f"`{name}`" for name in promise.handed_on)
    return f"{names}. A reader who opens them meets {more} more lines, {total + more} with those above"


def exceptions():
    rows = []
    for title, named in (("Public, and cited by no public contract", CITED_BY_NONE),
                         ("Private, and cited by a public contract", CITED_THOUGH_INNER)):
        if named:
            rows += ["", f"## {title}", "", "| Definitions | Names | Why |", "|---|---|---|"]
            rows += [f"| `{path_of(file)}` | {', '.join(f'`{it}`' for it in names.split())} | {why} |" for file, names, why in named]
    return rows


def faults_of(sources, reached):
    """Where a definition stands on the wrong side of specs/Inner, and is not named above."""
    for said, named, found in (
            ("public, and cited by no public contract", CITED_BY_NONE,
             [it for it in sources.definitions if it.kind != "module" and not it.is_inner and it not in reached]),
            ("private, and cited by a public contract", CITED_THOUGH_INNER,
             [it for it in sources.definitions if it.kind != "module" and it.is_inner and it in reached])):
        names = {f"{file} {name}" for file, names, _ in named for name in names.split()}
        found = {f"{it.file} {it.name}" for it in found}
        yield from (f"{it}: {said}" for it in sorted(found - names))
        yield from (f"{it}: named here, and not {said}" for it in sorted(names - found))


def is_asked(text, at):
    """Whether what stands here in a clause is asked for, and not given: it stands left of an odd number of arrows."""
    arrows, depth, is_left = 0, 0, False
    for sign in text[at:] + ")":
        if sign in "([{":
            depth += 1
        elif sign in ")]}" and depth:
            depth -= 1
        elif sign in ")]}":
            arrows, is_left = arrows + is_left, False
        elif sign == "→" and not depth:
            is_left = True
    return arrows % 2 == 1


def clauses_by_name(sources, promise):
    """The clauses that carry a promise, each with the name of its function and its own, and whether it is a `requires`."""
    every = [(*key, "") for key, it in sources.functions.items() if it.is_public]
    for crate, function, names in dict(PROMISES)[promise.title] or every:
        text = sources.functions[crate, function].text
        for clause in clauses_of(only_clauses(text, names.split()) if names else text)[1]:
            said = re.sub(r"(--|//).*", "", clause).partition("{")[2].rpartition("}")[0]
            yield f"{crate}::{function}, {clause.split()[1]}", said, clause.startswith("requires")


def places_of(name, text):
    return [it.start() for it in re.finditer(rf"(?<![\w.]){name}(?![\w'])", text)]


def words_with(sources, promise, name):
    """The word itself, and the definitions that a promise counts and in which it stands, each with whether it is asked there."""
    yield name, False
    for it in promise.reached:
        if is_definition(it) and it.kind == "record":
            for field in re.split(r"(?m)^ *pub (?=[\w']+ :)", it.text)[1:]:
                yield from ((it.name, is_asked(field, at)) for at in places_of(name, field))


def hands_on(sources, promise, name):
    """Each clause that speaks of the word: its name, and how often it asks for it and gives it."""
    words = list(words_with(sources, promise, name))
    for clause, said, requires in clauses_by_name(sources, promise):
        asked = [(is_asked(said, at) != turned) != requires for word, turned in words for at in places_of(word, said)]
        if asked:
            yield clause, sum(asked), len(asked) - sum(asked)


def handed_on_faults(sources, promise):
    """Where a word that is named above as handed on is not only that."""
    for name in HANDED_ON.get(promise.title, []):
        spoken = list(hands_on(sources, promise, name))
        if not any(asks for _, asks, _ in spoken):
            yield f"{name}: named as handed on, and no clause of its promise asks for it"
        if not any(gives for _, _, gives in spoken):
            yield f"{name}: named as handed on, and no clause of its promise gives it"


def looks_inside(sources, promise):
    """Where a clause looks at more of what is handed on than its disk, and what a public call answers."""
    if promise.title not in HANDED_VALUES:
        return
    value = HANDED_VALUES[promise.title][0].lower()
    answers = {it for call in sources.functions.values() if call.is_public for it in re.findall(r"result(?:\.now)? ≡ self\.now((?:\.\w+)+)", call.text)}
    for clause, said, _ in clauses_by_name(sources, promise):
        for path in re.findall(rf"\b{value}(?:\.(?:old|new|now|entry)\b)?((?:\.(?!old\b|new\b|now\b|entry\b)\w+)+)", said):
            if path not in (".disk", *answers):
                yield f"{clause} looks at `{value}{path}` of what is handed on, which no public call answers"


def strangers():
    """The files that name of another crate specs/Inner, or proofs other than its laws."""
    crates = sorted(it.name for it in (TOP / "crates").iterdir())
    inside = re.compile(rf"Rattle\.({'|'.join(crates)})\.(specs\.Inner\b|proofs\.(?!Laws\b))")
    for path in sorted((TOP / "crates").rglob("*")):
        crate, *rooms = path.relative_to(TOP / "crates").parts
        if path.suffix in (".rt", ".antt") and "out" not in rooms:
            named = {it for it, _ in inside.findall(path.read_text())} - {crate}
            yield from (f"{path.relative_to(TOP)}: names what is {it}'s own" for it in sorted(named))


def main():
    sources, earlier, promises = Sources(), {}, []
    for title, functions in PROMISES:
        promises.append(Promise(sources, title, functions, earlier))
        earlier |= promises[-1].reached
    page = page_of(sources, promises)
    wrong = [*faults_of(sources, earlier), *strangers()]
    for promise in filter(lambda it: it.handed_on, promises):
        wrong += [*handed_on_faults(sources, promise), *looks_inside(sources, promise)]
    if "--check" in sys.argv:
        if not PAGE.exists() or PAGE.read_text() != page:
            wrong.append(f"{PAGE.relative_to(TOP)} has other tables: tools/believed.py writes them")
    elif "--names" in sys.argv:
        for promise in promises:
            print(f"{promise.title}: {promise.lines(promise.new)}")
            for file, found in by_file(filter(is_definition, promise.new)).items():
                print(f"    {path_of(file)}: {', '.join(f'{it.name} {it.lines}' for it in found)}")
    else:
        PAGE.write_text(page)
    for it in wrong:
        print(f"tools/believed.py: {it}", file=sys.stderr)
    return 1 if wrong else 0


if __name__ == "__main__":
    sys.exit(main())
