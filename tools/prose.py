"""The rules of prose that a program can see, for the pages of this repository: words that a reader stumbles over, a
sentence, a paragraph or a cell of a table that is too long. Outside of code blocks, inline code, quotations, headings and what a program
has printed into a page.
"""
import re

WORDS_OF_A_SENTENCE = 35
LINES_OF_A_PARAGRAPH = 8
WORDS_OF_A_CELL = 60
WORDS_OF_A_TITLE = 4
WORDS_OF_A_REPEAT = 8

# Each with what to write instead. A pattern with `^` is looked for at the beginning of a sentence, and after `;`;
STUMBLES = [
    (r"\bbehind\b", "after"),
    (r"\b(?:is|are|was|were|be) told\b|\btells?\b", "says, prints, lists, is described in"),
    (r"\banew\b", "again, from the start"),
    (r"\bwant of memory\b|\bmemory (?:is|was) want(?:ed|ing)\b", "out of memory"),
    (r"\bdevice faults?\b|\b(?:faults?|failures?) of (?:the|a) disk\b", "disk fault"),
    (r"\bdevice calls?\b|\bcalls? of the disk\b", "disk call"),
    (r"\b(?:is|are) none\b", "the noun again"),
    (r"(?:^|(?<=\())of (?:a|an|the|what|each|it|these|those|such|all|no|two)\b", "the subject first"),
    (r"^where\b", "if"),
    (r"^(?-i:What|Who)\b(?!.*\?$)", "the noun"),
]


def units(text):
    """The paragraphs, items of lists and cells of tables of a page: the number of the first line, the lines, whether it
    is a cell."""
    found, here, fenced, hidden = [], None, False, False
    for number, line in enumerate(text.splitlines(), 1):
        fence = re.match(r"\s*```", line)
        if fence or fenced or hidden or line.lstrip().startswith("<!--"):
            fenced ^= bool(fence)
            hidden = not fenced and not fence and (hidden or "<!--" in line) and "-->" not in line
            here = None
        elif not line.strip() or line.startswith(("#", ">")) or (line.startswith("    ") and here is None):
            here = None
        elif line.startswith("|"):
            here = None
            # (a row that quotes the first line of a file of definitions is printed by tools/believed.py)
            if not re.match(r"\|[-| ]+\|$|\| `\w+/specs/", line):
                found += [(number, [cell], True) for cell in re.split(r"(?<!\\)\|", line.strip("|"))]
        elif here is None or re.match(r"\s*(?:[-*]|\d+\.) ", line):
            here = [line]
            found.append((number, here, False))
        else:
            here.append(line)
    return found


def plain(text):
    """Prose without marks: a piece of inline code is one word, and so is each word of a link."""
    text = re.sub(r"^\s*(?:[-*]|\d+\.) ", "", text)
    text = re.sub(r"``.+?``|`[^`]+`", "\x00", text)
    text = re.sub(r"!?\[([^\]]*)\]\([^)]*\)", r"\1", text)
    return re.sub(r"[*_]{1,2}(?=\S)|(?<=\S)[*_]{1,2}", "", re.sub(r"\s+", " ", text)).strip()


def sentences(text):
    """A dot between items (·) ends one, too."""
    return re.split(r"(?<=[.!?])[)\"”]?\s+|\s+·\s+", text)


def is_list_of_code(sentence):
    """Names of functions and clauses, one after the other, are no sentence."""
    words = sentence.split()
    return 2 * sum("\x00" in it for it in words) > len(words)


def words_in(text):
    return len([it for it in text.split() if re.search(r"[\w\x00]", it)])


def long_cells(text):
    """The cells with too many words, each with its line."""
    cells = [(number, plain(lines[0])) for number, lines, is_cell in units(text) if is_cell]
    return [(number, words_in(it)) for number, it in cells if words_in(it) > WORDS_OF_A_CELL and not is_list_of_code(it)]


def is_name(word):
    """Code, a number, or a word of capitals, as ETSI."""
    return bool(re.search(r"[\x00\d]", word)) or (len(word) > 1 and word.isupper())


def runs(text):
    """Each run of so many words within a sentence as would be a repeat on another page, with its line. A run that is
    names by more than half, as a standard's or those of functions, is no sentence."""
    for number, lines, _ in units(text):
        for sentence in sentences(plain("\n".join(lines))):
            words = [it for it in (re.sub(r"[^\w\x00]", "", it) for it in sentence.split()) if it]
            for at in range(len(words) - WORDS_OF_A_REPEAT + 1):
                run = words[at:at + WORDS_OF_A_REPEAT]
                if 2 * sum(map(is_name, run)) <= len(run):
                    yield number, " ".join(run).lower()


def faults(name, text):
    """What a reader stumbles over, with the page and the line."""
    for number, count in long_cells(text):
        yield f"{name}:{number}: a cell of {count} words"
    for number, lines, is_cell in units(text):
        if not is_cell and len(lines) > LINES_OF_A_PARAGRAPH:
            yield f"{name}:{number}: a paragraph of {len(lines)} lines"
        for sentence in sentences(plain("\n".join(lines))):
            count = words_in(sentence)
            shown = sentence.replace("\x00", "`..`")
            if count > WORDS_OF_A_SENTENCE and not is_list_of_code(sentence):
                yield f"{name}:{number}: a sentence of {count} words: {shown[:60]}.."
            for pattern, instead in STUMBLES:
                # a quotation within a sentence says what it says
                own = re.sub(r"[\"“].*?[\"”]", "", sentence)
                starts = [own, *re.split(r"; ?", own)[1:]] if "^" in pattern else [own]
                for it in starts:
                    # (a title such as "What to do" is no sentence)
                    is_title = "^" in pattern and len(it.split()) <= WORDS_OF_A_TITLE
                    if (found := re.search(pattern, it, re.I)) and not is_title:
                        yield f"{name}:{number}: `{found[0]}`: write: {instead}: {shown[:60]}.."
