"""Questions that the page asks: their options, the words of a command line, and what an answer to one says and what it doesn't."""
import re

import spread
import words as spoken

# The most generations, rows and columns, and cells of a search file (docs/formats.md).
MOST_GENERATIONS, MOST_SIDE, MOST_CELLS = 64, 64, 8192
CELL = re.compile(r"(?:[01*]|-?[A-Za-z][A-Za-z0-9]{0,31})'?")
# The commands that the page has, each with whether it writes a proof.
COMMANDS = {"search": True, "least": True, "most": True, "open": True, "judge": False, "check": False, "spread": True}
# What is said of the question, and what only of how it is searched.
ASKING = ("rule", "low", "high", "edge", "symmetry", "period", "exact", "live", "differ", "images", "formula")
UNDECIDED = "undecided: the budget is spent, and nothing is known. A greater budget, another manner or pieces (spread) go on."


class BadQuestion(Exception):
    """What is asked can't be asked, with why."""


def taken_by(command):
    """Returns the options that a command takes."""
    return spread.OPTIONS if command == "spread" else spoken.COMMANDS[command][1]


def options_of(command, given):
    """Returns the options among those given that the command takes and that have a value, each as one word `--name=value`."""
    if not isinstance(given, dict) or not all(isinstance(name, str) and isinstance(value, str) for name, value in given.items()):
        raise BadQuestion("options are names with values")
    return [f"--{name}={given[name]}" for name in taken_by(command) if given.get(name)]


def line_of(given):
    """Returns the line `#!` of the options that say the question, as a search file has it."""
    said = [f"--{name} {given[name]}" for name in ASKING if given.get(name)]
    return f"#! {' '.join(said)}\n" if said else ""


def read(text):
    """Returns the cells' text of a search file without its comment lines, and the options of its line `#!`."""
    try:
        options = dict(option.removeprefix("--").split("=", 1) for option in spread.options_in(text))
    except spread.Stop as fault:
        raise BadQuestion(str(fault)) from None
    lines = [" ".join(line.split()) for line in text.splitlines() if not line.startswith("#")]
    cells = "\n".join(lines).strip("\n") + "\n"
    generations = [[row.split() for row in part.split("\n")] for part in cells.strip("\n").split("\n\n")]
    if not all(CELL.fullmatch(word) for rows in generations for row in rows for word in row):
        raise BadQuestion("this is neither a picture nor a search file: cells are 0, 1, * and names, with a blank between")
    if len({(len(rows), *map(len, rows)) for rows in generations}) != 1 or len(set(map(len, generations[0]))) != 1 or not generations[0][0]:
        raise BadQuestion("all rows and all generations of a search file have one size, and an empty line stands between two generations")
    if len(generations) > MOST_GENERATIONS or max(len(generations[0]), len(generations[0][0])) > MOST_SIDE:
        raise BadQuestion(f"a search file has at most {MOST_GENERATIONS} generations of {MOST_SIDE} rows and columns")
    return cells, options


def sizes(cells):
    """Returns how many generations, rows and columns a search file's text has."""
    generations = [[line.split() for line in part.split("\n")] for part in cells.strip("\n").split("\n\n")]
    return len(generations), len(generations[0]), len(generations[0][0])


def count(number, noun):
    return f"{number} {noun}" if number == 1 else f"{number} {noun}s"


def box_of(cells):
    generations, rows, columns = sizes(cells)
    return f"{count(generations, 'generation')} of {count(rows, 'row')} and {count(columns, 'column')}"


def rule_of(given):
    """Returns the rule of a question in words: one, or those between two."""
    if "low" in given or "high" in given:
        return f"any rule between {given.get('low') or spoken.LIFE} and {given.get('high') or spoken.LIFE}"
    return f"the rule {given.get('rule') or spoken.LIFE}"


def limits_of(cells, given):
    """Returns what an absence leaves out: each is a sentence about patterns of which it says nothing."""
    generations, rows, columns = sizes(cells)
    is_open = given.get("edge") == "open"
    grid = f"the grid of {rows} by {columns}"
    left = [f"the box: of patterns with a live cell outside {grid} in generation 0 it says nothing"]
    if generations > 1 and not is_open:
        left.append(f"the phases and the ring: all {generations} generations have to lie in {grid}, and in the ring of cells round it nothing may be born; a pattern that leaves the grid for a while isn't spoken of")
    if generations > 1 and is_open:
        left.append("the edge is open: cells round the grid count as background in each generation, also where the rule would make some of them live")
    if any(word in "01" for word in cells.replace("'", "").split()):
        left.append("the cells that are drawn dead or live: other values there aren't spoken of")
    if given.get("symmetry", "C1") != "C1":
        left.append(f"the symmetry {given['symmetry']} lies about the middle of the grid: patterns that are symmetric about another place, or not at all, aren't spoken of")
    if given.get("live"):
        left.append(f"the numbers of live cells: only patterns with {given['live']} are spoken of")
    left.append(f"other rules: it is about {rule_of(given)} alone")
    return left


def absence(cells, given):
    """Returns the sentence of an absence."""
    asked = " ".join(f"--{name} {given[name]}" for name in ASKING if given.get(name)) or "no further demand"
    return f"No pattern fits this question: none of all histories of {box_of(cells)} has the cells that are drawn and meets {asked}, by {rule_of(given)}. The proof shows it, and anyone can check that."


def found(cells, given):
    """Returns the sentences of a pattern."""
    says = f"This pattern fits the question: {box_of(cells)}, by {rule_of(given)}."
    more = []
    if given.get("edge") != "open" and "'" not in cells:
        says += " It obeys the rule on the whole infinite plane, with nothing but background outside the grid."
    else:
        more.append("what the rule makes outside of the grid, or at marked cells, isn't looked at")
    if given.get("period") and given.get("exact") != "yes":
        more.append("its period may be a divisor of the one that is asked for, unless two generations have to differ")
    more.append("there may be others; that this is the only one isn't said")
    return says, more


def says(command, cells, given, status, answer):
    """Returns what an answer says in a sentence, and sentences on what it doesn't say."""
    head = answer.split("\n", 1)[0]
    if status == 30:
        return (f"{head}: the pattern below fits, and the budget didn't tell whether there is one beyond it." if head.startswith(("at most", "at least")) else UNDECIDED), []
    if command == "judge":
        return ("The pattern fits the question." if status == 0 else f"The pattern doesn't fit: {head.removeprefix('broken: ')}."), []
    if command == "check":
        if status == 0:
            return "The proof is accepted. " + absence(cells, given), limits_of(cells, given)
        return f"The proof isn't accepted ({head.removeprefix('refused: ')}): it shows nothing about this question.", []
    if status == 20:
        return absence(cells, given), limits_of(cells, given)
    sentence, more = found(cells, given)
    if command in ("least", "most") and status == 10:
        word = "fewer" if command == "least" else "more"
        number = head.split()[-1]
        sentence = f"{number} live cells in generation 0, and no pattern that fits has {word}: the proof shows that. " + sentence
        more += limits_of(cells, given)
    if command == "open" and status == 10:
        sentence = f"By the rule {head}: " + sentence
        more.append("other rules between the two may have a pattern too")
    return sentence, more


def rle_of(pattern, rule):
    """Returns generation 0 of a pattern's rows as RLE, as Golly has it."""
    rows = [line.replace(" ", "") for line in pattern.split("\n\n", 1)[0].split("\n")]
    body = "$".join("".join(f"{len(run[0]) if len(run[0]) > 1 else ''}{'o' if run[0][0] == '1' else 'b'}" for run in re.finditer(r"0+|1+", row.rstrip("0"))) for row in rows)
    body = re.sub(r"\${2,}", lambda it: f"{len(it[0])}$", body.rstrip("$")) + "!"
    # Lines of at most 70 characters, each of whole items.
    lines = re.findall(r"(?:\d*[bo$!]){1,20}", body)
    return f"x = {len(rows[0])}, y = {len(rows)}, rule = {rule}\n" + "\n".join(lines) + "\n"


def checking(command, given, status, answer):
    """Returns the command line by which anyone checks an answer of a published folder, or None where it has none."""
    if command in ("search", "spread") and status == 10 or command == "judge" and status in (0, 1):
        return "./lls judge question.lls pattern"
    if command in ("search", "spread", "check", "least", "most") and status in (0, 20):
        return "./lls check question.lls proof.lrat"
    if command == "open" and status == 20:
        return "./lls opencheck question.lls proof.lrat"
    if command in ("least", "most") and status == 10:
        return f"./lls check question.lls proof.lrat {' '.join(beyond(command, given, answer))}"
    return None


def beyond(command, given, answer):
    """Returns the options of a question with the bound that asks for a pattern beyond the fewest live cells or the most, which the proof refutes."""
    number = int(answer.split("\n", 1)[0].split()[-1])
    bound = f"0:-{number - 1}" if command == "least" else f"0:{number + 1}-"
    live = f"{given['live']},{bound}" if given.get("live") else bound
    # With one option of a question said, the file's line isn't taken by itself.
    return [word for name in ASKING if {**given, "live": live}.get(name) for word in (f"--{name}", {**given, "live": live}[name])]
