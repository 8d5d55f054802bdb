"""String patterns: leaves over characters, and answers.

`find(name, args, tick)` gives None where the expression stays, ("truth", bool), or
("pieces", list) with the pieces in order: ("kept", text) or ("hit", rule, text, names, texts).
`tick()` is called at each leaf that is walked and takes a step.
"""
from tree import Sym, Str, Node

FAIL = "Fail"
BLANK, BLANKS, NULLS = (Node(Sym(n), ()) for n in ("Blank", "BlankSequence", "BlankNullSequence"))
CLASSES = {
    Sym("DigitCharacter"): "0123456789",
    Sym("LetterCharacter"): "ABCDEFGHIJKLMNOPQRSTUVWXYZabcdefghijklmnopqrstuvwxyz",
}


def form(q):
    """The name of the node form that q is, or None."""
    if type(q) is not Node or type(q.head) is not Sym:
        return None
    name = q.head.name
    if name in ("StringExpression", "Alternatives"):
        return name
    if name in ("Repeated", "RepeatedNull") and len(q.args) == 1:
        return name
    if name == "Pattern" and len(q.args) == 2 and type(q.args[0]) is Sym:
        return name
    return None


def is_string_pattern(q):
    if type(q) is Str or q in (BLANK, BLANKS, NULLS) or q in CLASSES:
        return True
    kind = form(q)
    if kind == "Pattern":
        return is_string_pattern(q.args[1])
    return kind is not None and all(is_string_pattern(a) for a in q.args)


def leaves(q, text, start):
    """The leaves at `start`, in order: FAIL or (end, binding), binding: list of (name, text)."""
    # A state: place, binding, goals.  Goals: patterns, ("bind", x, from), ("moved", from).
    choices = [iter([(start, (), (q, None))])]
    while choices:
        state = next(choices[-1], None)
        if state is None:
            choices.pop()
            continue
        place, binding, goals = state
        while True:
            if goals is None:
                yield place, list(binding)
                break
            goal, goals = goals
            if type(goal) is tuple:
                if goal[0] == "bind":
                    piece, bound = text[goal[2]:place], dict(binding)
                    if goal[1] not in bound:
                        binding = binding + ((goal[1], piece),)
                    elif bound[goal[1]] != piece:
                        yield FAIL
                        break
                elif place == goal[1]:                    # RepeatedNull: q ended where it began
                    yield FAIL
                    break
                continue
            ends = atom_ends(goal, text, place)
            if ends is not None:
                options = iter([(end, binding, goals) for end in ends])
            else:
                options = iter([(place, binding, chain(new, goals))
                                for new in expansions(goal, place)])
            first = next(options, None)
            if first is None:
                yield FAIL
                break
            choices.append(options)
            place, binding, goals = first


def chain(new, goals):
    for goal in reversed(new):
        goals = (goal, goals)
    return goals


def atom_ends(q, text, i):
    """The ends of a string, class or blank at i; None for another pattern."""
    n = len(text)
    if type(q) is Str:
        return [i + len(q.text)] if text.startswith(q.text, i) else []
    if q in CLASSES:
        return [i + 1] if i < n and text[i] in CLASSES[q] else []
    if q == BLANK:
        return [i + 1] if i < n else []
    if q == BLANKS:
        return range(n, i, -1)
    if q == NULLS:
        return range(n, i - 1, -1)
    return None


def expansions(q, i):
    """The choices of goals for a node form at place i."""
    kind = form(q)
    if kind == "Pattern":
        return [[q.args[1], ("bind", q.args[0].name, i)]]
    if kind == "StringExpression":
        return [list(q.args)]
    if kind == "Alternatives":
        return [[a] for a in q.args]
    inner = q.args[0]
    again = Node(Sym("RepeatedNull"), (inner,))
    if kind == "Repeated":
        return [[inner, again]]
    return [[inner, ("moved", i), again], []]


def rule_of(r):
    """(pattern, body) of a rule that is taken, else None."""
    if type(r) is Node and r.head in (Sym("Rule"), Sym("RuleDelayed")) and len(r.args) == 2:
        q, body = r.args
        conditional = type(body) is Node and body.head == Sym("Condition") and len(body.args) == 2
        if is_string_pattern(q) and not conditional:
            return q, body
    return None


def find(name, args, tick):
    if len(args) != 2 or type(args[0]) is not Str:
        return None
    text, second = args[0].text, args[1]
    if name == "StringMatchQ":
        if not is_string_pattern(second):
            return None
        for leaf in leaves(second, text, 0):
            tick()
            if leaf is not FAIL and leaf[0] == len(text):
                return ("truth", True)
        return ("truth", False)
    if name == "StringCases":
        rule = (second, None) if is_string_pattern(second) else rule_of(second)
        rules = None if rule is None else [rule]
    else:
        written = second.args if type(second) is Node and second.head == Sym("List") else [second]
        rules = [rule_of(r) for r in written]
    if rules is None or None in rules:
        return None
    return ("pieces", search([q for q, _ in rules], text, tick))


def search(patterns, text, tick):
    pieces, kept, place = [], "", 0

    def keep():
        nonlocal kept
        if kept:
            pieces.append(("kept", kept))
        kept = ""

    while place <= len(text):
        found = hit_at(patterns, text, place, tick)
        if found is None:
            kept += text[place:place + 1]
            place += 1
            continue
        rule, end, binding = found
        keep()
        pieces.append(("hit", rule, text[place:end], [n for n, _ in binding], [t for _, t in binding]))
        if end > place:
            place = end
        else:
            kept += text[place:place + 1]
            place += 1
    keep()
    return pieces


def hit_at(patterns, text, place, tick):
    for rule, q in enumerate(patterns):
        for leaf in leaves(q, text, place):
            tick()
            if leaf is not FAIL:
                return rule, leaf[0], leaf[1]
    return None
