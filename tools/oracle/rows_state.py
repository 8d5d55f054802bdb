"""Matching and replacement, ends, messages, history; string patterns and polynomials in the kernel."""
from tree import Sym, Str, Node, num, is_int
from builtins_pure import is_list, list_of
from rows_define import is_message_name
import assign
import exact
import filling
import polynomials
import string_patterns

TRUE, FALSE, NULL = Sym("True"), Sym("False"), Sym("Null")


def truth(b):
    return TRUE if b else FALSE


# Matching

def row_match(k, args, form):
    if len(args) != 2:
        return None
    return truth(k.match(args[1], args[0]) is not None)


def elements(e):
    return e.args if type(e) is Node else ()


def row_member(k, args, form):
    if len(args) != 2:
        return None
    return truth(any_match(k, args[1], elements(args[0])))


def any_match(k, p, items):
    for x in items:
        if k.match(p, x) is not None:
            return True
    return False


def row_count(k, args, form):
    if len(args) != 2:
        return None
    count = 0
    for x in elements(args[0]):
        if k.match(args[1], x) is not None:
            count += 1
    return num(count)


def row_cases(k, args, form):
    if len(args) != 2:
        return None
    found = []
    if filling.is_head(args[1], "RuleDelayed") and len(args[1].args) == 2:
        left, body = assign.moved_condition(*args[1].args)
        for x in elements(args[0]):
            result = k.match(left, x, body)
            if result is not None:
                found.append(result)
    else:
        for x in elements(args[0]):
            if k.match(args[1], x) is not None:
                found.append(x)
    return list_of(found)


def row_delete_cases(k, args, form):
    if len(args) != 2:
        return None
    if type(args[0]) is not Node:
        return args[0]
    left = []
    for x in args[0].args:
        if k.match(args[1], x) is None:
            left.append(x)
    return Node(args[0].head, left)


def preorder(t):
    todo = [t]
    while todo:
        u = todo.pop()
        yield u
        if type(u) is Node:
            todo.extend(reversed(u.args))
            todo.append(u.head)


def row_free(k, args, form):
    if len(args) != 2:
        return None
    return truth(not any_match(k, args[1], preorder(args[0])))


# Replacement

def rules_of(t):
    """The rules as pairs (left, body), or None."""
    rules = []
    for r in t.args if is_list(t) else (t,):
        if not (filling.is_head(r, "Rule") or filling.is_head(r, "RuleDelayed")):
            return None
        if len(r.args) != 2:
            return None
        rules.append(assign.moved_condition(*r.args))
    return rules


def replace_all(k, t, rules):
    result = k.trial(rules, t)
    if result is not None:
        return result
    if type(t) is not Node:
        return t
    head = replace_all(k, t.head, rules)
    return filling.rebuilt(t, head, [replace_all(k, a, rules) for a in t.args])


def row_replace(k, args, form):
    rules = rules_of(args[1]) if len(args) == 2 else None
    if rules is None:
        return None
    result = k.trial(rules, args[0])
    return args[0] if result is None else result


def row_replace_all(k, args, form):
    rules = rules_of(args[1]) if len(args) == 2 else None
    return None if rules is None else replace_all(k, args[0], rules)


def row_replace_repeated(k, args, form):
    rules = rules_of(args[1]) if len(args) == 2 else None
    if rules is None:
        return None
    value = args[0]
    while True:
        k.step()
        after = k.eval_built(replace_all(k, value, rules))
        if after == value:
            return value
        value = after


# Ends

def row_throw(k, args, form):
    from evaluate import Thrown
    if len(args) not in (1, 2):
        return None
    raise Thrown(args[0], args[1] if len(args) == 2 else None)


def row_catch(k, args, form):
    from evaluate import Thrown
    if len(args) not in (1, 2):
        return None
    try:
        return k.eval(args[0])
    except Thrown as end:
        caught = end
    if len(args) == 1 and caught.tag is None:
        return caught.value
    if len(args) == 2 and caught.tag is not None and k.match(args[1], caught.tag) is not None:
        return caught.value
    raise caught


def ending(name):
    def row(k, args, form):
        import evaluate
        if args:
            return None
        raise getattr(evaluate, name)()
    return row


def row_check_abort(k, args, form):
    from evaluate import Aborted
    if len(args) != 2:
        return None
    try:
        return k.eval(args[0])
    except Aborted:
        return args[1]


# Messages

def row_print(k, args, form):
    import printing
    k.show("".join(a.text if type(a) is Str else printing.input_form(a) for a in args))
    return NULL


def row_message(k, args, form):
    if not args or not is_message_name(args[0]):
        return None
    k.issue(args[0].args[0].name, args[0].args[1].text, args[1:])
    return NULL


def switching(off):
    def row(k, args, form):
        if len(args) != 1 or not is_message_name(args[0]):
            return None
        name = args[0].args[0].name
        k.changed(name)
        k.store.set_off(name, args[0].args[1].text, off)
        return NULL
    return row


def row_quiet(k, args, form):
    if len(args) != 1:
        return None
    k.quiets += 1
    try:
        return k.eval(args[0])
    finally:
        k.quiets -= 1


def row_check(k, args, form):
    if len(args) != 2:
        return None
    before = k.heard
    value = k.eval(args[0])
    return args[1] if k.heard != before else value


def row_message_name(k, args, form):
    if not is_message_name(form):
        return None
    name = form.args[0].name
    k.read(name)
    text = k.store.entry(name).messages.get(form.args[1].text)
    return None if text is None else Str(text)


# History

def row_out(k, args, form):
    if not args:
        n = -1
    elif len(args) == 1 and is_int(args[0]):
        n = int(args[0])
    else:
        return None
    k.record.effect = True
    line = n if n > 0 else len(k.history) + 1 + n if n < 0 else 0
    return k.history[line - 1][1] if 1 <= line <= len(k.history) else None


def row_in(k, args, form):
    if len(args) != 1 or not is_int(args[0]):
        return None
    k.record.effect = True
    n = int(args[0])
    return k.history[n - 1][0] if 1 <= n <= len(k.history) else None


# String patterns

def row_strings(name):
    def row(k, args, form):
        found = string_patterns.find(name, args, k.step)
        if found is None:
            return None
        if found[0] == "truth":
            return truth(found[1])
        pieces = [filled_piece(k, name, args[1], piece) for piece in found[1]]
        if name == "StringCases":
            return list_of([t for kind, t in pieces if kind == "hit"])
        if all(type(t) is Str for _, t in pieces):
            return Str("".join(t.text for _, t in pieces))
        return Node(Sym("StringJoin"), [t for _, t in pieces])
    return row


def filled_piece(k, name, second, piece):
    """("kept" | "hit", tree)."""
    if piece[0] == "kept":
        return "kept", Str(piece[1])
    _, rule, text, names, values = piece
    if name == "StringCases" and string_patterns.is_string_pattern(second):
        return "hit", Str(text)
    r = second.args[rule] if is_list(second) else second
    body = string_patterns.rule_of(r)[1]
    return "hit", k.tested(filling.replace(body, names, [Str(v) for v in values]))


# Polynomials

def row_polynomials(name):
    def row(k, args, form):
        try:
            return polynomials.apply(name, args, k.step)
        except exact.Overflow:
            k.issue("General", "ovfl", [])
            return Node(Sym("Overflow"), ())
        except polynomials.Large:
            k.large()
    return row


ROWS = {
    "MatchQ": row_match, "MemberQ": row_member, "Count": row_count, "Cases": row_cases,
    "DeleteCases": row_delete_cases, "FreeQ": row_free, "Replace": row_replace,
    "ReplaceAll": row_replace_all, "ReplaceRepeated": row_replace_repeated,
    "Throw": row_throw, "Catch": row_catch, "Abort": ending("Aborted"),
    "CheckAbort": row_check_abort, "Break": ending("Broke"), "Continue": ending("Continued"),
    "Print": row_print, "Message": row_message, "Off": switching(True), "On": switching(False),
    "Quiet": row_quiet, "Check": row_check, "MessageName": row_message_name,
    "Out": row_out, "In": row_in,
    "StringMatchQ": row_strings("StringMatchQ"), "StringCases": row_strings("StringCases"),
    "StringReplace": row_strings("StringReplace"),
    "Expand": row_polynomials("Expand"), "Collect": row_polynomials("Collect"),
    "Coefficient": row_polynomials("Coefficient"), "PolynomialQ": row_polynomials("PolynomialQ"),
}
