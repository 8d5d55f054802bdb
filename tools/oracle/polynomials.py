"""Polynomials: their meaning, normal form and expansion.

A polynomial is a dict: monomial -> Fraction (never 0).  A monomial is a frozenset of pairs
(generator, exponent), exponents from 1 up.
"""
from tree import Sym, Str, Node, num, is_num, is_int, fits, MAX
import exact

PLUS, TIMES, POWER, LIST = Sym("Plus"), Sym("Times"), Sym("Power"), Sym("List")
MOST_TERMS = 100_000


class Large(Exception):
    pass


def power_parts(t):
    """(e, n) where t is Power[e, n] with an integer n from 0 up, else None."""
    if (type(t) is Node and t.head == POWER and len(t.args) == 2
            and is_int(t.args[1]) and t.args[1] >= 0):
        return t.args[0], int(t.args[1])
    return None


def is_generator(t):
    if is_num(t) or power_parts(t):
        return False
    return not (type(t) is Node and t.head in (PLUS, TIMES))


def add_term(found, monomial, coefficient):
    """Adds a term that isn't 0 to the map."""
    if monomial in found:
        coefficient = exact.add(found[monomial], coefficient)
    if coefficient == 0:
        found.pop(monomial, None)
    else:
        found[monomial] = coefficient
    if len(found) > MOST_TERMS:
        raise Large()


def canonical(items):
    import order
    return sorted(items, key=order.sort_key)


def joined(head, items):
    return items[0] if len(items) == 1 else Node(head, items)


def term_tree(monomial, coefficient):
    factors = [g if n == 1 else Node(POWER, (g, num(n))) for g, n in monomial]
    if coefficient != 1 or not factors:
        factors.append(coefficient)
    return joined(TIMES, canonical(factors))


def normal(found):
    """The normal form."""
    if not found:
        return num(0)
    return joined(PLUS, canonical([term_tree(m, c) for m, c in found.items()]))


def terms_in_order(found):
    import order
    return sorted(found.items(), key=lambda item: order.sort_key(term_tree(*item)))


def expansion(t, tick):
    """The expansion.  tick() takes the step of one pair."""
    if is_num(t):
        return {} if t == 0 else {frozenset(): t}
    if type(t) is Node and t.head == PLUS:
        total = {}
        for a in t.args:
            for monomial, coefficient in terms_in_order(expansion(a, tick)):
                add_term(total, monomial, coefficient)
        return total
    if type(t) is Node and t.head == TIMES:
        if not t.args:
            return {frozenset(): num(1)}
        result = expansion(t.args[0], tick)
        for a in t.args[1:]:
            result = product(result, expansion(a, tick), tick)
        return result
    power = power_parts(t)
    if power:
        e, n = power
        if is_generator(e):
            return {frozenset([(e, n)] if n else []): num(1)}
        base = expansion(e, tick)
        if n == 0:
            return {frozenset(): num(1)}
        result = base
        if not base:                         # n - 1 products without a pair: no step, still 0
            return {}
        for _ in range(n - 1):
            result = product(result, base, tick)
        return result
    return {frozenset([(t, 1)]): num(1)}


def product(first, second, tick):
    found = {}
    second_terms = terms_in_order(second)
    for m1, c1 in terms_in_order(first):
        for m2, c2 in second_terms:
            tick()
            coefficient = exact.mul(c1, c2)
            exponents = dict(m1)
            for g, n in m2:
                exponents[g] = exponents.get(g, 0) + n
                if exponents[g] > MAX:
                    raise exact.Overflow()
            add_term(found, frozenset(exponents.items()), coefficient)
    return found


def parts_by_exponent(found, x):
    """exponent of x -> the map without x."""
    parts = {}
    for monomial, coefficient in found.items():
        exponents = dict(monomial)
        n = exponents.pop(x, 0)
        parts.setdefault(n, {})[frozenset(exponents.items())] = coefficient
    return parts


def is_variable(x):
    return is_generator(x) and type(x) is not Str


def has_part(t, parts):
    if t in parts:
        return True
    return type(t) is Node and (has_part(t.head, parts) or any(has_part(a, parts) for a in t.args))


def apply(name, args, tick):
    """None for a form that stays, else the result.  Raises exact.Overflow, Large, and what tick
    raises."""
    result = row(name, args, tick)
    if result is not None and not fits(result):
        raise Large()
    return result


def row(name, args, tick):
    if name == "Expand" and len(args) == 1:
        return normal(expansion(args[0], tick))
    if name == "Coefficient" and len(args) in (2, 3) and is_variable(args[1]):
        n = args[2] if len(args) == 3 else num(1)
        if not is_int(n) or n < 0:
            return None
        return normal(parts_by_exponent(expansion(args[0], tick), args[1]).get(int(n), {}))
    if name == "Collect" and len(args) == 2 and is_variable(args[1]):
        return collect(expansion(args[0], tick), args[1])
    if name == "PolynomialQ" and len(args) == 2:
        is_list = type(args[1]) is Node and args[1].head == LIST
        names = args[1].args if is_list else (args[1],)
        # "x as in Coefficient and no list, or a list of such": such ones are no lists either
        if not all(is_variable(x) and not (type(x) is Node and x.head == LIST) for x in names):
            return None
        names = set(names)
        generators = {g for monomial in expansion(args[0], tick) for g, _ in monomial}
        bad = any(g not in names and has_part(g, names) for g in generators)
        return Sym("False") if bad else Sym("True")
    return None


def collect(found, x):
    parts = parts_by_exponent(found, x)
    if not parts:
        return num(0)
    items = []
    for n in sorted(parts):
        part = normal(parts[n])
        items.append(part if n == 0 else Node(TIMES, (part, Node(POWER, (x, num(n))))))
    return joined(PLUS, items)
