"""Solutions in the program's printed form: routes, cost and, where it follows, the table."""
import re
from dataclasses import dataclass

from vrp.files import InputFault, read_digits, read_text

ROUTE = re.compile(r"Route #(\d{1,4}):(.*)", re.ASCII)
COST = re.compile(r"Cost (\d{1,20})", re.ASCII)


@dataclass
class Route:
    """A used vehicle's type, from 0, and its visits: (place, whether it is a reload)."""

    kind: int
    visits: list


@dataclass
class Solution:
    """The routes and the cost that a text states."""

    routes: list
    cost: int


def read_solution(path, instance):
    """The solution of a file, whose places and types have to be the instance's."""
    routes, cost, seen = [], None, {}
    for line, row in enumerate(read_text(path).split("\n"), 1):
        row = row.strip()
        if cost is not None or not row:
            continue
        stated = COST.fullmatch(row)
        found = ROUTE.fullmatch(row)
        if stated:
            cost = int(stated[1])
        elif found and int(found[1]) == len(routes) + 1:
            routes.append(read_route(path, line, found[2].split(), instance, seen))
        else:
            raise InputFault(path, line, f"neither `Route #{len(routes) + 1}: ..` nor `Cost ..`: {row[:40]}")
    if cost is None:
        raise InputFault(path, 0, "no line `Cost ..`; there is no solution to draw")
    for kind, vehicle_type in enumerate(instance.types):
        if sum(route.kind == kind for route in routes) > vehicle_type.count:
            raise InputFault(path, 0, f"more routes of type {kind + 1} than there are vehicles")
    return Solution(routes, cost)


def read_route(path, line, tokens, instance, seen):
    """The route of a line; `seen` has the line of each client so far."""
    kind, visits = 0, []
    if tokens and tokens[0].startswith("T"):
        kind = read_place(path, line, tokens.pop(0)[1:], 1, len(instance.types), "a vehicle type") - 1
    for token in tokens:
        if token.startswith("|"):
            visits.append((read_place(path, line, token[1:], 0, instance.depots - 1, "a depot"), True))
            continue
        place = read_place(path, line, token, instance.depots, instance.places - 1, "a client")
        if place in seen:
            raise InputFault(path, line, f"client {place} comes again (line {seen[place]})")
        seen[place] = line
        visits.append((place, False))
    if all(is_reload for _, is_reload in visits):
        raise InputFault(path, line, "a route without a client")
    return Route(kind, visits)


def read_place(path, line, token, least, most, word):
    """A number between two bounds."""
    number = read_digits(token, most)
    if number is None or number < least:
        raise InputFault(path, line, f"{token[:40]!r} isn't {word} ({least} to {most})")
    return number
