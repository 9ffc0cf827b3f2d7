"""Instances as docs/FORMAT.md describes them. The program is the judge of a text; this reader refuses what it can't draw."""
import re
from dataclasses import dataclass, field
from decimal import Decimal
from itertools import takewhile
from math import floor, isqrt

from vrp.files import InputFault, read_text

LARGEST = 10**12
MICRO = 10**6
NUMBER = re.compile(r"[+-]?(\d+\.?\d*|\.\d+)([eE][+-]?\d{1,6})?", re.ASCII)
NODE_SECTIONS = {
    "NODE_COORD_SECTION": 2,
    "DEMAND_SECTION": 1,
    "BACKHAUL_SECTION": 1,
    "TIME_WINDOW_SECTION": 2,
    "SERVICE_TIME_SECTION": 1,
    "RELEASE_TIME_SECTION": 1,
    "PRIZE_SECTION": 1,
}
OTHER_SECTIONS = (
    "EDGE_WEIGHT_SECTION", "DEPOT_SECTION", "MUTUALLY_EXCLUSIVE_GROUP_SECTION", "PROFILE_SECTION", "VEHICLE_TYPES_SECTION",
)
KEYWORDS = (
    "DIMENSION", "EDGE_WEIGHT_TYPE", "EDGE_WEIGHT_FORMAT", "CAPACITY", "VEHICLES", "SERVICE_TIME", "MAX_DURATION", "MAX_DISTANCE",
)
WHOLE_KEYWORDS = ("DIMENSION", "CAPACITY", "VEHICLES")


@dataclass
class VehicleType:
    """A type of vehicles; places and profiles count from 0, and `None` stands for no limit."""

    count: int
    capacity: int
    start: int = 0
    end: int = 0
    fixed: int = 0
    unit_distance: int = 1
    unit_duration: int = 0
    early: int = 0
    late: int = LARGEST
    max_duration: int = None
    max_distance: int = None
    profile: int = 0
    reloads: int = 0
    reload_depots: list = field(default_factory=list)


@dataclass
class Instance:
    """An instance; lists have an entry for each place, depots first."""

    path: str
    places: int
    depots: int
    coordinates: list  # pairs of Decimal, or None where the text has none
    deliveries: list
    pickups: list
    windows: list
    services: list
    releases: list
    prizes: list
    factors: list  # of each profile, of distance and of duration, in thousandths
    types: list
    table: list = None  # explicit legs, row by row

    def base(self, origin, target):
        """The leg of two places before any profile's factor."""
        if origin == target:
            return 0
        if self.table:
            return self.table[origin][target]
        (x, y), (u, v) = self.coordinates[origin], self.coordinates[target]
        square = int(((x - u) ** 2 + (y - v) ** 2) * MICRO * MICRO)
        return (isqrt(4 * square) + MICRO) // (2 * MICRO)

    def distance(self, profile, origin, target):
        """The distance of two places in a profile."""
        return self.base(origin, target) * self.factors[profile][0] // 1000

    def duration(self, profile, origin, target):
        """The duration of a leg in a profile."""
        return self.base(origin, target) * self.factors[profile][1] // 1000

    def has_windows(self):
        """Whether times play a part: a window, release, shift or limit of duration."""
        return any(self.releases) or any(window != (0, LARGEST) for window in self.windows) or any(
            (kind.early, kind.late, kind.max_duration) != (0, LARGEST, None) for kind in self.types
        )


def is_known(section):
    """Whether a section has a meaning."""
    return section in NODE_SECTIONS or section in OTHER_SECTIONS


class Reader:
    """Cuts a text into keywords and sections, and tells the line of each fault."""

    def __init__(self, path):
        self.path = path
        self.keywords = {}
        self.rows = {}
        self.cut(read_text(path, errors="replace"))

    def fault(self, line, words):
        """The fault of a line."""
        return InputFault(self.path, line, words)

    def cut(self, text):
        """Collects the values of keywords and the rows of known sections, each with its line."""
        section = None
        for line, row in enumerate(text.split("\n"), 1):
            row = row.strip(" \t\r")
            if row == "EOF":
                return
            if row and row[0].isascii() and row[0].isalpha():
                section = self.open_line(line, row, section)
            elif row and section is None:
                raise self.fault(line, f"numbers outside a section: {row[:40]}")
            elif row:
                self.rows.setdefault(section, []).append((line, row.split()))

    def open_line(self, line, row, section):
        """Takes a line that begins with a letter; returns the section that is open then."""
        key, colon, value = (part.strip(" \t") for part in row.partition(":"))
        if key.endswith("_SECTION"):
            if key in self.rows and is_known(key):
                raise self.fault(line, f"a second {key}")
            self.rows[key] = []
            return key
        if not colon:
            if section and not is_known(section):
                return section
            raise self.fault(line, f"neither a keyword with a colon nor a section: {row[:40]}")
        if key in KEYWORDS:
            if key in self.keywords:
                raise self.fault(line, f"a second {key}")
            self.keywords[key] = (line, value)
        elif key == "DISTANCE" or key.startswith("VEHICLES_"):
            raise self.fault(line, f"{key} isn't supported")
        return None

    def number(self, line, token, whole=False):
        """The value of a token."""
        value = Decimal(token) if NUMBER.fullmatch(token) else None
        if value is None or abs(value) > LARGEST or (whole and value != int(value)):
            raise self.fault(line, f"not a {'whole ' if whole else ''}number up to 10^12: {token[:40]}")
        return int(value) if whole else value

    def rounded(self, line, token):
        """The value of a token, rounded to the nearest, halves up."""
        return floor(self.number(line, token) + Decimal("0.5"))

    def keyword(self, key, default):
        """The value of a keyword."""
        if key not in self.keywords:
            return default
        line, value = self.keywords[key]
        return self.number(line, value, whole=True) if key in WHOLE_KEYWORDS else self.rounded(line, value)

    def node(self, line, token, nodes):
        """A node's place."""
        node = self.number(line, token, whole=True)
        if not 1 <= node <= nodes:
            raise self.fault(line, f"node {node} isn't one of 1 to {nodes}")
        return node - 1

    def by_node(self, section, nodes, default, read):
        """A section's values by place; `default` is the list where it is missing."""
        if section not in self.rows:
            return default
        values = [None] * nodes
        for line, tokens in self.rows[section]:
            if len(tokens) != NODE_SECTIONS[section] + 1:
                raise self.fault(line, f"{section} has rows of {NODE_SECTIONS[section] + 1} numbers")
            place = self.node(line, tokens[0], nodes)
            if values[place] is not None:
                raise self.fault(line, f"node {place + 1} comes twice in {section}")
            read_tokens = [read(line, token) for token in tokens[1:]]
            values[place] = read_tokens[0] if len(read_tokens) == 1 else tuple(read_tokens)
        if None in values:
            raise self.fault(0, f"{section} has no row for node {values.index(None) + 1}")
        return values

    def depots(self, nodes):
        """The number of depots, which are the first nodes."""
        listed = [(line, token) for line, tokens in self.rows.get("DEPOT_SECTION", [(0, ["1"])]) for token in tokens]
        places = [self.node(line, token, nodes) for line, token in takewhile(lambda pair: pair[1] != "-1", listed)]
        if places != list(range(len(places))) or not 0 < len(places) < nodes:
            raise self.fault(0, "the depots aren't the nodes 1, 2 and so on, with a client behind them")
        return len(places)

    def table(self, nodes):
        """Explicit legs, or None for Euclidean ones."""
        kind = self.keywords.get("EDGE_WEIGHT_TYPE", (0, ""))
        if kind[1] == "EUC_2D":
            return None
        if kind[1] != "EXPLICIT":
            raise self.fault(kind[0], f"EDGE_WEIGHT_TYPE isn't EUC_2D or EXPLICIT: {kind[1]}")
        line, layout = self.keywords.get("EDGE_WEIGHT_FORMAT", (0, ""))
        numbers = iter([self.rounded(at, token) for at, row in self.rows.get("EDGE_WEIGHT_SECTION", []) for token in row])
        table = [[0] * nodes for _ in range(nodes)]
        try:
            for row in range(nodes):
                for column in self.columns(line, layout, row, nodes):
                    table[row][column] = next(numbers)
                    if layout != "FULL_MATRIX":
                        table[column][row] = table[row][column]
        except StopIteration:
            raise self.fault(0, "EDGE_WEIGHT_SECTION has too few numbers") from None
        if next(numbers, None) is not None:
            raise self.fault(0, "EDGE_WEIGHT_SECTION has too many numbers")
        return table

    def columns(self, line, layout, row, nodes):
        """The columns that a layout of explicit legs has in a row."""
        spans = {"FULL_MATRIX": range(nodes), "LOWER_ROW": range(row), "UPPER_ROW": range(row + 1, nodes)}
        if layout not in spans:
            raise self.fault(line, f"EDGE_WEIGHT_FORMAT isn't FULL_MATRIX, LOWER_ROW or UPPER_ROW: {layout}")
        return spans[layout]

    def factors(self):
        """The factors of each profile."""
        factors = []
        for line, tokens in self.rows.get("PROFILE_SECTION", []):
            if len(tokens) != 3:
                raise self.fault(line, "PROFILE_SECTION has rows of 3 numbers")
            factors.append([self.number(line, token, whole=True) for token in tokens[1:]])
        return factors or [[1000, 1000]]

    def vehicle_types(self, nodes, depots):
        """The types of the section, or the one that the keywords tell."""
        if "VEHICLE_TYPES_SECTION" not in self.rows:
            return [VehicleType(
                self.keyword("VEHICLES", nodes - depots), self.keyword("CAPACITY", LARGEST),
                max_duration=self.keyword("MAX_DURATION", None), max_distance=self.keyword("MAX_DISTANCE", None),
            )]
        types = [self.vehicle_type(line, tokens, nodes) for line, tokens in self.rows["VEHICLE_TYPES_SECTION"]]
        if not types:
            raise self.fault(0, "VEHICLE_TYPES_SECTION has no row")
        return types

    def vehicle_type(self, line, tokens, nodes):
        """A row of VEHICLE_TYPES_SECTION."""
        if len(tokens) < 14:
            raise self.fault(line, "VEHICLE_TYPES_SECTION has rows of 14 numbers and more")
        _, count, capacity, _, _, fixed, distance, duration, early, late, longest, farthest, profile, reloads = (
            self.rounded(line, token) for token in tokens[:14]
        )
        return VehicleType(
            count, capacity, self.node(line, tokens[3], nodes), self.node(line, tokens[4], nodes), fixed, distance, duration,
            early, LARGEST if late == -1 else late, None if longest == -1 else longest, None if farthest == -1 else farthest,
            profile - 1, reloads, [self.node(line, token, nodes) for token in tokens[14:]],
        )


def read_instance(path):
    """The instance of a file."""
    reader = Reader(path)
    nodes = reader.keyword("DIMENSION", None)
    if nodes is None or not 2 <= nodes <= 2048:
        raise reader.fault(reader.keywords.get("DIMENSION", (0,))[0], "DIMENSION is missing, or isn't 2 to 2048")
    depots = reader.depots(nodes)
    table = reader.table(nodes)
    coordinates = reader.by_node("NODE_COORD_SECTION", nodes, None, reader.number)
    if table is None and coordinates is None:
        raise reader.fault(0, "NODE_COORD_SECTION is missing")
    zeros = [0] * nodes
    services = [0] * depots + [reader.keyword("SERVICE_TIME", 0)] * (nodes - depots)
    instance = Instance(
        path, nodes, depots, coordinates,
        reader.by_node("DEMAND_SECTION", nodes, zeros, reader.rounded),
        reader.by_node("BACKHAUL_SECTION", nodes, zeros, reader.rounded),
        reader.by_node("TIME_WINDOW_SECTION", nodes, [(0, LARGEST)] * nodes, reader.rounded),
        reader.by_node("SERVICE_TIME_SECTION", nodes, services, reader.rounded),
        reader.by_node("RELEASE_TIME_SECTION", nodes, zeros, reader.rounded),
        reader.by_node("PRIZE_SECTION", nodes, zeros, reader.rounded),
        reader.factors(), reader.vehicle_types(nodes, depots), table,
    )
    for kind in instance.types:
        if not 0 <= kind.profile < len(instance.factors) or max(kind.start, kind.end, *kind.reload_depots, 0) >= depots:
            raise reader.fault(0, "a vehicle type's profile or depot isn't there")
    return instance
