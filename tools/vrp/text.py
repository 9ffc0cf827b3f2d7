"""The VRPLIB text of an instance with one kind of vehicle."""

SECTIONS = (
    ("DEMAND_SECTION", ("demand",), True),
    ("BACKHAUL_SECTION", ("pickup",), False),
    ("TIME_WINDOW_SECTION", ("early", "late"), False),
    ("SERVICE_TIME_SECTION", ("service",), False),
    ("RELEASE_TIME_SECTION", ("release",), False),
    ("PRIZE_SECTION", ("prize",), False),
)
NOTHING = {"demand": 0, "pickup": 0, "early": 0, "late": 10**12, "service": 0, "release": 0, "prize": 0}


def instance_text(name, remarks, depots, places, vehicles, capacity):
    """The text; `places` are dictionaries with x, y and what of `NOTHING`'s entries they have, depots first.

    There are so many vehicles at each depot, which begin and end their routes there.
    """
    lines = [f"NAME : {name}"] + [f"COMMENT : {remark}" for remark in remarks] + [f"DIMENSION : {len(places)}"]
    lines += [f"VEHICLES : {vehicles}", f"CAPACITY : {capacity}"] if depots == 1 else []
    lines += ["EDGE_WEIGHT_TYPE : EUC_2D", "NODE_COORD_SECTION"]
    lines += [f"{node} {place['x']} {place['y']}" for node, place in enumerate(places, 1)]
    for section, keys, always in SECTIONS:
        if always or any(key in place for place in places for key in keys):
            lines += section_lines(section, keys, places)
    lines += ["DEPOT_SECTION"] + [str(node) for node in range(1, depots + 1)] + ["-1"]
    if depots > 1:
        lines += ["VEHICLE_TYPES_SECTION"]
        lines += [f"{node} {vehicles} {capacity} {node} {node} 0 1 0 0 -1 -1 -1 1 0" for node in range(1, depots + 1)]
    return "\n".join([*lines, "EOF"]) + "\n"


def section_lines(section, keys, places):
    """A section with a row for each node."""
    rows = [[str(node)] + [str(place.get(key, NOTHING[key])) for key in keys] for node, place in enumerate(places, 1)]
    return [section] + [" ".join(row) for row in rows]
