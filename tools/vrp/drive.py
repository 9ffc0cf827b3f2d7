"""Routes driven stop by stop as docs/MODEL.md says: times, loads and costs."""
from dataclasses import dataclass

from vrp.instance import LARGEST


@dataclass
class Stop:
    """A stop of a route; the service is what is done there once its gate and window are open."""

    place: int
    gate: int
    early: int
    late: int
    service: int
    is_client: bool
    leg: int  # duration of the leg to the next stop


@dataclass
class Span:
    """A piece of a timeline: drive, wait, service or warp, from a time, so long."""

    what: str
    start: int
    length: int


@dataclass
class Drive:
    """What driving a route gives."""

    stops: list
    spans: list
    begins: list  # of each stop, when it is served, after waiting or going back in time
    duration: int
    warp: int
    distance: int
    load: int
    excess_load: int
    excess_time: int
    excess_distance: int
    cost: int  # without penalties


def trips_of(route):
    """The clients between departures and arrivals."""
    trips = [[]]
    for place, is_reload in route.visits:
        if is_reload:
            trips.append([])
        else:
            trips[-1].append(place)
    return trips


def stops_of(instance, route):
    """The stops of a route."""
    kind = instance.types[route.kind]
    releases = [max((instance.releases[place] for place in trip), default=0) for trip in trips_of(route)]

    def shift(place):
        early, late = instance.windows[place]
        return max(early, kind.early), min(late, kind.late)

    stops = [Stop(kind.start, releases.pop(0), *shift(kind.start), instance.services[kind.start], False, 0)]
    for place, is_reload in route.visits:
        if is_reload:
            stops.append(Stop(place, 0, *instance.windows[place], 0, False, 0))
            stops.append(Stop(place, releases.pop(0), *instance.windows[place], instance.services[place], False, 0))
        else:
            stops.append(Stop(place, 0, *instance.windows[place], instance.services[place], True, 0))
    stops.append(Stop(kind.end, 0, *shift(kind.end), 0, False, 0))
    for stop, following in zip(stops, stops[1:]):
        stop.leg = instance.duration(kind.profile, stop.place, following.place)
    return stops


def drive_from(stops, start):
    """The spans of driving from a start time, and when each stop is served."""
    clock, spans, begins = start, [], []
    for stop in stops:
        opening = max(stop.gate, stop.early)
        if clock < opening:
            spans.append(Span("wait", clock, opening - clock))
            clock = opening
        if clock > stop.late:
            spans.append(Span("warp", stop.late, clock - stop.late))
            clock = stop.late
        begins.append(clock)
        spans.append(Span("service", clock, stop.service))
        spans.append(Span("drive", clock + stop.service, stop.leg))
        clock += stop.service + stop.leg
    return [span for span in spans if span.length], begins


def total(spans, *what):
    """The length of some spans together."""
    return sum(span.length for span in spans if span.what in what)


def starts_of(stops):
    """The starts at which a waiting or a going back begins or ends; the best drive begins at one of them.

    The clock at a stop is the start plus `shift`, kept between `low` and `high`.
    """
    shift, low, high = 0, 0, LARGEST
    starts = {0, LARGEST}
    for stop in stops:
        opening = max(stop.gate, stop.early)
        low, high = max(low, opening), max(high, opening)
        starts |= {low - shift, high - shift}
        low, high = min(low, stop.late), min(high, stop.late)
        starts |= {low - shift, high - shift}
        step = stop.service + stop.leg
        shift, low, high = shift + step, low + step, high + step
    return sorted(start for start in starts if 0 <= start <= LARGEST)


def best_start(stops):
    """The first start of least warp and, of these, of least duration."""

    def measure(start):
        spans, _ = drive_from(stops, start)
        return total(spans, "warp"), total(spans, "drive", "wait", "service"), start

    return min(map(measure, starts_of(stops)))[2]


def loads_of(instance, route):
    """The largest amount on board of each trip."""
    loads = []
    for trip in trips_of(route):
        board = largest = sum(instance.deliveries[place] for place in trip)
        for place in trip:
            board += instance.pickups[place] - instance.deliveries[place]
            largest = max(largest, board)
        loads.append(largest)
    return loads


def drive(instance, route):
    """The best drive of a route."""
    kind = instance.types[route.kind]
    stops = stops_of(instance, route)
    spans, begins = drive_from(stops, best_start(stops))
    duration, warp = total(spans, "drive", "wait", "service"), total(spans, "warp")
    distance = sum(instance.distance(kind.profile, stop.place, after.place) for stop, after in zip(stops, stops[1:]))
    loads = loads_of(instance, route)
    late = 0 if kind.max_duration is None else max(duration - warp - kind.max_duration, 0)
    far = 0 if kind.max_distance is None else max(distance - kind.max_distance, 0)
    return Drive(
        stops, spans, begins, duration, warp, distance, max(loads), sum(max(load - kind.capacity, 0) for load in loads),
        warp + late, far, kind.fixed + kind.unit_distance * distance + kind.unit_duration * duration,
    )
