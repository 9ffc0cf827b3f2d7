"""Routes driven as docs/MODEL.md's examples say, and costs worked by hand."""
import os
import unittest

from common import EXAMPLES, ToolCase

from vrp.drive import Stop, drive, drive_from, stops_of, total
from vrp.instance import read_instance
from vrp.solution import Route, read_solution

RELOAD = """DIMENSION : 3
EDGE_WEIGHT_TYPE : EXPLICIT
EDGE_WEIGHT_FORMAT : LOWER_ROW
EDGE_WEIGHT_SECTION
5
5 5
TIME_WINDOW_SECTION
1 0 100
2 0 10
3 0 100
RELEASE_TIME_SECTION
1 0
2 0
3 30
VEHICLE_TYPES_SECTION
1 1 10 1 1 0 1 0 0 -1 -1 -1 1 1 1
EOF
"""


class DriveTest(ToolCase):
    """Times, loads and costs."""

    def test_best_start_of_a_route_with_a_reload(self):
        instance = read_instance(self.write("reload.vrp", RELOAD))
        route = Route(0, [(1, False), (0, True), (2, False)])
        driven = drive(instance, route)
        self.assertEqual((driven.spans[0].start, driven.duration, driven.warp, total(driven.spans, "wait")), (5, 35, 0, 15))
        spans, _ = drive_from(stops_of(instance, route), 0)
        self.assertEqual((total(spans, "drive", "wait", "service"), total(spans, "wait"), total(spans, "warp")), (40, 20, 0))
        spans, begins = drive_from(stops_of(instance, route), 8)
        self.assertEqual((total(spans, "warp"), begins[1]), (3, 10))

    def test_going_back_takes_nothing_off_the_duration(self):
        stops = [Stop(1, 0, 0, 10, 5, True, 10), Stop(2, 0, 0, 12, 5, True, 0)]
        spans, begins = drive_from(stops, 0)
        self.assertEqual((total(spans, "drive", "wait", "service"), total(spans, "warp"), begins[1]), (20, 3, 12))

    def test_a_route_with_windows(self):
        instance = read_instance(os.path.join(EXAMPLES, "windows.vrp"))
        driven = drive(instance, Route(0, [(2, False), (1, False), (4, False)]))  # legs of 100, 50, 67 and 20
        self.assertEqual((driven.distance, driven.duration, driven.warp, driven.load, driven.cost), (237, 267, 0, 9, 237))

    def test_the_load_is_the_largest_on_board(self):
        text = "DIMENSION : 2\nCAPACITY : 5\nEDGE_WEIGHT_TYPE : EUC_2D\nNODE_COORD_SECTION\n1 0 0\n2 3 4\nDEMAND_SECTION\n1 0\n2 4\n"
        instance = read_instance(self.write("load.vrp", text + "BACKHAUL_SECTION\n1 0\n2 6\n"))
        driven = drive(instance, Route(0, [(1, False)]))
        self.assertEqual((driven.load, driven.excess_load, driven.cost), (6, 1, 10))

    def test_the_program_states_the_cost_of_its_routes(self):
        for name in sorted(os.listdir(EXAMPLES)):
            if name.endswith(".vrp"):
                with self.subTest(name):
                    self.check_cost(os.path.join(EXAMPLES, name))

    def check_cost(self, path):
        """Compares the cost that the program states with that of its routes, and of the clients that they leave out."""
        instance = read_instance(path)
        solution = read_solution(self.solve(path), instance)
        served = {place for route in solution.routes for place, reload in route.visits if not reload}
        drives = [drive(instance, route) for route in solution.routes]
        left = sum(instance.prizes[place] for place in range(instance.depots, instance.places) if place not in served)
        self.assertEqual(sum(driven.cost for driven in drives) + left, solution.cost)
        self.assertFalse(any(driven.excess_load or driven.excess_time or driven.excess_distance for driven in drives))


if __name__ == "__main__":
    unittest.main()
