"""Pictures of solutions."""
import os
import unittest
from xml.etree import ElementTree

from common import EXAMPLES, ToolCase, needs_matplotlib, random_instance

PLAIN = "DIMENSION : 3\nEDGE_WEIGHT_TYPE : EUC_2D\nNODE_COORD_SECTION\n1 0 0\n2 3 4\n3 0 5\n"


def texts_of(path):
    """The texts of an SVG picture."""
    return [element.text for element in ElementTree.parse(path).iter("{http://www.w3.org/2000/svg}text")]


@needs_matplotlib
class DrawTest(ToolCase):
    """What a picture shows."""

    def draw(self, instance, solution):
        """The texts of the picture of a solution, and what was told on standard error."""
        answer = self.call("draw", instance, self.write("solution.txt", solution), "-o", self.path("picture.svg"))
        self.assertEqual(answer.returncode, 0, answer.stderr)
        return texts_of(self.path("picture.svg")), answer.stderr

    def test_routes_with_windows(self):
        texts, told = self.draw(os.path.join(EXAMPLES, "windows.vrp"), "Route #1: 2 1 4\nRoute #2: 3\nCost 337\n")
        self.assertIn("#1: load 9 of 10, time 267, distance 237", texts)
        self.assertIn("#2: load 5 of 10, time 110, distance 100", texts)
        self.assertIn("windows.vrp: cost 337, 2 routes", texts)
        self.assertTrue({"depot", "drive", "wait", "service", "time warp", "window, and when the client is served"} <= set(texts))
        self.assertFalse({"client not served", "reload"} & set(texts))
        self.assertEqual(told, "")

    def test_reloads(self):
        texts, _ = self.draw(os.path.join(EXAMPLES, "trips.vrp"), "Route #1: 3 2 |0 4 |0 1\nCost 134\n")
        self.assertIn("reload", texts)

    def test_clients_that_are_not_served(self):
        texts, _ = self.draw(os.path.join(EXAMPLES, "prizes.vrp"), "Route #1: 1 2 5\nCost 56\n")
        self.assertIn("client not served", texts)

    def test_routes_over_their_limits_and_another_cost(self):
        texts, told = self.draw(os.path.join(EXAMPLES, "windows.vrp"), "Route #1: 3 1 2 4\nCost 300\n")
        self.assertTrue(any(text.endswith("(over its limits)") for text in texts))
        self.assertIn("states the cost 300, but its routes cost ", told)

    def test_time_warp_is_red(self):
        red = []
        for routes in ("2 1 4\nRoute #2: 3", "4 2 3 1"):  # 3 closes at 240, and is reached at 60 + 10 + 117 + 10 + 67 behind 4 and 2
            self.draw(os.path.join(EXAMPLES, "windows.vrp"), f"Route #1: {routes}\nCost 300\n")
            red.append(self.read("picture.svg").count("#ff0000"))
        self.assertLess(red[0], red[1])

    def test_no_panel_of_times_and_no_coordinates(self):
        texts, _ = self.draw(os.path.join(EXAMPLES, "explicit.vrp"), "Route #1: 1\nCost 1\n")
        self.assertIn("explicit.vrp: cost 1, 1 route (no coordinates)", texts)
        self.assertNotIn("drive", texts)

    def test_a_route_that_takes_no_time(self):
        instance = PLAIN.replace("2 3 4", "2 0 0") + "TIME_WINDOW_SECTION\n1 0 9\n2 5 5\n3 0 9\n"
        texts, _ = self.draw(self.write("plain.vrp", instance), "Route #1: 1\nRoute #2: 2\nCost 10\n")
        self.assertIn("#1: load 0, time 0", texts)

    def test_no_routes(self):
        self.draw(self.write("plain.vrp", PLAIN + "PRIZE_SECTION\n1 0\n2 3\n3 4\n"), "Cost 7\n")

    def test_two_hundred_clients_and_the_same_bytes_again(self):
        instance = self.write("large.vrp", random_instance(200))
        solution = self.solve(instance)
        for name in ("one.svg", "two.svg", "one.png"):
            self.assertEqual(self.succeed("draw", instance, solution, "-o", self.path(name)), "")
        self.assertEqual(self.read("one.svg"), self.read("two.svg"))
        self.assertTrue(self.files()["one.png"].startswith(b"\x89PNG"))


class RefusalTest(ToolCase):
    """What isn't drawn."""

    def test_solutions(self):
        instance = self.write("plain.vrp", PLAIN)
        for text, told in (
            ("Route #1: 1 2\nRoute #2: 3\nCost 5\n", "line 2: '3' isn't a client (1 to 2)"),
            ("Route #1: 1\nRoute #2: 2 1\nCost 5\n", "line 2: client 1 comes again (line 1)"),
            ("Route #2: 1\nCost 5\n", "line 1: neither `Route #1: ..` nor `Cost ..`"),
            ("Route #1: T2 1\nCost 5\n", "line 1: '2' isn't a vehicle type (1 to 1)"),
            ("Route #1: 1 |1 2\nCost 5\n", "line 1: '1' isn't a depot (0 to 0)"),
            ("Route #1: 1 2\nRoute #2: |0\nCost 5\n", "line 2: a route without a client"),
            ("Route #1:\nCost 5\n", "line 1: a route without a client"),
            ("Route #1: 1 2\n", "no line `Cost ..`"),
            ("Route #1: 1 " + "9" * 5000 + "\nCost 5\n", "line 1"),
            ("Instance OK\n", "line 1"),
            ("", "no line `Cost ..`"),
        ):
            with self.subTest(told):
                self.refuse(f"solution.txt: {told}", "draw", instance, self.write("solution.txt", text), "-o", self.path("new.svg"))

    def test_instances(self):
        for old, new, told in (
            ("2 3 4", "2 3", "line 5: NODE_COORD_SECTION has rows of 3 numbers"),
            ("2 3 4", "2 3 x", "line 5: not a number"),
            ("2 3 4", "4 3 4", "line 5: node 4 isn't one of 1 to 3"),
            ("2 3 4", "1 3 4", "line 5: node 1 comes twice"),
            ("2 3 4\n", "", "NODE_COORD_SECTION has no row for node 2"),
            ("DIMENSION : 3", "DIMENSION : " + "9" * 5000, "line 1"),
            ("EUC_2D", "GEO", "line 2"),
            ("3 0 5\n", "3 0 5\nPROFILE_SECTION\n1 1000\n", "line 8: PROFILE_SECTION has rows of 3 numbers"),
            ("3 0 5\n", "3 0 5\nVEHICLE_TYPES_SECTION\n1 1\n", "line 8: VEHICLE_TYPES_SECTION has rows of 14 numbers and more"),
            ("3 0 5\n", "3 0 5\nHELLO\n", "line 7: neither a keyword"),
        ):
            with self.subTest(told):
                instance = self.write("plain.vrp", PLAIN.replace(old, new))
                solution = self.write("solution.txt", "Cost 0\n")
                self.refuse(f"plain.vrp: {told}", "draw", instance, solution, "-o", self.path("new.svg"))

    def test_files(self):
        instance, solution = self.write("plain.vrp", PLAIN), self.write("solution.txt", "Route #1: 1 2\nCost 12\n")
        self.refuse("absent.vrp: cannot be read", "draw", self.path("absent.vrp"), solution, "-o", self.path("new.svg"))
        self.refuse("absent.txt: cannot be read", "draw", instance, self.path("absent.txt"), "-o", self.path("new.svg"))
        self.refuse("ends in .svg or .png", "draw", instance, solution, "-o", self.path("new.pdf"))

    @needs_matplotlib
    def test_folder_of_the_picture(self):
        instance, solution = self.write("plain.vrp", PLAIN), self.write("solution.txt", "Route #1: 1 2\nCost 12\n")
        self.refuse("its folder isn't there", "draw", instance, solution, "-o", self.path("absent", "new.svg"))


if __name__ == "__main__":
    unittest.main()
