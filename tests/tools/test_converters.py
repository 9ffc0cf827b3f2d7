"""Instances from other layouts."""
import os
import unittest

from common import EXAMPLES, ToolCase

from vrp.instance import read_instance

SOLOMON = """small

VEHICLE
NUMBER     CAPACITY
  2         200

CUSTOMER
CUST NO.  XCOORD.   YCOORD.    DEMAND   READY TIME  DUE DATE   SERVICE   TIME

    0      40         50          0          0       1236          0
    1      45         68         10        912        967          90
    2      45         70         30        825        870          80
"""
SOLOMON_TEXT = """NAME : small
DIMENSION : 3
VEHICLES : 2
CAPACITY : 200
EDGE_WEIGHT_TYPE : EUC_2D
NODE_COORD_SECTION
1 40 50
2 45 68
3 45 70
DEMAND_SECTION
1 0
2 10
3 30
TIME_WINDOW_SECTION
1 0 1236
2 912 967
3 825 870
SERVICE_TIME_SECTION
1 0
2 90
3 80
DEPOT_SECTION
1
-1
EOF
"""
TABLE = "name,kind,x,y,demand,early,late,prize\nYard,depot,0,0,,8:00,16:00,\nShop,client,3,4,2,9:30,,\nMill,client,1.5,-2,1,,,7\n"
TABLE_TEXT = """NAME : table
COMMENT : place 0 is Yard
COMMENT : place 1 is Shop
COMMENT : place 2 is Mill
DIMENSION : 3
VEHICLES : 2
CAPACITY : 5
EDGE_WEIGHT_TYPE : EUC_2D
NODE_COORD_SECTION
1 0 0
2 3 4
3 1.5 -2
DEMAND_SECTION
1 0
2 2
3 1
TIME_WINDOW_SECTION
1 480 960
2 570 1000000000000
3 0 1000000000000
PRIZE_SECTION
1 0
2 0
3 7
DEPOT_SECTION
1
-1
EOF
"""


class SolomonTest(ToolCase):
    """Solomon's layout."""

    def test_text(self):
        self.assertEqual(self.succeed("from_solomon", self.write("small.txt", SOLOMON)), SOLOMON_TEXT)
        windows = self.write("small.txt", SOLOMON.replace("\n", "\r\n"))
        self.succeed("from_solomon", windows, "-o", self.path("small.vrp"))
        self.assertEqual(self.read("small.vrp"), SOLOMON_TEXT)

    def test_times_ten(self):
        self.succeed("from_solomon", self.write("small.txt", SOLOMON), "--times-ten", "-o", self.path("small.vrp"))
        instance = read_instance(self.path("small.vrp"))
        self.assertEqual(instance.coordinates, [(400, 500), (450, 680), (450, 700)])
        self.assertEqual((instance.deliveries, instance.types[0].capacity, instance.types[0].count), ([0, 10, 30], 200, 2))
        self.assertEqual((instance.windows[1], instance.services), ((9120, 9670), [0, 900, 800]))

    def test_refusals(self):
        for old, new, told in (
            (SOLOMON, "", "the text is empty"),
            ("VEHICLE\n", "", "line 3: the words VEHICLE belong here"),
            ("  2         200", "  2", "line 5: the number of vehicles and their capacity belong here"),
            ("  2         200", "  0         200", "line 5: 0 vehicles; it has to be 1 to 2048"),
            ("CUST NO.", "CUSTNO.", "line 8: the words CUST NO. belong here"),
            ("   90\n", "\n", "line 11: a customer has 7 numbers; here are 6"),
            ("68  ", "6.8", "line 11: not a whole number up to 10^11: 6.8"),
            ("    2      45", "    3      45", "line 12: customer 2 belongs here, not 3"),
            ("967", "911", "line 11: the window ends before it begins: 912 to 911"),
            ("50          0", "50          1", "line 10: customer 0 is the depot and has no demand"),
            ("    1      45", "    1      1000001", "line 11: a coordinate is above 1,000,000"),
            ("10        912", "10        " + "9" * 5000, "line 11: not a whole number"),
            (SOLOMON[SOLOMON.index("    1 ") :], "", "1 customers with the depot"),
            (SOLOMON[SOLOMON.index("CUSTOMER") :], "", "the text ends where the words CUSTOMER belong"),
        ):
            with self.subTest(told):
                self.assertIn(old, SOLOMON)
                path = self.write("small.txt", SOLOMON.replace(old, new))
                self.refuse(f"small.txt: {told}", "from_solomon", path, "-o", self.path("new.vrp"))
        self.refuse("absent.txt: cannot be read", "from_solomon", self.path("absent.txt"), "-o", self.path("new.vrp"))
        self.refuse("no plain file", "from_solomon", self.write("small.txt", SOLOMON), "-o", self.folder)

    def test_two_hundred_customers(self):
        rows = [f"{k} {k % 90} {k % 77} {k % 9} 0 5000 10" for k in range(1, 201)]
        text = SOLOMON[: SOLOMON.index("    1 ")].replace("  2   ", "  200 ") + "\n".join(rows) + "\n"
        self.succeed("from_solomon", self.write("large.txt", text), "-o", self.path("large.vrp"))
        self.assertIn(" Y ", self.read(self.solve(self.path("large.vrp"))))


class TableTest(ToolCase):
    """Tables of clients."""

    def convert(self, text, *words):
        """The text that a table gives."""
        return self.succeed("from_csv", self.write("table.csv", text), "--capacity", 5, *words)

    def test_text(self):
        self.assertEqual(self.convert(TABLE), TABLE_TEXT)
        self.assertEqual(self.convert("\ufeff" + TABLE.replace("\n", "\r\n")), TABLE_TEXT)
        self.assertEqual(self.convert(TABLE.replace(",", ";"), "--delimiter", ";"), TABLE_TEXT)

    def test_the_first_row_is_the_depot_without_kinds(self):
        self.succeed("from_csv", self.write("table.csv", "x,y,demand\n7,8,0\n3,4,5\n"), "--capacity", 5, "-o", self.path("table.vrp"))
        instance = read_instance(self.path("table.vrp"))
        self.assertEqual((instance.depots, instance.coordinates, instance.deliveries), (1, [(7, 8), (3, 4)], [0, 5]))

    def test_several_depots(self):
        table = self.write("table.csv", "kind,x,y,demand\nclient,3,4,5\ndepot,0,0,\nDepot,9,9,\n")
        self.succeed("from_csv", table, "--capacity", 5, "--vehicles", 3, "-o", self.path("table.vrp"))
        instance = read_instance(self.path("table.vrp"))
        self.assertEqual((instance.depots, instance.coordinates[2]), (2, (3, 4)))
        kinds = [(kind.count, kind.capacity, kind.start, kind.end, kind.unit_distance) for kind in instance.types]
        self.assertEqual(kinds, [(3, 5, 0, 0, 1), (3, 5, 1, 1, 1)])
        self.assertIn("T1 2\nCost 10\n", self.read(self.solve(self.path("table.vrp"))))

    def test_refusals(self):
        for old, new, told in (
            (TABLE, "", "0 depots and 0 clients"),
            ("demand", "colour", "line 1: column 'colour' is unknown or comes twice"),
            ("name", "x", "line 1: column 'x' is unknown or comes twice"),
            ("demand,", "pickup,", "line 1: no column demand"),
            ("3,4,2,", "3,4,", "line 3: 7 cells, but the header has 8"),
            ("3,4,2", "3,,2", "line 3: column y is empty"),
            ("3,4,2", "3,4,2.5", "line 3: column demand: 2.5 isn't a whole number"),
            ("3,4,2", "3,4,-2", "line 3: column demand: -2 isn't a whole number"),
            ("3,4,2", "3,4e2,2", "line 3: column y: not a number: '4e2'"),
            ("3,4,2", "3,1000001,2", "line 3: column y: 1000001 isn't a number"),
            ("9:30", "9:61", "line 3: column early: not a number or a time: '9:61'"),
            ("8:00,16:00", "8:00,7:59", "line 2: the window ends before it begins: 480 to 479"),
            ("client", "shop", "line 3: column kind: neither depot nor client: 'shop'"),
            ("0,0,,", "0,0,1,", "line 2: a depot has no demand"),
            ("Shop", '"Sh\nop"', "line 4: the name has characters that can't be printed"),
            ("Shop", '"Shop', "line 4: not CSV"),
        ):
            with self.subTest(told):
                self.assertIn(old, TABLE)
                path = self.write("table.csv", TABLE.replace(old, new))
                self.refuse(f"table.csv: {told}", "from_csv", path, "--capacity", 5, "-o", self.path("new.vrp"))
        path = self.write("table.csv", TABLE)
        self.refuse("not a number from 1 to 2048", "from_csv", path, "--capacity", 5, "--vehicles", 0, "-o", self.path("new.vrp"))
        self.refuse("not a number from 0 to", "from_csv", path, "--capacity", "much", "-o", self.path("new.vrp"))
        self.refuse("its folder isn't there", "from_csv", path, "--capacity", 5, "-o", self.path("absent", "new.vrp"))

    def test_two_hundred_clients(self):
        rows = [f"{k % 90},{k % 77},{k % 5}" for k in range(1, 201)]
        self.convert("x,y,demand\n5,5,0\n" + "\n".join(rows) + "\n", "-o", self.path("large.vrp"))
        self.assertIn(" Y ", self.read(self.solve(self.path("large.vrp"))))


class ExampleTest(ToolCase):
    """The examples, as the program reads them."""

    def test_solved(self):
        for words in (
            ["from_solomon", os.path.join(EXAMPLES, "solomon.txt")],
            ["from_csv", os.path.join(EXAMPLES, "deliveries.csv"), "--capacity", 30, "--vehicles", 5],
        ):
            with self.subTest(words[0]):
                self.succeed(*words, "-o", self.path("example.vrp"))
                self.assertIn(" Y ", self.read(self.solve(self.path("example.vrp"))))


if __name__ == "__main__":
    unittest.main()
