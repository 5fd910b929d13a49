"""What a drive holds behind the sweep of a run."""
import unittest

from tests import ways
from tests.worked import Row

# The moment at which an object is read and behind which a sweep comes, of so many values; and how many are held then, and a further sweep frees. It is
# made at 5 and written at 7, 8 and 9, in a drive with a window of 10 ticks. Of six values the data end at 7, 8 and 9. At 16 none of them is expired, at 17
# the first is, at 18 the second, and at 19 all are.
SWEPT = [
    (16, 1000000, 6, 0),
    (17, 1000000, 5, 0),
    (18, 1000000, 4, 0),
    (18, 1, 5, 1),
    (18, 0, 6, 2),
    (19, 0, 6, 3),
    (19, 1, 5, 2),
    (19, 2, 4, 1),
    (19, 3, 3, 0),
    (1000, 18446744073709551615, 3, 0),
]

BEFORE = "window 10\nused\n5 7 create 0\n7 7 write 7.0.1 0 61\n8 7 write 7.0.1 0 62\n9 7 write 7.0.1 0 63\n"
TOLD = "used 0\nmade 7.0.1\ndone\ndone\ndone\ndata 63 by 0 since 5\n"


class Sweeps(Row):
    def test_sweeps_of_a_run_free_what_is_expired(self):
        for moment, count, used, rest in SWEPT:
            script = f"{BEFORE}{moment} 7 read 7.0.1 0 100\nsweep {count}\nused\nsweep 1000000\nused\n".encode()
            written = f"{TOLD}used {used}\nused {used - rest}\n".encode()
            with self.subTest(moment=moment, count=count):
                self.check_run(["run"], script, written)
                self.check_ways(script, written, [ways.AT_ONCE])


if __name__ == "__main__":
    unittest.main()
