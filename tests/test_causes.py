"""What is told of words that are no request."""
import unittest

from tests import causes
from tests.calling import asking
from tests.causes import REQUESTS, cause
from tests.program import Ended, run


class Called(unittest.TestCase):
    """Calls whose words are no request."""

    def test_requests_of_calls(self):
        for request, number, word, wanted in REQUESTS:
            with self.subTest(request):
                fault = f"s4d: bad request: {cause(number, word, wanted)}\n".encode()
                self.assertEqual(run(asking("nowhere", *request.split(" "))), Ended(1, b"", fault))

    def test_words_of_calls(self):
        rows = (
            (["create 0"], "word 1 'create?0': each word stands by itself, and this one has a space"),
            (["write", "7.0.1", "0", ""], cause(4, "", causes.BYTES)),
            ([""], cause(1, "", causes.VERB)),
            (["create", "0\r"], cause(2, "0", causes.RETURN)),
            (["write", "7.0.1", "0", "61" * 8178], "it is longer than a frame takes"),
        )
        for words, wanted in rows:
            with self.subTest(words=[it[:40] for it in words]):
                self.assertEqual(run(asking("nowhere", *words)), Ended(1, b"", f"s4d: bad request: {wanted}\n".encode()))


if __name__ == "__main__":
    unittest.main()
