"""The exports that write lent numbers: with too few of them nothing is written, and with more the rest stays as it was."""
import ctypes
import unittest

from probe import READ, TOO_FEW, UNWRITTEN, WRITE, Lent, Probe

SIZE = [ctypes.c_size_t]
BLOCK = b"A:b\nTo: c@d\n\n"
LIST = b"x <a@b>, g: c@d;"
FIELD = b"addr=a@b; prefer-encrypt=mutual; keydata=Zm9v"


class Numbers(unittest.TestCase):
    def setUp(self):
        self.probe = Probe()

    def same(self, name: str, kind: int, numbers: list[int], kinds: list, *words) -> None:
        """The export tells these numbers, with this kind."""
        for more in (0, 1, 5):
            told = self.probe.told(name, len(numbers) + more, {kind}, kinds, *words)
            self.assertEqual(told, (kind, numbers + [UNWRITTEN] * more), name)
        self.refused(name, kind, len(numbers), kinds, *words)

    def refused(self, name: str, kind: int, needed: int, kinds: list, *words) -> None:
        for count in range(needed):
            self.assertEqual(self.probe.told(name, count, {kind}, kinds, *words), (TOO_FEW, []), name)

    def test_fields(self):
        self.same("probe_field_at", 2, [6, 7, 12], READ + SIZE, BLOCK, len(BLOCK), 4)
        self.same("probe_field_number", 2, [4, 6, 7, 12], READ + SIZE, BLOCK, len(BLOCK), 1)
        self.same("probe_take", 2, [12, 4, 6, 7, 12], READ + SIZE, BLOCK, len(BLOCK), 4)
        self.same("probe_take", 0, [12], READ + SIZE, BLOCK, len(BLOCK), 12)

    def test_lists(self):
        kinds = READ + SIZE + [ctypes.c_uint64, ctypes.c_bool]
        self.same("probe_next_address", 0, [3, 6, 6, 4, 0], kinds, LIST, len(LIST), 0, 0, False)
        self.same("probe_only", 0, [1, 4], READ, b"<a@b>", 5)

    def test_key_field(self):
        lent = Lent(bytes(3))
        words = FIELD, len(FIELD), *lent.words()
        self.refused("probe_read_field", 0, 4, READ + WRITE, *words)
        self.assertEqual(lent.now(), bytes(3))
        self.same("probe_read_field", 0, [5, 8, 3, 1], READ + WRITE, *words)
        self.assertEqual(lent.now(), b"foo")


if __name__ == "__main__":
    unittest.main()
