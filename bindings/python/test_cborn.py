"""What the tables of tests/ don't reach of the Python binding. Expected values come from RFC 8949 and docs/FORMATS.md.

`make library-tests` runs them in build/python, where the package is whole.
"""
import array
import concurrent.futures
import contextlib
import copy
import doctest
import importlib.util
import inspect
import mmap
import os
import pathlib
import pickle
import pty
import pydoc
import re
import signal
import subprocess
import sys
import tempfile
import textwrap
import threading
import time
import unittest

import cborn

LOOSE = bytes.fromhex("98021801580161")
TIGHT = bytes.fromhex("82014161")
TWICE = bytes.fromhex("a20100c2410100")
FLOAT = bytes.fromhex("8201f93c00")
# of docs/FORMATS.md
OF_FLOAT = """\
  path  item 0 [1]
  bytes 82 01 >f9< 3c 00
  why   a float of 16 bits begins here, and floats are left out
"""


class Calls(unittest.TestCase):
    def test_examples_of_the_docstrings(self):
        self.assertEqual(doctest.testmod(cborn).failed, 0)

    def test_normalise_takes_options(self):
        notation = b"{'b': 1, -1: 2, } # two"
        wire = cborn.normalise(notation, source=cborn.Kind.NOTATION_2, order=cborn.Order.LENGTH_FIRST)
        self.assertEqual(wire, bytes.fromhex("a22002416201"))
        self.assertEqual(cborn.normalise(wire, to=cborn.Kind.NOTATION), b"{-1: 2, h'62': 1}\n")

    def test_an_answer_longer_than_its_input(self):
        long = b"\x9f" + bytes(70000) + b"\xff"
        self.assertEqual(cborn.normalise(long), b"\x9a\x00\x01\x11\x70" + bytes(70000))
        self.assertEqual(cborn.show(b"\x41\x00" * 5000), ",\n".join(["h'00'"] * 5000) + "\n")

    def test_spell_turns_show_back(self):
        self.assertEqual(cborn.spell(cborn.show(LOOSE).encode()), LOOSE)

    def test_check_tells_the_first_defect(self):
        self.assertIsNone(cborn.check(TIGHT))
        defect = cborn.check(b"\x01\x18\x01")
        self.assertEqual((defect.place, defect.reason), (1, "long head"))

    def test_compare_tells_the_first_item_that_differs(self):
        self.assertIsNone(cborn.compare(LOOSE, TIGHT))
        self.assertEqual(cborn.compare(LOOSE + b"\x05", TIGHT + b"\x06"), 1)

    def test_same_says_whether(self):
        self.assertIs(cborn.same(LOOSE, TIGHT), True)
        self.assertIs(cborn.same(LOOSE, TIGHT + b"\x06"), False)
        # where they differ is the item 0, which is false
        self.assertIs(cborn.same(b"\x05", b"\x06"), False)
        self.assertIs(cborn.same(b"[1, 'a']", LOOSE, source_a=cborn.Kind.NOTATION), True)
        self.assertRaises(cborn.CbornError, cborn.same, TWICE, TWICE)

    def test_is_deterministic_says_whether(self):
        self.assertIs(cborn.is_deterministic(TIGHT), True)
        self.assertIs(cborn.is_deterministic(LOOSE), False)
        # the keys -1 (20) and 100 (1864)
        by_length = bytes.fromhex("a22000186400")
        self.assertIs(cborn.is_deterministic(by_length), False)
        self.assertIs(cborn.is_deterministic(by_length, order=cborn.Order.LENGTH_FIRST), True)
        self.assertRaises(cborn.CbornError, cborn.is_deterministic, TWICE)

    def test_version(self):
        self.assertEqual(cborn.version(), "0.6.0")
        self.assertEqual(cborn.__version__.partition(".dev")[0], cborn.version())

    def test_all_that_is_public_is_there_and_has_words(self):
        for name in cborn.__all__:
            self.assertTrue(getattr(cborn, name).__doc__, name)

    def test_help_begins_with_a_line_for_each_function(self):
        functions = {name for name in cborn.__all__ if inspect.isroutine(getattr(cborn, name))}
        first, lines, _ = cborn.__doc__.split("\n\n", 2)
        self.assertEqual({line.split()[0] for line in lines.splitlines()}, functions)
        self.assertEqual([line for line in lines.splitlines() if len(line.split()) < 3], [])
        shown = pydoc.plain(pydoc.render_doc(cborn))
        self.assertRegex(shown, rf"^.*\n\nNAME\n    cborn - {re.escape(first)}\n\nDESCRIPTION\n{re.escape(textwrap.indent(lines, '    '))}\n")

    def test_each_docstring_is_read_alone(self):
        for call in (cborn.normalise, cborn.show, cborn.spell, cborn.check, cborn.is_deterministic, cborn.compare, cborn.same):
            for said in ("Return ", "`depth` is ", "With `one`, ", "Raises CbornError if ", "MemoryError."):
                self.assertIn(said, call.__doc__, call.__name__)

    def test_compare_says_that_an_index_may_be_false(self):
        self.assertEqual(cborn.compare(b"\x05", b"\x06"), 0)
        self.assertRegex(cborn.compare.__doc__, "0 is falsy.*`same` is the call for a yes")

    def test_signatures(self):
        self.assertEqual(
            str(inspect.signature(cborn.normalise)).replace("<", "").replace(">", ""),
            "(data, source=Kind.WIRE: 0, to=Kind.WIRE: 0, order=Order.BYTEWISE: 0, depth=128, one=False)",
        )
        self.assertEqual(inspect.signature(cborn.spell).parameters["source"].default, cborn.Kind.NOTATION)

    def test_arguments_as_of_any_function(self):
        self.assertEqual(cborn.normalise(data=LOOSE, depth=1), TIGHT)
        for call in (
            lambda: cborn.normalise(),
            lambda: cborn.normalise(source=cborn.Kind.WIRE),
            lambda: cborn.normalise(LOOSE, data=LOOSE),
            lambda: cborn.normalise(LOOSE, form=1),
            lambda: cborn.normalise(LOOSE, 0, 0, 0, 128, 0),
            lambda: cborn.compare(LOOSE),
            lambda: cborn.same(second=LOOSE),
        ):
            self.assertRaises(TypeError, call)

    def test_stack_rises_with_the_depth(self):
        self.assertLess(cborn.stack(1), cborn.stack(1024))


# of appendix A of RFC 8949, without those that are floats
APPENDIX_A = [bytes.fromhex(item) for item in (
    "00 01 0a 17 1818 1819 1864 1903e8 1a000f4240 1b000000e8d4a51000 1bffffffffffffffff c249010000000000000000 3bffffffffffffffff "
    "c349010000000000000000 20 29 3863 3903e7 f4 f5 f6 f7 f0 f8ff c074323031332d30332d32315432303a30343a30305a c11a514b67b0 "
    "d74401020304 d818456449455446 d82076687474703a2f2f7777772e6578616d706c652e636f6d 40 4401020304 60 6161 6449455446 62225c "
    "62c3bc 63e6b0b4 64f0908591 80 83010203 8301820203820405 98190102030405060708090a0b0c0d0e0f101112131415161718181819 a0 "
    "a201020304 a26161016162820203 826161a161626163 a56161614161626142616361436164614461656145 5f42010243030405ff "
    "7f657374726561646d696e67ff 9fff 9f018202039f0405ffff 9f01820203820405ff 83018202039f0405ff 83019f0203ff820405 "
    "9f0102030405060708090a0b0c0d0e0f101112131415161718181819ff bf61610161629f0203ffff 826161bf61626163ff bf6346756ef563416d7421ff"
).split()]


class Items(unittest.TestCase):
    """Cutting a sequence (RFC 8742)."""

    def test_each_item_of_appendix_a(self):
        sequence = b"".join(APPENDIX_A)
        self.assertEqual(list(cborn.items(sequence)), APPENDIX_A)
        # encoded CBOR sequences are concatenated into one (RFC 8742 section 2)
        self.assertEqual(list(cborn.items(sequence + sequence)), APPENDIX_A + APPENDIX_A)
        self.assertEqual(list(cborn.items(b"")), [])

    def test_each_cut_is_refused_where_it_is(self):
        for item in APPENDIX_A:
            for end in range(1, len(item)):
                found = cborn.items(b"\x00" + item[:end])
                self.assertEqual(next(found), b"\x00")
                with self.assertRaises(cborn.CbornError) as raised:
                    next(found)
                self.assertEqual((raised.exception.reason, raised.exception.place), (cborn.Reason.TRUNCATED, 1 + end))
                self.assertRaises(StopIteration, next, found)

    def test_a_fault_has_its_offset_in_the_sequence(self):
        for data, given, reason, place in (
            # each is in appendix F of RFC 8949, after one good item
            ("01 1c", 1, cborn.Reason.RESERVED_ADDITIONAL_INFORMATION, 1),
            ("01 ff", 1, cborn.Reason.UNEXPECTED_BREAK, 1),
            ("01 5f00ff", 1, cborn.Reason.BAD_CHUNK, 2),
            ("01 1f", 1, cborn.Reason.INDEFINITE_LENGTH_NOT_ALLOWED, 1),
            ("01 f800", 1, cborn.Reason.BAD_SIMPLE, 1),
            ("82f93c0000", 0, cborn.Reason.FLOAT_LEFT_OUT, 1),
        ):
            found, items = [], cborn.items(bytes.fromhex(data))
            with self.assertRaises(cborn.CbornError) as raised:
                for item in items:
                    found.append(item)
            self.assertEqual(found, [b"\x01"] * given)
            self.assertEqual((raised.exception.reason, raised.exception.place), (reason, place), data)
            self.assertIn("path  item " + str(given), raised.exception.explain(bytes.fromhex(data)))
        self.assertEqual(list(cborn.items(TWICE)), [TWICE])

    def test_depth(self):
        self.assertEqual(list(cborn.items(b"\x81\x80", depth=2)), [b"\x81\x80"])
        with self.assertRaisesRegex(cborn.CbornError, "offset 1: too deep"):
            list(cborn.items(b"\x81\x80", depth=1))
        nest = b"\x81" * 1024
        self.assertEqual(list(cborn.items(nest[1:] + b"\x80" + nest[1:] + b"\x80", depth=1024)), [nest[1:] + b"\x80"] * 2)
        with self.assertRaisesRegex(cborn.CbornError, "offset 1024: too deep"):
            list(cborn.items(nest + b"\x80", depth=1024))

    def test_slices_of_what_was_given(self):
        sequence = b"".join(APPENDIX_A)
        view = memoryview(bytearray(sequence))
        found = list(cborn.items(view))
        self.assertEqual(found, APPENDIX_A)
        self.assertTrue(all(isinstance(item, memoryview) and item.obj is view.obj for item in found))
        found[1][0] = 2
        self.assertEqual(view[1], 2)
        for lender in (bytearray(sequence), array.array("B", sequence), array.array("H", sequence + sequence)):
            found = list(cborn.items(lender))
            self.assertEqual(b"".join(found), bytes(lender))
            self.assertTrue(all(type(item) is bytes for item in found))
        self.assertEqual(list(cborn.items(memoryview(array.array("H", [0x0101, 0x0101])))), [b"\x01"] * 4)

    def test_a_file_that_is_mapped_can_be_closed(self):
        with tempfile.TemporaryFile() as file:
            file.write(b"".join(APPENDIX_A))
            file.flush()
            with mmap.mmap(file.fileno(), 0, access=mmap.ACCESS_READ) as data:
                for item in cborn.items(data):
                    self.assertIs(type(item), bytes)

    def test_wrong_arguments_raise_at_the_call(self):
        self.assertRaises(TypeError, cborn.items, "01")
        self.assertRaises(TypeError, cborn.items, 1)
        self.assertRaises(TypeError, cborn.items, b"", depth="1")
        self.assertRaises(ValueError, cborn.items, b"", depth=0)
        self.assertRaises(ValueError, cborn.items, b"", depth=1025)
        self.assertRaises(TypeError, cborn.items, memoryview(LOOSE)[::2])

    def test_time_is_linear_in_the_items(self):
        # a way that is quadratic takes a hundred times as long for ten times as many
        def seconds(count):
            data = bytes.fromhex("a2616101616282020300") * count
            took = []
            for _ in range(3):
                begun = time.process_time()
                self.assertEqual(sum(1 for _ in cborn.items(data)), 2 * count)
                took.append(time.process_time() - begun)
            return min(took)

        few = seconds(5000)
        self.assertLess(seconds(50000), 40 * few)


class Inputs(unittest.TestCase):
    def test_whatever_lends_its_bytes(self):
        for lender in (bytearray(LOOSE), memoryview(LOOSE), memoryview(b"_" + LOOSE)[1:], array.array("B", LOOSE)):
            self.assertEqual(cborn.normalise(lender), TIGHT)
            self.assertEqual(cborn.check(lender), (0, "long head"))
            self.assertIsNone(cborn.compare(lender, memoryview(TIGHT)))

    def test_a_file_that_is_mapped(self):
        with tempfile.TemporaryFile() as file:
            file.write(LOOSE)
            file.flush()
            with mmap.mmap(file.fileno(), 0, access=mmap.ACCESS_READ) as mapped:
                self.assertEqual(cborn.normalise(mapped), TIGHT)

    def test_what_was_lent_is_given_back(self):
        lender = bytearray(TWICE)
        for call in (cborn.normalise, cborn.check, cborn.show, lambda data: cborn.compare(data, data)):
            try:
                call(lender)
            except cborn.CbornError:
                pass
            lender.append(0)  # BufferError, if it were lent still
            del lender[-1]

    def test_nothing(self):
        for nothing in (b"", bytearray(), memoryview(b"")):
            self.assertEqual(cborn.normalise(nothing), b"")
            self.assertEqual(cborn.show(nothing), "")
            self.assertIsNone(cborn.check(nothing))
            self.assertIsNone(cborn.compare(nothing, nothing))

    def test_what_lends_no_bytes(self):
        for other in ("82", 7, None, [1]):
            self.assertRaises(TypeError, cborn.normalise, other)
            self.assertRaises(TypeError, cborn.compare, b"", other)
        self.assertRaises(BufferError, cborn.normalise, memoryview(LOOSE)[::2])

    def test_a_str_is_told_what_to_do(self):
        for call in (cborn.normalise, cborn.show, cborn.spell, cborn.check, cborn.is_deterministic):
            self.assertRaisesRegex(TypeError, r"text\.encode\(\).*bytes\.fromhex", call, "[1, 2]")
        for call in (cborn.compare, cborn.same):
            self.assertRaisesRegex(TypeError, "second must be bytes", call, TIGHT, "[1, 2]")

    def test_inputs_at_the_length_from_which_the_lock_is_released(self):
        for length in (4095, 4096, 4097):
            zeros = bytes(length)
            self.assertEqual(cborn.normalise(zeros), zeros)
            self.assertEqual(cborn.spell(cborn.show(zeros).encode()), zeros)
            self.assertTrue(cborn.is_deterministic(bytearray(zeros)))
            self.assertTrue(cborn.same(zeros, memoryview(zeros)))
            self.assertEqual(cborn.compare(zeros, zeros[1:]), length - 1)

    def test_the_lock_is_released(self):
        # a map of 300,000 keys that fall: sorting them takes some hundredths of a second at least
        data = b"\xba" + (300000).to_bytes(4, "big") + b"".join(b"\x1a%c%c%c%c\x00" % (*n.to_bytes(4, "big"),) for n in range(2**20 + 300000, 2**20, -1))
        times, is_done = [], threading.Event()

        def beat():
            while not is_done.is_set():
                times.append(time.perf_counter())
                time.sleep(0.001)

        def runs_beside(call):
            """Returns whether the other thread ran all the time: while the lock is held it runs before and after the call alone."""
            start = time.perf_counter()
            call()
            end = time.perf_counter()
            moments = [start, *(moment for moment in times if start < moment < end), end]
            return max(later - moment for moment, later in zip(moments, moments[1:])) < (end - start) / 2

        beating = threading.Thread(target=beat)
        beating.start()
        try:
            # on a busy machine the other thread may get no processor during one call
            self.assertTrue(any(runs_beside(lambda: cborn.normalise(data)) for _ in range(100)))
            # sorting in Python keeps the lock, and that is seen
            self.assertFalse(all(runs_beside(lambda: sorted(data)) for _ in range(100)))
        finally:
            is_done.set()
            beating.join()


class Errors(unittest.TestCase):
    def test_a_fault_has_place_reason_and_number(self):
        with self.assertRaises(cborn.CbornError) as caught:
            cborn.normalise(TWICE)
        why = caught.exception
        self.assertEqual((why.place, why.reason, why.number, why.input), (3, "duplicate key", 0x503, 0))
        self.assertEqual(str(why), "offset 3: duplicate key")
        again = pickle.loads(pickle.dumps(why))
        self.assertEqual((str(again), again.place), (str(why), 3))

    def test_reasons_have_names(self):
        with self.assertRaises(cborn.CbornError) as caught:
            cborn.normalise(TWICE)
        self.assertIs(caught.exception.reason, cborn.Reason.INVALID_DUPLICATE_KEY)
        self.assertIs(cborn.Reason(caught.exception.number), cborn.Reason.INVALID_DUPLICATE_KEY)
        defect = cborn.check(b"\x18\x01")
        self.assertIs(defect.reason, cborn.Reason.DEFECT_LONG_HEAD)
        self.assertEqual(repr(defect), "Defect(place=0, reason=Reason.DEFECT_LONG_HEAD)")
        self.assertEqual(f"{defect.reason}|{defect.reason:>10}", "long head| long head")
        self.assertEqual({defect.reason: 1}["long head"], 1)
        # two reasons with the same words
        self.assertNotEqual(cborn.Reason.FLOAT_LEFT_OUT, cborn.Reason.TEXT_FLOAT_LEFT_OUT)
        for again in (pickle.loads(pickle.dumps(defect.reason)), copy.deepcopy(defect.reason)):
            self.assertIs(again, defect.reason)

    def test_compare_says_which_input_is_refused(self):
        with self.assertRaises(cborn.CbornError) as caught:
            cborn.compare(b"", TWICE)
        self.assertEqual((caught.exception.input, caught.exception.number), (1, 0x503))
        with self.assertRaises(cborn.CbornError) as caught:
            cborn.compare(TWICE, b"\xff")
        self.assertEqual((caught.exception.input, caught.exception.number), (0, 0x503))

    def test_an_error_explains_itself(self):
        with self.assertRaises(cborn.CbornError) as caught:
            cborn.normalise(FLOAT)
        self.assertEqual(caught.exception.explain(FLOAT), OF_FLOAT)
        # the input may be of any class that lends its bytes, and the exception may have come from elsewhere
        again = pickle.loads(pickle.dumps(caught.exception))
        self.assertEqual(again.explain(memoryview(bytearray(FLOAT))), OF_FLOAT)

    def test_an_error_keeps_format_and_depth_for_its_explanation(self):
        with self.assertRaises(cborn.CbornError) as caught:
            cborn.show(b"1, # one\nh'0g'", source=cborn.Kind.NOTATION_2)
        why = caught.exception
        self.assertIs(why.source, cborn.Kind.NOTATION_2)
        self.assertEqual(why.explain(b"1, # one\nh'0g'").splitlines()[:2], ["  path  item 1", "  line  2:4"])
        with self.assertRaises(cborn.CbornError) as caught:
            cborn.normalise(b"\x81\x81\x80", depth=2)
        self.assertEqual((caught.exception.depth, caught.exception.source), (2, cborn.Kind.WIRE))
        self.assertIn("2", caught.exception.explain(b"\x81\x81\x80").splitlines()[2])

    def test_the_second_input_is_explained_in_its_own_format(self):
        for call in (cborn.compare, cborn.same):
            with self.assertRaises(cborn.CbornError) as caught:
                call(b"1", TWICE, source_a=cborn.Kind.NOTATION)
            why = caught.exception
            self.assertEqual((why.input, why.source), (1, cborn.Kind.WIRE))
            self.assertEqual(why.explain(TWICE).splitlines()[0], "  path  item 0 {key #1}")
            with self.assertRaises(cborn.CbornError) as caught:
                call(b"[1, 007]", TWICE, source_a=cborn.Kind.NOTATION)
            self.assertEqual(caught.exception.explain(b"[1, 007]").splitlines()[0], "  path  item 0 [1]")

    def test_an_explanation_names_arguments_and_no_options(self):
        with self.assertRaises(cborn.CbornError) as caught:
            cborn.normalise(b"{\"a\": 1}")
        hint = "  hint  the input is a text, and was read as CBOR bytes: source=Kind.NOTATION reads diagnostic notation, of compare and same source_a and source_b\n"
        self.assertTrue(caught.exception.explain(b"{\"a\": 1}").endswith(hint))
        with self.assertRaises(cborn.CbornError) as caught:
            cborn.normalise(b"\x81\x80", depth=1)
        self.assertTrue(caught.exception.explain(b"\x81\x80").endswith(": depth=N raises the limit, up to 1024\n"))
        # what is quoted of an input stays as it is
        text = b"'xxd -r -p makes bytes of it"
        with self.assertRaises(cborn.CbornError) as caught:
            cborn.normalise(text, cborn.Kind.NOTATION)
        self.assertIn("xxd -r -p makes bytes of it", caught.exception.explain(text))

    def test_one_wants_exactly_one_item(self):
        self.assertEqual(cborn.normalise(LOOSE, one=True), TIGHT)
        self.assertTrue(cborn.is_deterministic(b""))
        for call in (cborn.normalise, cborn.show, cborn.check, cborn.is_deterministic):
            for data, told in ((b"", (0, "no item", 0x701)), (b"\x18\x01\x02", (2, "more than one item", 0x702))):
                with self.assertRaises(cborn.CbornError) as caught:
                    call(data, one=True)
                why = caught.exception
                self.assertEqual((why.place, why.reason, why.number), told)
        with self.assertRaises(cborn.CbornError) as caught:
            cborn.spell(b"1, 2", one=True)
        self.assertEqual((caught.exception.place, caught.exception.source), (3, cborn.Kind.NOTATION))
        self.assertTrue(cborn.same(LOOSE, TIGHT, one=True))
        self.assertIsNone(cborn.compare(LOOSE, TIGHT, one=True))
        self.assertEqual(cborn.compare(b"\x01", b"\x02", one=True), 0)
        for call in (cborn.compare, cborn.same):
            with self.assertRaises(cborn.CbornError) as caught:
                call(b"\x01", b"", one=True)
            self.assertEqual((caught.exception.input, caught.exception.reason), (1, cborn.Reason.NO_ITEM))
        self.assertRaises(TypeError, cborn.check, b"\x01", one=1)

    def test_an_error_is_represented_by_names(self):
        with self.assertRaises(cborn.CbornError) as caught:
            cborn.normalise(TWICE)
        wanted = "CbornError(reason=Reason.INVALID_DUPLICATE_KEY, place=3, input=0, source=Kind.WIRE, depth=128)"
        self.assertEqual(repr(caught.exception), wanted)

    def test_the_module_lists_its_public_names(self):
        self.assertEqual(dir(cborn), sorted(cborn.__all__))

    def test_a_defect_explains_itself(self):
        data = b"\x81\x18\x01"
        lines = cborn.check(data).explain(data).splitlines()
        self.assertEqual(lines[:2], ["  path  item 0 [0]", "  bytes 81 >18< 01"])
        self.assertRaises(ValueError, cborn.check(data).explain, data, depth=1025)

    def test_an_explanation_that_is_long(self):
        # longer than what is kept on the stack: a path of tags that all differ
        data = b"".join(b"\xd9" + (256 + n).to_bytes(2, "big") for n in range(300)) + b"\xf9\x3c\x00"
        with self.assertRaises(cborn.CbornError) as caught:
            cborn.show(data, depth=400)
        path = caught.exception.explain(data).splitlines()[0]
        self.assertEqual(path, "  path  item 0 " + " ".join(f"{256 + n}()" for n in range(300)))

    def test_what_has_no_explanation(self):
        self.assertEqual(cborn.CbornError(cborn.Reason.INPUT_TOO_LONG.number, None).explain(b""), "")
        of_text = cborn.CbornError(cborn.Reason.TEXT_BAD_HEX.number, 0)
        self.assertRaisesRegex(ValueError, "no input of this format", of_text.explain, b"h'0'")
        of_float = cborn.CbornError(cborn.Reason.FLOAT_LEFT_OUT.number, 2)
        self.assertRaises(TypeError, of_float.explain, "8201f93c00")
        # a place beyond the end counts as the end
        truncated = cborn.CbornError(cborn.Reason.TRUNCATED.number, 2**64 - 1)
        self.assertEqual(truncated.explain(b"\x81").splitlines()[:2], ["  path  item 0 [0]", "  bytes 81 ><"])

    def test_numbers_that_stand_for_nothing(self):
        # 2**64 + 1 and 2**32 would be 1 and 0, if they were cut to what C takes
        for depth in (0, 1025, -1, 2**64 + 1):
            self.assertRaises(ValueError, cborn.normalise, TIGHT, depth=depth)
            self.assertRaises(ValueError, cborn.show, TIGHT, depth=depth)
            self.assertRaises(ValueError, cborn.check, TIGHT, depth=depth)
            self.assertRaises(ValueError, cborn.compare, TIGHT, TIGHT, depth=depth)
        for number in (3, -1, 2**32):
            self.assertRaises(ValueError, cborn.normalise, TIGHT, source=number)
            self.assertRaises(ValueError, cborn.normalise, TIGHT, order=number)
            self.assertRaises(ValueError, cborn.check, TIGHT, order=number)
            self.assertRaises(ValueError, cborn.compare, TIGHT, TIGHT, source_b=number)

    def test_a_wrong_value_is_told_which_there_are(self):
        for wrong in ("notation", None, 1.0, cborn.Order.LENGTH_FIRST, True):
            self.assertRaisesRegex(TypeError, "source must be one of Kind.WIRE, Kind.NOTATION and Kind.NOTATION_2", cborn.show, TIGHT, wrong)
        self.assertRaisesRegex(TypeError, "source_b must be one of Kind.WIRE", cborn.same, TIGHT, TIGHT, source_b="wire")
        self.assertRaisesRegex(ValueError, "to must be one of Kind.WIRE", cborn.normalise, TIGHT, to=3)
        self.assertRaisesRegex(TypeError, "order must be one of Order.BYTEWISE and Order.LENGTH_FIRST", cborn.check, TIGHT, cborn.Kind.NOTATION)
        self.assertRaisesRegex(ValueError, "depth must be from 1 to 1024", cborn.check, TIGHT, depth=0)
        for wrong in ("128", 128.0, None, True):
            self.assertRaisesRegex(TypeError, "depth must be an int", cborn.check, TIGHT, depth=wrong)

    def test_threads_have_rooms_of_their_own(self):
        def is_right(n):
            data = b"\x19" + n.to_bytes(2, "big")
            return cborn.normalise(data) == (bytes([n]) if n < 24 else b"\x18" + bytes([n]) if n < 256 else data)

        with concurrent.futures.ThreadPoolExecutor(8) as pool:
            self.assertTrue(all(pool.map(is_right, range(20000))))


class Program(unittest.TestCase):
    """What the tables of tests/ say of the program holds of `python -m cborn` too; this is what they don't reach."""

    def run_on(self, *words, data=b""):
        done = subprocess.run([sys.executable, "-m", "cborn", *words], input=data, capture_output=True)
        return done.stdout, done.stderr, done.returncode

    def test_help_and_version(self):
        self.assertEqual(self.run_on("--version"), (b"cborn 0.6.0-dev\n", b"", 0))
        for command in ("show", "normalise", "compare", "check"):
            out, err, status = self.run_on(command, "--help")
            self.assertEqual((err, status), (b"", 0))
            self.assertIn(b"--depth", out)

    def test_bytes_for_a_terminal_have_a_hint(self):
        hint = b"cborn: hint: the answer is bytes: --to notation makes a text of them\r\n"
        for words, shown in (
            (["normalise"], hint + b"\x81\x01"),
            (["show", "--to", "wire"], hint + b"\x81\x01"),
            (["normalise", "--to", "notation"], b"[1]\r\n"),
            (["show"], b"[1]\r\n"),
            (["check"], b"deterministic\r\n"),
        ):
            ours, theirs = pty.openpty()
            command = [sys.executable, "-m", "cborn", *words]
            done = subprocess.run(command, input=b"\x81\x01", stdout=theirs, stderr=theirs)
            os.close(theirs)
            out = b""
            # a read fails once all is read, since the other side is closed
            with contextlib.suppress(OSError):
                while piece := os.read(ours, 4096):
                    out += piece
            os.close(ours)
            self.assertEqual((out, done.returncode), (shown, 0))

    def test_ctrl_c_ends_it_at_once(self):
        for words in (("-m", "cborn"), ("-c", "import cborn.__main__; cborn.__main__.run()")):
            program = subprocess.Popen([sys.executable, *words, "normalise"], stdin=subprocess.PIPE, stdout=subprocess.PIPE, stderr=subprocess.PIPE)
            # more than a pipe holds, so that it is being read
            program.stdin.write(bytes(1 << 20))
            program.stdin.flush()
            program.send_signal(signal.SIGINT)
            self.assertEqual(program.communicate(timeout=60), (b"", b""))
            self.assertEqual(program.returncode, -signal.SIGINT)

    def test_explanations(self):
        told = b"cborn: offset 2: float left out\n" + OF_FLOAT.encode()
        for command in ("show", "normalise", "check"):
            self.assertEqual(self.run_on(command, "--explain", data=FLOAT), (b"", told, 2))
            self.assertEqual(self.run_on(command, data=FLOAT), (b"", told.splitlines(keepends=True)[0], 2))
        out, err, status = self.run_on("check", "--explain", data=b"\x81\x18\x01")
        self.assertEqual((out, err.splitlines()[:2], status), (b"offset 1: long head\n", [b"  path  item 0 [0]", b"  bytes 81 >18< 01"], 1))
        self.assertEqual(self.run_on("check", "--explain", data=TIGHT), (b"deterministic\n", b"", 0))

    def test_hints_with_an_explanation_alone(self):
        self.assertEqual(self.run_on("check", data=b"8301\n"), (b"deterministic\n", b"", 0))
        out, err, status = self.run_on("check", "--explain", data=b"8301\n")
        self.assertEqual((out, err[:37], err.count(b"\n"), status), (b"deterministic\n", b"  hint  the input looks like hexadeci", 1, 0))
        # what is read as notation is a text, as it should be
        self.assertEqual(self.run_on("normalise", "--explain", "--from", "notation", data=b"1\n"), (b"\x01", b"", 0))
        self.assertEqual(self.run_on("show", "--explain"), (b"", b"", 0))

    def test_explanations_of_compare(self):
        with tempfile.TemporaryDirectory() as folder:
            names = [os.path.join(folder, name) for name in ("loose", "float", "text")]
            for name, data in zip(names, (LOOSE, FLOAT, b"1\n")):
                pathlib.Path(name).write_bytes(data)
            loose, refused, text = names
            told = b"cborn: second: offset 2: float left out\n" + OF_FLOAT.encode()
            self.assertEqual(self.run_on("compare", "--explain", loose, refused), (b"", told, 2))
            # the second looks like a text
            out, err, status = self.run_on("compare", "--explain", loose, text)
            self.assertEqual((out, status), (b"different at item 0\n", 1))
            self.assertEqual(err.splitlines()[-1][:35], b"  hint  the second input is a text,")
            out, err, status = self.run_on("compare", "--explain", "--from-b", "notation", loose, text)
            self.assertEqual((out, err.splitlines()[0], status), (b"different at item 0\n", b"  path   item 0", 1))
            self.assertEqual(self.run_on("compare", "--explain", loose, loose), (b"same\n", b"", 0))

    def test_a_long_input(self):
        zeros = bytes(3 << 20)
        self.assertEqual(self.run_on("normalise", data=zeros), (zeros, b"", 0))


@unittest.skipUnless(importlib.util.find_spec("mypy"), "mypy is not there")
class Types(unittest.TestCase):
    """That a wrong call is a type error, and that the package has none."""

    def errors(self, *words):
        done = subprocess.run([sys.executable, "-m", "mypy", "--strict", "--cache-dir", os.devnull, *words], capture_output=True, text=True)
        return [line for line in done.stdout.splitlines() if "error:" in line]

    def test_the_package(self):
        self.assertEqual(self.errors(str(pathlib.Path(cborn.__file__).parent)), [])

    def test_calls(self):
        right = "a: bool = cborn.same(b'', bytearray(), source_b=cborn.Kind.NOTATION)\nb: bytes = cborn.normalise(memoryview(b''))\nd: str = cborn.CbornError(1, 0).explain(b'')\n"
        wrong = "cborn.normalise('82')\ncborn.show(b'', 'notation')\ncborn.check(b'', cborn.Kind.WIRE)\nc: bool = cborn.compare(b'', b'')\n"
        with tempfile.TemporaryDirectory() as folder:
            path = pathlib.Path(folder, "calls.py")
            path.write_text(f"import cborn\n{right}")
            self.assertEqual(self.errors(str(path)), [])
            path.write_text(f"import cborn\n{wrong}")
            self.assertEqual(len(self.errors(str(path))), 4)


if __name__ == "__main__":
    unittest.main()
