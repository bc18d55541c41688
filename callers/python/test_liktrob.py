"""Tests of what the module does before and after a call: kinds of buffers, exceptions, and numbers that no word holds.

    LIKTROB_LIB=FOLDER python3 test_liktrob.py

What the calls answer is tested by tools/check_callers.
"""

import array
import contextlib
import ctypes
import importlib.util
import multiprocessing
import pickle
import threading
import unittest

import liktrob
from liktrob import Engine, LiktrobError, Status, baby_bear, goldilocks, koala_bear

GIVEN = [5, 2, 0, 4, 3, 0]
VALUES = [9, 5, 0, 1, 2013265920, 0]
FIELDS = [baby_bear, koala_bear, goldilocks]


def calls_of(field):
    """Each call as a function of words, shift, width and engine, and added bits where it takes them."""
    yield lambda words, shift, bits, **others: field.coset_dft(words, shift, **others)
    yield lambda words, shift, bits, **others: field.coset_idft(words, shift, **others)
    for call in [field.coset_lde, field.coset_lde_bit_reversed, field.coset_dft_padded, field.is_codeword]:
        yield lambda words, shift, bits, call=call, **others: call(words, bits, shift, **others)


class Buffers(unittest.TestCase):
    def test_any_buffer_of_unsigned_words_is_changed_in_place(self):
        for words in [
            array.array("I", GIVEN),
            memoryview(bytearray(24)).cast("I"),
            (ctypes.c_uint32 * 6)(*GIVEN),
            memoryview(array.array("I", [7] * 9))[2:8],
        ]:
            words[0:6] = array.array("I", GIVEN) if not isinstance(words, ctypes.Array) else GIVEN
            self.assertIsNone(baby_bear.dft(words, width=3))
            self.assertEqual(list(words), VALUES)

    def test_words_beside_a_view_stay(self):
        words = array.array("I", [7, 7, *GIVEN, 7])
        baby_bear.dft(memoryview(words)[2:8], width=3)
        self.assertEqual(list(words), [7, 7, *VALUES, 7])

    def test_the_width_is_the_last_dimension_or_one(self):
        words = array.array("I", GIVEN)
        rows = memoryview(words).cast("B").cast("I", shape=[2, 3])
        baby_bear.dft(rows)
        self.assertEqual(list(words), VALUES)
        baby_bear.idft(rows, width=3)
        self.assertEqual(list(words), GIVEN)
        column = array.array("I", [9, 1])
        baby_bear.idft(column)
        self.assertEqual(list(column), [5, 4])

    def test_words_of_both_names_of_64_bits_are_taken(self):
        for code in "QL":
            words = array.array(code, [9, 1])
            goldilocks.idft(words)
            self.assertEqual(list(words), [5, 4])

    @unittest.skipUnless(importlib.util.find_spec("numpy"), "there is no numpy")
    def test_numpy_arrays_are_changed_in_place(self):
        import numpy

        words = numpy.array(GIVEN, dtype=numpy.uint32).reshape(2, 3)
        baby_bear.dft(words)
        self.assertEqual(words.ravel().tolist(), VALUES)
        with self.assertRaises(TypeError):
            baby_bear.dft(words.T)
        with self.assertRaises(TypeError):
            baby_bear.dft(words.astype(numpy.int64))

    def test_other_buffers_are_refused(self):
        for words in [
            array.array("i", GIVEN),
            array.array("f", GIVEN),
            array.array("Q", GIVEN),
            array.array("H", GIVEN),
            bytearray(24),
            (ctypes.c_uint32.__ctype_be__ * 6)(),
            memoryview(array.array("I", GIVEN))[::2],
            memoryview(bytearray(25))[1:].cast("I"),
            memoryview(array.array("I", GIVEN)).toreadonly(),
            GIVEN,
            tuple(GIVEN),
            None,
        ]:
            for call in [baby_bear.dft, koala_bear.idft]:
                with self.assertRaises(TypeError, msg=repr(words)):
                    call(words, width=3)
        with self.assertRaisesRegex(TypeError, r"liktrob\.baby_bear\.array\(numbers\), and not a list"):
            baby_bear.dft(GIVEN, width=3)
        for words in [array.array("I", GIVEN), array.array("d", GIVEN), array.array("q", GIVEN)]:
            with self.assertRaises(TypeError, msg=repr(words)):
                goldilocks.dft(words, width=3)

    def test_what_is_only_read_may_be_read_only(self):
        words = memoryview(array.array("I", [9, 1])).toreadonly()
        self.assertEqual(baby_bear.coset_lde(words, 1, 31)[0], 5 + 4 * 31)
        self.assertTrue(baby_bear.is_codeword(words, 0, 1))
        with self.assertRaises(TypeError):
            baby_bear.lde(array.array("I", [9, 1]), 1, out=memoryview(array.array("I", [0] * 4)).toreadonly())

    def test_a_list_is_read_and_answered_by_words(self):
        for numbers in [[9, 1], (9, 1)]:
            found = baby_bear.coset_lde(numbers, 1, 31)
            self.assertEqual((found.typecode, found[0]), ("I", 5 + 4 * 31))
            self.assertTrue(baby_bear.is_codeword(numbers, 0, 1))
            for number in [2**31, 2**32 + 1, -1]:
                with self.assertRaises(LiktrobError) as caught:
                    baby_bear.lde([*numbers, number, 0], 1)
                self.assertEqual(caught.exception.status, Status.NUMBER)

    @unittest.skipUnless(importlib.util.find_spec("numpy"), "there is no numpy")
    def test_a_numpy_array_is_answered_by_one(self):
        import numpy

        words = numpy.array([[9, 5], [1, 5]], dtype=numpy.uint32)
        for call in [baby_bear.coset_lde, baby_bear.coset_lde_bit_reversed]:
            found = call(words, 1, 31)
            self.assertEqual((type(found), found.dtype, found.shape), (numpy.ndarray, numpy.uint32, (4, 2)))
            self.assertEqual(found[0].tolist(), [5 + 4 * 31, 5])
        found = goldilocks.coset_dft_padded(numpy.array([5, 4], dtype=numpy.uint64), 1, 7)
        self.assertEqual((found.dtype, found.shape, found[0]), (numpy.uint64, (4,), 5 + 4 * 7))
        out = array.array("I", [0] * 8)
        self.assertIs(baby_bear.coset_lde(words, 1, 31, out=out), out)
        with self.assertRaises(LiktrobError):
            baby_bear.lde(numpy.zeros((3, 2), numpy.uint32), 1)

    def test_an_output_is_filled_and_answered(self):
        out = array.array("I", [7] * 4)
        self.assertIs(baby_bear.coset_dft_padded(array.array("I", [5, 4]), 1, 31, out=out), out)
        self.assertEqual(out, baby_bear.coset_lde(array.array("I", [9, 1]), 1, 31))
        for length in [0, 3, 5, 8]:
            with self.assertRaises(LiktrobError) as caught:
                baby_bear.lde(array.array("I", [9, 1]), 1, out=array.array("I", [7] * length))
            self.assertEqual(caught.exception.status, Status.SHAPE)

    def test_an_output_that_overlaps_is_refused(self):
        words = array.array("I", [9, 1, 7, 7, 7, 7, 7])
        view = memoryview(words)
        for start in [0, 1]:
            with self.assertRaisesRegex(ValueError, "shares memory"):
                baby_bear.lde(view[0:2], 1, out=view[start:start + 4])
        with self.assertRaisesRegex(ValueError, "shares memory"):
            baby_bear.lde(view[3:5], 1, out=view[0:4])
        self.assertEqual(list(words), [9, 1, 7, 7, 7, 7, 7])
        baby_bear.lde(view[0:2], 1, out=view[2:6])
        self.assertEqual(words[2:6], baby_bear.lde(array.array("I", [9, 1]), 1))
        self.assertEqual((words[0], words[1], words[6]), (9, 1, 7))


class Faults(unittest.TestCase):
    def assert_status(self, status, words, shift, bits, **others):
        """Each call raises the status, changes nothing, and leaves the buffer free to be resized."""
        for field in FIELDS:
            for number, call in enumerate(calls_of(field)):
                given = field.array(field.modulus if word is None else word for word in words)
                before = given[:]
                try:
                    call(given, shift, bits, **others)
                except LiktrobError as error:
                    self.assertEqual(error.status, status, f"call {number}")
                    self.assertEqual(given, before)
                    given.append(1)
                else:
                    self.fail(f"call {number} answered")

    def test_each_fault_has_its_status(self):
        self.assert_status(Status.ENGINE, [1, 2], 1, 1, engine=6)
        self.assert_status(Status.NUMBER, [1, None], 1, 1)
        self.assert_status(Status.SHAPE, [1, 2, 3], 1, 1)
        self.assert_status(Status.SHAPE, [], 1, 1)
        self.assert_status(Status.SHAPE, [1, 2], 1, 1, width=0)
        for call in [goldilocks.coset_idft, lambda words, shift: goldilocks.is_codeword(words, 1, shift)]:
            with self.assertRaises(LiktrobError) as caught:
                call(goldilocks.array([1, 2]), 0)
            self.assertEqual(caught.exception.status, Status.SHIFT)

    def test_numbers_that_no_word_holds_are_not_cut(self):
        for engine in [-1, 6, 2**32, 2**32 + 1, 2**64]:
            self.assert_status(Status.ENGINE, [1, None], -1, -1, engine=engine, width=-1)
        for shift in [-1, 2**64, 2**64 + 1]:
            self.assert_status(Status.NUMBER, [1, 2], shift, 2**64, width=-1)
        for width in [-1, -(2**64) + 1, 2**64, 2**64 + 1]:
            self.assert_status(Status.SHAPE, [1, 2], 0, 1, width=width)
        for field in [baby_bear, koala_bear]:
            with self.assertRaises(LiktrobError) as caught:
                field.coset_dft(field.array([1, 2]), 2**32 + 1)
            self.assertEqual(caught.exception.status, Status.NUMBER)
        for field in FIELDS:
            calls = list(calls_of(field))[2:]
            for bits in [-1, 28 if field is not goldilocks else 33, 63, 64, 65, 2**64, 2**64 + 1]:
                for call in calls:
                    with self.assertRaises(LiktrobError) as caught:
                        call(field.array([1, 2]), 1, bits)
                    self.assertEqual(caught.exception.status, Status.SHAPE)

    def test_bits_are_not_cut_where_the_output_has_the_cut_length(self):
        for field in FIELDS:
            for call in list(calls_of(field))[2:5]:
                for bits in [2**32 + 1, 2**64 + 1, 33, 65]:
                    with self.assertRaises(LiktrobError) as caught:
                        call(field.array([1, 2]), 1, bits, out=field.array([7] * 4))
                    self.assertEqual(caught.exception.status, Status.SHAPE)

    def test_numbers_are_whole(self):
        for shift, bits, others in [(1.0, 1, {}), (1, "1", {}), (1, 1, {"width": 1.0}), (1, 1, {"engine": "1"})]:
            for number, call in enumerate(calls_of(baby_bear)):
                if bits == 1 or number > 1:
                    with self.assertRaises(TypeError):
                        call(baby_bear.array([1, 2]), shift, bits, **others)

    def test_memory_that_is_refused_is_a_memory_error_after_other_faults(self):
        class Refused(liktrob.Field):
            def _count_of_extension(self, words, added_bits, width):
                return 1 << 60, 1

        field = Refused(liktrob._LIBRARY, "goldilocks", "Q", ctypes.c_uint64, 2**64 - 2**32 + 1, 7, 32)
        with self.assertRaises(MemoryError):
            field.lde(field.array([1, 2]), 1)
        for status, words, engine in [(Status.NUMBER, [1, 2**64 - 1], 0), (Status.ENGINE, [1, 2**64 - 1], 6)]:
            with self.assertRaises(LiktrobError) as caught:
                field.lde(field.array(words), 1, engine=engine)
            self.assertEqual(caught.exception.status, status)


class Columns(unittest.TestCase):
    """Columns on cosets of their own, and points. The numbers are worked out by hand: 1 + 2x is 7 and -5 at 3 and -3,
    31 and -29 at 15 and -15."""

    COLUMNS = ["coset_dft_columns", "coset_idft_columns"]

    def test_each_column_has_a_coset_of_its_own(self):
        for field in FIELDS:
            values = [7, 31, field.modulus - 5, field.modulus - 29]
            for engine in Engine:
                words = field.array([1, 1, 2, 2])
                self.assertIsNone(field.coset_dft_columns(words, 3, 5, width=2, engine=engine))
                self.assertEqual(list(words), values)
                self.assertIsNone(field.coset_idft_columns(words, 3, 5, width=2, engine=engine))
                self.assertEqual(list(words), [1, 1, 2, 2])

    def test_with_the_step_zero_all_columns_but_the_first_are_at_zero(self):
        words = baby_bear.array([1, 1, 2, 2])
        baby_bear.coset_dft_columns(words, 3, 0, width=2)
        self.assertEqual(list(words), [7, 1, 2013265916, 1])
        with self.assertRaises(LiktrobError) as caught:
            baby_bear.coset_idft_columns(words, 3, 0, width=2)
        self.assertEqual(caught.exception.status, Status.SHIFT)
        column = baby_bear.array([7, 2013265916])
        baby_bear.coset_idft_columns(column, 3, 0)
        self.assertEqual(list(column), [1, 2])

    def test_the_width_of_columns_is_the_last_dimension(self):
        words = array.array("I", [1, 1, 2, 2])
        baby_bear.coset_dft_columns(memoryview(words).cast("B").cast("I", shape=[2, 2]), 3, 5)
        self.assertEqual(list(words), [7, 31, 2013265916, 2013265892])

    def test_faults_of_columns_have_their_statuses_and_change_nothing(self):
        for field in FIELDS:
            above, last = field.modulus, 2 ** (8 * field.array().itemsize)
            for call in self.COLUMNS:
                for status, numbers, shift, step, others in [
                    (Status.ENGINE, [1, above], above, above, {"engine": 6, "width": 0}),
                    (Status.ENGINE, [1, 2], 3, 5, {"engine": -1}),
                    (Status.NUMBER, [1, above], 3, 5, {"width": 0}),
                    (Status.NUMBER, [1, 2], above, 5, {"width": 3}),
                    (Status.NUMBER, [1, 2], 3, above, {"width": 3}),
                    (Status.NUMBER, [1, 2], last + 3, 5, {}),
                    (Status.NUMBER, [1, 2], 3, last + 5, {}),
                    (Status.NUMBER, [1, 2], -3, 5, {}),
                    (Status.NUMBER, [1, 2], 3, -5, {}),
                    (Status.SHAPE, [1, 2], 0, 0, {"width": 0}),
                    (Status.SHAPE, [1, 2], 0, 5, {"width": 2**64 + 1}),
                    (Status.SHAPE, [1, 2, 3], 0, 5, {}),
                    (Status.SHAPE, [], 0, 5, {}),
                ]:
                    words = field.array(numbers)
                    with self.assertRaises(LiktrobError, msg=f"{call} {status}") as caught:
                        getattr(field, call)(words, shift, step, **others)
                    self.assertEqual((caught.exception.status, list(words)), (status, numbers))
                    words.append(1)

    def test_kinds_of_columns_and_numbers(self):
        for call in self.COLUMNS:
            read_only = memoryview(array.array("I", [1, 2])).toreadonly()
            for words in [[1, 2], (1, 2), None, array.array("i", [1, 2]), read_only]:
                with self.assertRaises(TypeError, msg=repr(words)):
                    getattr(baby_bear, call)(words, 3, 5)
            for shift, step in [(3.0, 5), (3, "5")]:
                with self.assertRaises(TypeError):
                    getattr(baby_bear, call)(baby_bear.array([1, 2]), shift, step)

    def test_points_are_those_of_rows(self):
        for field in FIELDS:
            greatest = field.modulus - 1
            self.assertEqual([field.point(1, 7, i) for i in range(3)], [7, field.modulus - 7, 7])
            self.assertEqual([field.point(0, greatest, 5), field.point(3, 0, 5)], [greatest, 0])
            # The indices 2^64 and -2^64 are those of row 0.
            self.assertEqual([field.point(1, 7, i) for i in (-1, 2**64 - 1, 2**64 + 1)], [field.modulus - 7] * 3)
            self.assertEqual([field.point(5, 7, i) for i in (2**64, -(2**64), 32)], [7] * 3)
        # Plonky3's generators.
        self.assertEqual(baby_bear.point(27, 1, 1), 0x1A427A41)
        self.assertEqual(koala_bear.point(24, 1, 1), 0x6AC49F88)
        self.assertEqual(goldilocks.point(32, 1, 1), 1753635133440165772)

    def test_faults_of_points(self):
        for field in FIELDS:
            for bits, shift, status in [
                (field.two_adicity + 1, 1, Status.SHAPE),
                (2**64, 1, Status.SHAPE),
                (-1, 1, Status.SHAPE),
                (2**64 + 1, field.modulus, Status.NUMBER),
                (1, 2**64 + 1, Status.NUMBER),
                (1, -1, Status.NUMBER),
            ]:
                with self.assertRaises(LiktrobError) as caught:
                    field.point(bits, shift, 0)
                self.assertEqual(caught.exception.status, status)
        for given in [(1.0, 7, 1), (1, "7", 1), (1, 7, 1.0)]:
            with self.assertRaises(TypeError):
                baby_bear.point(*given)


class Pickled(unittest.TestCase):
    def test_errors_and_fields_are_pickled(self):
        for status in [Status.ENGINE, Status.NUMBER, Status.SHAPE, Status.SHIFT]:
            error = pickle.loads(pickle.dumps(LiktrobError(status)))
            self.assertEqual((type(error), error.status), (LiktrobError, status))
            self.assertEqual(str(error), str(LiktrobError(status)))
        for field in FIELDS:
            self.assertIs(pickle.loads(pickle.dumps(field)), field)

    def test_a_faulty_call_does_not_stop_a_pool_of_processes(self):
        with multiprocessing.get_context("spawn").Pool(1) as pool:
            with self.assertRaises(LiktrobError) as caught:
                pool.apply_async(baby_bear.two_adic_generator, [28]).get(60)
            self.assertEqual(caught.exception.status, Status.SHAPE)
            self.assertEqual(pool.apply_async(baby_bear.two_adic_generator, [27]).get(60), 0x1A427A41)


class Threads(unittest.TestCase):
    def test_the_interpreters_lock_is_released(self):
        # PyDLL, of which this is the base, keeps it.
        self.assertIs(type(liktrob._LIBRARY), ctypes.CDLL)

    def test_a_buffer_is_not_resized_during_a_call(self):
        words = baby_bear.array([1]) * 2**11
        was_refused = threading.Event()

        def call():
            for _ in range(200):
                # A call may find the buffer as it is between the two lines below, of another length.
                with contextlib.suppress(LiktrobError):
                    baby_bear.dft(words, engine=Engine.NAIVE_DFT)
                if was_refused.is_set():
                    break

        caller = threading.Thread(target=call)
        caller.start()
        while caller.is_alive() and not was_refused.is_set():
            try:
                words.append(1)
                words.pop()
            except BufferError:
                was_refused.set()
        caller.join()
        self.assertTrue(was_refused.is_set())

    def test_all_threads_answer_the_same(self):
        for field in FIELDS:
            words = field.array(pow(5, i, 1009) for i in range(3 << 15))
            for number, call in enumerate(calls_of(field)):
                with self.subTest(field=field, call=number):
                    answers = []
                    for threads in [1, 2, 4, 7]:
                        given = words[:]
                        answers.append((call(given, 3, 1, width=3, threads=threads), given))
                    self.assertEqual(answers[1:], answers[:1] * 3)

    def test_threads_are_one_or_more(self):
        for threads in [0, -1, -(2**64)]:
            with self.assertRaises(ValueError):
                baby_bear.dft(baby_bear.array([1, 2]), threads=threads)
        words = baby_bear.array([9, 1])
        baby_bear.idft(words, threads=2**70)
        self.assertEqual(list(words), [5, 4])


class Library(unittest.TestCase):
    def test_the_library_is_of_the_modules_version(self):
        self.assertEqual(liktrob._LIBRARY.liktrob_version().decode(), liktrob.__version__)

    @unittest.skipUnless(importlib.util.find_spec("numpy"), "there is no numpy")
    def test_whole_numbers_of_numpy_are_taken(self):
        import numpy

        two = numpy.int64(2)
        self.assertEqual(baby_bear.two_adic_generator(two), baby_bear.two_adic_generator(2))
        words = [9, 1, 9, 1]
        self.assertEqual(
            baby_bear.coset_lde(words, two, two, width=two, engine=two, threads=two),
            baby_bear.coset_lde(words, 2, 2, width=2, engine=2, threads=2),
        )

    def test_statuses_and_engines_have_the_numbers_of_the_header(self):
        header = liktrob.pathlib.Path(__file__).resolve().parent.parent / "include/liktrob.h"
        text = " ".join(header.read_text(encoding="utf-8").replace(",", " ").split())
        for member in [*Status, *Engine]:
            self.assertIn(f" LIKTROB_{member.name} = {member.value} ", text)

    def test_generators_are_those_of_plonky3(self):
        self.assertEqual(baby_bear.two_adic_generator(27), 0x1A427A41)
        self.assertEqual(koala_bear.two_adic_generator(24), 0x6AC49F88)
        self.assertEqual(goldilocks.two_adic_generator(32), 1753635133440165772)
        for bits in [-1, 28]:
            with self.assertRaises(LiktrobError):
                baby_bear.two_adic_generator(bits)


if __name__ == "__main__":
    unittest.main()
