# SPDX-License-Identifier: MIT OR Apache-2.0
"""Proved Fourier transforms over the finite fields BabyBear, KoalaBear and Goldilocks.

A matrix is a buffer of numbers below the modulus, row after row. Each column is one polynomial: its coefficients, or
its values. Row i of values belongs to the point shift * g^i, where g is two_adic_generator of the height's logarithm;
it is point(bits, shift, i).

    >>> import liktrob
    >>> words = liktrob.baby_bear.array([5, 2, 0, 4, 3, 0])
    >>> liktrob.baby_bear.dft(words, width=3)
    >>> list(words)
    [9, 5, 0, 1, 2013265920, 0]

Those are the values at 1 and -1 of 5 + 4x, 2 + 3x and 0. Any buffer of unsigned words of 32 bits (baby_bear,
koala_bear) or 64 bits (goldilocks) that lies in one piece is a matrix: an array.array, a memoryview, a ctypes array, a
numpy array. Transforms and inverses change it in place. What is only read may also be a list or a tuple. The width of a
numpy array of two dimensions is the second, and an extension of it is such an array.

A fault raises LiktrobError, whose status says which, or MemoryError. No buffer has changed then. A buffer of another
kind is a TypeError.

With threads=4 a call works on at most four threads, of which the calling one is the first; a small matrix is
transformed on one. The answer is the same for any number.

The interpreter's lock is released during a call, so other Python threads run meanwhile. Until it returns they must not
write a buffer that it reads, and not read or write one that it changes. They cannot resize it, which is a BufferError.

The library is libliktrob.so in the folder that the variable LIKTROB_LIB names, or else in that of this module.
"""

from __future__ import annotations

import array
import ctypes
import enum
import operator
import os
import pathlib
import sys
from typing import TYPE_CHECKING, Any, Iterable, Optional, SupportsIndex, Tuple, Union

if TYPE_CHECKING:
    import numpy

    Array = array.array[int]
    #: Words that a call may change.
    Buffer = Union[Array, memoryview, "ctypes.Array[Any]", "numpy.ndarray[Any, Any]"]
    #: Words that a call reads.
    Words = Union[Buffer, "list[int]", "tuple[int, ...]"]

__all__ = ["Engine", "Field", "LiktrobError", "Status", "baby_bear", "goldilocks", "koala_bear"]
__version__ = "@VERSION@"


class Status(enum.IntEnum):
    """What a call of the library answers. Of several faults the first in this list is told."""

    OK = 0
    ENGINE = 1
    NUMBER = 2
    SHAPE = 3
    SHIFT = 4
    MEMORY = 5


class Engine(enum.IntEnum):
    """The engines. All answer the same; they differ in time and in memory. The default is the one that was fastest, by
    call and shape."""

    DEFAULT = 0
    NAIVE_DFT = 1
    RADIX_2_DIT = 2
    RADIX_2_BOWERS = 3
    RADIX_2_DIT_PARALLEL = 4
    RADIX_2_DFT_SMALL_BATCH = 5


_TEXTS = {
    Status.ENGINE: "no engine has this number",
    Status.NUMBER: "a number is not below the modulus",
    Status.SHAPE: "the shape does not fit",
    Status.SHIFT: "the shift has no inverse",
}


class LiktrobError(ValueError):
    """Why a call answered nothing: status is Status.ENGINE, NUMBER, SHAPE or SHIFT. No buffer has changed."""

    def __init__(self, status: Status) -> None:
        super().__init__(_TEXTS[Status(status)])
        self.status = Status(status)

    def __reduce__(self) -> Tuple[Any, ...]:
        return type(self), (self.status,)


def _library() -> ctypes.CDLL:
    """The shared library, of this module's version."""
    folder = pathlib.Path(os.environ.get("LIKTROB_LIB") or pathlib.Path(__file__).resolve().parent)
    path = folder / "libliktrob.so"
    if not path.is_file():
        raise ImportError(
            f"There is no {path}. Set LIKTROB_LIB to the folder that holds libliktrob.so, which tools/build_library "
            "of Liktrob's repository makes as dist/lib/any."
        )
    # CDLL releases the interpreter's lock during a call.
    library = ctypes.CDLL(str(path))
    library.liktrob_version.restype = ctypes.c_char_p
    version = library.liktrob_version().decode()
    if version != __version__:
        raise ImportError(f"{path} is of version {version}, and this module of {__version__}")
    return library


def _answered(status: int) -> None:
    """Raises what a status says."""
    status = Status(status)
    if status == Status.MEMORY:
        raise MemoryError("out of memory")
    if status != Status.OK:
        raise LiktrobError(status)


def _within(number: SupportsIndex, bits: int, otherwise: int) -> int:
    """A whole number of so many bits. For any other this is one that the library refuses for the same reason."""
    number = operator.index(number)
    return number if 0 <= number < 1 << bits else otherwise


def _threads(threads: SupportsIndex) -> int:
    """A number of threads, which is at least one."""
    threads = operator.index(threads)
    if threads < 1:
        raise ValueError("a call works on one thread or more")
    return min(threads, 2**32)


def _is_of_numpy(words: Any) -> bool:
    """Whether words are a numpy array. Where there is one, numpy is loaded."""
    loaded = sys.modules.get("numpy")
    return loaded is not None and isinstance(words, loaded.ndarray)


def _do_overlap(one: Any, other: Any) -> bool:
    """Whether two ctypes arrays share memory."""
    first, second = ctypes.addressof(one), ctypes.addressof(other)
    return first < second + ctypes.sizeof(other) and second < first + ctypes.sizeof(one)


class Field:
    """A field of the library: its numbers, and the transforms over it.

    modulus, generator (of the multiplicative group) and two_adicity (the logarithm of the highest height) are those of
    Plonky3, name is that of liktrob.h, and typecode is that of array.array. In each call width is how many numbers a
    row has. By default it is the last dimension of a buffer that has several, and 1 for a buffer that has one. engine
    is an Engine, and threads how many threads there are at most.
    """

    def __init__(
        self, library: ctypes.CDLL, name: str, typecode: str, word: Any, modulus: int, generator: int, two_adicity: int
    ) -> None:
        self.name = name
        self.modulus = modulus
        self.generator = generator
        self.two_adicity = two_adicity
        self.typecode = typecode
        self._word = word
        self._size = ctypes.sizeof(word)
        size, pointer, engine = ctypes.c_size_t, ctypes.c_void_p, ctypes.c_uint32

        def function(call: str, *types: Any) -> Any:
            """The call: on one thread that of the library, and else its namesake with threads."""
            one, several = (getattr(library, f"{prefix}_{name}_{call}") for prefix in ("liktrob", "liktrob_parallel"))
            one.argtypes, one.restype = [engine, pointer, size, size, *types], ctypes.c_uint32
            several.argtypes, several.restype = [*one.argtypes, size], ctypes.c_uint32
            return lambda threads, *given: one(*given) if threads == 1 else several(*given, threads)

        def only_one(call: str, *types: Any) -> Any:
            """The call on one thread, which has no namesake with threads."""
            one = getattr(library, f"liktrob_{name}_{call}")
            one.argtypes, one.restype = types, ctypes.c_uint32
            return one

        extension = size, word, pointer, size
        self._coset_dft = function("coset_dft", word)
        self._coset_idft = function("coset_idft", word)
        self._coset_lde = function("coset_lde", *extension)
        self._coset_lde_bit_reversed = function("coset_lde_bit_reversed", *extension)
        self._coset_dft_padded = function("coset_dft_padded", *extension)
        self._is_codeword = function("is_codeword", size, word, pointer)
        columns = engine, pointer, size, size, word, word
        self._coset_dft_columns = only_one("coset_dft_columns", *columns)
        self._coset_idft_columns = only_one("coset_idft_columns", *columns)
        self._point = only_one("point", size, word, size, pointer)

    def __repr__(self) -> str:
        return f"liktrob.{self.name}"

    def __reduce__(self) -> str:
        return self.name

    def array(self, numbers: Iterable[int] = ()) -> Array:
        """An array.array of the field's words. A number that no word holds is an OverflowError."""
        return array.array(self.typecode, numbers)

    def two_adic_generator(self, bits: SupportsIndex) -> int:
        """The generator of the subgroup of order 2^bits."""
        bits = operator.index(bits)
        if not 0 <= bits <= self.two_adicity:
            raise LiktrobError(Status.SHAPE)
        return pow(self.generator, (self.modulus - 1) >> bits, self.modulus)

    def point(self, bits: SupportsIndex, shift: SupportsIndex, index: SupportsIndex) -> int:
        """The point shift * g^index, where g is two_adic_generator(bits): that of row index of values on the coset of
        shift. The index is any whole number: after 2^bits rows the points repeat.

            >>> import liktrob
            >>> liktrob.goldilocks.point(1, 7, 1) == liktrob.goldilocks.modulus - 7
            True
        """
        answer = self._word()
        # The subgroup's order divides the number of indices that a word holds.
        row = operator.index(index) % 2**64
        _answered(self._point(self._bits(bits), self._number(shift), row, ctypes.byref(answer)))
        return int(answer.value)

    def dft(
        self,
        words: Buffer,
        width: Optional[SupportsIndex] = None,
        engine: SupportsIndex = Engine.DEFAULT,
        threads: SupportsIndex = 1,
    ) -> None:
        """In place, coefficients become values on the subgroup."""
        self.coset_dft(words, 1, width, engine, threads)

    def coset_dft(
        self,
        words: Buffer,
        shift: SupportsIndex,
        width: Optional[SupportsIndex] = None,
        engine: SupportsIndex = Engine.DEFAULT,
        threads: SupportsIndex = 1,
    ) -> None:
        """In place, coefficients become values on the coset of shift. Zero is a shift: the point 0 in each row."""
        _answered(self._in_place(self._coset_dft, words, shift, width, engine, threads))

    def idft(
        self,
        words: Buffer,
        width: Optional[SupportsIndex] = None,
        engine: SupportsIndex = Engine.DEFAULT,
        threads: SupportsIndex = 1,
    ) -> None:
        """In place, values on the subgroup become the only coefficients that have them."""
        self.coset_idft(words, 1, width, engine, threads)

    def coset_idft(
        self,
        words: Buffer,
        shift: SupportsIndex,
        width: Optional[SupportsIndex] = None,
        engine: SupportsIndex = Engine.DEFAULT,
        threads: SupportsIndex = 1,
    ) -> None:
        """In place, values on the coset of shift, which is not 0, become the only coefficients that have them."""
        _answered(self._in_place(self._coset_idft, words, shift, width, engine, threads))

    def lde(
        self,
        words: Words,
        added_bits: SupportsIndex,
        width: Optional[SupportsIndex] = None,
        engine: SupportsIndex = Engine.DEFAULT,
        out: Optional[Buffer] = None,
        threads: SupportsIndex = 1,
    ) -> Buffer:
        """As coset_lde with the shift 1."""
        return self.coset_lde(words, added_bits, 1, width, engine, out, threads)

    def coset_lde(
        self,
        words: Words,
        added_bits: SupportsIndex,
        shift: SupportsIndex,
        width: Optional[SupportsIndex] = None,
        engine: SupportsIndex = Engine.DEFAULT,
        out: Optional[Buffer] = None,
        threads: SupportsIndex = 1,
    ) -> Buffer:
        """Answers the values, on the coset of shift of the subgroup 2^added_bits times as large, of the polynomials
        whose values on the subgroup are given.

        The answer is out, a buffer of 2^added_bits times as many words that shares no memory with words. Without it
        the answer to a numpy array is a new one, with a row of it for each point, and else a new array.array.
        """
        return self._extended(self._coset_lde, words, added_bits, shift, width, engine, out, threads)

    def coset_lde_bit_reversed(
        self,
        words: Words,
        added_bits: SupportsIndex,
        shift: SupportsIndex,
        width: Optional[SupportsIndex] = None,
        engine: SupportsIndex = Engine.DEFAULT,
        out: Optional[Buffer] = None,
        threads: SupportsIndex = 1,
    ) -> Buffer:
        """As coset_lde, with rows in bit reversed order: row i belongs to the point whose number has the binary digits
        of i in reverse."""
        return self._extended(self._coset_lde_bit_reversed, words, added_bits, shift, width, engine, out, threads)

    def coset_dft_padded(
        self,
        words: Words,
        added_bits: SupportsIndex,
        shift: SupportsIndex,
        width: Optional[SupportsIndex] = None,
        engine: SupportsIndex = Engine.DEFAULT,
        out: Optional[Buffer] = None,
        threads: SupportsIndex = 1,
    ) -> Buffer:
        """Answers the values, on the coset of shift of the subgroup 2^added_bits times as large, of the polynomials
        whose coefficients are given. The answer is as that of coset_lde."""
        return self._extended(self._coset_dft_padded, words, added_bits, shift, width, engine, out, threads)

    def is_codeword(
        self,
        words: Words,
        added_bits: SupportsIndex,
        shift: SupportsIndex,
        width: Optional[SupportsIndex] = None,
        engine: SupportsIndex = Engine.DEFAULT,
        threads: SupportsIndex = 1,
    ) -> bool:
        """Whether each column has the values, on the coset of shift, of a polynomial of 2^k coefficients, where the
        height is 2^(k + added_bits)."""
        answer = ctypes.c_uint32()
        _answered(self._tested(self._read(words), added_bits, shift, width, engine, threads, answer))
        return bool(answer.value)

    def coset_dft_columns(
        self,
        words: Buffer,
        shift: SupportsIndex,
        step: SupportsIndex,
        width: Optional[SupportsIndex] = None,
        engine: SupportsIndex = Engine.DEFAULT,
    ) -> None:
        """In place, coset_dft of each column on a coset of its own: column j on the coset of shift * step^j. It works
        on the calling thread. With point it is a part of a transform by parts.

        The polynomial 1 + 2x on the coset of 3, and once more on that of 15:

            >>> import liktrob
            >>> words = liktrob.baby_bear.array([1, 1, 2, 2])
            >>> liktrob.baby_bear.coset_dft_columns(words, 3, 5, width=2)
            >>> list(words)
            [7, 31, 2013265916, 2013265892]
        """
        _answered(self._by_columns(self._coset_dft_columns, words, shift, step, width, engine))

    def coset_idft_columns(
        self,
        words: Buffer,
        shift: SupportsIndex,
        step: SupportsIndex,
        width: Optional[SupportsIndex] = None,
        engine: SupportsIndex = Engine.DEFAULT,
    ) -> None:
        """In place, coset_idft of each column on a coset of its own: column j on the coset of shift * step^j, which is
        0 for no column. It works on the calling thread."""
        _answered(self._by_columns(self._coset_idft_columns, words, shift, step, width, engine))

    # Each function below that makes a call answers its status, so that no exception keeps a buffer from being resized.

    def _in_place(self, function, words, shift, width, engine, threads):
        lent, count, width = self._lent(words, width, is_written=True)
        return function(_threads(threads), self._engine(engine), lent, count, width, self._number(shift))

    def _by_columns(self, function, words, shift, step, width, engine):
        lent, count, width = self._lent(words, width, is_written=True)
        return function(self._engine(engine), lent, count, width, self._number(shift), self._number(step))

    def _tested(self, words, added_bits, shift, width, engine, threads, answer):
        lent, count, width = self._lent(words, width)
        given = self._engine(engine), lent, count, width, self._bits(added_bits), self._number(shift)
        return self._is_codeword(_threads(threads), *given, ctypes.byref(answer))

    def _extension(self, function, words, added_bits, shift, width, engine, threads, out):
        lent, count, width = self._lent(words, width)
        output, out_count, _ = self._lent(out, None, is_written=True)
        if _do_overlap(lent, output):
            raise ValueError("out shares memory with words")
        given = self._engine(engine), lent, count, width, self._bits(added_bits), self._number(shift)
        return function(_threads(threads), *given, output, out_count)

    def _extended(self, function, words, added_bits, shift, width, engine, out, threads):
        words = self._read(words)
        given = function, words, added_bits, shift, width, engine, threads
        if out is not None:
            _answered(self._extension(*given, out))
            return out
        count, width = self._count_of_extension(words, added_bits, width)
        try:
            out = self._output(words, count, width)
        except MemoryError:
            # With an empty output the library says whether there is a fault that comes before that of memory.
            status = self._extension(*given, self.array())
            _answered(status if status in (Status.ENGINE, Status.NUMBER) else Status.MEMORY)
        _answered(self._extension(*given, out))
        return out

    def _output(self, words, count, width):
        """An output of so many words, of the kind of the input."""
        if not _is_of_numpy(words):
            return self.array([0]) * count
        out = sys.modules["numpy"].zeros(count, words.dtype)
        return out if words.ndim < 2 or count == 0 else out.reshape(-1, width)

    def _count_of_extension(self, words, added_bits, width):
        """How many numbers an extension has, and a row of it. None where the library extends no such shape: it says so
        of any output."""
        _, count, width = self._lent(words, width)
        if width == 0 or count % width != 0:
            return 0, width
        height, added_bits = count // width, operator.index(added_bits)
        if height == 0 or height & (height - 1) or not 0 <= added_bits <= self.two_adicity:
            return 0, width
        return count << added_bits if height << added_bits <= 1 << self.two_adicity else 0, width

    def _lent(self, buffer, width, is_written=False):
        """The words of a buffer as a ctypes array, how many they are, and how many a row has.

        A buffer that cannot be written is copied where it is only read.
        """
        try:
            view = memoryview(buffer)
        except TypeError:
            kind = type(buffer).__name__
            raise TypeError(f"a buffer of words is needed, as {self!r}.array(numbers), and not a {kind}") from None
        if view.itemsize != self._size or view.format.lstrip("@=<") not in ("I", "L", "Q") or not view.c_contiguous:
            raise TypeError(f"a buffer of unsigned words of {8 * self._size} bits in one piece is needed")
        if view.readonly and is_written:
            raise TypeError("a buffer that can be written is needed")
        count = view.nbytes // self._size
        words = self._word * count
        if count == 0:
            # An address that is not null.
            lent = (self._word * 1)()
        else:
            lent = words.from_buffer_copy(view) if view.readonly else words.from_buffer(view)
        if ctypes.addressof(lent) % self._size != 0:
            raise TypeError("a buffer of aligned words is needed")
        if width is None:
            width = view.shape[-1] if view.ndim > 1 else 1
        return lent, count, _within(width, 64, 0)

    def _read(self, words):
        """Words that are only read: those of a list or a tuple as a buffer."""
        return self.array(map(self._number, words)) if isinstance(words, (list, tuple)) else words

    def _number(self, number):
        bits = 8 * self._size
        return _within(number, bits, (1 << bits) - 1)

    @staticmethod
    def _bits(added_bits):
        return _within(added_bits, 64, (1 << 64) - 1)

    @staticmethod
    def _engine(engine):
        return _within(engine, 32, (1 << 32) - 1)


_LIBRARY = _library()

#: The field of 2^31 - 2^27 + 1 elements.
baby_bear = Field(_LIBRARY, "baby_bear", "I", ctypes.c_uint32, 2**31 - 2**27 + 1, 31, 27)
#: The field of 2^31 - 2^24 + 1 elements.
koala_bear = Field(_LIBRARY, "koala_bear", "I", ctypes.c_uint32, 2**31 - 2**24 + 1, 3, 24)
#: The field of 2^64 - 2^32 + 1 elements.
goldilocks = Field(_LIBRARY, "goldilocks", "Q", ctypes.c_uint64, 2**64 - 2**32 + 1, 7, 32)
