"""Answers the cases that tools/check_callers makes. A line has FIELD ENGINE CALL THREADS WIDTH ADDED SHIFT OUT_LEN and
then the numbers; its answer is a status and, where that is 0, numbers. One of columns on cosets of their own, or of a
point, has FIELD ENGINE CALL BITS WIDTH SHIFT STEP INDEX and then the numbers."""

import array
import sys

import liktrob

FIELDS = {"baby_bear": liktrob.baby_bear, "koala_bear": liktrob.koala_bear, "goldilocks": liktrob.goldilocks}


def answer_of(field, engine, call, threads, width, added_bits, shift, out_len, words):
    """The numbers that the call answers."""
    others = {"width": width, "engine": engine, "threads": threads}
    if call in ("coset_dft", "coset_idft"):
        if shift == 1:
            getattr(field, call.removeprefix("coset_"))(words, **others)
        else:
            getattr(field, call)(words, shift, **others)
        return words
    if call == "is_codeword":
        return [int(field.is_codeword(words, added_bits, shift, **others))]
    function = getattr(field, call)
    if call == "coset_lde" and shift == 1:
        function = lambda words, bits, _, **others: field.lde(words, bits, **others)
    out = array.array(field.typecode, [1] * out_len)
    try:
        function(words, added_bits, shift, out=out, **others)
    except liktrob.LiktrobError:
        assert out == array.array(field.typecode, [1] * out_len), "an error with a changed output"
        raise
    assert function(words, added_bits, shift, **others) == out, "an output of the module's own differs"
    return out


def answer_of_columns(field, engine, call, bits, width, shift, step, index, words):
    """The numbers that the call of columns answers, or the point."""
    if call == "point":
        return [field.point(bits, shift, index)]
    getattr(field, call)(words, shift, step, width=width, engine=engine)
    return words


def main():
    for line in sys.stdin:
        field, engine, call, *given = line.split()
        field = FIELDS[field]
        given, words = map(int, given[:5]), field.array(map(int, given[5:]))
        before = words[:]
        of_columns = call == "point" or call.endswith("_columns")
        try:
            print(0, *(answer_of_columns if of_columns else answer_of)(field, int(engine), call, *given, words))
        except liktrob.LiktrobError as error:
            assert words == before, "an error with a changed buffer"
            print(int(error.status))


if __name__ == "__main__":
    main()
