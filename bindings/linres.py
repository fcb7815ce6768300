"""linres from Python: document 01's services and its two records, over the shared library that bindings/build makes.

    >>> import linres
    >>> linres.resolvent(257, [0, 0, 0, 256], [1, 1])
    Resolvent(coefficients=[0, 0, 0, 4, 0, 0], simple=True, lists=5)
    >>> linres.read_answer(linres.answer_text(linres.write_job(257, [0, 0, 0, 256], [1, 1])))
    Answer(modulus=257, simple=True, coefficients=[0, 0, 0, 4, 0, 0])

The library is the one that the environment variable LINRES_LIBRARY names, or target/lib/liblinres.so of the repository that this file stands
in, or the installed one. A number that does not fit its word raises OverflowError; a call that is refused raises Refused, with the
number of document 01's table and its words. A call lets other threads run, and any number of threads may call.
"""
import collections
import ctypes
import operator
import os
import pathlib

OUTPUT, TEXT, NUMBERS = 1024, 11313, 64
WORK = 12 * (OUTPUT + 1)
BUILT = pathlib.Path(__file__).resolve().parent.parent / 'target/lib/liblinres.so'

# What each number of document 01's table says, as linres.h has it
WORDS = {
    1: 'the text is not a record as the rules have it: four lines, numbers without leading zeros, lists without blanks',
    2: 'the modulus is below 257 or above 2147483647',
    3: 'the modulus is not prime',
    4: 'the degree is 0 or above 12',
    5: 'a coefficient is not below the modulus',
    6: 'there is no weight, or there are more than 6',
    7: 'there are more weights than the degree',
    8: 'a weight is 0 or outside -16 to 16',
    9: 'the resolvent would have a degree N above 1024',
    10: 'the degree N of the resolvent is not below the modulus',
    15: 'the record cannot hold the values',
    16: 'a number to divide by is zero modulo p',
}

# b1 to bN, whether f and its derivative have only constant common divisors, and the number of weight lists worked
Resolvent = collections.namedtuple('Resolvent', 'coefficients simple lists')
# What the two records hold
Job = collections.namedtuple('Job', 'modulus coefficients weights')
Answer = collections.namedtuple('Answer', 'modulus simple coefficients')


class Refused(ValueError):
    """A call that breaks a rule; `code` is the number of the first that it breaks."""

    def __init__(self, code):
        super().__init__('%d: %s' % (code, WORDS[code]))
        self.code = code


def _library():
    name = os.environ.get('LINRES_LIBRARY') or (str(BUILT) if BUILT.exists() else 'liblinres.so.1')
    library = ctypes.CDLL(name)
    size, word, signed = ctypes.c_size_t, ctypes.c_uint32, ctypes.c_int32
    words, signeds, sizes, byte = map(ctypes.POINTER, (word, signed, size, ctypes.c_uint8))
    library.linres_answer_text.argtypes = [byte, size, byte, size]
    library.linres_answer_text.restype = size
    for function, arguments in {
        'resolvent': [word, words, size, signeds, size, words, size, words, size, sizes, words, words],
        'lists': [signeds, size, words],
        'read_job': [byte, size, words, size, signeds, size, words, sizes, sizes],
        'read_answer': [byte, size, words, size, words, sizes, words],
        'write_job': [word, words, size, signeds, size, byte, size, sizes],
        'write_answer': [word, word, words, size, byte, size, sizes],
    }.items():
        exported = getattr(library, 'linres_' + function)
        exported.argtypes, exported.restype = arguments, word
    return library


_LIBRARY = _library()


def _lent(kind, numbers, least, most):
    """The numbers as words of this kind; ctypes by itself would drop the bits that do not fit. An empty slice has a place too."""
    values = [operator.index(number) for number in numbers]
    if any(not least <= value <= most for value in values):
        raise OverflowError('a number is outside %d to %d' % (least, most))
    return (kind * max(1, len(values)))(*values), len(values)


def _unsigned(numbers):
    return _lent(ctypes.c_uint32, numbers, 0, 2 ** 32 - 1)


def _signed(numbers):
    return _lent(ctypes.c_int32, numbers, -2 ** 31, 2 ** 31 - 1)


def _bytes(text):
    text = bytes(text)
    return (ctypes.c_uint8 * max(1, len(text))).from_buffer_copy(text or b'\0'), len(text)


def _done(code):
    """Nothing where the call's number is 0."""
    if code:
        raise Refused(code)


def answer_text(text):
    """The bytes that answer a text (bytes): an answer record, or a line `refused=K`."""
    out = (ctypes.c_uint8 * TEXT)()
    return bytes(out[:_LIBRARY.linres_answer_text(*_bytes(text), out, TEXT)])


def resolvent(p, f, weights):
    """The resolvent of x^n + f[0] x^(n-1) + .. for the weights, modulo p."""
    modulus = _unsigned([p])[0][0]
    count, simple, lists = ctypes.c_size_t(), ctypes.c_uint32(), ctypes.c_uint32()
    out, work = (ctypes.c_uint32 * OUTPUT)(), (ctypes.c_uint32 * WORK)()
    _done(_LIBRARY.linres_resolvent(modulus, *_unsigned(f), *_signed(weights), out, OUTPUT, work, WORK, count, simple, lists))
    return Resolvent(out[:count.value], simple.value == 1, lists.value)


def lists(weights):
    """The number of weight lists that a job with these weights is worked by."""
    told = ctypes.c_uint32()
    _done(_LIBRARY.linres_lists(*_signed(weights), told))
    return told.value


def read_job(text):
    """The values of a job record (bytes)."""
    modulus, degree, count = ctypes.c_uint32(), ctypes.c_size_t(), ctypes.c_size_t()
    coeffs, weights = (ctypes.c_uint32 * NUMBERS)(), (ctypes.c_int32 * NUMBERS)()
    _done(_LIBRARY.linres_read_job(*_bytes(text), coeffs, NUMBERS, weights, NUMBERS, modulus, degree, count))
    return Job(modulus.value, coeffs[:degree.value], weights[:count.value])


def read_answer(text):
    """The values of an answer record (bytes)."""
    modulus, degree, simple = ctypes.c_uint32(), ctypes.c_size_t(), ctypes.c_uint32()
    coeffs = (ctypes.c_uint32 * OUTPUT)()
    _done(_LIBRARY.linres_read_answer(*_bytes(text), coeffs, OUTPUT, modulus, degree, simple))
    return Answer(modulus.value, simple.value == 1, coeffs[:degree.value])


def write_job(modulus, coefficients, weights):
    """The job record of these values, as bytes."""
    out, length = (ctypes.c_uint8 * TEXT)(), ctypes.c_size_t()
    modulus = _unsigned([modulus])[0][0]
    _done(_LIBRARY.linres_write_job(modulus, *_unsigned(coefficients), *_signed(weights), out, TEXT, length))
    return bytes(out[:length.value])


def write_answer(modulus, simple, coefficients):
    """The answer record of these values, as bytes; `simple` is True or False."""
    out, length = (ctypes.c_uint8 * TEXT)(), ctypes.c_size_t()
    modulus, simple = _unsigned([modulus, simple])[0]
    _done(_LIBRARY.linres_write_answer(modulus, simple, *_unsigned(coefficients), out, TEXT, length))
    return bytes(out[:length.value])
