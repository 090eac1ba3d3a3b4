"""An f64 by its pattern, and the f64 nearest to a number of mpmath's: shared by the scripts of this folder. roots.py rounds by integers of its own."""
import struct

from mpmath import frexp, ldexp, mp, nint


def bits(x):
    return struct.unpack('<Q', struct.pack('<d', x))[0]


def of_bits(b):
    return struct.unpack('<d', struct.pack('<Q', b))[0]


def nearest(x):
    """The f64 nearest to an mpf, ties to even: mpmath rounds to 53 bits, and by whole units below the normal range."""
    if x != 0 and frexp(x)[1] < -1021:
        return float(ldexp(nint(ldexp(x, 1074)), -1074))
    with mp.workprec(53):
        return float(+x)
