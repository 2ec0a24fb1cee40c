"""The sums of `hashlib`, without OpenSSL, whose start is a quarter of a short command's time."""

try:
    from _blake2 import blake2b
    try:
        from _sha2 import sha256
    except ImportError:
        from _sha256 import sha256  # before Python 3.12
except ImportError:
    from hashlib import blake2b, sha256
