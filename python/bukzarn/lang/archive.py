"""The archive's name of a program (document 02, card 11): equal programs over equal domains have equal fixed forms, so a
hash of the fixed form names the program, whatever writer wrote its image."""
import hashlib

# How many hexadecimal digits of the hash a name has: 64 bits, so that among a million programs two share a name with a
# chance of less than one in thirty million.
DIGITS = 16


def name(fixed):
    """The first digits of SHA-256 over the fixed form, as hexadecimal text."""
    return hashlib.sha256(fixed).hexdigest()[:DIGITS]
