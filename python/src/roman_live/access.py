"""Access to the page by tokens."""

from __future__ import annotations

import hmac
import ipaddress
import math
import string
from collections import deque
from enum import Enum

from .limits import Bucket

TOKEN_BITS = 128
"""The minimum number of bits of a token, if it is random."""

LEAST_LETTERS = 8
"""The minimum number of different characters of a token."""

GUESSES, GUESSES_A_SECOND = 10, 0.2
"""The number of wrong tokens that an address may send at once, and the number for each second after that."""

ADDRESSES = 1000
"""The maximum number of addresses that are remembered for their wrong tokens, and of wrong tokens."""


LONGEST_TOKEN = 1024
"""The maximum length of a token."""


class Role(Enum):
    """The permissions of a token: to see everything, or to change it, too."""

    WATCH = "watch"
    OPERATE = "operate"


class TooManyGuesses(Exception):
    """Too many wrong tokens came from an address. No token is compared for a while."""


class Access:
    """The tokens of a page. A page without tokens may be operated without one."""

    def __init__(self, operate: str | None, watch: str | None) -> None:
        self.is_open = operate is None
        self._tokens = [(token, role) for token, role in ((operate, Role.OPERATE), (watch, Role.WATCH)) if token]
        self._guesses: dict[str, Bucket] = {}
        self._wrong: deque[str] = deque(maxlen=ADDRESSES)

    def role(self, shown: str, address: str) -> Role | None:
        """The role of a token, or None if the token is wrong. Raises TooManyGuesses."""
        guesses = self._guesses_of(address)
        if guesses.is_empty:
            raise TooManyGuesses
        for token, role in self._tokens:
            if _is_same(shown, token):
                return role
        shown = shown[:LONGEST_TOKEN]
        if shown not in self._wrong:  # An old token that a browser sends repeatedly isn't a guess.
            self._wrong.append(shown)
            guesses.take()
        return None

    def _guesses_of(self, address: str) -> Bucket:
        """The guesses of an address, which becomes the most recently used one."""
        place = _network(address)
        bucket = self._guesses.pop(place, None) or Bucket(GUESSES, GUESSES_A_SECOND)
        self._guesses[place] = bucket
        if len(self._guesses) > ADDRESSES:
            del self._guesses[next(iter(self._guesses))]
        return bucket


def bits(token: str) -> float:
    """The number of bits of a random token of this length, with characters of these kinds."""
    if len(set(token)) < LEAST_LETTERS:
        return 0.0
    if all(letter in string.hexdigits for letter in token):
        return 4.0 * len(token)
    kinds = (string.digits, string.ascii_lowercase, string.ascii_uppercase)
    letters = sum(len(kind) for kind in kinds if any(letter in kind for letter in token))
    if any(letter not in "".join(kinds) for letter in token):
        letters += len(string.punctuation)
    return len(token) * math.log2(letters)


def _network(address: str) -> str:
    """The address for which guesses are counted. For IPv6 it is the network, because a machine has many addresses."""
    try:
        place = ipaddress.ip_address(address)
    except ValueError:
        return address
    return str(ipaddress.ip_network(f"{place}/64", strict=False)) if place.version == 6 else address


def _is_same(shown: str, token: str) -> bool:
    # Headers may have bytes that aren't UTF-8, which are read as surrogates.
    return hmac.compare_digest(shown.encode(errors="surrogateescape"), token.encode())
