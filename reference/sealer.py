"""Command reader for the ciphers and the mode."""

import ciphers
import commands
import mode
from commands import Answer, NoCommand, parse_hex, show_hex, take


def _kind(word):
    if word not in ciphers.KINDS:
        raise NoCommand("unknown cipher")
    return ciphers.KINDS[word]


def _block(word):
    data = parse_hex(word)
    if len(data) != ciphers.BLOCK:
        raise NoCommand("not sixteen bytes")
    return data


def _encrypt(kind, key, block):
    kind, key, block = _kind(kind), parse_hex(key), _block(block)
    return kind(key).encrypt(block)


def _decrypt(kind, key, block):
    kind, key, block = _kind(kind), parse_hex(key), _block(block)
    return kind(key).decrypt(block)


def _cmac(kind, key, message):
    kind, key, message = _kind(kind), parse_hex(key), parse_hex(message)
    return mode.cmac(kind(key), message)


def _hash(tau, message):
    return mode.poly_hash(_block(tau), parse_hex(message))


def _in_mode(call):
    def obey(kind, *strings):
        return call(_kind(kind), *map(parse_hex, strings))
    return obey


# Each command word with its number of further words.
COMMANDS = {
    "encrypt": (3, _encrypt),
    "decrypt": (3, _decrypt),
    "cmac": (3, _cmac),
    "hash": (2, _hash),
    "seal": (5, _in_mode(mode.seal)),
    "open": (5, _in_mode(mode.open_sealed)),
    "seal-proof": (5, _in_mode(mode.seal_with_proof)),
    "open-proof": (5, _in_mode(mode.open_with_proof)),
}


class Reader:
    """Keeps nothing from one command to the next."""

    def obey(self, words):
        if words[0] not in COMMANDS:
            raise NoCommand("unknown command")
        count, call = COMMANDS[words[0]]
        return Answer("ok " + show_hex(call(*take(words, count))))


def answers(lines):
    return commands.texts(Reader(), lines)


if __name__ == "__main__":
    commands.main(answers)
