"""CMAC (SP 800-38B) and the published HEH mode (Hash-Encrypt-Hash).

The mode is one text for every cipher. A message has whole blocks m_0 to
m_(N-1) and a tail of 0 to 15 bytes.
"""

import field
from ciphers import BLOCK
from refusals import Refusal, decline_if

LONGEST_MESSAGE = 65536
LONGEST_CONTEXT = 1024
PROOF = bytes(16)


def _blocks(message):
    return [message[i:i + BLOCK] for i in range(0, len(message) - BLOCK + 1, BLOCK)]


def _tail(message):
    return message[len(message) // BLOCK * BLOCK:]


def _xor(x, y):
    """As long as the shorter of the two."""
    return bytes(a ^ b for a, b in zip(x, y))


# --- CMAC ---

def cmac_double(block):
    """CMAC's own doubling, which reads a block highest bit first."""
    value = int.from_bytes(block, "big") << 1
    if value >> 128:
        value ^= 1 << 128 | 0x87
    return value.to_bytes(BLOCK, "big")


def cmac(cipher, message):
    decline_if(len(message) > LONGEST_MESSAGE, Refusal.WrongLength)
    once = cmac_double(cipher.encrypt(bytes(BLOCK)))
    blocks, tail = _blocks(message), _tail(message)
    if tail or not blocks:
        padded = tail + b"\x80" + bytes(BLOCK - 1 - len(tail))
        last = _xor(padded, cmac_double(once))
    else:
        last = _xor(blocks.pop(), once)
    state = bytes(BLOCK)
    for block in blocks + [last]:
        state = cipher.encrypt(_xor(state, block))
    return state


# --- The polynomial hash ---

def poly_hash(tau, message):
    """tau^N m_0 + ... + tau^2 m_(N-2) + tau m_N + m_(N-1), power by power.

    m_N is the tail, a byte 01, then zeros; it is there with no tail as well.
    """
    check_message(message)
    tau = field.element(tau)
    blocks = [field.element(block) for block in _blocks(message)]
    count, tail = len(blocks), _tail(message)
    padded = field.element(tail + b"\x01" + bytes(BLOCK - 1 - len(tail)))

    powers = [1]
    for _ in range(count):
        powers.append(field.product(tau, powers[-1]))

    result = field.total(field.product(powers[1], padded), blocks[count - 1])
    for i in range(count - 1):
        result = field.total(result, field.product(powers[count - i], blocks[i]))
    return field.to_bytes(result)


# --- Hashing and undoing it ---

def _masked(blocks, summed, beta):
    """Block i plus the sum plus z^(i+1) beta. Doing it twice undoes it."""
    out, mask = [], beta
    for block in blocks:
        mask = field.product(mask, field.Z)
        out.append(field.to_bytes(field.element(block) ^ summed ^ mask))
    return out


def hashing(tau, beta, message):
    beta = field.element(beta)
    summed = field.element(poly_hash(tau, message))
    out = _masked(_blocks(message)[:-1], summed, beta)
    out.append(field.to_bytes(field.total(summed, beta)))
    return b"".join(out) + _tail(message)


def undo_hashing(tau, beta, message):
    beta = field.element(beta)
    blocks, tail = _blocks(message), _tail(message)
    summed = field.total(field.element(blocks[-1]), beta)
    front = b"".join(_masked(blocks[:-1], summed, beta))
    # The last whole block stands alone in the hash: what the others leave is it.
    others = field.element(poly_hash(tau, front + bytes(BLOCK) + tail))
    return front + field.to_bytes(field.total(summed, others)) + tail


# --- Enciphering and undoing it ---

def _turn(step, message):
    """Send every whole block through `step`; a tail takes part of the last."""
    blocks, tail = [step(block) for block in _blocks(message)], _tail(message)
    if tail:
        tail = _xor(tail, blocks[-1])
        blocks[-1] = step(blocks[-1])
    return b"".join(blocks) + tail


def enciphering(cipher, message):
    return _turn(cipher.encrypt, message)


def undo_enciphering(cipher, message):
    return _turn(cipher.decrypt, message)


# --- Sealing and opening ---

def _padded(data):
    return data + bytes(-len(data) % BLOCK)


def lengths_group(nonce_length, ad_length, message_length):
    lengths = (nonce_length, ad_length, message_length)
    return _padded(b"".join(n.to_bytes(4, "little") for n in lengths))


def betas(cipher, nonce, ad, message_length):
    group = lengths_group(len(nonce), len(ad), message_length)
    one = cmac(cipher, _padded(nonce) + _padded(ad) + group)
    two = field.product(field.element(one), field.Z)
    return one, field.to_bytes(two)


def check_message(message):
    decline_if(not BLOCK <= len(message) <= LONGEST_MESSAGE, Refusal.WrongLength)


def check_bundle(kind, bundle):
    decline_if(len(bundle) != BLOCK + 2 * kind.key_length, Refusal.WrongKeyLength)


class _Keys:
    """A bundle taken apart, after the checks that sealing and opening share."""

    def __init__(self, kind, bundle, nonce, ad, message):
        check_bundle(kind, bundle)
        decline_if(max(len(nonce), len(ad)) > LONGEST_CONTEXT, Refusal.ContextTooLong)
        check_message(message)
        length = kind.key_length
        self.tau = bundle[:BLOCK]
        prf = kind(bundle[BLOCK:BLOCK + length])
        self.cipher = kind(bundle[BLOCK + length:])
        self.beta_one, self.beta_two = betas(prf, nonce, ad, len(message))


def seal(kind, bundle, nonce, ad, message):
    keys = _Keys(kind, bundle, nonce, ad, message)
    message = hashing(keys.tau, keys.beta_one, message)
    message = enciphering(keys.cipher, message)
    return undo_hashing(keys.tau, keys.beta_two, message)


def open_sealed(kind, bundle, nonce, ad, message):
    keys = _Keys(kind, bundle, nonce, ad, message)
    message = hashing(keys.tau, keys.beta_two, message)
    message = undo_enciphering(keys.cipher, message)
    return undo_hashing(keys.tau, keys.beta_one, message)


def seal_with_proof(kind, bundle, nonce, ad, message):
    return seal(kind, bundle, nonce, ad, message + PROOF)


def open_with_proof(kind, bundle, nonce, ad, message):
    opened = open_sealed(kind, bundle, nonce, ad, message)
    decline_if(opened[-len(PROOF):] != PROOF, Refusal.NotGenuine)
    return opened[:-len(PROOF)]
