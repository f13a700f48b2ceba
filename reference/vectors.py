"""Published vectors as data, and the check of this implementation by them.

Run alone it prints every vector that fails and a count.
"""

import sys

import boards
import ciphers
import devices
import field
import mode
from refusals import Declined

# cipher, key, block, encrypted
BLOCKS = [
    # FIPS 197
    ("aes128", "2b7e151628aed2a6abf7158809cf4f3c",
     "3243f6a8885a308d313198a2e0370734", "3925841d02dc09fbdc118597196a0b32"),
    ("aes128", "000102030405060708090a0b0c0d0e0f",
     "00112233445566778899aabbccddeeff", "69c4e0d86a7b0430d8cdb78070b4c55a"),
    # SP 800-38A, block by block
    ("aes128", "2b7e151628aed2a6abf7158809cf4f3c",
     "6bc1bee22e409f96e93d7e117393172a", "3ad77bb40d7a3660a89ecaf32466ef97"),
    ("aes128", "2b7e151628aed2a6abf7158809cf4f3c",
     "ae2d8a571e03ac9c9eb76fac45af8e51", "f5d3d58503b9699de785895a96fdbaaf"),
    ("aes128", "2b7e151628aed2a6abf7158809cf4f3c",
     "30c81c46a35ce411e5fbc1191a0a52ef", "43b1cd7f598ece23881b00e3ed030688"),
    ("aes128", "2b7e151628aed2a6abf7158809cf4f3c",
     "f69f2445df4f9b17ad2b417be66c3710", "7b0c785e27e8ad3f8223207104725dd4"),
    # The Speck designers' paper
    ("speck128", "000102030405060708090a0b0c0d0e0f",
     "206d616465206974206571756976616c", "180d575cdffe60786532787951985da6"),
]

# SP 800-38B: message, code
CMAC_KEY = "2b7e151628aed2a6abf7158809cf4f3c"
CMACS = [
    ("",
     "bb1d6929e95937287fa37d129b756746"),
    ("6bc1bee22e409f96e93d7e117393172a",
     "070a16b46b4d4144f79bdd9dd04a287c"),
    ("6bc1bee22e409f96e93d7e117393172aae2d8a571e03ac9c9eb76fac45af8e51"
     "30c81c46a35ce411",
     "dfa66747de9ae63030ca32611497c827"),
    ("6bc1bee22e409f96e93d7e117393172aae2d8a571e03ac9c9eb76fac45af8e51"
     "30c81c46a35ce411e5fbc1191a0a52eff69f2445df4f9b17ad2b417be66c3710",
     "51f0bebf7e3b9d92fc49741779363cfe"),
]

# The published HEH mode over AES-128: bundle, nonce, associated data,
# message, sealed. The messages of vectors 2 to 5 are cut to the 63 bytes of
# their sealed form.
SEALS = [
    (
        "000000000000000000000000000000000000000000000000000000000000000000000000000000000000000000000000",
        "",
        "",
        "00000000000000000000000000000000",
        "310f55672a44bf35b3320895e90d3f30",
    ),
    (
        "000102030405060708090a0b0c0d0e0f000102030405060708090a0b0c0d0e0f000102030405060708090a0b0c0d0e0f",
        "",
        "",
        "000000000000000000000000000000000000000000000000000000000000000000000000000000000000000000000000"
        "000000000000000000000000000000",
        "6e20347c7a0609d04cda4fd26ff3b7d03a2e48b13369671c763c24a010d34bd92e2707fce73d89a92ad6f191d9cc38cc"
        "c9d8e526885730b4835d6d18c3c55d",
    ),
    (
        "000102030405060708090a0b0c0d0e0f000102030405060708090a0b0c0d0e0f000102030405060708090a0b0c0d0e0f",
        "",
        "",
        "000000000000000000000000000000000000000000000000000000000000000000000000000000000000000000000001"
        "000000000000000000000000000000",
        "77a09f9af01bf2341c8550734e771abca41398130c7658d83c075492ece8981dd5ee21816802cbff60e87fb9ab2cb771"
        "d44fabfbf59dacdf46931e49d632c1",
    ),
    (
        "000102030405060708090a0b0c0d0e0f000102030405060708090a0b0c0d0e0f000102030405060708090a0b0c0d0e0f",
        "00000000000000000000000000000000",
        "",
        "000000000000000000000000000000000000000000000000000000000000000000000000000000000000000000000000"
        "000000000000000000000000000000",
        "fb309047c54eccfdc490a29f7c0363c3cbaf2eee6218eb206297e49bf28bf33f763baaabf01954dbb4af2ed9a7e09204"
        "5ae481fc58f2dabf5dc9b147d508b1",
    ),
    (
        "000102030405060708090a0b0c0d0e0f000102030405060708090a0b0c0d0e0f000102030405060708090a0b0c0d0e0f",
        "00000000000000000000000000000000",
        "",
        "000000000000000000000000000000000000000000000000000000000000000000000000000000000000000000000001"
        "000000000000000000000000000000",
        "9cdfa55083e0a3b50d3583346e6e40d60f81c81a9c4081fbb36eb4bffccac950cd33fdb34311e632023d3ec6496ecf58"
        "3e14156d392a589983afdd223e7f6c",
    ),
    (
        "68f82787dc3033fd655b8e512e02ff9d21281e64cd9c3388f62c438ff56ff58fa8da249b5efa13c2c194bf32ba38a377",
        "4d4761372b4786f0d647b5c2e8cf8527",
        "",
        "b8ee29e4a5d1e755d0fde722637636e2f80cf8fe6576e7cac142f5ca5aa8ac2ad6a67479105440abdc90b166416ce3cb"
        "6119fa19aa99f0265850bd29c49e24364d47",
        "9726afc277e930f3912c976c779927e0a9b80ee83db1881300c3752a54f07c1e66f89d556bda0d2dc318536e1a34e6b7"
        "ab7576469349ea9927cd15429e25d0509f9a",
    ),
    (
        "000102030405060708090a0b0c0d0e0f000102030405060708090a0b0c0d0e0f000102030405060708090a0b0c0d0e0f",
        "000102030405060708090a0b0c0d0e0f",
        "000102030405060708090a0b0c0d0e0f",
        "0000000000000000000000000000000000000000000000000000000000000000",
        "7f5eac36f1fee71cc79e4046c1d11f94cd9219968157de2b3c23c139ff671914",
    ),
    (
        "000102030405060708090a0b0c0d0e0f000102030405060708090a0b0c0d0e0f000102030405060708090a0b0c0d0e0f",
        "000102030405060708090a0b0c0d0e0f000102030405",
        "0102030405060708090a0b0c0d0e0f00010203",
        "0000000000000000000000000000000000000000000000000000000000000000",
        "a4f3f950f6f07b892248655a9bc8826287f7f81312a2a6408d0ad2bed078202a",
    ),
    (
        "d0a8c8e6b3fdc335c4e98c9bbb1310e4aa2610d3a619a8f8a222d3dbfb082d1736daf975aae45061af88079422e5e6a9",
        "4164a1ffaeef4b23324c47279afb02e8",
        "948f6d03ea0bde71a0233ac87753f10e",
        "6a2eda8e07c10918507f0b5e4f32053c335d179a8f476ed1d08a458c00726f636365bf26a7003f43c0270bbb44ec780e"
        "6119fa19aa99f0265850bd29c49e2436a9",
        "a962d37c10b43303a522aac165230d672cabebfa385d2c7b21468d0af9cab3a75bb5c1c332e1afd77b1b98697672c36b"
        "bd05ab6b0f47c759f464689831d3ce9e93",
    ),
    (
        "f83b77ee7445c4190b326489eca17cf89f8bf70e528cc1344300ae428506a937880d8b115ba55842ff4505c5e45f78f6",
        "131d6e569b5ccb6e563d2ced8616e6ac",
        "01bd52f7065a35a07ee70d9a881eddb4",
        "00000000000000000000000000000000b1e0cc8a07264432823c68b2ef59e592d271271029f6364ceee577d9fda8e5c4"
        "131d6e569b5ccb6e563d2ced8616e6acc6",
        "a8da249b5efa13c2c194bf32ba38a37721281e64cd9c3388f62c438ff56ff58f68f82787dc3033fd655b8e512e02ff9d"
        "c4fb5c2937d3c85c5cb1196c3b0e99af42",
    ),
    (
        "f83b77ee7445c4190b326489eca17cf89f8bf70e528cc1344300ae428506a937880d8b115ba55842ff4505c5e45f78f6",
        "131d6e569b5ccb6e563d2ced8616e6ac",
        "01bd52f7065a35a07ee70d9a881eddb4",
        "01000000000000000000000000000000b1e0cc8a07264432823c68b2ef59e592d271271029f6364ceee577d9fda8e5c4"
        "131d6e569b5ccb6e563d2ced8616e6acc6",
        "b8ee29e4a5d1e755d0fde722637636e2f80cf8fe6576e7cac142f5ca5aa8ac2ad6a67479105440abdc90b166416ce3cb"
        "4d4761372b4786f0d647b5c2e8cf85274b",
    ),
]


def _zeros_after(shown, length=16):
    return bytes.fromhex(shown).ljust(length, b"\0")


def _block_checks():
    for kind, key, block, encrypted in BLOCKS:
        cipher = ciphers.KINDS[kind](bytes.fromhex(key))
        yield "encrypt " + block, cipher.encrypt(bytes.fromhex(block)).hex(), encrypted
        yield "decrypt " + encrypted, cipher.decrypt(bytes.fromhex(encrypted)).hex(), block


def _cmac_checks():
    cipher = ciphers.Aes128(bytes.fromhex(CMAC_KEY))
    for message, code in CMACS:
        yield "cmac " + message, mode.cmac(cipher, bytes.fromhex(message)).hex(), code


def _seal_checks():
    for number, vector in enumerate(SEALS, 1):
        bundle, nonce, ad, message, sealed = map(bytes.fromhex, vector)
        context = (ciphers.Aes128, bundle, nonce, ad)
        yield "seal %d" % number, mode.seal(*context, message), sealed
        yield "open %d" % number, mode.open_sealed(*context, sealed), message


def _example_checks():
    """Small cases that can be worked out by hand."""
    def product(x, y):
        return field.to_bytes(field.product(field.element(x), field.element(y)))

    one, z = _zeros_after("01"), _zeros_after("02")
    yield "z times z^127", product(z, bytes(15) + b"\x80"), _zeros_after("87")
    yield "z^120 times z^8", product(bytes(15) + b"\1", _zeros_after("0001")), _zeros_after("87")
    yield "z times a low sum", product(z, _zeros_after("87")), _zeros_after("0e01")
    yield "doubling of CMAC", mode.cmac_double(_zeros_after("80")), bytes(15) + b"\x87"
    yield "hash, tau one", mode.poly_hash(one, bytes(16)), one
    yield "hash, tau z", mode.poly_hash(z, _zeros_after("01", 32)), _zeros_after("06")
    yield "hash with a tail", mode.poly_hash(z, bytes(16) + b"\5"), _zeros_after("0a02")
    yield "lengths", mode.lengths_group(22, 19, 32), _zeros_after("160000001300000020")
    yield "nonce of slot 3", boards.nonce(3, b"TWR"), _zeros_after("03000000545752")
    yield "units", [devices.Chain.units(n) for n in (30, 31, 1000)], [1, 2, 34]
    yield "room on a chain", list(_room_on_a_chain(_chain())), [9, 0]
    yield "room on a pile of boards", list(_room_on_a_chain(_pile())), [9, 0]
    yield "row through a pile", _through_a_pile(), (b"a" * 30, True)


def _chain():
    return devices.Chain.set_out(2, 100, 2)


def _keys(name):
    return boards.Keys(ciphers.KINDS[name], bytes(range(48)), b"TWR")


def _pile():
    """A board over a board over a chain."""
    return boards.Board(_keys("speck128"), boards.Board(_keys("aes128"), _chain()))


def _through_a_pile():
    """A row written and read, and whether the chain holds it sealed twice."""
    upper = _pile()
    upper.write(1, b"a" * 30)
    row = upper.read(1, 100)
    lower = upper.shut()
    twice = _keys("aes128").sealed(1, _keys("speck128").sealed(1, row))
    return row, lower.shut().read(1, 100) == twice


def _room_on_a_chain(chain):
    chain.write(0, b"a" * 30)
    chain.write(1, b"b" * 16)
    try:
        chain.write(0, b"c" * 31)
        yield 0
    except Declined as declined:
        yield int(declined.refusal)
    chain.clear(1)
    chain.write(0, b"c" * 31)
    yield 0


def checks():
    """Each check as its name, what came out and what is right."""
    for part in (_block_checks, _cmac_checks, _seal_checks, _example_checks):
        yield from part()


def failures():
    """How many checks were made, and those that fail."""
    made = list(checks())
    return len(made), [check for check in made if check[1] != check[2]]


def main():
    count, failed = failures()
    for name, got, right in failed:
        print("%s: expected %s, got %s" % (name, right, got))
    print("vectors: %d checks, %d fail" % (count, len(failed)))
    return 1 if failed else 0


if __name__ == "__main__":
    sys.exit(main())
