"""Scripts with their descriptors, as a node tells them: what tools/core_to_files.py has to make of each.

Scripts, keys and paths are those of BIP 174's test vectors (fingerprint d90c6a4f), of BIP 49's, 84's and 86's, and of BIP 32's
first vector. The rest is made up. Weights are those of docs/USING.md, or worked out by hand.
"""
import typing


class Kind(typing.NamedTuple):
    """A script in hex, its descriptor, the weight of an input or None, what the node tells beside it, and of its entry in the keys
    file all but the script, or why it has none."""

    script: str
    descriptor: str
    weight: int
    told: dict
    keys: object


def path(pubkey, fingerprint, steps):
    return {"pubkey": pubkey, "fingerprint": fingerprint, "path": steps}


KEY = "02" + "5a" * 32
LONG = "04" + "5a" * 64
WITHOUT_PATH = "no compressed key of its descriptor has a path"
A, B = "029583bf39ae0a609747ad199addd634fa6108559d6c5cd39b4c2183f1ab96e07f", "02dab61ff49a14db6a7d02b0cd1fbb78fc4b18312b5b4e54dae4dba2fbfef536d7"
C, D = "03089dc10c7ac6db54f91329af617333db388cead0c231f723379d1b99030b02dc", "023add904f3d6dcf59ddb906b0dee23529b7ffb9ed50e5e86151926860221f0e73"
NATIVE, NATIVE_KEY = "0014c0cebcd6c3d3ca8c75dc5ec62ebe55330ef910e2", "0330d54fd0dd420a6e5f8d3624f5f3482cae350f79d5f0753bf5beef9c2d91af3c"
TAPROOT, INTERNAL = "5120a60869f0dbcf1dc659c9cecbaf8050135ea9e8cdc487053f1dc6880949dc684c", "cc8a4bc64d897bddc5fbc2f670f7a8ba0b386779106cf1223c6fc5d7cd6fc115"
NESTED, NESTED_KEY = "a914336caa13e08b96080a32b5d818d59b4ab3b3674287", "03a1af804ac108a8a51782198c2d034b28bf90c8803f5a53f76276fa69a4eae77f"
NESTED_REDEEM = "001438971f73930f6c141d977ac4fd4a727c854935b3"
MULTI, MULTI_REDEEM = "a9140fb9463421696b82c833af241c78c17ddbde493487", f"5221{A}21{B}52ae"
DEEP, DEEP_REDEEM = "a914b7f5faf40e3d40a5a459b1db3535f2b72fa921e887", "00208c2353173743b595dfb4a07b72ba8e42e3797da74e87fe7d9d7497e3b2028903"
WITNESS = f"5221{C}21{D}52ae"  # BIP 174: the SHA-256 of it is in DEEP_REDEEM

KINDS = {
    "P2WPKH": Kind(NATIVE, f"wpkh([73c5da0a/84h/0h/0h/0/0]{NATIVE_KEY})#8fhd9pwu", 272, {},
                   {"keys": [path(NATIVE_KEY, "73c5da0a", "m/84h/0h/0h/0/0")]}),
    "P2TR": Kind(TAPROOT, f"tr([73C5DA0A/86'/0'/0'/0/0]{INTERNAL})#5tnyaw3p", 230, {},
                 {"internal": INTERNAL, "keys": [path(INTERNAL, "73c5da0a", "m/86'/0'/0'/0/0")]}),
    "P2PKH": Kind("76a914" + "33" * 20 + "88ac", f"pkh([d34db33f]{KEY})#t6pnqp5y", 593, {}, {"keys": [path(KEY, "d34db33f", "m")]}),
    "P2WPKH in P2SH": Kind(NESTED, f"sh(wpkh([d34db33f/49h/1h/0h/0/0]{NESTED_KEY}))#qkrrc7je", 364, {"redeemScript": NESTED_REDEEM},
                           {"redeem": NESTED_REDEEM, "keys": [path(NESTED_KEY, "d34db33f", "m/49h/1h/0h/0/0")]}),
    "2 keys in P2SH": Kind(MULTI, f"sh(multi(2,[d90c6a4f/0h/0h/0h]{A},[d90c6a4f/0h/0h/1h]{B}))#0000", 1041, {"redeemScript": MULTI_REDEEM},
                           {"redeem": MULTI_REDEEM, "keys": [path(A, "d90c6a4f", "m/0h/0h/0h"), path(B, "d90c6a4f", "m/0h/0h/1h")]}),
    "2 keys in P2WSH in P2SH": Kind(DEEP, f"sh(wsh(multi(2,[d90c6a4f/0h/0h/2h]{C},[d90c6a4f/0h/0h/3h]{D})))#0000", 524,
                                    {"redeemScript": DEEP_REDEEM, "witnessScript": WITNESS},
                                    {"redeem": DEEP_REDEEM, "witness": WITNESS,
                                     "keys": [path(C, "d90c6a4f", "m/0h/0h/2h"), path(D, "d90c6a4f", "m/0h/0h/3h")]}),
    "2 keys in P2WSH, one without a path": Kind(DEEP_REDEEM, f"wsh(multi(2,{C},[d90c6a4f/0h/0h/3h]{D}))#0000", 384, {"witnessScript": WITNESS},
                                                {"witness": WITNESS, "keys": [path(D, "d90c6a4f", "m/0h/0h/3h")]}),
    "a key twice": Kind("0020" + "55" * 32, f"wsh(sortedmulti(2,[d34db33f/0]{KEY},[d34db33f/0]{KEY},[d34db33f/0]{KEY}))#en3tu306", 418,
                        {"witnessScript": "51"}, "the node tells the witness script of another script"),
    "P2SH whose redeem script isn't told": Kind("a914" + "45" * 20 + "87", f"sh(wpkh([d34db33f/0]{KEY}))#0000", 364, {},
                                                "the node tells no redeem script"),
    "P2WSH whose witness script isn't told": Kind("0020" + "56" * 32, f"wsh(multi(1,[d34db33f/0]{KEY}))#0000", 277, {},
                                                  "the node tells no witness script"),
    "P2PKH of an uncompressed key": Kind("76a914" + "34" * 20 + "88ac", f"pkh([d34db33f/0]{LONG})#0000", 721, {}, WITHOUT_PATH),
    "P2SH with an uncompressed key": Kind("a914" + "46" * 20 + "87", f"sh(multi(1,[d34db33f/0]{LONG},[d34db33f/1]{KEY}))#0000", 881,
                                          {"redeemScript": f"5141{LONG}21{KEY}52ae"},
                                          {"redeem": f"5141{LONG}21{KEY}52ae", "keys": [path(KEY, "d34db33f", "m/1")]}),
    "17 keys in P2WSH": Kind("0020" + "57" * 32, "wsh(multi(1," + ",".join([KEY] * 17) + "))#0000", 824, {"witnessScript": "51"},
                             "the node tells the witness script of another script"),
    "P2TR without its internal key": Kind("5120" + "24" * 32, f"rawtr({KEY[2:]})#0000", 230, {}, "its descriptor tells no key that signs for it"),
    "P2WPKH without a path": Kind("0014" + "12" * 20, f"wpkh({KEY})#0000", 272, {}, WITHOUT_PATH),
}
# descriptors of which no weight is known: a taproot input's is that of its key or of one of its scripts
STRANGE = [
    f"wsh(and_v(v:pk({KEY}),older(144)))#u3kl6lg5",
    f"wsh(or_d(pk({KEY}),pkh({KEY})))#0000",
    f"tr({INTERNAL},multi_a(2,{KEY[2:]},{INTERNAL}))#0000",
    f"tr({INTERNAL},{{pk({KEY[2:]}),pk({INTERNAL})}})#0000",
    f"tr({INTERNAL},pk({KEY[2:]}))#0000",
    f"wpkh({LONG})#0000",
    f"wsh(multi(1,{LONG}))#0000",
    "addr(bc1qw508d6qejxtdg4y5r3zarvary0c5xw7kv8f3t4)#0000",
]
# BIP 32, test vector 1: the extended keys of m/0h and m/0h/1, and their bytes
FIRST = "xpub68Gmy5EdvgibQVfPdqkBBCHxA5htiqg55crXYuXoQRKfDBFA1WEjWgP6LHhwBZeNK1VTsfTFUHCdrfp1bgwQ9xv5ski8PX9rL2dZXvgGDnw"
SECOND = "xpub6ASuArnXKPbfEwhqN6e3mwBcDTgzisQN1wXN9BJcM47sSikHjJf3UFHKkNAWbWMiGj7Wf5uMash7SyYq527Hqck2AxYysAA7xmALppuCkwQ"
FIRST_BYTES = "0488b21e013442193e8000000047fdacbd0f1097043b78c63c20c34ef4ed9a111d980047ad16282c7ae6236141035a784662a4a20a65bf6aab9ae98a6c068a81c52e4b032c0fb5400c706cfccc56"
SECOND_BYTES = "0488b21e025c1bd648000000012a7857631386ba23dacac34180dd1983734e444fdbf774041578e9b6adb37c1903501e454bf00751f24b1b489aa925215d66af2234e3891c3b21a52bedb3cd711c"
PARENTS = [
    f"wpkh([3442193e/0h]{FIRST}/0/*)#0000",  # no multi-signature
    f"wsh(sortedmulti(2,[3442193E/0h]{FIRST}/0/*,[3442193e/0h/1]{SECOND}/0/*))#0000",
    f"wsh(sortedmulti(2,[3442193e/0h]{FIRST}/1/*,{SECOND}/1/*))#0000",  # the first again, and one without a path
    f"sh(multi(1,[3442193e/0h]{SECOND}/1/*,[3442193e/0h]{FIRST[:-1]}x/1/*))#0000",  # a path of another depth, a wrong checksum
]
XPUBS = [{"xpub": FIRST_BYTES, "fingerprint": "3442193e", "path": "m/0h"}, {"xpub": SECOND_BYTES, "fingerprint": "3442193e", "path": "m/0h/1"}]
