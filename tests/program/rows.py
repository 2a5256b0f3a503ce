"""Reports, plans and messages that are worked out by hand."""
from model import Account, Meter, Plan

TIME = 1_700_000_000_000

SINGLE = Meter(2697, (1000, 2000), (0, 1000))
PLAN = Plan(3_600_000, [Account("alpha", SINGLE, [(7, 1)])])
# The same plan as a person writes it.
WRITTEN = b"""period = 3600000
[[account]]
name = "alpha"
meter = "rfc2697"
cir = 1000
cbs = 2000
ebs = 1000
keys = [[7, 1]]
"""
TERMED = Plan(
    3_600_000,
    [Account("alpha", SINGLE, [(7, 1)], terms=[(TIME + 100, Meter(2697, (1000, 1000), (0, 1000)))])],
)

FIRST = (TIME, 7, 0, 0, 1500, 0, 1)
SECOND = (TIME + 100, 7, 0, 1, 1000, 0, 1)
THIRD = (TIME + 200, 7, 0, 2, 800, 0, 1)
THREE = [FIRST, SECOND, THIRD]
LATE = (TIME + 50, 7, 0, 3, 600, 0, 1)

STATEMENT = b"""tcacct statement 1
period 3600000
reports 3
disputed 0
unassigned 0
account alpha
total 1500 1 1000 1 800 1
span 472222 1500 1 1000 1 800 1
end
"""

OBJECT = (
    b'{"accounts":[{"name":"alpha","spans":[{"green":{"octets":1500,"packets":1},"index":472222,"red":{"octets":800,"packets":1},'
    b'"start":"2023-11-14T22:00:00Z","yellow":{"octets":1000,"packets":1}}],"total":{"green":{"octets":1500,"packets":1},'
    b'"red":{"octets":800,"packets":1},"yellow":{"octets":1000,"packets":1}}}],"disputed":0,"format":1,"period":3600000,"reports":3,"unassigned":0}\n'
)

# That of no reports under the same plan.
EMPTY = b"""tcacct statement 1
period 3600000
reports 0
disputed 0
unassigned 0
account alpha
total 0 0 0 0 0 0
end
"""

LINES = b"green 1500 1\nyellow 1000 1\nred 800 1\n"

# One message of domain 7: a template and a record of place 5, at TIME, 1500 octets, code point 10, interface 1.
ONE = bytes.fromhex(
    "000a00416553f1000000000500000007"
    "00020018010000040143000800e0000800c30001000a0004"
    "010000190000018bcfe5680000000000000005dc0a00000001"
)
# The same record with 1501 octets.
OTHER = ONE.replace(bytes.fromhex("05dc"), bytes.fromhex("05dd"))
# One message of domain 7: a record of place 0, told by the head of its packet, in the long form of a variable length.
SHORT = bytes.fromhex(
    "000a002f6553f1000000000000000007"
    "0002001001000002014200040139ffff"
    "0100000f6553f100ff000445b805dc"
)

# The export of THREE in version 1, of 85 octets.
THREE_1 = bytes.fromhex(
    "54434158000100000003"
    "0000018bcfe568000000000700000000000005dc0000000001"
    "0000018bcfe568640000000700000001000003e80000000001"
    "0000018bcfe568c80000000700000002000003200000000001"
)
# And in version 2, of 97 octets.
THREE_2 = bytes.fromhex(
    "54434158000200000003"
    "0000018bcfe56800000000070000000000000000000005dc0000000001"
    "0000018bcfe56864000000070000000000000001000003e80000000001"
    "0000018bcfe568c8000000070000000000000002000003200000000001"
)
