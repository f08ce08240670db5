"""find.py - the ballots of many receipts, in one walk.  Words in quotation marks are 02's."""
import hashlib

from .check import open_ballot, read_header
from .reading import Reading, Refused
from .sizes import ba_length

DIGEST = 32                     # bytes of a SHA-256 digest
MOST = 500                      # "up to 500 digests"


def digests_hold(digests):
    """"a list over 500, out of order or no multiple of 32 bytes" is 16; "in rising order (equal
    ones allowed)": bytes are compared from the first on."""
    if len(digests) % DIGEST != 0 or len(digests) > MOST * DIGEST:
        return False
    for at in range(DIGEST, len(digests), DIGEST):
        if digests[at:at + DIGEST] < digests[at - DIGEST:at]:
            return False
    return True


def receipts(board):
    """The digest of each BA record, all its bytes, in order.  "Refusals 1 to 6 hold up to the last
    BA; proofs are left to the checker."; "17 another kind (after 6, in L1's walk too...)" """
    reading = Reading(board)
    n, K, _ = read_header(reading)
    held = []
    for k in range(1, K + 1):
        start = reading.next
        kind = open_ballot(reading, n, k)
        reading.next = start + ba_length(n, kind)
        held.append(hashlib.sha256(board[start:reading.next]).digest())
        reading.close()
    return held


def number_of(digest, held):
    """"each one's ballot number, or 0"; "looking up each digest alone, lowest number first" """
    for number, other in enumerate(held, 1):
        if other == digest:
            return number
    return 0


def find(board, digests, room):
    """room: places of the lent list."""
    board, digests = bytes(board), bytes(digests)
    # "It refuses first with 16 ..., and with 15 a lent list that is too short, before any board
    #  fault."
    if not digests_hold(digests):
        return ('refused', 16, 0)
    if room < len(digests) // DIGEST:
        return ('refused', 15, 0)
    try:
        held = receipts(board)
    except Refused as refused:
        return ('refused', refused.number, refused.record)
    return ('found', [number_of(digests[at:at + DIGEST], held)
                      for at in range(0, len(digests), DIGEST)])
