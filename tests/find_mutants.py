"""The mutants of the walk for receipts: see mutants.py."""

# That the lowest of several numbers is found no stored case can tell: see find_cases.py.
FINDERS = [
    ('16: any length', "if len(digests) % DIGEST != 0 or len", "if len"),
    ('16: 501 let in', "len(digests) > MOST * DIGEST", "len(digests) > (MOST + 1) * DIGEST"),
    ('16: 500 shut out', "len(digests) > MOST * DIGEST", "len(digests) >= MOST * DIGEST"),
    ('16: no digest shut out', "if len(digests) % DIGEST != 0", "if not digests or len(digests) % DIGEST != 0"),
    ('16: order not tested', "if digests[at:at + DIGEST] < digests[at - DIGEST:at]:", "if False:"),
    ('16: equal ones shut out', "if digests[at:at + DIGEST] < digests", "if digests[at:at + DIGEST] <= digests"),
    ('16: first byte alone', "if digests[at:at + DIGEST] < digests[at - DIGEST:at]:", "if digests[at] < digests[at - DIGEST]:"),
    ('16: first 8 bytes alone', "if digests[at:at + DIGEST] < digests[at - DIGEST:at]:",
     "if digests[at:at + 8] < digests[at - DIGEST:at - DIGEST + 8]:"),
    ('16: all but the last byte', "if digests[at:at + DIGEST] < digests[at - DIGEST:at]:",
     "if digests[at:at + DIGEST - 1] < digests[at - DIGEST:at - 1]:"),
    ('16: from the last byte on', "if digests[at:at + DIGEST] < digests[at - DIGEST:at]:",
     "if digests[at:at + DIGEST][::-1] < digests[at - DIGEST:at][::-1]:"),
    ('16: by any byte', "if digests[at:at + DIGEST] < digests[at - DIGEST:at]:",
     "if any(x < y for x, y in zip(digests[at:at + DIGEST], digests[at - DIGEST:at])):"),
    ('16: bytes with a sign', "if digests[at:at + DIGEST] < digests[at - DIGEST:at]:",
     "if bytes(x ^ 128 for x in digests[at:at + DIGEST]) < bytes(x ^ 128 for x in digests[at - DIGEST:at]):"),
    ('16: first pair left', "for at in range(DIGEST, len(digests), DIGEST):", "for at in range(2 * DIGEST, len(digests), DIGEST):"),
    ('16: last pair left', "for at in range(DIGEST, len(digests), DIGEST):", "for at in range(DIGEST, len(digests) - DIGEST, DIGEST):"),
    ('16: first pair alone', "for at in range(DIGEST, len(digests), DIGEST):", "for at in range(DIGEST, min(len(digests), 2 * DIGEST), DIGEST):"),
    ('16: held against the first', "digests[at - DIGEST:at]:", "digests[:DIGEST]:"),
    ('15 before 16', "    if not digests_hold(digests):",
     "    if room < len(digests) // DIGEST:\n        return ('refused', 15, 0)\n    if not digests_hold(digests):"),
    ('the board before 16', "    if not digests_hold(digests):\n",
     "    try:\n        receipts(board)\n    except Refused as refused:\n        return ('refused', refused.number, refused.record)\n    if not digests_hold(digests):\n"),
    ('the board before 15', "    if room < len(digests) // DIGEST:\n",
     "    try:\n        receipts(board)\n    except Refused as refused:\n        return ('refused', refused.number, refused.record)\n    if room < len(digests) // DIGEST:\n"),
    ('15 not tested', "if room < len(digests) // DIGEST:", "if False:"),
    ('15 for a list that fits', "if room < len(digests) // DIGEST:", "if room <= len(digests) // DIGEST:"),
    ('15 for places to spare', "if room < len(digests) // DIGEST:", "if room != len(digests) // DIGEST:"),
    ('no digest, no walk', "        held = receipts(board)\n", "        held = receipts(board) if digests else []\n"),
    ('the walk ends once all are found', "        held = receipts(board)\n", "        held = early(receipts, board, digests)\n"),
    ('last ballot left', "for k in range(1, K + 1):\n        start", "for k in range(1, K):\n        start"),
    ('a ballot more', "for k in range(1, K + 1):\n        start", "for k in range(1, K + 2):\n        start"),
    ('1 not tested in BA', "    reading.open(b'BA', ba_length(n, ", "    reading.open(b'BA', min(4, "),
    ('2 not tested in BA', "    reading.open(b'BA', ba_length(n, ",
     "    reading.open(reading.board[reading.next:reading.next + 2], ba_length(n, "),
    ('6 not tested in BA', "due | 6\"\n    if reading.number(2) != k:", "due | 6\"\n    if reading.number(2) < 0:"),
    ('6 by low byte', "due | 6\"\n    if reading.number(2) != k:", "due | 6\"\n    if reading.number(2) % 256 != k % 256:"),
    ('6 by high byte', "due | 6\"\n    if reading.number(2) != k:", "due | 6\"\n    if reading.number(2) // 256 != k // 256:"),
    ('6 before 2', "    reading.open(b'BA', ba_length(n, ",
     "    if reading.left() >= ba_length(n, 0) and reading.board[reading.next + 2:reading.next + 4] != bytes([k // 256, k % 256]):\n        reading.refuse(6)\n    reading.open(b'BA', ba_length(n, "),
    ('2 before 1', "        if self.left() < length:\n            self.refuse(1)\n",
     "        if self.left() >= 2 and self.board[self.next:self.next + 2] != mark:\n            self.refuse(2)\n        if self.left() < length:\n            self.refuse(1)\n"),
    ('HD let in', "reading.open(b'HF', HF_LENGTH)", "reading.open(b'HD' if reading.board[:2] == b'HD' else b'HF', HF_LENGTH)"),
    ('2 not tested in HF', "reading.open(b'HF', HF_LENGTH)", "reading.open(reading.board[:2], HF_LENGTH)"),
    ('3 not tested', "    if not sizes_hold(n, K):\n        reading", "    if False:\n        reading"),
    ('4 not tested', "    if not group_holds(n, K, p, q):\n        reading", "    if False:\n        reading"),
    ('5 not tested of g0', "    if not g0_holds(p, q, g0):\n        reading", "    if False:\n        reading"),
    ('5 not tested of g1', "if g1 != make_g1(p, q, g0, counter, label) or not g1_holds(g0, g1):", "if False:"),
    ('a sheet is due behind the last ballot', "    return held\n", "    reading.open(b'RT', 4 + 6 * n)\n    return held\n"),
    ('a sheet has room behind the last ballot', "    return held\n",
     "    if reading.left() < 4 + 6 * n:\n        reading.refuse(1)\n    return held\n"),
    ('nothing may remain', "    return held\n", "    if reading.left() > 0:\n        reading.refuse(12)\n    return held\n"),
    ('the whole board checked', "        held = receipts(board)\n",
     "        from .check import read_board\n        read_board(board)\n        held = receipts(board)\n"),
    ('fields tested', "        reading.next = start + ba_length(n, kind)\n",
     "        from .check import read_matrix\n        read_matrix(reading, _, n, n)\n        reading.next = start + ba_length(n, kind)\n"),
    ('proofs tested', "        kind = open_ballot(reading, n, k)\n        reading.next",
     "        from .check import read_ballot\n        kind, _m = read_ballot(reading, _, n, k)\n        reading.record -= 1\n        reading.next"),
    ('digest without the mark', "board[start:reading.next]", "board[start + 2:reading.next]"),
    ('digest without the frame', "board[start:reading.next]", "board[start + 4:reading.next]"),
    ('digest without the last byte', "board[start:reading.next]", "board[start:reading.next - 1]"),
    ('digest from the header on', "board[start:reading.next]", "board[:reading.next]"),
    ('digest of the first ballot', "board[start:reading.next]", "board[54:54 + ba_length(n, board[58])]"),
    ('first 16 bytes of a digest', "if other == digest:", "if other[:16] == digest[:16]:"),
    ('last 16 bytes of a digest', "if other == digest:", "if other[16:] == digest[16:]:"),
    ('ballots numbered from 0', "enumerate(held, 1)", "enumerate(held)"),
    ('low byte of a number', "            return number\n", "            return number % 256\n"),
    ('1 for none', "            return number\n    return 0\n", "            return number\n    return 1\n"),
    ('first of equal ones alone', "[number_of(digests[at:at + DIGEST], held)\n",
     "[number_of(digests[at:at + DIGEST], held) * (digests[at:at + DIGEST] != digests[at - DIGEST:at])\n"),
    ('last of equal ones alone', "[number_of(digests[at:at + DIGEST], held)\n",
     "[number_of(digests[at:at + DIGEST], held) * (digests[at:at + DIGEST] != digests[at + DIGEST:at + 2 * DIGEST])\n"),
    ('records numbered from 1', "self.record = 0", "self.record = 1"),
]


def early(receipts, board, digests):
    """The receipts of the first ballots that have all the digests, where there are some; else all."""
    wanted = {digests[at:at + 32] for at in range(0, len(digests), 32)}
    K = int.from_bytes(board[3:5], 'big')
    for k in range(1, K) if wanted and K <= 1000 else ():
        try:
            held = receipts(board[:3] + k.to_bytes(2, 'big') + board[5:])
        except Exception:
            break
        if wanted <= set(held):
            return held
    return receipts(board)
