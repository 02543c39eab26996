"""The moves of chess, small and slow: what the checks compare moves with.

A position is (board, side, rights, passant): a list of 64 letters or None from a1 to h8, 'w' or
'b', a string of 'KQkq', and a square number or None.
"""

START = "rnbqkbnr/pppppppp/8/8/8/8/PPPPPPPP/RNBQKBNR w KQkq - 0 1"
ROOK = [(1, 0), (-1, 0), (0, 1), (0, -1)]
BISHOP = [(1, 1), (1, -1), (-1, 1), (-1, -1)]
KNIGHT = [(1, 2), (2, 1), (2, -1), (1, -2), (-1, -2), (-2, -1), (-2, 1), (-1, 2)]


def name(square):
    return "abcdefgh"[square % 8] + str(square // 8 + 1)


def square_of(text):
    return "abcdefgh".index(text[0]) + 8 * (int(text[1]) - 1)


def read_fen(text):
    fields = text.split()
    board = []
    for rank in reversed(fields[0].split("/")):
        for letter in rank:
            board += [None] * int(letter) if letter.isdigit() else [letter]
    rights = fields[2] if fields[2] != "-" else ""
    return board, fields[1], rights, None if fields[3] == "-" else square_of(fields[3])


def is_own(man, side):
    return man is not None and man.isupper() == (side == "w")


def steps(square, directions, far):
    """The squares in each direction, one list a direction."""
    for file_step, rank_step in directions:
        file, rank, line = square % 8 + file_step, square // 8 + rank_step, []
        while 0 <= file < 8 and 0 <= rank < 8:
            line.append(file + 8 * rank)
            if not far:
                break
            file, rank = file + file_step, rank + rank_step
        yield line


def is_attacked(board, square, by):
    pawn, up = ("P", -1) if by == "w" else ("p", 1)
    for file_step in (1, -1):
        for line in steps(square, [(file_step, up)], False):
            if any(board[at] == pawn for at in line):
                return True
    for men, directions, far in (
        ("N", KNIGHT, False),
        ("K", ROOK + BISHOP, False),
        ("RQ", ROOK, True),
        ("BQ", BISHOP, True),
    ):
        for line in steps(square, directions, far):
            for at in line:
                man = board[at]
                if man is not None:
                    if is_own(man, by) and man.upper() in men:
                        return True
                    break
    return False


def play(position, move):
    """The position after a move in coordinates, which need not be legal but has a man to move."""
    board, side, rights, passant = position
    board = list(board)
    start, goal = square_of(move[:2]), square_of(move[2:4])
    man = board[start]
    board[start] = None
    kind = man.upper()
    if kind == "P" and goal == passant:
        board[goal + (-8 if side == "w" else 8)] = None
    if kind == "K" and abs(goal - start) == 2:
        rook, lands = (goal + 1, goal - 1) if goal > start else (goal - 2, goal + 1)
        board[lands], board[rook] = board[rook], None
    if len(move) == 5:
        man = move[4].upper() if side == "w" else move[4].lower()
    board[goal] = man
    for square, right in ((0, "Q"), (4, "KQ"), (7, "K"), (56, "q"), (60, "kq"), (63, "k")):
        if square in (start, goal):
            rights = "".join(r for r in rights if r not in right)
    passant = (start + goal) // 2 if kind == "P" and abs(goal - start) == 16 else None
    return board, "b" if side == "w" else "w", rights, passant


def is_checked(position, side):
    board = position[0]
    king = board.index("K" if side == "w" else "k")
    return is_attacked(board, king, "b" if side == "w" else "w")


def pawn_tries(position, start):
    board, side, _, passant = position
    up = 8 if side == "w" else -8
    goals = []
    if board[start + up] is None:
        goals.append(start + up)
        if start // 8 == (1 if side == "w" else 6) and board[start + 2 * up] is None:
            goals.append(start + 2 * up)
    for at in sum(steps(start, [(1, up // 8), (-1, up // 8)], False), []):
        if at == passant or (board[at] is not None and not is_own(board[at], side)):
            goals.append(at)
    for goal in goals:
        for promotion in "qrbn" if goal // 8 in (0, 7) else [""]:
            yield name(start) + name(goal) + promotion


def castlings(position, start):
    board, side, rights, _ = position
    other = "b" if side == "w" else "w"
    for right, path, rook in (("K", (1, 2), 3), ("Q", (-1, -2), -4)):
        if (right if side == "w" else right.lower()) not in rights:
            continue
        first, last = (start + 1, start + rook) if rook > 0 else (start + rook + 1, start)
        if any(board[at] is not None for at in range(first, last)):
            continue
        if any(is_attacked(board, start + step, other) for step in (0,) + path):
            continue
        yield name(start) + name(start + path[1])


def tries(position):
    """Moves that a man can make, but for the safety of the king."""
    board, side = position[:2]
    for start, man in enumerate(board):
        if not is_own(man, side):
            continue
        kind = man.upper()
        if kind == "P":
            yield from pawn_tries(position, start)
            continue
        directions = {"N": KNIGHT, "B": BISHOP, "R": ROOK}.get(kind, ROOK + BISHOP)
        for line in steps(start, directions, kind in "BRQ"):
            for at in line:
                if not is_own(board[at], side):
                    yield name(start) + name(at)
                if board[at] is not None:
                    break
        if kind == "K":
            yield from castlings(position, start)


def legal_moves(position):
    side = position[1]
    return [move for move in tries(position) if not is_checked(play(position, move), side)]
