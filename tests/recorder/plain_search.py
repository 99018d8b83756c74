"""Which objects of a graph of owners leak, and the knots of these, by a plain search, with which that of
./record is compared. Objects are numbers from 1; owners are (from, to, label)."""
import collections


def lists_of(count: int, owners: list[tuple]) -> list[list[int]]:
    """For each object those that it owns."""
    nothing = []
    owns = [nothing] * (count + 1)
    for holder, to, _ in owners:
        if owns[holder] is nothing:
            owns[holder] = [to]
        else:
            owns[holder].append(to)
    return owns


def without_owners(owns, owned):
    """Those whose last owner has left, one after another. `owned` counts the owners on each, roots too."""
    ended = [number for number in range(1, len(owned)) if not owned[number]]
    for number in ended:  # (which grows)
        for to in owns[number]:
            owned[to] -= 1
            if not owned[to]:
                ended.append(to)
    return ended


def reached(owns: list[list[int]], roots: list[int]) -> set[int]:
    found = set(roots)
    todo = list(found)
    while todo:
        for to in owns[todo.pop()]:
            if to not in found:
                found.add(to)
                todo.append(to)
    return found


def verdicts(count: int, owners: list[tuple], roots: list[int]) -> list[str]:
    """By number, from 1: `kept`, `ended` or `leaked`."""
    owns, owned = lists_of(count, owners), [0] * (count + 1)
    for _, to, _ in owners:
        owned[to] += 1
    for to in roots:
        owned[to] += 1
    found = ["leaked"] * (count + 1)
    for number in reached(owns, roots):
        found[number] = "kept"
    for number in without_owners(owns, owned):
        found[number] = "ended"
    return found


def last_index(path, vertex):
    at = len(path) - 1
    while path[at] != vertex:
        at -= 1
    return at


def strong_parts(vertices, owns):
    """Tarjan's strongly connected parts, without recursion."""
    order, low, on_path = [0] * len(owns), [0] * len(owns), bytearray(len(owns))
    count, path, parts = 0, [], []
    for first in vertices:
        stack = []
        entered = 0 if order[first] else first
        while entered or stack:
            if entered:
                count += 1
                order[entered] = low[entered] = count
                on_path[entered] = 1
                path.append(entered)
                stack.append((entered, iter(owns[entered])))
            vertex, rest = stack[-1]
            entered = 0
            for to in rest:
                if not order[to]:
                    entered = to
                    break
                if on_path[to] and order[to] < low[vertex]:
                    low[vertex] = order[to]
            if not entered:
                stack.pop()
                if stack:
                    low[stack[-1][0]] = min(low[stack[-1][0]], low[vertex])
                if low[vertex] == order[vertex]:
                    at = last_index(path, vertex)
                    parts.append(path[at:])
                    for left in path[at:]:
                        on_path[left] = 0
                    del path[at:]
    return parts


def knots(verdict: list[str], owners: list[tuple]) -> list[tuple]:
    """The knots of the leaked, in the order of their least: (objects, ties, whether another object owns into
    it)."""
    leaked = [number for number in range(1, len(verdict)) if verdict[number] == "leaked"]
    inner = [owner for owner in owners if verdict[owner[0]] == verdict[owner[1]] == "leaked"]
    parts = [sorted(part) for part in strong_parts(leaked, lists_of(len(verdict) - 1, inner))]
    part_of = [0] * len(verdict)
    for at, part in enumerate(parts):
        for number in part:
            part_of[number] = at
    ties, is_owned = collections.defaultdict(list), set()
    for owner in inner:
        at = part_of[owner[1]]
        if part_of[owner[0]] == at:
            ties[at].append(owner)
        else:
            is_owned.add(at)
    found = [(part, ties[at], at in is_owned) for at, part in enumerate(parts) if at in ties]
    return sorted(found, key=lambda knot: knot[0][0])
