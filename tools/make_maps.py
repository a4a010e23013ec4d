#!/usr/bin/env python3
# Known answers of persist_map, from Python's dicts, sorted lists and bisect. See README.md.
import os
from bisect import bisect_left, bisect_right

MASK = 2**64 - 1
def key(order, place): return (place * order[1] % order[0]) * 2 + 1
def value(k): return k * 3 + 7
def digest(pairs, count=0, total=0):
    for k, v in pairs:
        count += 1
        total = (((total * 31 + k) & MASK) * 31 + v) & MASK
    return count, total
def show(d): return f"{d[0]} {d[1]}"
def mixed(count):
    if count < 2: return 1
    # a step near the golden section of the count that reaches each place
    from math import gcd
    step = max(1, int(count * 0.618))
    while gcd(step, count) != 1: step += 1
    return step
def steps(count): return {"ascending": 1, "descending": max(count - 1, 1), "mixed": mixed(count)}

COUNTS = [0, 1, 63, 64, 65, 129, 1023, 1024, 1025, 5000]
def edges(count):
    # below all, above all, and both sides of the places where a part may begin or end
    places = {0, 1, 31, 32, 33, 63, 64, 65, 128, 511, 512, 1023, 1024, count // 2, count - 2, count - 1}
    keys = {0, 2 * count, 2 * count + 1}
    for p in places:
        if 0 <= p < count: keys |= {2 * p, 2 * p + 1}
    return sorted(keys)

def data(name): return open(os.path.join(os.path.dirname(__file__), "../crates/known_answers/data", name), "w")

with data("maps.txt") as f:
    print("# Maps that share: each key is an odd number, its value 3 * key + 7.", file=f)
    print("#\n# The keys of an order of COUNT and STEP are 2 * (i * STEP mod COUNT) + 1 for i from 0 to COUNT - 1. A digest is the"
        "\n# number of pairs and a sum: from 0, times 31 plus the key, times 31 plus the value, modulo 2 ^ 64."
        "\n#\n# made | COUNT | STEP | how many keys are then removed | STEP of their order | keys"
        "\n#     | length, whether it is empty, digest; and of each key the digest of the pairs from it on, and its value or `-`"
        "\n# changed | COUNT | STEP | key | value | digest of the map; of the one with the pair; of the one without the key; of an equal one;"
        "\n#     and how many pairs the second and the third have"
        "\n# behind | COUNT | STEP | keys | digest of all pairs behind no key; and of each key that of the pairs above it, and of those behind it"
        "\n# nested | COUNT | STEP | divisor | how many maps there are of keys with one rest, and the digest of all their pairs, by rising rest"
        "\n#\n# Made by tools/make_maps.py.", file=f)
    for count in COUNTS:
        for step in dict.fromkeys(steps(count).values()):
            order = (count, step)
            made = {key(order, i): value(key(order, i)) for i in range(count)}
            removals = [(0, 1)]
            if count > 0:
                removals += [(1, 1), (count, count - 1 or 1), (count // 2, mixed(count))]
            for removed, rstep in dict.fromkeys(removals):
                left = dict(made)
                for i in range(removed): left.pop(key((count, rstep), i))
                keys = sorted(left)
                words = [f"{len(left)} {str(not left).lower()} " + show(digest((k, left[k]) for k in keys))]
                for e in edges(count):
                    words.append(show(digest((k, left[k]) for k in keys[bisect_left(keys, e):])) + f" {left.get(e, '-')}")
                print(f"made | {count} | {step} | {removed} | {rstep} | {', '.join(map(str, edges(count)))} | {'; '.join(words)}", file=f)
            keys = {count // 2 * 2 + 1, 2 * count}
            if count < 1000: keys |= {0, 1, count // 2 * 2, max(2 * count - 1, 0)}
            for k in sorted(keys):
                def sorted_digest(m): return show(digest((k, m[k]) for k in sorted(m)))
                with_key = dict(made); with_key[k] = 5
                without = dict(made); without.pop(k, None)
                print(f"changed | {count} | {step} | {k} | 5 | {sorted_digest(made)}; {sorted_digest(with_key)}; {sorted_digest(without)}; {sorted_digest(made)} {len(with_key)} {len(without)}", file=f)
            words = [show(digest((k, made[k]) for k in sorted(made)))]
            for e in edges(count):
                d = show(digest((k, made[k]) for k in sorted(made)[bisect_right(sorted(made), e):]))
                words.append(f"{d} {d}")
            print(f"behind | {count} | {step} | {', '.join(map(str, edges(count)))} | {'; '.join(words)}", file=f)
            for groups in [7] if step == mixed(count) else []:
                rests = {}
                for k in made: rests.setdefault(k % groups, {})[k] = made[k]
                d = (0, 0)
                for r in sorted(rests): d = digest(((k, rests[r][k]) for k in sorted(rests[r])), *d)
                print(f"nested | {count} | {step} | {groups} | {len(rests)} {show(d)}", file=f)

# Groups: a dict of dicts, without those that are empty.
def put(groups, k, place, v): groups.setdefault(k, {})[place] = v
def take(groups, k, place):
    group = groups.get(k, {})
    group.pop(place, None)
    if not group: groups.pop(k, None)
def copy(groups): return {k: dict(group) for k, group in groups.items()}
def key_of(divisor, place): return place // 2 % divisor * 2 + 1
def pairs_of(groups, k, after=-1):
    group = groups.get(k, {})
    places = sorted(group)
    return [(place, group[place]) for place in places[bisect_right(places, after):]]
def whole(groups, last):
    d = (0, 0)
    for k in range(last + 1): d = digest([(k, len(groups.get(k, {})))] + pairs_of(groups, k), *d)
    return show(d)

# how many places there are, and in how many groups: one of about as many as a part may have, about as many of one, and some of some
GROUPS = [(0, 1), (1, 1), (2, 1), (2, 2), (7, 3), (7, 7), (63, 1), (64, 1), (65, 1), (65, 65), (129, 2), (300, 7), (1023, 1), (1024, 1),
          (1025, 1), (1023, 1023), (1024, 1024), (1025, 1025), (2049, 2), (3000, 40)]
def key_edges(divisor):
    # below all, above all, and both sides of the first groups, of the last ones and of those in the middle
    middle = divisor // 2 * 2
    return sorted({0, 1, 2, 3, middle, middle + 1, 2 * divisor - 1, 2 * divisor})
def place_edges(count):
    # as those of maps, but fewer, since each is asked of each key
    places = {0, 1, 31, 32, 63, 64, 512, 1023, 1024, count // 2, count - 1}
    near = {0, 2 * count}
    for p in places:
        if 0 <= p < count: near |= {2 * p, 2 * p + 1}
    return sorted(near)

with data("groups.txt") as f:
    print("# Groups of values that are shared: each place is an odd number, its value 3 * place + 7, and the keys of the groups are odd."
        "\n#\n# The places of an order of COUNT and STEP are 2 * (i * STEP mod COUNT) + 1 for i from 0 to COUNT - 1, and the key of the group of"
        "\n# a place is 2 * (place div 2 mod DIVISOR) + 1. A digest is the number of pairs and a sum: from 0, times 31 plus the place, times 31"
        "\n# plus the value, modulo 2 ^ 64. That of all groups has them by rising key, from 0 to 2 * DIVISOR: before the pairs of each key"
        "\n# stands one more, of the key and of how many they are."
        "\n#\n# grouped | COUNT | STEP | DIVISOR | how many places are then taken out | STEP of their order | keys | places"
        "\n#     | of each key the digest of its group, how many pairs it has, the digest of those behind no place, and of those behind each place"
        "\n# changed | COUNT | STEP | DIVISOR | key | place | value | digest of all groups; of those with the value of the key at the place; of"
        "\n#     those without the value of the key at the place; of equal ones; and how many pairs of the key the second and the third have"
        "\n# shared | TEXT | how many keys, from 0 on, have the text in a map | from which key on another map has it | keys"
        "\n#     | of each key the text of the first and of the second, or `-`; and how many keys these have"
        "\n#\n# Made by tools/make_maps.py.", file=f)
    for count, divisor in GROUPS:
        for step in dict.fromkeys(steps(count).values()):
            order = (count, step)
            made = {}
            for i in range(count): put(made, key_of(divisor, key(order, i)), key(order, i), value(key(order, i)))
            # none; the first, with the last place of its group where it has no other; all, from the last on; all but one; half
            removals = [(0, 1)]
            if count > 0: removals += [(1, 1), (count, count - 1 or 1), (count - 1, mixed(count)), (count // 2, mixed(count))]
            if count > 1000: removals = removals[:1] + removals[2:4]
            for removed, rstep in dict.fromkeys(removals):
                left = copy(made)
                for i in range(removed): take(left, key_of(divisor, key((count, rstep), i)), key((count, rstep), i))
                words = []
                for k in key_edges(divisor):
                    own = show(digest(pairs_of(left, k)))
                    parts = [f"{own} {len(left.get(k, {}))}", own] + [show(digest(pairs_of(left, k, p))) for p in place_edges(count)]
                    words.append(", ".join(parts))
                print(f"grouped | {count} | {step} | {divisor} | {removed} | {rstep} | {', '.join(map(str, key_edges(divisor)))} | "
                      f"{', '.join(map(str, place_edges(count)))} | {'; '.join(words)}", file=f)
            if count > 1000 and (step != mixed(count) or divisor in (1023, 1025)): continue
            # a key that is there and one that isn't; its first and last places, one between two, those of other groups, and those beyond
            middle = key_of(divisor, count // 2 * 2 + 1)
            own = [place for place, _ in pairs_of(made, middle)] or [1]
            tried = list(dict.fromkeys([(middle, own[0]), (middle, own[0] - 1), (middle, own[-1]), (middle, own[len(own) // 2]),
                (middle, 2 * count), (middle, 1), (0, 1), (1, 1), (2 * divisor, own[0]), (middle - 1, own[-1])]))
            for k, place in tried[::2] if count > 1000 else tried:
                with_value, without = copy(made), copy(made)
                put(with_value, k, place, 5); take(without, k, place)
                all_of = [whole(groups, 2 * divisor) for groups in (made, with_value, without, made)]
                print(f"changed | {count} | {step} | {divisor} | {k} | {place} | 5 | {'; '.join(all_of)} "
                      f"{len(with_value.get(k, {}))} {len(without.get(k, {}))}", file=f)
    for text, count, first in [("''", 1, 0), ("a", 1, 1), ("one text", 2, 1), ("one text", 3, 0), ("one text", 65, 64), ("ÄÖ€𝄞", 1025, 1024),
                               ("one text", 1025, 1025), ("x" * 300, 1500, 700), ("one text", 0, 0)]:
        keys = sorted({0, 1, max(first - 1, 0), first, count // 2, max(count - 1, 0), count})
        holders = {k: text for k in range(count)}
        words = []
        for k in keys: words += [holders.get(k, "-"), holders[k] if first <= k < count else "-"]
        print(f"shared | {text} | {count} | {first} | {', '.join(map(str, keys))} | {' '.join(words)} {count} {max(count - first, 0)}", file=f)
