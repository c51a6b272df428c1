"""Checks a plan by docs/CERTIFICATES.md alone: check_plan.py DOC REQUEST BOOK PLAN [M] prints what is valid, or why it is not."""
import collections, json, sys

sys.excepthook = lambda kind, fault, trace: print(f"refused: {kind.__name__} {fault}")  # of files that are none; the status is 1


def demand(holds, why):
    holds or sys.exit(print(f"refused: {why}") or 1)


def murmur3(key, h=0, mask=0xFFFFFFFF):
    rotl = lambda k, bits: (k << bits | k >> 32 - bits) & mask
    for start in range(0, len(key), 4):
        h ^= rotl(int.from_bytes(key[start : start + 4], "little") * 0xCC9E2D51 & mask, 15) * 0x1B873593 & mask
        h = rotl(h, 13) * 5 + 0xE6546B64 & mask if start + 4 <= len(key) else h
    h = ((h := h ^ len(key)) ^ h >> 16) * 0x85EBCA6B & mask
    return (h := (h ^ h >> 13) * 0xC2B2AE35 & mask) ^ h >> 16


def placed(tree):  # a tree with its references replaced
    if isinstance(tree, dict):
        return placed(document["$evaluators"][tree["$ref"]]) if [*tree] == ["$ref"] else {name: placed(tree[name]) for name in tree}
    return [*map(placed, tree)] if isinstance(tree, list) else tree


def spelled(tree):  # an expression as it is printed; the arguments of each `fractional` join the sites
    if not isinstance(tree, dict) or len(tree) != 1:
        return [*map(spelled, tree)] if isinstance(tree, list) else tree
    [(name, given)], arguments = tree.items(), []
    sites.update({len(sites): arguments} if name == "fractional" else {})
    arguments += spelled(given if isinstance(given, list) else [given])
    arguments[:] = [[*part, 1] if name == "fractional" and isinstance(part, list) and len(part) == 1 else part for part in arguments]
    return {name: arguments}


document, request, plan = (json.load(open(path, encoding="utf-8"), parse_float=str) for path in (*sys.argv[1:3], sys.argv[4]))
flag, sites, at, inputs = document["flags"][request["flag"]], {}, None, []
spelled(placed(flag["targeting"]))
buckets, rule = sites[request.get("site", 0)], plan.get("rule", [])
by = None if isinstance(buckets[0], list) else json.dumps(buckets.pop(0), ensure_ascii=False, separators=(",", ":"), sort_keys=True)
for line in map(json.loads, open(sys.argv[3], encoding="utf-8", newline="\n")):
    at = line if isinstance(line, dict) else at
    inputs += [line] if line != at == {"by": by, "flag": request["flag"], "site": request.get("site", 0)} else []
whole, asked = (sum(weight for _, weight in part) for part in (buckets, rule))
factor = int(sys.argv[5]) if len(sys.argv) > 5 else (0 if asked % whole else asked // whole) or 1
demand(0 < whole * factor <= 1_000_000 and ("none" in plan or asked == whole * factor), "the totals of the two rules")
old, new = ([name for name, weight in part for _ in range(weight * times)] for part, times in ((buckets, factor), (rule, 1)))
users = collections.Counter(murmur3(text.encode()) * len(old) >> 32 for text in inputs)
limits = {name: (0, 0) for name in flag["variants"]} | {name: n if isinstance(n, list) else (n, n) for name, n in request["totals"].items()}
fits = sum(low for low, _ in limits.values()) <= len(old) <= sum(high for _, high in limits.values())
demand(fits and {*old, *limits} == {*flag["variants"]}, "the totals do not sum to the points, or a name is no variant")
forbidden, prices = {*map(tuple, request.get("forbid", []))}, {(name, to): n for name, to, n in request.get("prices", [])}
allowed = {name: {to for to in limits if to == name or (name, to) not in forbidden} for name in limits}
price = lambda name, to: 0 if name == to else prices.get((name, to), request.get("price", 1))
if "none" in plan:
    names = {*plan["none"]} & {*limits}
    demand(plan["none"] == sorted(names) and (plan["plan"], plan.get("side")) in ((1, None), (2, "under")), "the names are no set of variants")
    over = sum(name in names for name in old) > sum(limits[to][1] for to in set().union(*(allowed[name] for name in names)))
    under = sum(limits[name][0] for name in names) > sum(not names.isdisjoint(allowed[name]) for name in old)
    sys.exit(demand(over if plan["plan"] == 1 else under, "the set of names is not deficient") or print("valid none"))
demand(all(type(part) in (str, int) for row in plan["alpha"] + plan["beta"] + rule for part in row), "a number is not whole")
demand(all(one[1] > 0 and one[0] != two[0] for one, two in zip(rule, rule[1:] + [[None]])), "a weight of 0, or neighbours of one name")
totals, groups = collections.Counter(new), collections.Counter((name, users[point]) for point, name in enumerate(old))
demand(all(low <= totals[name] <= high for name, (low, high) in limits.items()), "a total is beyond its limits")
demand(all(to in allowed[name] for name, to in zip(old, new)), "a point makes a forbidden change")
demand([tuple(row[:2]) for row in plan["alpha"]] == sorted(groups) and [row[0] for row in plan["beta"]] == sorted(limits), "the groups")
alpha, beta = {(name, count): n for name, count, n in plan["alpha"]}, dict(plan["beta"])
demand(all(alpha[a, n] + beta[to] <= n * price(a, to) for a, n in groups for to in allowed[a]), "a change costs less than its numbers")
least = {name: low * max(beta[name], 0) + high * min(beta[name], 0) for name, (low, high) in limits.items()}
bound = sum(alpha[group] * groups[group] for group in groups) + sum(least.values())
cost = sum(users[point] * price(old[point], new[point]) for point in range(len(old)))
demand(bound == cost == plan["cost"], f"the numbers sum to {bound}, the rule costs {cost}, the plan says {plan['cost']}")
print(f"valid cost {cost}")
