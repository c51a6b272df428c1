"""What the tests of rollouts are given: a flag, its book, and plans for it."""

# Its book: the inputs lie on the points 0, 1, 4, 4, 6, 7 and 7 of 10, in another order.
BOOK = r"""{"book":1}
{"by":"{\"var\":[\"key\"]}","flag":"color","site":0}
""
"!"
"!C"
"!Ce"
"Hello, world!"
"The quick brown fox jumps over the lazy dog"
"test"
"""

EMPTY_BOOK = '{"book":1}\n'

# A flag whose operation has no bucketing expression, so that each input of its page is its key with a targeting key behind it.
KEYED = (
    '{"flags":{"color":{"state":"ENABLED","variants":{"red":"r","blue":"b"},"defaultVariant":"red",'
    '"targeting":{"fractional":[["red",5],["blue",5]]}}}}'
)
KEYED_PAGE = '{"by":null,"flag":"color","site":0}'

# The buckets of the flag in most tests.
FIVES = '["red",5],["blue",5]'


def document(buckets=FIVES, first="red", variants='"red":"r","blue":"b","green":"g"'):
    """The flag `color` with these buckets, this default variant and these variants."""
    targeting = f'{{"fractional":[{{"var":"key"}},{buckets}]}}'
    flag = f'{{"state":"ENABLED","variants":{{{variants}}},"defaultVariant":"{first}","targeting":{targeting}}}'
    return f'{{"flags":{{"color":{flag}}}}}'


def request(totals, more="", plan=1):
    """A request for these totals, and what more it has."""
    return f'{{"plan":{plan},"flag":"color","totals":{{{totals}}}{more}}}'


def forbid(*changes):
    """What forbids changes, as a member of a request behind its totals."""
    return ',"forbid":[' + ",".join(f'["{old}","{new}"]' for old, new in changes) + "]"


RED_GREEN = forbid(("red", "green"))

# Seven of ten are to be blue.
RED_3 = request('"red":3,"blue":7')

# Red may not become green, and six of ten are to be green; the same of the rule refined by 5; the same with ranges.
UNMET = request('"red":3,"blue":1,"green":6', RED_GREEN)
UNMET_BY_5 = request('"red":15,"blue":5,"green":30', RED_GREEN)
UNMET_RANGES = request('"red":[1,2],"blue":[1,8],"green":[6,7]', RED_GREEN, plan=2)

CHEAPEST = '[["red",2],["blue",2],["red",1],["blue",5]]'
GROUPS = '["blue",0,0],["blue",1,0],["blue",2,0],["red",0,0],["red",1,0],["red",2,0]'
NAMES = '["blue",0],["green",0],["red",0]'


def plan_of(alpha=GROUPS, rule=CHEAPEST, cost=0, beta=NAMES):
    """A plan of this rule, with these dual prices of the groups of points and of the names."""
    return f'{{"alpha":[{alpha}],"beta":[{beta}],"cost":{cost},"plan":1,"rule":{rule}}}'


# The plan that costs no recorded key a switch, for seven blue of ten.
FREE = plan_of()

# A request of the rule refined by 5 and a plan for it.
FINER = request('"red":23,"blue":27')
FINER_PLAN = plan_of(
    '["blue",0,0],["blue",1,0],["red",0,0],["red",1,0]',
    '[["red",21],["blue",1],["red",1],["blue",1],["red",1],["blue",25]]',
)


def none_of(*names):
    """The answer that no rule fits, with the names whose points have no place."""
    return '{"none":[' + ",".join(f'"{name}"' for name in names) + '],"plan":1}'


def none_under(*names):
    """The answer that no rule fits, with the names that are asked for more points than may become theirs."""
    return '{"none":[' + ",".join(f'"{name}"' for name in names) + '],"plan":2,"side":"under"}'
