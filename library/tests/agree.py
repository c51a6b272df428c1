"""The library beside the program: drawn documents, contexts and fallbacks resolve to the same, and reach the same inputs.
agree.py LIBRARY PROGRAM [COUNT [ASKS]]: COUNT documents, each asked once by `resolve` and ASKS times by `drive`."""
import ctypes, json, os, random, subprocess, sys, tempfile

library, program = ctypes.CDLL(os.path.abspath(sys.argv[1])), os.path.abspath(sys.argv[2])
count = int(sys.argv[3]) if len(sys.argv) > 3 else 300
asks = int(sys.argv[4]) if len(sys.argv) > 4 else 5
draw = random.Random(int(os.environ.get('SEED', '20260101')))

REASONS = ['STATIC', 'DEFAULT', 'TARGETING_MATCH', 'DISABLED', 'ERROR']
CODES = [None, 'PROVIDER_NOT_READY', 'FLAG_NOT_FOUND', 'PARSE_ERROR', 'TYPE_MISMATCH', 'INVALID_CONTEXT', 'GENERAL']
KINDS = ['bool', 'text', 'whole', 'object']


class Seat(ctypes.Structure):
    _fields_ = [('address', ctypes.c_void_p), ('held', ctypes.c_bool)]


class Details(ctypes.Structure):
    _fields_ = [('reason', ctypes.c_uint32), ('code', ctypes.c_uint32), ('value', ctypes.c_size_t), ('has_variant', ctypes.c_bool)]


def sized(data):
    return data, ctypes.c_size_t(len(data))


def resolved(seat, key, kind, fallback, context, moment):
    """The members that the program prints, but for what was reached; or the number of the refusal."""
    out, written, details = ctypes.create_string_buffer(1 << 16), ctypes.c_size_t(), Details()
    number = library.flagops_resolve(ctypes.byref(seat), *sized(key), ctypes.c_uint32(kind), *sized(fallback), *sized(context),
                                     ctypes.c_uint64(moment), out, ctypes.c_size_t(len(out)), ctypes.byref(written), ctypes.byref(details))
    if number:
        return number
    text = out.raw[:written.value]
    variant = text[details.value:].decode() if details.has_variant else None
    return {'code': CODES[details.code], 'reason': REASONS[details.reason], 'value': text[:details.value], 'variant': variant}


def value(depth=2):
    pick = draw.randrange(8 if depth else 5)
    if pick == 0:
        return draw.choice([True, False])
    if pick == 1:
        return draw.randrange(-9, 99)
    if pick in (2, 3):
        return draw.choice(['', 'a', 'b', 'é', 'on', 'ann@example.com', '1.2.3'])
    if pick == 4:
        return None
    if pick == 5:
        return [value(depth - 1) for _ in range(draw.randrange(3))]
    return {draw.choice(['a', 'email', 'v']): value(depth - 1) for _ in range(draw.randrange(3))}


def rule(depth=3):
    pick = draw.randrange(9 if depth else 2)
    if pick == 0:
        return draw.choice(['on', 'off', 'a', 'on', 'off', None, True, 3])
    if pick == 1:
        return {'var': draw.choice(['targetingKey', 'email', 'v', 'v.a', '$flagd.flagKey'])}
    if pick in (2, 3):
        by = [rule(depth - 1)] if draw.random() < .3 else []
        return {'fractional': by + [[draw.choice(['on', 'off', 'a']), draw.randrange(0, 9)] for _ in range(draw.randrange(1, 4))]}
    if pick == 4:
        return {'if': [rule(depth - 1) for _ in range(draw.randrange(1, 5))]}
    return {draw.choice(['==', '!=', '<', 'in', 'and', 'or', 'starts_with', 'ends_with', 'cat', '+', 'nope']): [rule(depth - 1), rule(depth - 1)]}


def document():
    flags, kinds = {}, {}
    for key in draw.sample(['a', 'b', 'é', 'checkout', 'x y'], draw.randrange(1, 5)):
        kind = kinds[key] = draw.randrange(4)
        of_kind = [lambda: draw.choice([True, False]), lambda: draw.choice(['s', 'é']), lambda: draw.randrange(9), lambda: {'k': draw.randrange(9)}][kind]
        flag = {'state': draw.choice(['ENABLED'] * 9 + ['DISABLED', 'OFF']), 'variants': {name: of_kind() for name in draw.sample(['on', 'off', 'a', 'true'], draw.randrange(1, 5))}}
        if draw.random() < .8:
            flag['defaultVariant'] = draw.choice(list(flag['variants']) + ['gone'] * (draw.random() < .1))
        if draw.random() < .8:
            flag['targeting'] = rule()
        flags[key] = flag
    return json.dumps({'flags': flags}, ensure_ascii=draw.random() < .5).encode(), kinds


def notes(seat):
    """The places and inputs of the note lines that are kept, which are taken."""
    out, written = ctypes.create_string_buffer(1 << 20), ctypes.c_size_t()
    assert library.flagops_notes(ctypes.byref(seat), out, ctypes.c_size_t(len(out)), ctypes.byref(written)) == 0
    lines = [json.loads(line) for line in out.raw[:written.value].decode().splitlines()]
    return sorted((key, site, text) for key, site, _, text in lines)


def told(line):
    """The same of a line that the program prints, and the places and inputs that it reached."""
    members, begun = json.loads(line), b'"value":'
    members['value'] = line[line.index(begun) + len(begun):line.rindex(b',"variant":')]
    return members, [(site, text) for site, text, _ in members.pop('reached') if len(text.encode()) <= 1024]


def compare(ours, noted, key, line, what):
    """Whether they are the same."""
    theirs, reached = told(line)
    if theirs == ours and noted == sorted({(key, site, text) for site, text in reached}):
        return 0
    print('not the same:', *what, ours, noted, line, file=sys.stderr)
    return 1


def ask_for(kinds):
    key = draw.choice(list(kinds) * 3 + ['gone'])
    context = {**{name: value() for name in draw.sample(['email', 'v'], draw.randrange(3))}, 'targetingKey': draw.choice(['ann', 'bob', 'é', str(draw.randrange(999))])}
    kind = kinds.get(key, 0) if draw.random() < .8 else draw.randrange(4)
    return {'key': key, 'want': KINDS[kind], 'default': value(), 'context': context, 'moment': draw.randrange(1 << 31)}


def by_resolve(seat, opened, kinds, folder):
    """One ask, of which any part may be refused."""
    ask = ask_for(kinds)
    context = json.dumps(ask['context'] if draw.random() < .9 else value()).encode() if draw.random() < .95 else b'{'
    fallback = json.dumps(ask['default']).encode() if draw.random() < .95 else draw.choice([b'1.5', b'x'])
    with open(os.path.join(folder, 'context'), 'wb') as file:
        file.write(context)
    ours = resolved(seat, ask['key'].encode(), KINDS.index(ask['want']), fallback, context, ask['moment'])
    words = [program, 'resolve', '--', 'flags', ask['key'], ask['want'], fallback.decode(), 'context', str(ask['moment'])]
    done, noted = subprocess.run(words, cwd=folder, capture_output=True), notes(seat)
    if done.returncode == 0:
        return compare(ours, noted, ask['key'], done.stdout, (ask, context, fallback))
    if isinstance(ours, int) or opened:
        return 0
    print('refused by the program alone:', ask, context, fallback, ours, done.stdout, file=sys.stderr)
    return 1


def by_drive(seat, kinds, folder):
    """Many asks, by the same seat."""
    drawn = [ask_for(kinds) for _ in range(asks)]
    with open(os.path.join(folder, 'asks'), 'w') as file:
        json.dump(drawn, file)
    done = subprocess.run([program, 'drive', '--replace', 'flags', 'asks', '1', 'book'], cwd=folder, capture_output=True, check=True)
    wrong, lines = 0, done.stdout.splitlines()
    for ask, line in zip(drawn, lines[:asks], strict=True):
        text = json.dumps(ask['context']).encode()
        ours = resolved(seat, ask['key'].encode(), KINDS.index(ask['want']), json.dumps(ask['default']).encode(), text, ask['moment'])
        wrong += compare(ours, notes(seat), ask['key'], line, (ask,))
    return wrong


def main():
    wrong = 0
    with tempfile.TemporaryDirectory() as folder:
        for _ in range(count):
            seat, (data, kinds) = Seat(), document()
            with open(os.path.join(folder, 'flags'), 'wb') as file:
                file.write(data)
            assert library.flagops_new(ctypes.byref(seat)) == 0 and library.flagops_record(ctypes.byref(seat), ctypes.c_size_t(1 << 20)) == 0
            opened = library.flagops_open(ctypes.byref(seat), *sized(data))
            wrong += by_resolve(seat, opened, kinds, folder)
            wrong += by_drive(seat, kinds, folder) if opened == 0 else 0
            library.flagops_close(ctypes.byref(seat))
    print(f'{count * (1 + asks)} resolutions compared, {wrong} differ')
    return wrong != 0


sys.exit(main())
