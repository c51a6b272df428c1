"""The library beside the program on rollouts: drawn documents, requests and note lines have the same tallies, plans, verdicts and documents.
plans.py LIBRARY PROGRAM [COUNT]"""
import ctypes, json, os, random, re, subprocess, sys, tempfile

library, program = ctypes.CDLL(os.path.abspath(sys.argv[1])), os.path.abspath(sys.argv[2])
count = int(sys.argv[3]) if len(sys.argv) > 3 else 150
draw = random.Random(int(os.environ.get('SEED', '20260102')))

NO_RULE = 9
# What the number of a refusal has behind it, by the call that the program's line names. A verdict is of the request or of the check.
BEHIND = {'plan': {50}, 'tally': {70}, 'read_tally': {80}, 'read_book': {80}, 'read_planned': {90}, 'print_planned': {90}, 'read_flags': {10}, 'verify': {50, 100}, 'apply': {50, 100}}


def called(name, *files, writes=True):
    """The number of a call, and what it writes."""
    words = [word for data in files for word in (data, ctypes.c_size_t(len(data)))]
    if not writes:
        return getattr(library, f'flagops_{name}')(*words), b''
    room = draw.choice([0, 100, 1 << 20])
    for _ in range(2):
        out, written = ctypes.create_string_buffer(room), ctypes.c_size_t()
        number = getattr(library, f'flagops_{name}')(*words, out, ctypes.c_size_t(room), ctypes.byref(written))
        if number != 3:
            break
        assert out.raw == bytes(room), 'a room that is too small is left alone'
        room = written.value
    return number, out.raw[:written.value] if number in (0, NO_RULE) else b''


def ran(folder, *words, given=b''):
    """The status and the output of the program."""
    done = subprocess.run([program, *words], cwd=folder, input=given, capture_output=True, check=False)
    return done.returncode, done.stdout


def differs(ours, theirs, what):
    """Whether they are not the same: a text, that there is no rule, or the number of a refusal."""
    (number, text), (status, told) = ours, theirs
    if status == 1:
        refused = re.match(rb'refused (\w+) (\d+)', told)
        wanted = {base + int(refused[2]) for base in BEHIND[refused[1].decode()]}
        if number in wanted:
            return 0
    elif (number, text) == ({0: 0, 3: NO_RULE}[status], told):
        return 0
    print('not the same:', what, ours, theirs, file=sys.stderr)
    return 1


def buckets(names):
    chosen = [draw.choice(names) for _ in range(draw.randrange(1, 5))]
    return [[name, draw.randrange(0, 20)] for name in chosen] if draw.random() < .9 else [[names[0], {'var': 'v'}]]


def document(names):
    by = [{'cat': [{'var': '$flagd.flagKey'}, {'var': 'targetingKey'}]}] if draw.random() < .3 else []
    rule = {'fractional': by + buckets(names)}
    shape = draw.randrange(4)
    targeting = [rule, {'if': [{'==': [{'var': 'v'}, 1]}, names[0], rule]}, {'if': [{'var': 'v'}, {'fractional': buckets(names)}, rule]}, names[0]][shape]
    flags = {'f': {'state': 'ENABLED', 'variants': {name: name for name in names}, 'defaultVariant': names[0], 'targeting': targeting}}
    if draw.random() < .1:
        del flags['f']['variants']
    return json.dumps({'flags': flags}, indent=draw.choice([None, 1]), ensure_ascii=draw.random() < .5).encode()


def site_of(data):
    return 1 if b'"var": "v"}, {"fractional"' in data and draw.random() < .5 else 0


def request(names, weight, site):
    low = draw.randrange(0, weight + 1)
    totals = {names[0]: low, names[-1]: weight - low} if draw.random() < .9 else {names[0]: weight, 'gone': 0}
    more = {'forbid': [[names[0], names[-1]]]} if draw.random() < .3 and names[0] != names[-1] else {}
    flag = 'f' if draw.random() < .95 else 'g'
    return json.dumps({'plan': 1, 'flag': flag, 'site': site, 'totals': totals, **more}).encode() if draw.random() < .97 else b'{}'


def lines(data, site):
    """Note lines of what the flag reaches, as the program records them, and some that are others'."""
    asks = b''.join(json.dumps({'targetingKey': f'u{draw.randrange(500)}', 'v': draw.randrange(3)}).encode() + b'\n' for _ in range(draw.randrange(60)))
    with tempfile.TemporaryDirectory() as folder:
        with open(os.path.join(folder, 'flags'), 'wb') as file:
            file.write(data)
        status, told = ran(folder, 'record', 'flags', 'f', given=asks)
    notes = set(told.splitlines(True)) if status == 0 else set()
    notes |= {json.dumps(['h', site, None, f'h{i}'], separators=(',', ':')).encode() + b'\n' for i in range(draw.randrange(3))}
    notes = sorted(notes)
    if draw.random() < .1:
        notes.insert(draw.randrange(len(notes) + 1), draw.choice([b'x\n', b'\n', b'["f",0,null,"fa"]\n']))
    return b''.join(notes) + draw.choice([b'', b'', b'["f"'])


def one(folder):
    names = draw.sample(['on', 'off', 'é', 'blue'], draw.randrange(1, 4))
    data = document(names)
    weight = sum(w for rule in re.findall(rb'"fractional": \[.*?\]\]', data.replace(b'\n', b''), re.S)[-1:] for w in map(int, re.findall(rb', +(\d+)\]', rule)))
    site = site_of(data)
    asked, notes = request(names, weight, site), lines(data, site)
    files = {'flags': data, 'request': asked}

    def put():
        for name, content in files.items():
            with open(os.path.join(folder, name), 'wb') as file:
                file.write(content)

    put()
    ours = called('tally', data, asked, notes)
    wrong = 0
    if b'"flag": "f"' in asked:
        wrong += differs(ours, ran(folder, 'tally', 'flags', 'f', str(site), given=notes), ('tally', files, notes))
    files['tally'] = ours[1] if ours[0] == 0 else b'{"tally":1}\n{"by":null,"first":null,"flag":"f","inputs":0,"last":null,"site":0,"total":10}\n'
    put()
    ours = called('plan', data, asked, files['tally'])
    wrong += differs(ours, ran(folder, 'plan', 'flags', 'request', 'tally'), ('plan', files))
    files['plan'] = ours[1] or b'{"none":["on"],"plan":1}'
    if draw.random() < .2:
        files['plan'] = files['plan'].replace(b'"cost":0', b'"cost":1')
    put()
    ours, (status, told) = called('verify', data, asked, files['tally'], files['plan'], writes=False), ran(folder, 'verify', 'flags', 'request', 'tally', 'plan')
    wrong += differs(ours, (status, told if status else b''), ('verify', files))
    ours = called('apply', data, asked, files['tally'], files['plan'])
    theirs = ran(folder, 'apply', '--keep', 'flags', 'plan', 'request', 'tally')
    if theirs[0] == 3:
        theirs = (3, b'')
    if theirs[1].startswith(b'refused apply 14 '):
        theirs = (1, theirs[1].replace(b' 14 ', b' 11 '))
    return wrong + differs(ours, theirs, ('apply', files))


def main():
    wrong = 0
    with tempfile.TemporaryDirectory() as folder:
        for _ in range(count):
            wrong += one(folder)
    print(f'{count} rollouts compared, {wrong} differ')
    return wrong != 0


sys.exit(main())
