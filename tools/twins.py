import re,glob,sys,collections
groups=collections.defaultdict(list)
for p in sorted(glob.glob('crates/*/src/*.rt')):
    for m in re.finditer(r'^( *)(?:pub )?(?:extern "C" )?(?:final )?fn (\w+).*?^\1\}', open(p).read(), re.S | re.M):
        text = re.sub(r'^\s*(requires|ensures|ghost)\b.*?(?=^\s*(requires|ensures|\{))', '', m.group(0), flags=re.S | re.M)
        text = re.sub(r'//.*', '', text)
        names = {}
        shape = [names.setdefault(t, len(names)) if re.match(r'[A-Za-z_0-9]', t) else t for t in re.findall(r'"[^"]*"|\w+|\S', text)]
        if len(shape) > 25: groups[tuple(shape)].append(p.split('/')[1] + '::' + m.group(2))
for g in groups.values():
    if len(g) > 1: print(len(g), ', '.join(g))
