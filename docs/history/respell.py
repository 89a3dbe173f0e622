"""Brings the repository's own definitions and lemmas to the spelling of Rattle's newer kits: words in snake case, types
and modules in camel case. Run once at the top of the repository, after the kit's port.py: with no argument it lists the
names and which of them would fall together, with `go` it writes them."""
import re,glob,sys,os
root='crates'  # run at the top of the repository, after port.py
files=[f for f in glob.glob(root+'/**/*',recursive=True) if f.endswith(('.antt','.rt','.edit')) and '/out/' not in f]
ident=r"[^\s(){}.;,«»⟦⟧∥]+"
defs=set()
for f in files:
    if not f.endswith('.antt'): continue
    for line in open(f):
        m=re.match(r"^\s*((?:abbrev|unfoldable)\s+)?(pub\s+)?(record\s+|data\s+)?("+ident+r")\s*(\(|:)",line)
        if not m: 
            m2=re.match(r"^\s*pub ("+ident+r") *$",line)
            if m2: defs.add(m2.group(1))
            continue
        n=m.group(4)
        if '-' not in n: continue
        if re.search(r":\s*goal\.",line): continue
        if re.match(r"^(invariant-loop|decreases-|loop-|returns|invariant-|overflow_|bounds-|ghosts-|slice_bounds)",n): continue
        defs.add(n)
defs={d for d in defs if '-' in d and '◌' not in d and re.match(r"^[A-Za-z][A-Za-z0-9_'\-]*$",d)}
def conv(n):
    if n[0].isupper():
        parts=n.split('-')
        return ''.join(p[:1].upper()+p[1:] for p in parts)
    return n.replace('-','_')
special={'commit-block':'commit_block_of','typed-number':'number_typed','head-fields':'fields_of_head','set-commit':'commit_set','step-tests':'tests_of_step','bad-line':'line_at_fault','format-place':'format_place_number','power-place':'power_place_number','row-place':'row_place_number','step-place':'step_place_number','codes-blocks':'blocks_of_codes','rows-blocks':'blocks_of_rows'}
defs={d for d in defs if not d.startswith('get_or-')}
mp={d:special.get(d,conv(d)) for d in defs}
alltok=set()
tok=re.compile(r"[A-Za-z][A-Za-z0-9_'\-]*")
texts={f:open(f).read() for f in files}
for t in texts.values(): alltok.update(tok.findall(t))
for d,n in sorted(mp.items()):
    if n in alltok: print('collision',d,n)
if len(sys.argv)>1 and sys.argv[1]=='go':
    for f,t in texts.items():
        nt=tok.sub(lambda m: mp.get(m.group(0),m.group(0)),t)
        if nt!=t: open(f,'w').write(nt)
print(len(mp))
for d in sorted(mp): print(d,mp[d])
