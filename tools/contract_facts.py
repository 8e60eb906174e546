#!/usr/bin/env python3
# Facts that the `requires` of three or more functions ask for, and runs of four parameters that three or more functions share: `tools/contract_facts.py`, at the top. Case programs are left out.
# A clause is split at its products and its parts are counted by their text; a fact said in other words is counted apart.
import re,glob,collections,sys
root=sys.argv[1] if len(sys.argv)>1 else '.'
facts=collections.Counter(); runs=collections.Counter(); where=collections.defaultdict(set)
for f in sorted(glob.glob(root+'/crates/*/src/**/*.rt',recursive=True)):
    if '_cases/' in f: continue
    s=open(f).read()
    for m in re.finditer(r'\bfn (\w+)(?:<[^(]*>)?\(([^{]*?)\)(?: -> [^{]*?)?\n((?:    (?:requires|ensures)[^\n]*\n(?:        [^\n]*\n)*)*)\s*\{',s):
        name,params,clauses=m.groups()
        ps=[re.sub(r'\s+',' ',p).strip().split(':')[0] for p in params.split(',') if ':' in p]
        for k in range(len(ps)-3): runs[tuple(ps[k:k+4])]+=1
        fs=set()
        for c in re.finditer(r'requires(?: \w+)? \{ (.*?) \}\n',clauses,re.S):
            for p in re.split(r' × ',c.group(1)):
                fs.add(re.sub(r'\s+',' ',p.strip('() ')))
        for x in fs: facts[x]+=1; where[x].add(f.split('/')[-3] if 0 else f)
n=[(c,x) for x,c in facts.items() if c>=3]
print('facts in three or more contracts:',len(n),'places:',sum(c for c,x in n))
for c,x in sorted(n,reverse=True):
    print(c,x)
r=[(c,x) for x,c in runs.items() if c>=3]
print('runs of four parameters shared by three or more functions:',len(r))
for c,x in sorted(r,reverse=True):
    print(c,' '.join(x))
