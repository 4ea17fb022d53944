#!/usr/bin/env python3
"""sides.py ROOT OLD: public functions, types, definitions and named theorems that changed since the commit OLD, old and new side by side."""
import subprocess,re,sys,pathlib
root=pathlib.Path(sys.argv[1]); old=sys.argv[2]
def git(*a): return subprocess.check_output(['git','-C',str(root),*a],text=True)
def files(rev):
    if rev is None: l=git('ls-files','crates').split('\n')
    else: l=git('ls-tree','-r','--name-only',rev,'crates').split('\n')
    return [f for f in l if f]
def read(rev,f):
    if rev is None: return (root/f).read_text()
    return git('show',rev+':'+f)
def rt_items(s):
    """public functions, types: name -> text"""
    out={}
    lines=s.split('\n'); i=0; ctx=''
    while i<len(lines):
        l=lines[i]
        m=re.match(r"impl(<[^>]*>)? (.*) \{\s*$",l)
        if m: ctx=m.group(2).strip()
        if l=='}': ctx=''
        m=re.match(r"(\s*)pub (?:const )?fn (\w+)",l)
        if m:
            ind=m.group(1); j=i; t=[]
            while True:
                x=lines[j]
                if x.rstrip()==ind+'{' : break
                if j==i and x.rstrip().endswith('{') and x.count('(')==x.count(')') :
                    t.append(x.rstrip()[:-1].rstrip()); break
                t.append(x)
                if x.rstrip().endswith(';') and j>i: break
                if x.rstrip()==ind+') {' : t[-1]=ind+')'; break
                m2=re.match(re.escape(ind)+r"\) -> .*\{$",x.rstrip())
                if m2: t[-1]=x.rstrip()[:-1].rstrip(); break
                j+=1
                if j-i>40: break
            out['fn '+(ctx+'::' if ctx else '')+m.group(2)]='\n'.join(y.strip() if k==0 else y[len(ind):] for k,y in enumerate(t)).strip(); i=j+1; continue
        m=re.match(r"pub (struct|enum|trait|type) (\w+)",l)
        if m:
            t=[l]; j=i
            if not l.rstrip().endswith(';'):
                while lines[j]!='}': 
                    j+=1; t.append(lines[j])
            out[m.group(1)+' '+m.group(2)]='\n'.join(x for x in t if not x.strip().startswith('//')).strip(); i=j+1; continue
        i+=1
    return out
def antt_items(s):
    out={}
    lines=s.split('\n'); i=0; mod=''
    while i<len(lines):
        l=lines[i]
        m=re.match(r"(\s*)(?:(abbrev|unfoldable) )?pub (?:(record|data) )?([^\s:({]+)",l)
        if m and not re.match(r"\s*pub (mod|use)",l) and not l.strip().startswith('--'):
            ind=len(m.group(1)); t=[l]; j=i+1
            while j<len(lines) and lines[j].strip()!='' and not (lines[j].strip().startswith('--') and len(lines[j])-len(lines[j].lstrip())<=ind):
                # next declaration at same indentation
                if len(lines[j])-len(lines[j].lstrip())==ind and re.match(r"\s*((abbrev|unfoldable) )?pub ",lines[j]): break
                t.append(lines[j]); j+=1
            out[m.group(4)]='\n'.join(t).rstrip(); i=j; continue
        i+=1
    return out
def crate(f): return f.split('/')[1]
def table(sel,parse):
    a={}; b={}
    for rev,d in ((old,a),(None,b)):
        for f in files(rev):
            if sel(f):
                for k,v in parse(read(rev,f)).items(): d.setdefault((crate(f),k),[]).append((f,v))
    return a,b
def norm(x): return re.sub(r"\s+"," ",x)
def emit(title,a,b,progs=()):
    keys=[]
    for k in list(a)+[k for k in b if k not in a]:
        if k[0] in progs: continue
        va=[v for f,v in a.get(k,[])]; vb=[v for f,v in b.get(k,[])]
        if sorted(map(norm,va))!=sorted(map(norm,vb)): keys.append(k)
    order=[l.split(':')[0].split()[0] for l in (root/'crates.txt').read_text().split('\n') if l and not l.startswith('#')]
    keys.sort(key=lambda k:(order.index(k[0]) if k[0] in order else 99))
    print('### '+title+'\n')
    cur=None
    for k in keys:
        if k[0]!=cur:
            if cur: print('```\n')
            cur=k[0]; print('`%s`\n\n```diff'%cur)
        for f,v in a.get(k,[]):
            for l in v.split('\n'): print('- '+l)
        for f,v in b.get(k,[]):
            for l in v.split('\n'): print('+ '+l)
        if k not in b: print('# gone: '+k[1])
        print()
    if cur: print('```\n')
    return len(keys)
PROG=('cards','card_rows','tile_rows','replay_headers','replay_tiles','test_output')
n1=emit('Public functions and types of `src/`',*table(lambda f:f.endswith('.rt') and '/src/' in f,rt_items),progs=PROG)
n2=emit('Definitions of `specs/`',*table(lambda f:f.endswith('.antt') and '/specs/' in f and '/declared/' not in f,antt_items))

def sigs(s):
    out={}
    lines=s.split('\n'); i=0
    while i<len(lines):
        m=re.match(r"(\s*)pub ([^\s:({]+) : (.*)",lines[i])
        if m:
            ind=len(m.group(1)); t=[lines[i].strip()]; j=i+1
            while j<len(lines) and len(lines[j])-len(lines[j].lstrip())>ind and lines[j].strip(): t.append(lines[j].strip()); j+=1
            out[m.group(2)]=' '.join(t); i=j; continue
        i+=1
    return out
named=set()
for f in list((root/'docs').glob('*.md'))+[root/'README.md']:
    if f.name in('PORT.md','DESIGN-PASS.md'): continue
    for x in re.findall(r"`([^`\s]+)`",f.read_text()): named.add(x.split('.')[-1])
spec=set()
a,b=table(lambda f:f.endswith('.antt') and '/proofs/' in f,sigs)
same=ch=gone=0; rows=[]
for k in a:
    if k[1] not in named: continue
    va=[v for f,v in a[k]]; vb=[v for f,v in b.get(k,[])]
    if sorted(va)==sorted(vb): same+=1
    elif not vb: gone+=1; rows.append((k,va,vb))
    else: ch+=1; rows.append((k,va,vb))
print('### Theorems of `proofs/` that README.md or docs/ name\n\n%d have the same statement, %d are stated over other types, %d are gone.\n\n```diff'%(same,ch,gone))
for k,va,vb in rows:
    print('# '+k[0])
    for v in va: print('- '+v)
    for v in vb: print('+ '+v)
print('```')
print(n1,n2,same,ch,gone,file=sys.stderr)
