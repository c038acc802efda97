#!/usr/bin/env python3
"""Counts the places of the eight points of docs/DESIGN-PASS.md in crates/*/src/*.rt, and the answers and lemmas of proofs/.

design-count.py FOLDER [--list]

It goes by text: docs/DESIGN-PASS.md says what a reader found beside it. With --list it names each place."""
import re,sys,glob,collections,os
root=sys.argv[1]
listed='--list' in sys.argv[2:]
P={
 '1a result structs/enums of Option or Result shape (answer field, Got/Bad, Take/Rest)': r'^\s*pub answer: u8|^pub enum (Read|Turn)\b',
 '1b refusal as a number: a literal, or a test against 0': r'return [1-9][0-9]*;|\.with\([0-9]+\)|refused\([0-9]+\)|answer: [0-9]+\b|^\s*(1[0-9]|20)$|(answer|no) (!=|==) 0',
 '1c fns that answer a number for a refusal': r'fn .*-> (u8|Answered|Tried|Drained|Walked|Ran|Written|Checked|Received)\b',
 '1d flag with a value beside it (struct field)': r'^\s*pub(\(crate\))? (flying|held|fine): bool',
 '1e number for a kind (field or parameter what/role/phase/whose/rule/kind: u..)': r'\b(what|phase|whose|rule|kind): u(8|32)\b',
 '1f Status as a number (status_number)': r'status_number\(',
 '2 functions whose name and body stand in more than one place': None,
 '3 index loops (while)': r'^\s*while ',
 '3b if c { return false/true } chains': r'^\s*return (true|false);',
 '4 equality, printing, conversion by hand': r'fn (same|same_links|blank_links|unset|packed|flag|status_number|number|large|small|digit|medium|wide|first|field|ack|told|is_drained|key_of|number_before|acks)\(',
 '5 array taken out of a machine (let x = m.x;)': r'^\s*let \w+ = \w+\.(views|queues|shelves|repairs|entries|contents|links|messages|acks|uacks|records|updates|homes|lists|state|machine|slots|keys|bytes|view|queue|message|repair|entry|facing|other|shelf|status)(\[[^]]*\])?;',
 '5b clauses that ask for an unbroken or bounded machine': r'(brokenOf|broken_of) .* ≡ false|Bounds m',
 '5c functions of six parameters or more': None,
 '6 buffer with a length beside (n/count/len/used/at with an array)': r'pub (len|count|used): |\(.*(bytes|keys|met|answers|steps|standing): (&?\[\w+; ?\d+\]|&mut \[u8\]|&\[u8\]).*(n|count|steps|len|from|at): (usize|u8|u16)',
 '7 switch on kinds (match on Step, byte letters, kind numbers)': r'^\s*match (s|step|said|byte|letter|kind|a|what)\b',
 '8a proofs walked by hand (Proof.antt)': r'^',
 '8b answers (a goal closed by hand, in Answers.antt)': r'^',
 '8c loops with an invariant in a file (Invariants.antt)': r'^',
 '8d lemmas that nothing cites': None,
}
files=sorted(glob.glob(root+'/crates/*/src/**/*.rt',recursive=True))
tot=collections.OrderedDict(); per={}
for name,pat in P.items():
    c=collections.Counter()
    if name.startswith('5c'):
        for f in files:
            for m in re.finditer(r'\bfn (\w+)[^(\n]*\(((?:[^()]|\([^()]*\))*)\)',open(f).read()):
                if len(re.findall(r'\w+\s*:\s*[^:]',re.sub(r'::','',m.group(2))))+('self' in m.group(2))>=6:
                    c[f.split('/crates/')[1].split('/')[0]]+=1
                    if listed: print(f'5c {f[len(root):].lstrip("/")}: {m.group(1)}')
    elif name.startswith('8a'):
        for f in glob.glob(root+'/crates/*/proofs/**/Proof.antt',recursive=True): c[f.split('/crates/')[1].split('/')[0]]+=1
    elif name.startswith('8b'):
        for f in glob.glob(root+'/crates/*/proofs/**/Answers.antt',recursive=True): c[f.split('/crates/')[1].split('/')[0]]+=len(re.findall(r'^pub .*: goal\.',open(f).read(),re.M))
    elif name.startswith('8c'):
        for f in glob.glob(root+'/crates/*/proofs/**/Invariants.antt',recursive=True): c[f.split('/crates/')[1].split('/')[0]]+=1
    elif name.startswith('8d'):
        text={f:open(f).read() for p in ('proofs/**/*.antt','specs/**/*.antt','src/**/*.rt') for f in glob.glob(root+'/crates/*/'+p,recursive=True)}
        words=collections.Counter(w for t in text.values() for w in re.findall(r"[a-z][\w'-]*",t))
        own=collections.defaultdict(list)
        for f,t in text.items():
            if '/proofs/' in f and not f.endswith(('Answers.antt','Invariants.antt')):
                for m in re.finditer(r"^ *(?:pub )?([a-z][\w'-]*) :(?!:)",t,re.M): own[m.group(1)].append(f)
        for n,v in own.items():
            if words[n]<=2*len(v):
                for f in v:
                    c[f.split('/crates/')[1].split('/')[0]]+=1
                    if listed: print(f'8d {f[len(root):].lstrip("/")}: {n}')
    elif pat:
        for f in files:
            cr=f.split('/crates/')[1].split('/')[0]
            for i,l in enumerate(open(f),1):
                if not l.strip().startswith('//') and re.search(pat,l):
                    c[cr]+=1
                    if listed: print(f'{name[:3].strip()} {f[len(root):].lstrip("/")}:{i}: {l.strip()[:110]}')
    else:
        bodies=collections.defaultdict(list)
        for f in files:
            cr=f.split('/crates/')[1].split('/')[0]; t=open(f).read()
            for m in re.finditer(r'^( *)(?:pub(?:\(crate\))? )?fn (\w+)\b(?:.|\n)*?^\1\}',t,re.M):
                body=re.sub(r'(requires|ensures)( \w+)? \{.*\}','',m.group(0)); body=body[body.find('{'):]
                norm=re.sub(r'\b\d+\b','N',re.sub(r'\bu(8|16|32|64|size)\b','U',re.sub(r'\s+',' ',body)))
                norm=re.sub(r'\b(made|actors|stores|key|views|queues|homes|lists|repairs|entries|records|acks|updates|uacks|rooms|sets|set|kept|contents|links|[a-z])\b','V',norm)
                if len(norm)>8: bodies[norm].append(cr)
        for k,v in bodies.items():
            if len(v)>1:
                for cr in v: c[cr]+=1
    tot[name]=sum(c.values()); per[name]=c
print(f'{len(files)} files, {sum(len(open(f).readlines()) for f in files)} lines')
for n in P: print(f'{tot[n]:5d}  {n}\n         '+' '.join(f'{k} {v}' for k,v in sorted(per[n].items(),key=lambda x:-x[1])))
