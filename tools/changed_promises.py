#!/usr/bin/env python3
"""changed_promises.py OLD NEW, folders, from the top of a checkout: what changed, old above new, as docs/DESIGN-PASS.md
ends with it; there theorems whose names documents have for another thing are left out by hand, and what the others rest
on in proofs/ is added. What is gone is told on standard error."""
import json,re,subprocess,sys,textwrap
old,new=sys.argv[1:3]
r=json.loads(subprocess.run(["python3","/opt/rattle/port/contracts.py",old,new,"--json"],capture_output=True,text=True).stdout)
sys.argv=["x",old,new]
src=open("tools/changed_theorems.py").read().split("print(\"gone\"")[0]
exec(src)
W=116
def wrap(mark,text):
    text=re.sub(r"\s+"," ",text).strip()
    lines=textwrap.wrap(text,W-2,break_long_words=True,break_on_hyphens=False) or [""]
    return "\n".join((mark if i==0 else " ")+" "+l for i,l in enumerate(lines))
out=[]
def sect(title): out.append("\n### "+title+"\n")
def pair(title,a,b):
    out.append(title); 
    for x in a: out.append(wrap("-",x))
    for x in b: out.append(wrap("+",x))
sect("Signatures")
out.append("```diff")
for n,a,b in r["signatures changed"]:
    pair(n.replace(" src/lib.rt","").replace("src/",""),[a],[b])
out.append("```")
sect("Clauses")
out.append("```diff")
for n,ra,ea,rb,eb in r["contracts changed"]:
    f=lambda k,cs:[f"{k} {c[0]+' ' if c[0] else ''}{{ {c[1]} }}" for c in cs]
    A=f("requires",ra)+f("ensures",ea); B=f("requires",rb)+f("ensures",eb)
    pair(n.replace(" src/lib.rt","").replace("src/",""),[x for x in A if x not in B],[x for x in B if x not in A])
out.append("```")
sect("Definitions")
out.append("```diff")
for *k,a,b in r["definitions"]["changed"]:
    pair(" ".join(k),a,b)
out.append("```")
sect("Constants and ghost items")
out.append("```diff")
for *k,a,b in r["ghost items and constants"]["changed"]:
    pair(" ".join(k),[str(x) for x in a] if isinstance(a,list) else [str(a)],[str(x) for x in b] if isinstance(b,list) else [str(b)])
out.append("```")
sect("Theorems that README or docs name")
out.append("```diff")
for k,v,n in changed:
    pair(" ".join(k),v,n)
out.append("```")
print("\n".join(out))
g={"functions":r["functions not found again"],"definitions":r["definitions"]["gone"],"constants":r["ghost items and constants"]["gone"],"theorems":[k for k,_,_ in gone],
 "fewer ensures":r["fewer ensures"],"more requires":r["more requires"],"no longer pub":r["no longer pub"],"ensures gone":r["ensures all gone"],"edits gone":r["edits and outputs"]["gone"]}
print(json.dumps(g,indent=0,ensure_ascii=False),file=sys.stderr)
