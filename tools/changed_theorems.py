#!/usr/bin/env python3
"""changed_theorems.py OLD NEW: the statements that documents name, where they changed, old and new.

A statement counts at the top of a file and in its modules, whose parameters are told where they changed; what stands
under a proof's `where` doesn't. A name in a document may mean another thing: read each pair that is printed."""
import glob,os,re,sys
def flat(lines): return re.sub(r"\s+"," "," ".join(re.sub(r"^ *--.*","",l) for l in lines)).strip()
def indent(l): return len(l)-len(l.lstrip())
def decls(top):
    """By crate and name: the file, the parameters of the modules around it, and the statement."""
    out={}
    for p in sorted(glob.glob(top+"/crates/*/proofs/*.antt")+glob.glob(top+"/crates/*/specs/*.antt")):
        crate=p.split("/crates/")[1].split("/")[0]
        lines=open(p).read().split("\n")
        modules=[]; i=0
        while i<len(lines):
            l=lines[i]; i+=1
            if not l.strip() or l.lstrip().startswith("--"): continue
            at=indent(l)
            modules=[m for m in modules if m[2]<=at]
            # the lines that go on with this one: those that lie deeper
            more=lambda: next((k for k in range(i,len(lines)) if not lines[k].strip() or indent(lines[k])<=at),len(lines))
            if re.match(r" *module _",l):
                end=i
                while not re.search(r"\bwhere$",lines[end-1]): end+=1
                inside=next(indent(x) for x in lines[end:] if x.strip())
                modules.append((at,flat([l,*lines[i:end]])[len("module _"):-len("where")].strip(),inside)); i=end; continue
            if at!=(modules[-1][2] if modules else 0): continue
            m=re.match(r" *(?:abbrev |unfoldable )?(pub )?(?:(record|data) (\S+)|(\S+) :(?=\s|$))",l)
            if not m: continue
            end=more()
            if m.group(2):
                while end<len(lines) and not lines[end].strip() and end+1<len(lines) and indent(lines[end+1])>at:
                    end=next((k for k in range(end+1,len(lines)) if not lines[k].strip() or indent(lines[k])<=at),len(lines))
                name,ty=m.group(3),flat([l,*lines[i:end]])
            else: name,ty=m.group(4),flat([l[m.end():],*lines[i:end]])
            i=end
            out.setdefault((crate,name),[]).append((os.path.relpath(p,top)," ".join(m[1] for m in modules),ty))
    return out
old,new=decls(sys.argv[1]),decls(sys.argv[2])
docs=""
for p in glob.glob(sys.argv[1]+"/docs/*.md")+glob.glob(sys.argv[1]+"/docs/landings/*.md")+[sys.argv[1]+"/README.md"]:
    if not p.endswith("PORT.md"): docs+=open(p).read()
named=set(re.findall(r"[\w'◌-]+"," ".join(re.findall(r"`([^`]*)`",docs))))
gone=[];changed=[]
for k,v in sorted(old.items()):
    if k[1] not in named: continue
    if not any("/proofs/" in f for f,_,_ in v) : continue
    n=new.get(k)
    if n is None:
        other=[kk for kk in new if kk[1]==k[1]]
        gone.append((k,v,other))
        continue
    # of several statements of that name only those that changed
    a=[x for x in v if x[1:] not in [y[1:] for y in n]]; b=[x for x in n if x[1:] not in [y[1:] for y in v]]
    if a or b:
        same={t for _,t,_ in a}=={t for _,t,_ in b}
        said=lambda xs: ["" if xs is None else (ty if same or not params else f"module {params}: {ty}") for _,params,ty in xs]
        changed.append((k,said(a),said(b)))
print("gone",len(gone))
for k,v,o in gone: print(" -",k,v[0][0],"::",v[0][2][:150],"other:",o[:2])
print("changed",len(changed))
for k,v,n in changed:
    print(" *",k)
    for t in v: print("    -",t)
    for t in n: print("    +",t)
