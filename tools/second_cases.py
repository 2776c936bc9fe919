#!/usr/bin/env python3
"""Works out the tables of crates/number_cases by Python's own fractions, and writes them.

    python3 tools/second_cases.py && (cd crates/number_cases && rt fmt)
"""
from fractions import Fraction as F
from pathlib import Path

SRC = Path(__file__).resolve().parent.parent / 'crates/number_cases/src'
M=2147483647
IMIN=-(2**63); IMAX=2**63-1
class Fr:
    name='Fractions'
    def means(a,b):
        if 1<=b<=M and abs(a)<=M:
            q=F(a,b)
            if (q.numerator,q.denominator)==(a,b): return q
        return None
    def code(q):
        return (q.numerator,q.denominator) if abs(q.numerator)<=M and q.denominator<=M else None
class Th:
    name='Thousandths'
    def means(a,b):
        return F(a,1000) if b==1 and abs(a)<=M else None
    def code(q):
        c=q*1000
        return (c.numerator,1) if c.denominator==1 and abs(c.numerator)<=M else None
class Sm:
    name='SmallWholes'
    def means(a,b):
        return F(3-b) if a==7 and abs(3-b)<=1000 else None
    def code(q):
        return (7,3-q.numerator) if q.denominator==1 and abs(q.numerator)<=1000 else None
def lit(n):
    return 'i64::MIN' if n==IMIN else 'i64::MAX' if n==IMAX else str(n)
def P(p): return f'({lit(p[0])}, {lit(p[1])})'
def ok(x): return f'Ok({x})'
NH='NOT_HELD'; ZD='ZERO_DIVISOR'; NB='NO_TRUTH'
def res(c): return NH if c is None else ok(P(c))
def two(K,p,q):
    x,y=K.means(*p),K.means(*q)
    if x is None or y is None: return [NH]*4+[NB]*2
    b=lambda t: ok('true' if t else 'false')
    return [res(K.code(x+y)),res(K.code(x-y)),res(K.code(x*y)),ZD if y==0 else res(K.code(x/y)),b(x<y),b(x<=y)]
pairs={
Fr:[((M,1),(1,1)),((-M,1),(1,1)),((M-1,1),(1,1)),((46340,1),(46341,1)),((46341,1),(46341,1)),((M,1),(1,M)),((1,M),(1,M)),((1,M),(1,M-1)),((-1,M),(M,1)),((1,2),(-1,3)),((M,2),(-M,1)),((0,1),(-5,7)),((-5,7),(0,1)),((0,1),(0,1)),((2,4),(1,1)),((1,1),(3,-2)),((1,0),(0,1)),((0,2),(1,1)),((M+1,1),(1,1)),((1,1),(1,M+1)),((IMIN,1),(1,1)),((1,1),(1,IMIN))],
Th:[((M,1),(0,1)),((M,1),(1,1)),((-M,1),(1,1)),((1000,1),(1000,1)),((M,1),(1000,1)),((M,1),(1001,1)),((46341000,1),(46341,1)),((1,1),(500,1)),((2000,1),(500,1)),((1,1),(-1000,1)),((-3000,1),(-8000,1)),((1000,1),(3000,1)),((-7,1),(0,1)),((0,1),(0,1)),((M,1),(1,1)),((1000,1),(1000,2)),((M+1,1),(1,1)),((1,1),(-M-1,1)),((1,0),(1,1)),((1,1),(IMIN,1)),((1,IMAX),(1,1))],
Sm:[((7,-997),(7,2)),((7,1003),(7,2)),((7,1003),(7,4)),((7,-22),(7,-37)),((7,28),(7,-37)),((7,-29),(7,-29)),((7,-3),(7,6)),((7,-4),(7,1)),((7,3),(7,1003)),((7,-2),(7,3)),((7,3),(7,3)),((7,-998),(7,3)),((7,3),(7,1004)),((1,1),(7,3)),((7,3),(8,3)),((-7,3),(7,3)),((7,IMIN),(7,3)),((7,3),(IMAX,3))],
}
takes={
Fr:[(M,1),(-M,1),(M+1,1),(-M-1,1),(1,M),(1,M+1),(4294967294,2),(2*M,M),(M*M,M),(M*M,M*(M-1)),(6,4),(-6,4),(0,IMAX),(0,1),(IMIN,1),(IMIN,IMAX),(IMAX,IMAX),(IMIN,2**62),(1,0),(1,-1),(1,IMIN)],
Th:[(1,2),(1,3),(M,1000),(-M,1000),(M+1,1000),(2147483,1),(2147484,1),(-2147483,1),(6,8),(1,1000),(1,1001),(1,2000),(2,2000),(0,7),(IMIN,IMAX),(IMAX,IMAX),(1,0),(1,-1000)],
Sm:[(1000,1),(-1000,1),(1001,1),(-1001,1),(2000,2),(2002,2),(6,4),(0,9),(1,1),(IMAX,IMAX),(IMIN,2**62),(1,0),(-1,-1)],
}
terms={
Fr:[(M,1),(-M,M-1),(1,M),(0,1),(0,2),(2,4),(M+1,1),(1,M+1),(1,0),(1,-1),(IMIN,IMAX)],
Th:[(M,1),(-M,1),(500,1),(-1250,1),(0,1),(M+1,1),(-M-1,1),(500,2),(500,0),(IMIN,1)],
Sm:[(7,3),(7,2),(7,-997),(7,1003),(7,-998),(7,1004),(6,3),(3,7),(7,IMAX)],
}
scales={
Fr:[((1,1),M,1),((1,1),M+1,1),((1,1),0,4),((2,3),9,4),((2,3),9,0),((2,3),9,5),((1,M),1,1),((1,M),1,2),((1,M),4,4),((M,1),4,4),((M,1),2,1),((-M,1),1,3),((1,2),4294967295,4294967295),((2,4),1,1),((1,0),5,0)],
Th:[((1000,1),3,4),((1,1),1,2),((1,1),2,4),((1,1),M,1),((1,1),M+1,1),((2,1),M,2),((2,1),M,1),((-1000,1),0,3),((1000,1),1,3),((1000,1),1,0),((1000,1),1,5),((1000,2),1,1)],
Sm:[((7,2),1000,1),((7,2),1001,1),((7,-3),1,2),((7,-3),1,4),((7,1003),M,4),((7,3),M,4),((7,3),M+1,4),((7,2),1,0),((7,2),5,5),((6,3),0,1)],
}
def scale(K,p,n,k):
    x=K.means(*p)
    if n>M or not 1<=k<=4 or x is None: return NH
    return res(K.code(x*n/k))
for K,mod in ((Fr,'fractions'),(Th,'thousandths'),(Sm,'small')):
    L=[]
    L.append(f'// The answers of {K.name} at the edges of what it holds.')
    L.append('use super::*;\n')
    L.append(f'pub const CASES: [Case; {len(pairs[K])}] = [')
    for p,q in pairs[K]:
        a,s,m,d,l,e=two(K,p,q)
        L.append(f'    Case {{ p: {P(p)}, q: {P(q)}, add: {a}, sub: {s}, mul: {m}, div: {d}, lt: {l}, le: {e} }},')
    L.append('];\n')
    L.append(f'pub const TAKEN: [Taken; {len(takes[K])}] = [')
    for n,d in takes[K]:
        w=NH if d<1 else res(K.code(F(n,d)))
        L.append(f'    Taken {{ n: {lit(n)}, d: {lit(d)}, take: {w} }},')
    L.append('];\n')
    L.append(f'pub const TOLD: [Told; {len(terms[K])}] = [')
    for p in terms[K]:
        x=K.means(*p)
        w=NH if x is None else ok(f'({x.numerator}, {x.denominator})')
        L.append(f'    Told {{ p: {P(p)}, terms: {w} }},')
    L.append('];\n')
    L.append(f'pub const SCALED: [Scaled; {len(scales[K])}] = [')
    for p,n,k in scales[K]:
        L.append(f'    Scaled {{ p: {P(p)}, n: {n}, k: {k}, scale: {scale(K,p,n,k)} }},')
    L.append('];')
    (SRC / f'{mod}_table.rt').write_text('\n'.join(L) + '\n')
