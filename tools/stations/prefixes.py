#!/usr/bin/env python3
"""Prints the first fault of each proper prefix of a station file, as crates/rows_stations/src/stations.rt lists them.

They are found by Python's own reader of TOML and the checks of docs/FORMATS.md in their order, and share nothing with the
program. Run it as python3 tools/stations/prefixes.py
"""
import tomllib
from decimal import Decimal
POLE=b'version = 1\n[[station]]\nname = "Pole"\nlat = "90"\nlon = "0"\nheight = "0"\nmask = "0"\n'
def dec(s):
    try: return Decimal(s)
    except Exception: return None
def fault(b):
    try: t=b.decode()
    except UnicodeDecodeError: return 'NotUtf8'
    try: d=tomllib.loads(t)
    except tomllib.TOMLDecodeError: return 'NotToml'
    v=d.get('version')
    if type(v) is not int or v not in (1,2): return ('Shape',0,'Version')
    if set(d)-{'version','station'}-({'dut1_ms'} if v==2 else set()): return ('Shape',0,'Other')
    if v==2:
        o=d.get('dut1_ms')
        if type(o) is not int: return ('Shape',0,'Dut1')
        if not -900<=o<=900: return ('Range',0,'Dut1')
    if 'station' in d and type(d['station']) is not list: return ('Shape',0,'Station')
    st=d.get('station',[])
    if not st: return 'Empty'
    for i,s in enumerate(st,1):
        if type(s) is not dict: return ('Shape',i,'Station')
        if set(s)-{'name','lat','lon','height','mask','borders','masks'}: return ('Shape',i,'Other')
        if type(s.get('name')) is not str: return ('Shape',i,'Name')
        if not 1<=len(s['name'].encode())<=64: return ('Range',i,'Name')
        for k,K,lo,hi in (('lat','Lat',-90,90),('lon','Lon',-180,360),('height','Height',-500,9000)):
            if type(s.get(k)) is not str or dec(s[k]) is None: return ('Shape',i,K)
            if not lo<=dec(s[k])<=hi: return ('Range',i,K)
        if 'mask' in s:
            if type(s['mask']) is not str or dec(s['mask']) is None: return ('Shape',i,'Mask')
            if not -90<=dec(s['mask'])<=90: return ('Range',i,'Mask')
        else: return ('Shape',i,'Borders')
    return None
rows=[]
for n in range(len(POLE)):
    f=fault(POLE[:n])
    if rows and rows[-1][1]==f: rows[-1]=(n,f,rows[-1][2])
    else: rows.append((n,f,n))
for last, f, first in rows:
    print(first, last, f, repr(POLE[:last].decode()[-12:]))
