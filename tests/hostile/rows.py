"""Small inputs of each command that reach most of what it does."""

MERGE = "cluster 3 8;check 0;deliver 0;deliver 1;deliver 2;deliver 3;merge 0"
JOIN = MERGE + ";deliver 4;deliver 6;accept 0;deliver 7;deliver 8"
LATE = JOIN + ";deliver 5;deliver 9;coord 2;deliver 10;deliver 11"
REPEATED = LATE + ";deliver 7"
WORK = JOIN + ";submit 1 0 00;submit 0 1 6869;deliver 9;finish 1 0 0;deliver 10"
FULL = "cluster 1 4;submit 0 0 61;submit 0 0 62;submit 0 0 63;finish 0 0 0;submit 0 0 64;finish 0 0 1"
CUT = "cluster 2 4;check 0;cut 1 0;deliver 0;mend 0 1;deliver 0;lose 0;deliver 0;deliver 9"
TORN = "cluster 1 4;arm 0 3;recover 0;crash 0 " + "ff" * 512 + ";arm 0 8;recover 0;crash 0 a5;recover 0;compact 0"
SCHEDULES = {"merge": MERGE, "join": JOIN, "late": LATE, "repeated": REPEATED, "work": WORK, "full": FULL, "cut": CUT, "torn": TORN}

RUN = ('{"nodes":2,"histories":[[{"do":"check","sent":["010100010000"]},{"do":"deliver","msg":"01020100000101","sent":[]}],'
       '[{"do":"deliver","msg":"010100010000","sent":["01020100000101"]}]]}')
NO_RUN = '{"nodes":2,"histories":[[],[{"do":"deliver","msg":"010100010000","sent":["01020100000101"]}]]}'
CIRCLE = ('{"nodes":2,"histories":[[{"do":"deliver","msg":"010101000000","sent":["01020001000101"]}],'
          '[{"do":"deliver","msg":"01020001000101","sent":[]},{"do":"check","sent":["010101000000"]}]]}')
ALL_KINDS = ('{"nodes":1,"histories":[[{"do":"none","sent":[]},{"do":"check","sent":[]},{"do":"submit","queue":3,"payload":"6869","sent":[]},'
             '{"do":"dispatch","sent":[]},{"do":"finish","origin":0,"id":0,"sent":[]},{"do":"submit","queue":0,"payload":"","fault":"device","sent":[]},'
             '{"do":"recover","kept":true,"sent":[]},{"do":"crash","sent":[]},{"do":"recover","kept":false,"fault":"mount","sent":[]},'
             '{"do":"recover","kept":false,"fault":"raise","sent":[]},{"do":"recover","kept":true,"sent":[]}]]}')
TRACES = {"run": RUN, "no run": NO_RUN, "circle": CIRCLE, "all kinds": ALL_KINDS}


def lines(text):
    return "".join(line + "\n" for line in text.split(";")).encode()
