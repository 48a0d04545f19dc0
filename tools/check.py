#!/usr/bin/env python3
"""tools/check.py < DOCUMENT: checks a closed day by docs/FORMATS.md alone, without adx. Of a record with its certificate it
writes the line of `adx check` and ends with the same status, 0 or 8; other bytes end it with status 3."""
import json, re, sys
WHOLE, NUMBER, OFFERS = 10**9, '(0|[1-9][0-9]{0,38})', '((?: (?:0|[1-9][0-9]{0,3}):[1-9][0-9]{0,12})*)'
TEXT = r'("(?:[^\0-\x1f"\\]|\\["\\bfnrt]|\\u00(?:0[0-7bef]|1[0-9a-f])){1,128}")'  # each part of it means one byte
data, at = sys.stdin.buffer.read(2**31 + 1), 0
def end(status, **line):
    print(json.dumps(line, separators=(',', ':')))
    sys.exit(status)
def need(holds):
    if not holds: end(3, answer='document')
def lines(words, most=2**31):
    """The parts of the lines of this form that come next, N being a number and T a text."""
    global at
    form, found = re.compile((words + '\n').replace('N', NUMBER).replace('T', TEXT).encode()), []
    while len(found) < most and (line := form.match(data, at)):
        found.append([int(part) if part and part.isdigit() else part for part in line.groups()])
        at = line.end()
    return found
head, day = lines('adx-record ([12])', 1), lines('day [0-9]{4}-[0-9]{2}-[0-9]{2}', 1)
changes, names = (' N', ' T T') if head == [[2]] else ('()', '()()')
campaigns, imps = lines(f'campaign N N{changes} T T'), lines(f'imp N{names}(?: - -| N (?:live|billed|lost|expired)){OFFERS}')
last, cert, alphas, betas, bound = lines('end N', 1), lines('adx-cert 1', 1), lines('alpha N N'), lines('beta N N'), lines('bound N', 1)
offers = [[tuple(map(int, offer.split(b':'))) for offer in row[4].split()] for row in imps]
need(head and day and last == [[len(imps)]] and cert and bound and at == len(data) <= 2**31 and data.decode(errors='ignore').encode() == data)
need(all(row[0] == place for rows in (campaigns, imps, alphas, betas) for place, row in enumerate(rows)))
need(1 <= len(campaigns) == len({(seat, cid) for *_, seat, cid in campaigns}) <= 1024)
need(all(1 <= budget <= 10**15 and (count or 0) < 2**32 for _, budget, count, *_ in campaigns))
need(all(campaign < len(campaigns) and charge <= 10**12 for row in offers for campaign, charge in row))
need(all(row[3] is None or row[3] < len(placed) for row, placed in zip(imps, offers)))
need(all(n < 2**64 for _, n in alphas + betas) and bound[0][0] < 2**128)
if (len(alphas), len(betas)) != (len(campaigns), len(imps)): end(8, answer='check', why='shape')
for i, alpha in alphas:
    if alpha > WHOLE: end(8, answer='check', why='alpha', campaign=i)
broken = ((j, k) for (j, beta), row in zip(betas, offers) for k, (i, charge) in enumerate(row) if charge * (WHOLE - alphas[i][1]) > beta * WHOLE)
for j, k in broken: end(8, answer='check', why='broken', impression=j, offer=k)
computed = sum(alpha * row[1] for (_, alpha), row in zip(alphas, campaigns)) // WHOLE + sum(beta for _, beta in betas)
if computed != bound[0][0]: end(8, answer='check', why='bound', stated=bound[0][0], computed=computed)
end(0, answer='check', bound=computed)
