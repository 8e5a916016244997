"""That the stored runs pin the order of the checks of each call.

A call that fails two checks answers with the errno of the first. So its answer tells their order, if nothing before them fails, and between them no
third with the first one's errno. Every two neighbours need such a call among the stored ones. Two checks are neighbours if their errnos differ, an
answer can tell their order, and no check between them holds them in order already: none that is pinned, itself or by way of others, behind the first
and before the second. Checks with nothing between them are the plain case. So exchanging two checks changes a stored line, or no answer at all.

The lists of checks are the model's, in document 01's order.
"""
import sys
from collections import Counter, namedtuple
from itertools import combinations, product, takewhile

import model
from model import faults, model_attach, model_copy, model_destroy, model_map, model_ranges, model_reach, model_unmap
from runs import called

Check = namedtuple('Check', 'name errno')
BAD_TABLE = Check('bad table', 117)

# Pairs whose order no answer can tell, and why: each of the first checks with each of the others. No call fails both, but for COPY's source space.
OF_A_SPACE = ('address off the alignment', 'end off the alignment', 'touches reserved', 'touches a mapping', 'length off the alignment', 'no candidate')
EXEMPT = {
    model_map: [
        (['length 0'], ['memory past the top', 'address past the top'], 'length 0 takes no sum past the top'),
        (['length 0'], ['touches a mapping', 'no candidate'], 'length 0 has no address that could touch something or want a place'),
        (['no space'], OF_A_SPACE, 'what is no space has no device, no mapping and no allow list'),
    ],
    model_copy: [
        (['length 0'], ['source past the top', 'target past the top'], 'length 0 takes no sum past the top'),
        (['no target space'], OF_A_SPACE, 'what is no space has no device, no mapping and no allow list'),
        (['no source'], ['founder not writeable'], 'without a source there is no founder'),
        (['no source space'], ['founder not writeable', *OF_A_SPACE, 'no record'], 'without a source space there is no source either, which answers the same'),
    ],
    model_unmap: [
        (['length 0'], ['past the top'], 'length 0 takes no sum past the top'),
        (['length 0'], ['cuts a mapping'], 'length 0 has no address that a mapping could share'),
    ],
    model_destroy: [
        (['no object'], ['attached device', 'space with a device'], 'what is no object is neither'),
    ],
    model_attach: [
        (['no device'], ['already attached', 'reserved range touched', 'mapping misfits'], 'what is no device has no space, no range and no page size'),
        (['no space'], ['reserved range touched', 'mapping misfits'], 'what is no space has no mapping and no allow list'),
    ],
    model_reach: [
        (['length 0'], ['past the top'], 'length 0 takes no sum past the top'),
        (['no device', 'not attached', 'length 0', 'past the top', 'not inside one mapping'], ['right missing'],
         'the right is that of the mapping around the whole range, and there is none'),
    ],
}


def exempt(call):
    return {pair for firsts, others, _ in EXEMPT.get(call, ()) for pair in product(firsts, others)}


def checks_of(call, t, given):
    """The checks of a call, in order, and those that fail. None ends the call here: it goes on as far as there is something to compute."""
    asked, failed = [], []

    def note(holds, errno, name):
        asked.append(Check(name, errno))
        if not holds:
            failed.append(asked[-1])

    kept, model.need = model.need, note
    try:
        note(not faults(t), BAD_TABLE.errno, BAD_TABLE.name)
        answer = call(t, *given)
        if call == model_ranges:
            note(answer[0] == 0, 90, 'count too small')                # the errno that comes with an answer
    except Exception:
        if not failed:
            raise
    finally:
        model.need = kept
    return tuple(asked), failed


def told(failed):
    """The pairs whose order the answer tells, of the checks that a call fails."""
    return [(failed[0], b) for b in takewhile(lambda b: b.errno != failed[0].errno, failed[1:])]


def neighbours(checks, never):
    apart = {(a, b) for a, b in combinations(checks, 2) if a.errno != b.errno and (a.name, b.name) not in never}
    behind = set(apart)
    for c in checks:                                                   # by way of c
        behind |= set(product([a for a, x in behind if x == c], [b for x, b in behind if x == c]))
    return {(a, b) for a, b in apart if not any((a, c) in behind and (c, b) in behind for c in checks)}


def seen(call):
    """Of the stored calls: the lists of checks, the pairs that answers tell, and those that they would tell if what fails before were mended."""
    lists, pairs, mended = set(), Counter(), set()
    for _, t, given in (c for c in called if c[0] == call):
        asked, failed = checks_of(call, t, given)
        lists.add(asked)
        pairs.update(told(failed))
        if BAD_TABLE not in failed:                                    # what the checks of a call say of a bad table is nothing to go by
            mended.update((a.name, b.name) for k in range(len(failed)) for a, b in told(failed[k:]))
    return lists, pairs, mended


def in_words(pair):
    return '%s %d before %s %d' % (*pair[0], *pair[1])


def pinned(script, calls):
    """Ends the script where two neighbours are not pinned or an exemption is wrong. Gives a line for each call: its neighbours, and how many calls
    pin them."""
    wrong, lines, all_pairs, all_exempt = [], [], 0, 0
    for name, call in calls.items():
        lists, pairs, mended = seen(call)
        never, known = exempt(call), {(a.name, b.name) for checks in lists for a, b in combinations(checks, 2)}
        place = {check: k for checks in lists for k, check in enumerate(checks)}
        wanted = sorted(set().union(*(neighbours(checks, never) for checks in lists)), key=lambda pair: [place[c] for c in pair])
        wrong += ['%s: no stored call pins %s' % (name, in_words(pair)) for pair in wanted if not pairs[pair]]
        wrong += ['%s: exempt, and yet a call can tell: %s, %s' % (name, *pair) for pair in sorted(never & mended)]
        wrong += ['%s: exempt, and no such pair: %s, %s' % (name, *pair) for pair in sorted(never - known)]
        lines.append('order of %s: %s' % (name, '; '.join('%s x%d' % (in_words(pair), pairs[pair]) for pair in wanted)))
        all_pairs, all_exempt = all_pairs + len(wanted), all_exempt + len(never)
    if wrong:
        sys.exit('\n'.join('%s: %s' % (script, line) for line in wrong))
    print('%s: the order of %d pairs of checks is pinned; of %d no answer can tell it' % (script, all_pairs, all_exempt))
    return lines
