"""Spells this repository's own definitions and lemmas as today's Rattle does: words in snake case, types in camel case.

Run it once at the top of the repository, after the porting script of the toolchain and before any edit by hand.
It knows each name that it respells. Names of functions in src/, strings, inputs and outputs stay as they are.
"""
import glob
import re

NAMES = """
A-label A-line A-number A-slot After-kind After-nodes All-through All-written Back-breaks Breadth-first-laws
Count-laws Count-out Cover-laws Cubic-laws Distance-breaks Distance-laws Distance-told Drawn-laws Drawn-line Drawn-on
Findings-hold Finite-laws Form-laws Grow-breaks Half-way-laws Halves-ahead Has-it Heading-at Identity-loop
Involution-loop Label-at Label-refused Line-at Line-breaks Lines-left Mesh-cover-laws Mesh-map No-draw No-heading
No-label No-line No-slot-number Nodes-out None-of Number-at Numbers-at Off-nodes One-answer One-end One-net
Open-breaks Owned-draft Owned-survey Port-taken Ports-breaks Ports-full Ran-out Read-again Read-as Reference-laws
Ring-count-laws Ring-cover-laws Room-told Same-ring-laws Seal-breaks Settled-back Shell-breaks Shell-laws Shell-part
Shell-told Slot-number-at Slot-outside Small-labels Small-laws Some-end Spelled-out Square-laws Step-laws Taken-back
Turn-laws Up-to Walk-laws Was-read Was-refused Whole-laws With-head With-heading With-label With-tail Write-breaks
Written-again a-heading a-is a-label a-line add-coord add-neg after-back after-byte after-grow after-head after-reopen
after-seal again-said ahead-far ahead-mod alike-linked all-neighbours all-next allowed-from along-drift and-cross
and-regroup angle-lifts apart-ge apart-gl apart-le as-stored asked-linked asked-same asked-tagged asked-there at-below
at-distance at-parent at-q at-r b-is back-and-there back-elsewhere back-owned back-rules back-turn back-turns
ball-count ball-list ball-sum balls-found balls-one before-asked before-by-count before-one between-front between-only
bits-add bits-quarters blank-net blank-record both-on both-round both-written braced-back breadth-first-laws bytes-are
bytes-between bytes-number bytes-three bytes-two carried-back carry-along carry-count carry-distance carry-link
carry-walk chain-walk chosen-else chosen-packed close-back close-join close-none close-same close-step closed-back
closed-beyond closed-counted closed-distinct closed-far closed-shells cmp-below cmp-chain cmp-equal cmp-greater
cmp-itself cmp-less cmp-number cmp-ranked cmp-same cmp-turned cmpZ cmpZ-chain cmpZ-itself cmpZ-ranked cmpZ-same
cmpZ-turned code-small coded-one codes-are codes-length codes-none codes-past-numbers codes-past-slots codes-push
comes-inside comes-kept comes-up coord-back coord-fits coord-is coord-order coord-same coord-slot count-few count-in
count-is count-laws count-more count-out counted-elsewhere cover-laws cubic-laws cubic-small cut-malformed dec-breaks
dec-crowded dec-distance dec-in dec-junction dec-label dec-or dec-port dec-within diamond-shells diamond-shells-other
dist-as distance-from-home distance-home distance-laws distance-rules distance-told distances-back distances-kept
distances-lift distinct-back distinct-by-places distinct-counting distinct-join distinct-junctions distinct-many
distinct-map distinct-on distinct-places distinct-ports distinct-right draft-idle draft-is draft-turn drawn-and-back
drawn-laws drawn-more drift-back drift-join drift-none each-once each-point each-rank either-fault empty-on
empty-order endless-third ends-nodes entries-kept entries-parent entry-there eqb-iff equal-there exactly-kept
exactly-lifts facts-followed facts-of facts-undone facts-unmoved far-kept fault-layer fault-line fault-number
fault-place few-members few-numbers few-tail few-together findings-hold finite-laws first-left first-number
first-right fit-not fit-points fit-push fits-small followed-assoc followed-is followed-left followed-right
followed-undone form-at form-exists form-laws form-same form-through forms-distinct forms-length found-count
fourfold-screw from-asked from-forms from-home from-joined from-left from-map from-targets from-third front-malformed
front-parent front-stored front-unreadable frontier-ascend frontier-inside gap-next given-distinct given-in goes-once
groups-more groups-one grow-done grow-early grow-elsewhere grow-owned grow-rules grow-settled grow-short grow-turn
grow-turns growing-asked growing-before growing-distinct growing-entries growing-first growing-inside growing-more
growing-new growing-none growing-tagged growing-whole grown-elsewhere grows-freely growth-told half-way-laws
halves-ahead has-back headed-in headed-one headed-out heading-one held-balls held-drawn held-findings held-reopened
held-sealed hex-at-blank hex-at-end hex-at-odd hex-at-two hex-blank hex-nothing hex-odd hex-two high-groups home-entry
homes-searchable homes-surveyed i-in if-above if-below if-distinct if-in image-below image-place image-slot
image-slots images-apart images-text in-96 in-E in-at in-ball in-counting in-drop in-given in-if in-joined in-next
in-none in-nth in-push in-range in-range-counts in-room in-shell in-targets inside-least inside-most inside-small
inside-stored inv-inv inv-one involution-number involution-refused is-equal is-node itself-same j-in joined-append
joined-reading junction-in junction-of junction-order kept-itself kept-join kept-room label-codes label-made
label-number label-one label-refused last-second last-third leZ-le leads-beside least-bytes least-stored led-append
led-if led-line led-more led-split length-by-sevens lent-known lift-list lift-members line-below line-drawn
line-elsewhere line-joined line-length line-number-at line-numbers line-one line-owned line-port line-ports line-rule
line-rules line-said line-short line-stands line-taken-back line-turn line-turns lined-elsewhere lines-count
lines-joined lines-one lines-push lines-read lines-said lines-short lines-within link-back link-drift link-of
link-port linked-found linked-kept linked-searchable lone-node long-zero long-zero-number long-zero-only loop-rules
low-group lower-many made-always many-lines map-twice mark-here mark-there marks-is matched-numbers measured-elsewhere
member-found member-rules member-there member-told membered-elsewhere members-ascend members-at members-carried
members-distinct members-long members-told mesh-cover-laws mesh-covers mesh-junction mirror-back-keeps mirror-keeps
missed-new more-first more-second most-stored most-within moved-count moved-ring moved-uses neg-add neg-splits
net-held net-number net-of net-said net-with new-port next-asked next-found next-gap next-images next-in next-is
next-line next-new next-none next-permutes next-point next-shell next-told next-within nexted-elsewhere no-count
no-form no-head no-heading no-nodes no-ranks no-rings no-self-link no-stay no-still-port no-tail node-here node-small
node-there nodes-at nodes-few nodes-in nodes-out nodes-ports nodes-said none-join none-listed none-lower none-many
none-shorter none-some none-stored none-there not-above not-once not-strange not-told not-x noted-join noted-kept
noted-longer noted-new noted-none noted-same noted-there now-there nth-counting nth-lines nth-map nth-set-other
nth-set-same nth-some nth-take nth-there nth-within number-one number-order numbers-append numbers-before
numbers-length numbers-none numbers-one numbers-so-far numbers-triple occ-cons occ-map of-near off-left ok-err
on-corner on-nodes once-at once-below once-from one-ahead one-count one-distance one-if one-many one-net one-round
one-step one-target one-turn only-fault only-inv open-broken open-rules opened-owned order-by other-diagonal
other-kind outside-at overfull-here overfull-left overfull-right overfull-total own-list own-pool p-is pair-able
pair-again pair-back pair-chain pair-cmp pair-count pair-few pair-form pair-group pair-in-range pair-means pair-order
pair-slots pair-stored pair-tells pair-text part-from part-joined part-kept part-marks part-short parts-apart
past-kind past-nodes past-numbers past-range past-range-number past-slots perm-form perm-group perm-if perm-if-is
perm-if-no perm-if-yes perm-of perm-of-no perm-of-yes perm-order perm-packed perm-read perm-read-no perm-read-yes
perm-told perms-apart permutation-text permutes-chosen permutes-digits permutes-followed permutes-from permutes-of
permutes-undone permutes-unmoved place-below place-between place-image place-only place-rules place-test placed-err
placed-ok play-more play-none plays-more point-of points-digits points-from points-map port-back port-kept port-line
port-link port-linked port-nodes port-number port-numbers port-rules port-target port-targets ports-append
ports-count-push ports-kept ports-more ports-of ports-push ports-rules ports-said ports-told put-more q-is radius-is
reach-found reach-missing reach-told read-err read-reads reads-one reference-laws refusal-line refusal-reads
refused-line refused-reads reopen-elsewhere reopen-owned reopen-rules reopen-turn reopen-turns reopened-elsewhere
rest-none rest-one rest-three rest-two rest-within right-begun right-counts right-step ring-back ring-by-halves
ring-count-laws ring-cover-laws ring-far ring-from ring-halves ring-kept ring-lifts ring-numbers ring-through
rings-down rings-up room-is room-told roomy-is rotated-back-keeps rotated-back-read rotated-form rotated-keeps
rotated-read rotated-size round-closed round-halves round-linked round-min round-one row-order ruled-one run-owned
same-again same-as same-below same-down same-draft same-entry same-is same-junction same-many same-net same-ring
same-ring-laws same-room same-sight same-survey same-sym same-trans screw-made screw-order screw-shells screw-text
seal-done seal-elsewhere seal-owned seal-rules seal-turn seal-turns sealed-elsewhere seals-freely searchable-kept
set-one set-three set-two settled-right sheet-numbers sheet-of sheet-reads sheet-said shell-allowed shell-apart
shell-count shell-counts shell-exact shell-laws shell-list shell-numbers shell-rules shell-told shells-lift side-back
side-of sight-before sight-of sight-order sights-append slot-first slot-fits slot-second slots-one slots-within
small-h small-laws small-t so-far-push some-apart span-count span-size spelled-all spelled-fault spelled-more
square-at square-closed square-form square-forms square-halves square-laws square-ring square-shells stand-beside
standard-kept standard-lifts stays-one step-laws stepped-join stepped-none stepped-short stopped-there storable-append
storable-at storable-rest stored-three stored-two survey-idle survey-number survey-turn surveyed-beyond surveyed-count
surveyed-found surveyed-held surveyed-next surveyed-tagged surveyed-total swap-images swap-inverse swap-loop
swap-moves swap-permutes tagged-all tagged-first tagged-one tail-small take-between targets-append targets-kept
targets-one text-append text-front text-length-more text-more text-push text-whole then-bytes then-reversed then-step
there-ends there-or-left three-bytes through-kept through-lifts to-forms told-apart told-by told-length told-read
told-roomy took-back took-back-elsewhere translation-order translation-text triple-again triple-back triple-form
triple-made triple-numbers triple-read triple-slots triple-told turn-distance turn-laws turned-back-read turned-bits
turned-form turned-read turned-size turned-twice turns-add turns-fixed turns-four turns-fours turns-mod turns-rounds
turns-splits turns-wrapped two-kept uncarry-count uncarry-distance uncarry-link uncarry-walk underway-done
underway-left underway-more underway-none underway-refused undone-at undone-followed undone-is undone-test
undrawn-from unfold-more unfold-short unfold-start unless-one unmoved-at unmoved-one unpack-pack unread-line
unreadable-one unseen-is untaken-more unwritten-number use-all used-is uses-kept uses-next w-is walk-as walk-drift
walk-laws walk-right walks-lift was-allowed whole-laws whole-line whole-net whole-reads whole-to-16 with-both
with-both-is with-both-made with-digits with-line with-link within-zero without-last wrap-apart wrap-back wrap-inv
wrap-junction wrap-map wrap-mul wrap-port wrapped-twice write-number write-rules written-again written-each
written-even written-first written-line written-push written-second x-is zero-second zero-third
""".split()

# names that the rule would make the same as another's, or that say more spelled out
OTHERS = {
    "few-together": "few_enough",
    "cmpZ": "cmp_int",
    "cmpZ-itself": "cmp_int_itself",
    "cmpZ-same": "cmp_int_same",
    "cmpZ-turned": "cmp_int_turned",
    "cmpZ-chain": "cmp_int_chain",
    "cmpZ-ranked": "cmp_int_ranked",
}

TOKEN = re.compile(r"[A-Za-z_][A-Za-z0-9_'·]*(?:-[A-Za-z0-9_'·]+)*")
QUOTED = re.compile(r"`[^`]*`")
STRING = re.compile(r'"(?:[^"\\]|\\.)*"')


def respelled(name):
    if name in OTHERS:
        return OTHERS[name]
    if name[0].isupper():
        return "".join(part[0].upper() + part[1:] for part in name.split("-"))
    return name.replace("-", "_")


SPELLING = {name: respelled(name) for name in NAMES}


def words(text):
    return TOKEN.sub(lambda found: SPELLING.get(found.group(0), found.group(0)), text)


def in_quotes(text):
    return QUOTED.sub(lambda found: words(found.group(0)), text)


def without_strings(text):
    parts, last = [], 0
    for found in STRING.finditer(text):
        parts += [words(text[last:found.start()]), found.group(0)]
        last = found.end()
    return "".join(parts + [words(text[last:])])


def line_of(line, mark, code):
    found = re.search(r"(^|\s)" + mark + r"(\s|$)", line)
    if not found:
        return code(line)
    return code(line[: found.start()]) + in_quotes(line[found.start() :])


def every_line(text, mark, code):
    return "\n".join(line_of(line, mark, code) for line in text.split("\n"))


def edit(text):
    return "\n".join(words(line) if re.match(r"(old|new): ", line) else line for line in text.split("\n"))


def turn(pattern, how):
    for path in sorted(glob.glob(pattern, recursive=True)):
        with open(path, encoding="utf-8") as file:
            old = file.read()
        new = how(old)
        if new != old:
            with open(path, "w", encoding="utf-8") as file:
                file.write(new)


def main():
    for place in ("specs", "proofs"):
        turn(f"crates/*/{place}/**/*.antt", lambda text: every_line(text, "--", words))
    turn("crates/*/src/**/*.rt", lambda text: every_line(text, "//", without_strings))
    turn("crates/*/must-fail/*.edit", edit)
    turn("drafts/*-edits.txt", edit)
    turn("docs/*.md", in_quotes)
    turn("README.md", in_quotes)


if __name__ == "__main__":
    assert len(set(SPELLING.values())) == len(SPELLING), "two names fall together"
    main()
