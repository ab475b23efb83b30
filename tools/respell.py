#!/usr/bin/env python3
"""Respells the repository's own definitions and lemmas as today's Rattle does: words in snake case, facts in camel case.

    tools/respell.py        from the top of the repository, once, after the kit's port.py

It turns each name of NAMES in the .rt and .antt files of crates/, outside comments and texts, and nothing else. Functions,
types and fields of src/, texts, inputs and outputs keep their names: the names here stand in clauses, specs/ and proofs/.
"""
import glob
import re

# a lemma of this name is the library's elsewhere, so it turns in its own file alone
ONE_FILE = {'crates/price_rows/proofs/Rising.antt': ['all-has']}

NAMES = """
All-good All-open Best-price Caps-as-lesser Explains-price Is-first Legal-close Legal-kind More-demand More-supply
None-counts Reads-back Rows-answered Rows-entered Served-first Touches-only-named True-of above-all above-cut
above-each above-first above-last above-left all-with and-true answer-best answer-is any-row as-close as-much
as-price as-shares asked-back at-end at-line at-ties at-ties-tied auction-price bad-line-text band-below band-down
band-holding band-up banded-down-at banded-down-none banded-holds banded-lawful banded-prices banded-sound
banded-up-at banded-up-none best-from best-limit best-price best-to best-with better-from better-limit better-of
better-to better-trades beyond-push blanks-text buy-at buys-stay by-case by-closing-price call-in call-list
call-named call-names call-others call-refusal candidate-from candidate-of candidate-to capped-kept capped-places
capped-rule chosen-some close-10000 close-back close-few close-line close-text close-words closed-up column-text
cond-or-else count-cons cut-checks cut-located cut-others cut-refusal cut-shares decision-answer decision-none
decision-some demand-from demand-stays demand-to digit-no digit-yes dropped-at end-text entry-rows even-down-at
even-down-none even-lawful even-prices even-sound even-table even-up-at even-up-none every-all every-at every-left
explains-price fault-text few-at few-cut few-is few-map few-moved few-orders fewer-dropped final-x first-band
first-leads first-left first-left-has first-left-none first-left-some first-low first-ranked flat-kept flat-resting
flat-rule for-few free-append free-decimal free-rows free-text free-three from-rows front-free front-take h-behind
h-final h-ties has-cons has-map has-none has-rising has-unbeaten has-with header-text held-within higher-bands
highest-append highest-at-or-below highest-buy holding-left holding-on holding-past holding-taken in-class
in-entry-order in-line in-range in-text in-word is-high is-low is-struck judged-so keeps-as kept-has kind-back
kind-in kind-key kind-line kind-named kind-word last-decides last-of-rising last-price later-place leads-behind
leads-more leads-on leads-tops leaves-less left-by-two left-of left-ties left-tops left-x legal-all
legal-by-rounding legal-cases legal-first legal-rest legal-stays level-book lex-level lex-one-way line-back line-bad
line-few line-good line-says line-shorter lines-few lower-more lowest-append lowest-at-or-above lowest-sell map-has
matched-in matched-rises matches-more more-demand more-supply most-has moved-located moved-to-end named-first
named-in-range named-kind named-names named-only named-prices named-push nearest-above nearest-below nearest-lower
nearest-upper never-empty no-close no-orders no-remainder none-at-or-above none-at-or-below none-missing
none-reaches not-cut not-dropped not-ok nothing-after nothing-asked nth-at nth-none number-decimal numeral-in
one-closer one-struck opening-price or-else-absent or-else-assoc or-fault order-ahead order-back order-key
order-line order-of order-words ordered-cut ordered-moved ordered-put orders-back out-of-reach past-blank past-drop
past-le piece-more pieces-all pieces-front pieces-one plain-close plain-decimal plain-kind plain-side plain-text
prefers-chains prefers-level prefers-one-way price-answer price-back price-in price-lawful price-limit priced-by
priced-decision prices-from prices-of put-broker put-checks put-kind put-line put-list put-others put-refusal
put-shares put-side r-is range-spans reached-by reached-from reached-to read-decimal read-on read-push read-text
reads-back reads-digit refusal-number refused-if remainder-first remainder-on replace-checks replace-line
replace-list replace-number replace-others replace-price replace-refusal replace-shares report-of request-text
rest-sound rests-cons rests-here rests-named rests-or-not rests-there rises-all rises-with rising-append rising-cut
rising-has rising-kept rising-push rounded-down rounded-up row-ahead row-key row-places row-places-bounded row-price
row-text rows-push rows-rule run-above run-below run-first run-rising run-starts said-so same-at-max same-at-min
same-matched same-past-top same-price same-side same-side-self same-side-true same-surplus saying-few sells-stay
served-before shares-decimal shares-in side-in side-of side-word some-not-none spans-range start-below start-low
step-low step-positive strikes-at struck-best struck-row struck-text sum-rises supply-from supply-rises supply-to
surplus-in table-above table-down table-down-at table-down-none table-holds table-lawful table-rising table-some
table-starts table-text table-up-at table-up-none takes-over third-at-ties third-rule third-text three-words
tied-left ties-left to-rows told-explains told-has tops-best trade-few trade-line truth-of two-words unbeaten-has
unbeaten-x unless-same up-at-start up-in-first upper-more verdict-of verdict-text whole-steps wins-third with-close
with-found with-has with-line with-lines with-new with-price with-saying within-limit without-empty words-after
worked-books x-final x-is x-left y-most
""".split()


def spelled(name):
    if name[0].isupper():
        return ''.join(word[0].upper() + word[1:] for word in name.split('-'))
    return name.replace('-', '_')


def turned(text, names, comment):
    edge = r"[\w'-]"
    name = '|'.join(sorted(map(re.escape, names), key=len, reverse=True))
    # a comment or a text is passed over whole
    pattern = re.compile(rf'{comment}[^\n]*|b?"(?:[^"\\]|\\.)*"|(?<!{edge})({name})(?!{edge})')
    return pattern.sub(lambda m: spelled(m.group(1)) if m.group(1) else m.group(0), text)


def main():
    changed = 0
    for path in sorted(glob.glob('crates/*/**/*', recursive=True)):
        if '/out/' in path or not path.endswith(('.rt', '.antt')):
            continue
        with open(path, encoding='utf-8') as f:
            text = f.read()
        names = NAMES + ONE_FILE.get(path, [])
        new = turned(text, names, '//' if path.endswith('.rt') else '--')
        if new != text:
            with open(path, 'w', encoding='utf-8') as f:
                f.write(new)
            changed += 1
    print(f'respell: {changed} files changed')


if __name__ == '__main__':
    main()
