"""The proof that a match over a table's index meets its contract: an answer for each arm, the last arm being every index that is left. Shared by the scripts of this folder."""


def answers(index, count, words, more=''):
    """The answers, each with an empty line before it, for count arms over the argument `index`; words are unfolded, more stands behind each rewriting."""
    out = []
    for k in range(count):
        arm = 'in-%d' % k if k < count - 1 else 'in_default'
        fact = 'c.%s.is' % arm if k < count - 1 else '(last %d c.args.%s c.requires c.in_default.in_default-own.rest)' % (count - 1, index)
        unfolded = words(k) if callable(words) else words
        out += ['', 'pub returns-%s : goal.returns-%s' % (arm, arm), 'unfolding ' + unfolded, 'returns-%s c = rw %s%s' % (arm, fact, more)]
    return out
